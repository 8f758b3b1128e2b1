#include "guard.h"

static unsigned long checks, failures;

void check_at(const char *file, int line, int holds, const char *what)
{
    checks++;
    if (!holds) {
        failures++;
        printf("%s:%d: failed: %s\n", file, line, what);
    }
}

int told(void)
{
    printf("c: %lu checks, %lu failed\n", checks, failures);
    return failures == 0;
}

void *exactly(const void *bytes, size_t length)
{
    void *copy = length == 0 ? NULL : malloc(length);

    if (length != 0) {
        if (copy == NULL)
            abort();
        memcpy(copy, bytes, length);
    }
    return copy;
}

int unchanged(const void *list, const void *before, size_t length)
{
    return length == 0 || memcmp(list, before, length) == 0;
}

static const uint64_t GUARD = 0xdeadbeefcafef00du;

guarded lent(size_t length)
{
    guarded g;
    size_t i;

    g.length = length;
    g.all = malloc((length + 2 * GUARDS) * sizeof *g.all);
    if (g.all == NULL)
        abort();
    for (i = 0; i < length + 2 * GUARDS; i++)
        g.all[i] = GUARD;
    for (i = 0; i < length; i++)
        g.all[GUARDS + i] = HELD(i);
    return g;
}

uint64_t *entries(guarded g)
{
    return g.all + GUARDS;
}

int guards_stand(guarded g)
{
    size_t i;

    for (i = 0; i < GUARDS; i++)
        if (g.all[i] != GUARD || g.all[GUARDS + g.length + i] != GUARD)
            return 0;
    return 1;
}

int held_from(guarded g, size_t from)
{
    size_t i;

    for (i = from; i < g.length; i++)
        if (entries(g)[i] != HELD(i))
            return 0;
    return 1;
}

uint8_t pattern(size_t at)
{
    return (uint8_t)(37 * at + 11);
}

read_only lent_bytes(const uint8_t *bytes, size_t length, size_t after)
{
    read_only r = {malloc(GUARDS + length + after), length, after};
    size_t i;

    if (r.all == NULL)
        abort();
    for (i = 0; i < GUARDS + length + after; i++)
        r.all[i] = pattern(i);
    if (length != 0)
        memcpy(r.all + GUARDS, bytes, length);
    return r;
}

const uint8_t *bytes_of(read_only r)
{
    return r.length + r.after == 0 ? NULL : r.all + GUARDS;
}

int as_lent(read_only r, const uint8_t *bytes)
{
    size_t i;

    for (i = 0; i < GUARDS + r.length + r.after; i++)
        if ((i < GUARDS || i >= GUARDS + r.length) && r.all[i] != pattern(i))
            return 0;
    return unchanged(r.all + GUARDS, bytes, r.length);
}
