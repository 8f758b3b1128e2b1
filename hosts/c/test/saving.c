#include "saving.h"

void saves_into(const held_case *c, size_t room, uint8_t refusal, const uint8_t *bytes, size_t length)
{
    size_t rates_size = c->rates_length * sizeof *c->rates, pension_size = c->pension_length * sizeof *c->pension;
    size_t bonds_size = c->bonds_length * sizeof *c->bonds, all = room + 2 * GUARDS, i;
    int32_t *rates = exactly(c->rates, rates_size);
    uint64_t *pension = exactly(c->pension, pension_size), *bonds = exactly(c->bonds, bonds_size);
    uint8_t *out = malloc(all);
    ginghamowl_saved saved;

    if (out == NULL)
        abort();
    for (i = 0; i < all; i++)
        out[i] = pattern(i);
    saved = ginghamowl_save(c->fields, rates, c->rates_length, pension, c->pension_length, bonds, c->bonds_length,
                            room == 0 ? NULL : out + GUARDS, room);
    CHECK(saved.refusal == refusal && saved.written == length);
    CHECK(unchanged(out + GUARDS, bytes, length));
    for (i = 0; i < all; i++)
        if ((i < GUARDS || i >= GUARDS + length) && out[i] != pattern(i))
            break;
    CHECK(i == all);
    CHECK(unchanged(rates, c->rates, rates_size) && unchanged(pension, c->pension, pension_size)
          && unchanged(bonds, c->bonds, bonds_size));
    free(rates);
    free(pension);
    free(bonds);
    free(out);
}

void saves(const held_case *c)
{
    static uint8_t file[MOST_BYTES];
    size_t length = shortest(c, file);

    CHECK(ginghamowl_refusal(file, length) == GINGHAMOWL_ACCEPTED);
    saves_into(c, length, GINGHAMOWL_ACCEPTED, file, length);
    saves_into(c, length + 1, GINGHAMOWL_ACCEPTED, file, length);
    saves_into(c, GINGHAMOWL_FILE_BYTES, GINGHAMOWL_ACCEPTED, file, length);
    saves_into(c, length - 1, GINGHAMOWL_REFUSED_SAVED_BUFFER, NULL, 0);
    saves_into(c, 0, GINGHAMOWL_REFUSED_SAVED_BUFFER, NULL, 0);
}

void saves_not(const held_case *c, uint8_t refusal)
{
    saves_into(c, GINGHAMOWL_FILE_BYTES, refusal, NULL, 0);
    saves_into(c, 1, refusal, NULL, 0);
    saves_into(c, 0, refusal, NULL, 0);
}
