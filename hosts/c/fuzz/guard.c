#define _GNU_SOURCE
#include "guard.h"

#include <stdio.h>
#include <stdlib.h>
#include <string.h>
#include <sys/mman.h>
#include <unistd.h>

void require(const char *file, int line, int holds, const char *what)
{
    if (!holds) {
        fprintf(stderr, "%s:%d: failed: %s\n", file, line, what);
        abort();
    }
}

static size_t pages_for(size_t bytes)
{
    size_t page = (size_t)sysconf(_SC_PAGESIZE);

    return (bytes + page - 1) / page * page;
}

void *lend(size_t bytes)
{
    size_t room = pages_for(bytes), page = (size_t)sysconf(_SC_PAGESIZE);
    uint8_t *start = mmap(NULL, room + page, PROT_READ | PROT_WRITE, MAP_PRIVATE | MAP_ANONYMOUS, -1, 0);

    REQUIRE(start != MAP_FAILED);
    REQUIRE(mprotect(start + room, page, PROT_NONE) == 0);
    return start + room - bytes;
}

void take_back(void *lent, size_t bytes)
{
    size_t room = pages_for(bytes), page = (size_t)sysconf(_SC_PAGESIZE);

    REQUIRE(munmap((uint8_t *)lent + bytes - room, room + page) == 0);
}

void *lend_copy(const void *list, size_t bytes)
{
    void *copy = lend(bytes);

    if (bytes != 0)
        memcpy(copy, list, bytes);
    return copy;
}

int held_from(size_t first, const uint64_t *entries, size_t length)
{
    for (size_t i = first; i < length; i++)
        if (entries[i] != HELD(i))
            return 0;
    return 1;
}

void hold(uint64_t *entries, size_t length)
{
    for (size_t i = 0; i < length; i++)
        entries[i] = HELD(i);
}

uint64_t hash_of(const uint8_t *bytes, size_t size)
{
    uint64_t hash = 14695981039346656037u; /* FNV-1a */

    for (size_t i = 0; i < size; i++)
        hash = (hash ^ bytes[i]) * 1099511628211u;
    return hash;
}
