/* What every topic needs: checks that are counted, memory between guards, and memory of exactly a list's length. */
#ifndef GUARD_H
#define GUARD_H

#include <stdint.h>
#include <stdio.h>
#include <stdlib.h>
#include <string.h>

#include "../common.h"
#include "ginghamowl.h"

/* A topic's function that topics.h does not name has no prototype, and is not compiled. */
#define TOPIC(name) void test_##name(void);
#include "topics.h"
#undef TOPIC

/* ---------------------------------------------------------------- checks */

/* Counts a check, and says where it was and what did not hold. */
void check_at(const char *file, int line, int holds, const char *what);
#define CHECK(what) check_at(__FILE__, __LINE__, (what), #what)

/* Prints how many checks there were and how many failed. Whether none did. */
int told(void);

/* ---------------------------------------------------------------- lists */

/* A copy in memory of exactly its length; NULL for no bytes. */
void *exactly(const void *bytes, size_t length);

/* The first `length` bytes of both are alike; with no bytes either may be NULL. */
int unchanged(const void *list, const void *before, size_t length);

/* ---------------------------------------------------------------- entries between guards */

enum { GUARDS = 32 };

/* `length` entries between two guards, in memory of exactly that size. */
typedef struct {
    uint64_t *all;
    size_t length;
} guarded;

/* Entry i is lent as HELD(i). */
guarded lent(size_t length);

uint64_t *entries(guarded g);

int guards_stand(guarded g);

/* The entries from `from` on are as they were lent. */
int held_from(guarded g, size_t from);

/* ---------------------------------------------------------------- bytes between guards */

/* What a buffer of bytes and its guards hold when they are lent. */
uint8_t pattern(size_t at);

/* Bytes that are only read, with guards in front and `after` guards after them: with none, valgrind sees a byte read too many. */
typedef struct {
    uint8_t *all;
    size_t length, after;
} read_only;

read_only lent_bytes(const uint8_t *bytes, size_t length, size_t after);

/* NULL where there are no bytes, and no guards after them. */
const uint8_t *bytes_of(read_only r);

/* The bytes are these, and the guards are as they were. */
int as_lent(read_only r, const uint8_t *bytes);

#endif
