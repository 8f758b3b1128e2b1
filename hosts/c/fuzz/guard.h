/* What every topic needs: the input, what must hold, and memory that ends at a guard page. */
#ifndef GUARD_H
#define GUARD_H

#include <stddef.h>
#include <stdint.h>

#include "../common.h"
#include "ginghamowl.h"

/* The bytes of an input, and what the engine says of them. */
typedef struct {
    const uint8_t *file;
    size_t size;
    size_t form;  /* 0: days in two bytes; 1: in four, by bit 7 of the map */
    int accepted; /* by ginghamowl_refusal */
} fuzz_input;

enum { FORMS = 2 };

/* A topic's function that topics.h does not name has no prototype, and is not compiled. */
#define TOPIC(name) void fuzz_##name(fuzz_input in);
#include "topics.h"
#undef TOPIC

/* A topic's counters of what it was answered, `answers`. libFuzzer takes the bytes of this section for counters of coverage. Nothing
 * here reads them, hence volatile. */
#define ANSWERS(count) __attribute__((section("__libfuzzer_extra_counters"))) static volatile uint8_t answers[count]

/* Ends the run where this does not hold. */
void require(const char *file, int line, int holds, const char *what);
#define REQUIRE(what) require(__FILE__, __LINE__, (what), #what)

/* ---------------------------------------------------------------- memory that ends at a guard page */

/* `bytes` bytes, the last of which is the last before the guard page. */
void *lend(size_t bytes);

/* Gives back what was lent with this many bytes. */
void take_back(void *lent, size_t bytes);

/* The same with these bytes in it. */
void *lend_copy(const void *list, size_t bytes);

/* ---------------------------------------------------------------- entries as they are lent */

/* Whether the entries from `first` on hold what they held. */
int held_from(size_t first, const uint64_t *entries, size_t length);

/* Entry i of the list is HELD(i). */
void hold(uint64_t *entries, size_t length);

/* ---------------------------------------------------------------- choices */

/* A number that differs from input to input. */
uint64_t hash_of(const uint8_t *bytes, size_t size);

#endif
