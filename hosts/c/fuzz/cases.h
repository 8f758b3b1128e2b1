/* Cases as they are handed in: decoded of accepted files, with their days in either form, and saved. */
#ifndef CASES_H
#define CASES_H

#include "guard.h"

typedef struct {
    ginghamowl_case_fields fields;
    int32_t rates[70 * GINGHAMOWL_DAY_RATES];
    uint64_t pension[120], bonds[60];
    size_t rates_length, pension_length, bonds_length;
} held_case;

/* The number in the next bytes of a file. */
uint64_t taken(const uint8_t **at, int length);

/* The days of a file whose rates have this many bytes. */
void take_days(const uint8_t **at, uint64_t rate_bytes, held_case *c);

/* The case of an accepted file. */
held_case decoded(const uint8_t *file);

/* ginghamowl_save, with the lists in memory that ends at guard pages. */
ginghamowl_saved save(const held_case *c, uint8_t *out, size_t out_length);

/* A case within the limits, for inputs that are none. Its flow is past term 20, so that the UFR has a part in its worth. */
extern const held_case plain;

/* ---------------------------------------------------------------- days in two bytes, in four, in neither */

/* What a case is refused with whose numbers are within their limits but for the bytes of a rate and the rates. */
uint8_t refusal_of_days(const held_case *c);

/* The case with its days in two bytes: of rates of four bytes only whole steps are left. */
held_case in_two_bytes(held_case c);

/* A case with its days in two bytes, rewritten to four. */
held_case in_four_bytes(held_case c);

/* The case with its rates taken for rates of this many bytes. */
held_case with_rate_bytes(held_case c, uint64_t rate_bytes);

#endif
