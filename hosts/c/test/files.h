/* File C1 in either form, what a refusal needs of it, and what a valuation of it says. */
#ifndef FILES_H
#define FILES_H

#include "guard.h"

/* ---------------------------------------------------------------- file C1 */

enum { C1_BYTES = 224, C1_CASH = 2 + 121 + 5 + 48, C1_FOUR_BYTES = C1_BYTES + 120, C1_FOUR_DAYS = 2 + 101 };

/* File C1 (METHOD, Twelve hand-worked cases). */
void c1(uint8_t file[C1_BYTES]);

/* C1 with its days in four bytes: bit 7 in place of bit 1, and the days after the people. It is worth the same. */
void c1_four(uint8_t file[C1_FOUR_BYTES]);

/* ---------------------------------------------------------------- C1 in either form, and its changes */

/* What C1 is refused with where one byte is another. */
typedef struct {
    size_t at;
    uint8_t byte, refusal;
} refused_change;

/* C1 in two bytes, then in four, each with its changes. */
typedef struct {
    void (*make)(uint8_t *file);
    size_t length;
    const refused_change *changes;
    size_t count;
} c1_form;
extern const c1_form C1_FORMS[2];

/* C1 in this form with one byte changed. */
void changed_c1(size_t form, refused_change change, uint8_t file[C1_FOUR_BYTES]);

/* ---------------------------------------------------------------- what a valuation says */

int same_bracket(ginghamowl_bracket b, uint64_t lower, uint64_t upper);

int is_c1(ginghamowl_valuation v);

int is_refused(ginghamowl_valuation v, uint8_t refusal);

/* C1's curve: 1 and 0 up to term 20, and then downwards; factor 21 is 250,000/250,903 exactly. */
int is_c1_curve(const uint64_t *factors, const int64_t *rates);

/* The answer and both buffers are what ginghamowl_value gives of this file, which is accepted. */
void valued_as_the_file(const uint8_t *file, size_t length, ginghamowl_valuation v, guarded factors, guarded rates);

#endif
