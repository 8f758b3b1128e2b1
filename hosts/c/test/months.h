/* Histories of months, and one call with a history: its UFR, or the file valued with it. */
#ifndef MONTHS_H
#define MONTHS_H

#include "cases.h"

enum { MOST_HISTORY = 2 * GINGHAMOWL_HISTORY_BYTES };

/* What ginghamowl_ufr_of takes. Of the bytes, the first `length` are lent. */
typedef struct {
    uint8_t bytes[MOST_HISTORY];
    size_t length;
    uint64_t start;
} held_history;

/* A history with this sum: the months at its first places are one step higher than the others. */
held_history with_sum(int sum);

held_history flat_months(int month);

/* Months none of which is like its neighbours, with a UFR within its limits. */
held_history uneven_months(void);

/* The UFR of a sum of months, with no look at the limits: halves of 100 steps go upward. */
int rounded(int sum);

/* The UFR of the history, likewise. */
int rounded_mean(const held_history *h);

/* What the history is refused with; GINGHAMOWL_ACCEPTED where it is not. */
uint8_t history_refusal(const held_history *h);

/* ---------------------------------------------------------------- one call */

/* The history gives this refusal and this UFR. */
void gives(const held_history *h, uint8_t refusal, uint64_t ufr);

/* The file with bit 0 of its map set and the UFR in its field: in place of its own UFR, or inserted. Returns its length. */
size_t with_ufr_field(const uint8_t *file, size_t length, uint64_t ufr, uint8_t named[MOST_BYTES]);

/* One call with buffers of these lengths: it gives this refusal, and changes nothing lent; or it is valued as the named file is. */
void months_into(const uint8_t *bytes, size_t length, const held_history *h, uint8_t refusal, size_t factors_length,
                 size_t rates_length);

/* The file is refused with this number with this history; where a buffer is too short, with 13. */
void months_not(const uint8_t *file, size_t length, const held_history *h, uint8_t refusal);

/* The history gives this refusal, alone and with a file that is accepted. */
void refuses(const held_history *h, uint8_t refusal);

#endif
