/* Cases as ginghamowl_save and ginghamowl_rolling_value take them: within the limits, and with a fault. */
#ifndef CASES_H
#define CASES_H

#include "guard.h"

enum { MOST_RATES = 257 * DAY, MOST_FLOWS = 257 }; /* 257, cut to a byte, is 1 */

/* What ginghamowl_save takes, but for the buffer. */
typedef struct {
    ginghamowl_case_fields fields;
    int32_t rates[MOST_RATES];
    size_t rates_length;
    uint64_t pension[MOST_FLOWS];
    size_t pension_length;
    uint64_t bonds[MOST_FLOWS];
    size_t bonds_length;
} held_case;

/* How many units of a rate are a step of 0.00001. */
int32_t units(uint64_t rate_bytes);

/* The case of file C1. */
void c1_case(held_case *c);

/* The case of the longest file of two-byte days. No two amounts, shocks, people's numbers or flows of a list are alike. */
void largest_case(held_case *c);

/* A case of two-byte days with the same days in four bytes, or as it is. */
void in_form(held_case *c, uint64_t rate_bytes);

/* Other last decimals: rates of four bytes that are no whole steps, each within half a step of what it was. */
void refine(held_case *c);

/* This many days, each with `first` at term 1 and `others` at all later terms. */
void flat_days(held_case *c, size_t days, int32_t first, int32_t others);

/* The rate in the lowest bytes of a number. */
int32_t fitting_rate(uint64_t number, uint64_t rate_bytes);

/* ---------------------------------------------------------------- the file of a case */

/* Writes the lowest `length` bytes of a number, the highest first. Returns where they end. */
uint8_t *put(uint8_t *at, uint64_t number, int length);

enum { MOST_BYTES = 2 + 2 + 1 + 4 * MOST_RATES + 2 * (1 + 4 * MOST_FLOWS) + 64 + 24 + 8 + 2 };

/* The shortest file of a case, with no look at the limits. Returns its length. */
size_t shortest(const held_case *c, uint8_t file[MOST_BYTES]);

/* ---------------------------------------------------------------- faults */

/* One fault of each kind. */
typedef enum { NO_FORM, UFR, DAYS, RATE, PENSIONS, PENSION, BONDS, BOND, AMOUNT, SHOCK, HEADS, EQUITY, GROWTH } fault;

enum { FAULTS = 13 };

/* The faults in the order of the checks. */
const fault *in_order(uint64_t rate_bytes);

/* The refusal that a fault is given. */
uint8_t refusal_of(fault which);

/* `unit` is that of the rates before any of them is spoiled. */
void spoil(held_case *c, fault which, int32_t unit);

/* A case within the limits, with two of these faults. */
void two_faults(held_case *c, uint64_t rate_bytes, fault first, fault second);

/* Numbers of bytes that no rate has; a cut to fewer bytes would let some pass. */
enum { NO_RATE_BYTES_COUNT = 13 };
extern const uint64_t NO_RATE_BYTES[NO_RATE_BYTES_COUNT];

#endif
