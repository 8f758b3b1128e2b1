/* Ginghamowl: the valuation of one pension fund from one case file, every figure proved.
 *
 * This header is the engine's whole interface for C and C++. It says what each function takes and
 * answers, with units, limits and refusals. What the numbers mean is in docs/METHOD.md of the
 * repository, cited here as METHOD with the name of a section: a case file (METHOD, The case file), a
 * figure (METHOD, The exact working), a refusal (METHOD, Refusals), saving (METHOD, Saving a case), a
 * rolling window (METHOD, A rolling window of days), a history (METHOD, The UFR from a history of months)
 * and zero rates in four bytes (METHOD, Rates in four bytes). The functions below are those of the crate
 * `host` (crates/host/src/lib.rt), and their contracts there are proved.
 *
 * LENT MEMORY, the same for every function:
 *
 *   - A buffer is a pointer and a length. A length counts ENTRIES, not bytes: 240 factors are
 *     240 uint64_t. A file, a history or a listing has entries of one byte.
 *   - A pointer may be NULL only where its length is 0. Else it points to that many entries, each
 *     of which is initialised, aligned as its type asks.
 *   - Buffers that are written (factors and rates of a valuation, out) overlap no other buffer of
 *     the same call, and nobody else reads or writes them while the call runs. Buffers that are
 *     only read, which have a `const` here, may be shared between calls and threads.
 *   - No function reads or writes outside the entries lent, keeps a pointer after it returns, uses
 *     the heap, has a state of its own, or reads anything but its arguments. So calls from several
 *     threads at once need no lock. A call needs less than 64 KiB of stack.
 *   - Nothing is asked of the CONTENT of what is lent, or handed in by value: any bytes, numbers and
 *     lengths are answered.
 *
 * Link libginghamowl.a or libginghamowl.so with any C or C++ program for Linux on an x86-64 processor of
 * level v2 (an older one stops it with SIGILL); both need no library but the C library. `hosts/build`
 * makes them in hosts/target, and `hosts/install PREFIX` puts them, this header and ginghamowl.pc (for
 * pkg-config) below PREFIX. ginghamowl_words.h has the refusals and the verdicts in words.
 */
#ifndef GINGHAMOWL_H
#define GINGHAMOWL_H

#include <stddef.h>
#include <stdint.h>

#ifdef __cplusplus
extern "C" {
#endif

/* ---------------------------------------------------------------- version */

/* Of this header, and the kit that the engine of this version is proved with. Before 1.0 a new minor
 * version may change what stands here; the shared library's name has both numbers for that reason,
 * libginghamowl.so.MAJOR.MINOR. What is linked or loaded says by ginghamowl_version which it is. */
/* hosts/words writes: version */
#define GINGHAMOWL_VERSION "0.10.0"
#define GINGHAMOWL_VERSION_MAJOR 0
#define GINGHAMOWL_VERSION_MINOR 10
#define GINGHAMOWL_VERSION_PATCH 0
#define GINGHAMOWL_KIT "rattle-kit-13f"
/* hosts/words: end of version */

/* ---------------------------------------------------------------- sizes */

enum {
    GINGHAMOWL_TERMS = 120,          /* the terms of the curve: 1 to 120 years */
    GINGHAMOWL_DAY_RATES = 60,       /* the zero rates of a day: terms 1 to 60 */
    GINGHAMOWL_ENTRIES = 240,        /* the least length of a factor or rate buffer */
    GINGHAMOWL_FILE_BYTES = 17625,   /* the longest accepted file; one byte more decides a refusal, and
                                        every saved case fits (crates/promises: accepted_files_are_short,
                                        first_bytes_decide, saved_files_are_short) */
    GINGHAMOWL_LISTING_BYTES = 512,  /* a listing always fits into this many bytes: it has at most 463
                                        (crates/promises: listings_are_short) */
    GINGHAMOWL_WINDOW_DAYS = 70,     /* the slots of a rolling window, and the most days that it holds */
    GINGHAMOWL_WINDOW_RATES = 4200,  /* the rates of all its slots */
    GINGHAMOWL_WINDOW_BYTES = 8896,  /* the size of a rolling window */
    GINGHAMOWL_HISTORY_MONTHS = 120, /* the months of a history */
    GINGHAMOWL_HISTORY_BYTES = 240   /* the length of a history, two bytes for each month */
};

/* Where the ends of term t (1 to 120) stand in a factor or rate buffer. */
#define GINGHAMOWL_LOWER(t) (2 * ((size_t)(t) - 1))
#define GINGHAMOWL_UPPER(t) (2 * ((size_t)(t) - 1) + 1)

/* ---------------------------------------------------------------- refusals */

/* The numbers of METHOD, Refusals; no refusal has the numbers 20 to 26.
 * 1 to 12, 18 and 19 are errors of the office that made the file, the case, the day or the months; the
 * others, and 3 for a case that is handed in, are errors of the host. The first that applies is given.
 * For a file the order is 13; the map (1, then 3); each field in bit order; then 2; then 6.
 * For a case that is saved, for a rolling window and for a history of months, the functions below have
 * it. */
/* hosts/words writes: refusals */
enum {
    GINGHAMOWL_ACCEPTED = 0,
    /* the file is too short; its map, and each field that the map announces, must be whole */
    GINGHAMOWL_REFUSED_ENDS_EARLY = 1,
    /* bytes follow the last field; the file must end there */
    GINGHAMOWL_REFUSED_BYTES_FOLLOW = 2,
    /* the map has a wrong bit; bits 2, 5 and 6 and exactly one of bits 1 and 7 must be set, and
     * bits 9 to 15 must not; a case that is handed in must have rates of 2 or 4 bytes */
    GINGHAMOWL_REFUSED_MAP = 3,
    /* the number of days is out of limits; it must be 1 to 70, with 60 rates each */
    GINGHAMOWL_REFUSED_DAY_COUNT = 4,
    /* a zero rate is out of limits; each must be -1,000 to 10,000 steps of 0.00001, or in four
     * bytes, which a rolling window has not, -100,000 to 1,000,000 steps of 0.0000001, which is
     * -1 % to 10 % */
    GINGHAMOWL_REFUSED_RATE = 5,
    /* a one-year forward rate is out of limits; t x s(t) - (t - 1) x s(t-1), with s(t) the sum
     * of term t's rates over the n days, must be -2,000 x n to 12,000 x n steps of 0.00001 at
     * each term, or in four bytes -200,000 x n to 1,200,000 x n steps of 0.0000001, which is -2
     * % to 12 % */
    GINGHAMOWL_REFUSED_GROWTH = 6,
    /* the number of flows is out of limits; there must be 1 to 120 pension flows, and 1 to 60
     * bond flows where their bit is set */
    GINGHAMOWL_REFUSED_FLOW_COUNT = 7,
    /* a flow is out of limits; each must be at most 100,000,000 euros */
    GINGHAMOWL_REFUSED_FLOW = 8,
    /* the UFR is out of limits; it must be at most 5,000 steps of 0.00001, 5 % */
    GINGHAMOWL_REFUSED_UFR = 9,
    /* an amount is out of limits; each must be at most 100,000,000,000 euros */
    GINGHAMOWL_REFUSED_AMOUNT = 10,
    /* a shock is out of limits; shifts must be at most 1,000 steps, falls, spread rise and
     * correlations at most 1,000 thousandths, the credit spread at most 10,000 steps and the
     * credit duration at most 500 tenths of a year */
    GINGHAMOWL_REFUSED_SHOCK = 11,
    /* the head count or an age is out of limits; heads must be 1 to 1,000,000, and ages at most
     * 1,200 months */
    GINGHAMOWL_REFUSED_PEOPLE = 12,
    /* a lent buffer is too short; the buffers for factors and for rates must have at least 240
     * entries */
    GINGHAMOWL_REFUSED_BUFFER = 13,
    /* the lent buffer is too short for the case; it must have at least as many bytes as the
     * case's shortest file */
    GINGHAMOWL_REFUSED_SAVED_BUFFER = 14,
    /* the rolling window is full; it must hold at most 69 days for one to be added */
    GINGHAMOWL_REFUSED_ROLLING_FULL = 15,
    /* the rolling window is empty; it must hold a day for the oldest to be dropped */
    GINGHAMOWL_REFUSED_ROLLING_EMPTY = 16,
    /* the history of months or its start index is out of limits; the history must have 240
     * bytes, 120 months of two, and the start index must be at most 119 */
    GINGHAMOWL_REFUSED_HISTORY = 17,
    /* a month of the history is out of limits; each must be -1,000 to 10,000 steps of 0.00001,
     * -1 % to 10 % */
    GINGHAMOWL_REFUSED_MONTH = 18,
    /* the UFR that the history gives is out of limits; the mean of its 120 months, rounded to
     * the nearest 100 steps, must be 0 to 5,000 steps of 0.00001, 0 % to 5 % */
    GINGHAMOWL_REFUSED_MONTHS_UFR = 19,
    /* the rolling window is damaged; its count must be at most 70, its start at most 69, each
     * rate of a day held -1,000 to 10,000 steps, and each sum that of the days held */
    GINGHAMOWL_REFUSED_DAMAGED = 27
};
/* hosts/words: end of refusals */

/* ---------------------------------------------------------------- verdicts */

/* A refused file has GINGHAMOWL_NO_VERDICT. */
/* hosts/words writes: verdicts */
enum {
    GINGHAMOWL_NO_VERDICT = 0,
    /* the assets are below 105 percent of the liabilities */
    GINGHAMOWL_DEKKINGSTEKORT = 1,
    /* the assets reach 105 percent of the liabilities, but not the liabilities and the buffer S
     * together */
    GINGHAMOWL_RESERVETEKORT = 2,
    /* the assets reach 105 percent of the liabilities, and also the liabilities and the buffer S
     * together */
    GINGHAMOWL_VRIJ_VERMOGEN = 3,
    /* undecided: a border lies inside a bracket, so the rounded figures cannot tell on which
     * side the fund is */
    GINGHAMOWL_ONBESLIST = 4
};
/* hosts/words: end of verdicts */

/* ---------------------------------------------------------------- kinds of window points */

enum {
    GINGHAMOWL_BLANK = 0,
    GINGHAMOWL_FACTOR = 1,
    GINGHAMOWL_MONEY = 2
};

/* ---------------------------------------------------------------- days fields */

/* A case file has its days in one of two fields, which are alike but for the bytes of a rate:
 *
 *   bit 1          rates of two bytes, in steps of 0.00001, -1,000 to 10,000
 *   bit 7          rates of four bytes, in steps of 0.0000001, -100,000 to 1,000,000; this field stands
 *                  behind the people, and only that of bit 8 behind it
 *
 * Exactly one of the two bits is set. A case that is handed in says by the bytes of a rate which field it
 * has, and its rates are in the steps of that field. Rates of two bytes, and the same rates times 100 in
 * four, have the same valuation; but they are different cases, with different files. The UFR, the shifts,
 * the credit spread and the zero rates of a valuation are in steps of 0.00001 with either field. */
enum {
    GINGHAMOWL_TWO_BYTES = 2,
    GINGHAMOWL_FOUR_BYTES = 4
};

/* How many bytes a rate of an accepted file has: bit 7 of its map announces four. */
#define GINGHAMOWL_RATE_BYTES(file) ((file)[1] & 0x80 ? GINGHAMOWL_FOUR_BYTES : GINGHAMOWL_TWO_BYTES)

/* ---------------------------------------------------------------- numbers that a file may leave out */

/* What a file holds that has no field for it. A saved file leaves out each of these numbers. */
enum {
    GINGHAMOWL_DEFAULT_UFR = 4200,               /* steps of 0.00001: 4.2 percent */
    GINGHAMOWL_DEFAULT_EQUITY_CORRELATION = 1000 /* thousandths: the equity classes fall together */
};

/* ---------------------------------------------------------------- structs */

/* Cents. The exact figure is at least `lower` and at most `upper`. */
typedef struct {
    uint64_t lower;
    uint64_t upper;
} ginghamowl_bracket;

/* The ten money figures: liabilities L, bonds B, assets A, the losses S1 to S6, the root buffer S.
 * L is at the adjusted curve, whose factors are lent and shown; B is at the curve as it is, without UFR. */
typedef struct {
    ginghamowl_bracket l, b, a, s1, s2, s3, s4, s5, s6, s;
} ginghamowl_figures;

/* `refusal` is GINGHAMOWL_ACCEPTED or a refusal; a refused file has GINGHAMOWL_NO_VERDICT and
 * figures of 0. */
typedef struct {
    uint8_t refusal;
    uint8_t verdict;
    ginghamowl_figures figures;
} ginghamowl_valuation;

/* The version of what is linked or loaded, and the kit that it is proved with: a text, with zeros
 * behind it to the end. (A type may not have the name of the function that gives it.) */
typedef struct {
    uint32_t major, minor, patch;
    char kit[32];
} ginghamowl_engine_version;

/* `length` bytes of the file from `offset` on. */
typedef struct {
    size_t offset;
    size_t length;
} ginghamowl_part;

/* Two doubles that hold the same whole numbers as the bracket; 0 and 0 where the point is blank. */
typedef struct {
    uint8_t kind;
    double lower;
    double upper;
} ginghamowl_point;

/* What the fund holds of each kind, and its currency exposure, in euros. (`private` is a keyword of
 * C++.) */
typedef struct {
    uint64_t mature, emerging, private_equity, property, commodities, credit, cash, currency;
} ginghamowl_amounts;

/* Shifts and credit spread in steps of 0.00001, credit duration in tenths of a year, all others in
 * thousandths. `correlation` is that of S1 and S2. `equity_correlation` is that of the four equity classes
 * with each other: mature, emerging and private equity, and property, whose losses make S2. It is 0 to
 * 1,000, and stands at bit 8, as the last field of a file:
 *
 *   1,000          the classes fall together: S2 is the sum of their losses, with no relief, as it was
 *                  before there was this number
 *   0              the classes are uncorrelated: the smallest S2, and so the smallest buffer
 *
 * A STRUCT THAT IS FILLED WITH ZEROS ASKS FOR THE SMALLEST BUFFER. So fill it first with
 * GINGHAMOWL_SHOCKS_DEFAULT, which has 1,000 in this place. */
typedef struct {
    uint64_t up_shift, down_shift, mature_fall, emerging_fall, private_fall, property_fall;
    uint64_t currency_fall, commodities_fall, spread_rise, correlation, spread, duration;
    uint64_t equity_correlation;
} ginghamowl_shocks;

/* No shock, and equity classes that fall together: `ginghamowl_shocks s = GINGHAMOWL_SHOCKS_DEFAULT;` */
#define GINGHAMOWL_SHOCKS_DEFAULT {0, 0, 0, 0, 0, 0, 0, 0, 0, 0, 0, 0, GINGHAMOWL_DEFAULT_EQUITY_CORRELATION}

/* The head count, and two ages in months. */
typedef struct {
    uint64_t heads, pension_age, mean_age;
} ginghamowl_people;

/* The fields of a case that are no lists. `rate_bytes` is GINGHAMOWL_TWO_BYTES or GINGHAMOWL_FOUR_BYTES;
 * with any other number, 0 among them, the case is refused with 3. The UFR in steps of 0.00001.
 *
 * Fill it first with GINGHAMOWL_CASE_FIELDS_DEFAULT, and not with zeros: of an `equity_correlation` and a
 * UFR that are 0 no call can tell whether they were meant (ginghamowl_shocks says what the first asks
 * for). */
typedef struct {
    uint64_t rate_bytes;
    uint64_t ufr;
    ginghamowl_amounts amounts;
    ginghamowl_shocks shocks;
    ginghamowl_people people;
} ginghamowl_case_fields;

/* Rates of two bytes, a UFR of 4,200 and equity classes that fall together; all else is 0. With no heads
 * the case is refused, with 12: the people are to be set. */
#define GINGHAMOWL_CASE_FIELDS_DEFAULT \
    {GINGHAMOWL_TWO_BYTES, GINGHAMOWL_DEFAULT_UFR, {0, 0, 0, 0, 0, 0, 0, 0}, GINGHAMOWL_SHOCKS_DEFAULT, {0, 0, 0}}

/* `refusal` is GINGHAMOWL_ACCEPTED or a refusal. `written` counts bytes; it is 0 for a refusal. */
typedef struct {
    uint8_t refusal;
    size_t written;
} ginghamowl_saved;

/* A rolling window of days: the last trading days, up to 70, with the sum of each term's rates beside
 * them. (The window of ginghamowl_window_point is another thing: a screen that shows a valuation.) Its
 * days are those of the two-byte field: there is no window of days in four bytes.
 *
 * It is a ring of 70 slots. Day i, counted from the oldest, which is day 0, stands in slot
 * (start + i) % 70, and its term t at rates[60 * slot + t - 1]. A slot that holds none of the `count`
 * days is free: whatever lies there makes no difference to any answer.
 *
 * The struct has 8,896 bytes (GINGHAMOWL_WINDOW_BYTES), without padding or pointers. So a host may
 * write it to a file as it is, and read it back on a machine of the same byte order, as all x86-64
 * are. Any bytes that are read back are answered. A window is damaged, and every function that takes
 * it answers 27, where
 *
 *   - `count` is above 70, or `start` above 69, also where no day is held;
 *   - a rate of a day held is outside -1,000 to 10,000; or
 *   - a sum is not that of the days held; of no days it is 0.
 *
 * 27 is no checksum: two held days that have changed places pass, and so does any free slot. */
typedef struct {
    uint64_t count;                          /* the days held, 0 to 70 */
    uint64_t start;                          /* the slot of the oldest day, 0 to 69 */
    int16_t rates[GINGHAMOWL_WINDOW_RATES];  /* the zero rates of each slot, in steps of 0.00001 */
    int64_t sums[GINGHAMOWL_DAY_RATES];      /* of term t, at t - 1, the sum over the days held */
} ginghamowl_rolling_window;

#if defined(__cplusplus) && __cplusplus >= 201103L
static_assert(sizeof(ginghamowl_rolling_window) == GINGHAMOWL_WINDOW_BYTES, "the size is fixed");
#elif defined(__STDC_VERSION__) && __STDC_VERSION__ >= 201112L
_Static_assert(sizeof(ginghamowl_rolling_window) == GINGHAMOWL_WINDOW_BYTES, "the size is fixed");
#endif

/* The zero rates of a day in steps of 0.00001; term t stands at t - 1. */
typedef struct {
    int32_t rates[GINGHAMOWL_DAY_RATES];
} ginghamowl_day;

/* `refusal` is GINGHAMOWL_ACCEPTED or a refusal. `window` is the changed one; after a refusal it is the
 * one that was handed in, bit for bit. What was handed in by value stays as it is. */
typedef struct {
    uint8_t refusal;
    ginghamowl_rolling_window window;
} ginghamowl_changed_window;

/* `refusal` is GINGHAMOWL_ACCEPTED or 17, 18 or 19. `ufr` in steps of 0.00001; it is 0 for a refusal. */
typedef struct {
    uint8_t refusal;
    uint64_t ufr;
} ginghamowl_ufr;

/* ---------------------------------------------------------------- functions */

/* The version of the engine that is linked or loaded, and the kit that it is proved with. A program that
 * was compiled with another header than the library's own may take its structs for others: one that loads
 * the library by itself should compare these numbers with GINGHAMOWL_VERSION_MAJOR, _MINOR and _PATCH
 * ahead of all other calls. Libraries before 0.9.0 have no such function. */
ginghamowl_engine_version ginghamowl_version(void);

/* Values a case file. On acceptance the entries 0 to 239 of both buffers are written, lower and
 * upper, term by term: factors in units of 10^-12, zero rates in steps of 0.00001. Entries from 240
 * on keep their content. A refusal changes neither buffer. */
ginghamowl_valuation ginghamowl_value(const uint8_t *file, size_t file_length,
                                      uint64_t *factors, size_t factors_length,
                                      int64_t *rates, size_t rates_length);

/* The refusal of a case file, without valuing it: 0 to 12, never 13. */
uint8_t ginghamowl_refusal(const uint8_t *file, size_t file_length);

/* Where the zero rates stand in a case file, for display: n days of 120 bytes each, or of 240 where a
 * rate has four bytes, which GINGHAMOWL_RATE_BYTES says. n is the byte before them. 0 and 0 for a file
 * that is refused. */
ginghamowl_part ginghamowl_rates_part(const uint8_t *file, size_t file_length);

/* A point of the window, over the factors that a valuation wrote and the figures that it gave:
 * 1 to 120 the factor of that term, 121 to 130 the figures L B A S1 S2 S3 S4 S5 S6 S, any other
 * number blank. A figure needs no factors (`factors_length` may be 0), and the factor of term t needs
 * the entries GINGHAMOWL_LOWER(t) and GINGHAMOWL_UPPER(t). After an accepted valuation no other point
 * is blank. Of other factors or figures, a factor is blank also where one of its two entries is not
 * lent, and any point where an end is above 2^53, which a double need not hold. */
ginghamowl_point ginghamowl_window_point(uint64_t point, const uint64_t *factors, size_t factors_length,
                                         ginghamowl_figures figures);

/* Writes the listing (METHOD, Buffers, window, listing), lines that end in '\n' and no closing 0, to the
 * front of `out`, and returns how many bytes it wrote; later bytes keep their content. Where `out` is too short nothing
 * is written and 0 is returned; GINGHAMOWL_LISTING_BYTES always suffice.
 *
 * A valuation that no call returned has a meaning too: with a `refusal` other than 0 it lists as
 * that refusal, whatever stands beside it; else a `verdict` other than 1 to 4 lists as ONBESLIST. */
size_t ginghamowl_listing(ginghamowl_valuation valuation, uint8_t *out, size_t out_length);

/* Saves a case: writes its shortest case file to the front of `out`, and tells how many bytes it
 * wrote; later bytes keep their content. `rates` has the zero rates, term 1 to 60 of the first day, then
 * of the next: in steps of 0.00001, or, where `rate_bytes` is GINGHAMOWL_FOUR_BYTES, of 0.0000001.
 * `pension` and `bonds` have the flows in euros, from term 1 on.
 *
 * The file has the days field of the case. It leaves out a UFR of 4,200, amounts that are all 0, an
 * empty list of bonds and an `equity_correlation` of 1,000. It is accepted, and holds the same case. Two
 * cases have the same bytes exactly when all their numbers, `rate_bytes` among them, and the lengths of
 * their lists are equal.
 *
 * An input screen may hand in whatever was typed: any numbers and lengths are answered. The first
 * refusal that applies is given, in this order:
 *
 *   3              `rate_bytes` is neither 2 nor 4
 *   9              the UFR
 *   4, then 5      where a rate has two bytes: the count of days, which is rates_length / 60; a length
 *                  that is no multiple of 60 is 4 too; the rates
 *   7, then 8      the count of pension flows; the flows
 *   7, then 8      the count of bond flows, which may be 0; the flows
 *   10, 11, 12     the amounts; the shocks, but for `equity_correlation`; the people
 *   4, then 5      where a rate has four bytes: the days, likewise
 *   11             `equity_correlation`
 *   6              the one-year forward rates
 *   14             `out` is shorter than the file; exactly as long is enough, and
 *                  GINGHAMOWL_FILE_BYTES always suffice
 *
 * A refusal writes no byte. */
ginghamowl_saved ginghamowl_save(ginghamowl_case_fields fields,
                                 const int32_t *rates, size_t rates_length,
                                 const uint64_t *pension, size_t pension_length,
                                 const uint64_t *bonds, size_t bonds_length,
                                 uint8_t *out, size_t out_length);

/* The rolling window that holds no day: every number in it is 0. */
ginghamowl_rolling_window ginghamowl_rolling_empty(void);

/* Adds a day to a rolling window, as the newest: writes its rates into the slot behind the newest day,
 * (start + count) % 70, adds 1 to `count`, and sets the sums to those of the days then held. All else
 * stays as it is. The first refusal that applies is given, in this order:
 *
 *   27             the window is damaged
 *   15             it holds 70 days; the rates are not looked at
 *   5              a rate of the day is outside -1,000 to 10,000 */
ginghamowl_changed_window ginghamowl_rolling_add(ginghamowl_rolling_window window, ginghamowl_day day);

/* Drops the oldest day of a rolling window: sets `start` to (start + 1) % 70, takes 1 from `count`, and
 * sets the sums to those of the days then held. No rate changes: the slot that is left keeps what it
 * had. The first refusal that applies is given, in this order:
 *
 *   27             the window is damaged
 *   16             it holds no day */
ginghamowl_changed_window ginghamowl_rolling_drop(ginghamowl_rolling_window window);

/* Values a case with the days of a rolling window in place of its own. The case is handed in as
 * ginghamowl_save takes it, its own days in `case_rates`. These may be days in four bytes: they are
 * checked in their own steps, and replaced by the window's, which are in two bytes. The answer, and what
 * both buffers hold afterwards, is what ginghamowl_value gives of a file with the window's days, oldest
 * first, and the other fields of the case. The first refusal that applies is given, in this order:
 *
 *   27             the window is damaged
 *   13             a buffer has fewer than 240 entries
 *   3, 9, 4, 5, 7, 8, 7, 8, 10, 11, 12, 11, 6
 *                  the case's own numbers, its own days included, as ginghamowl_save checks them: where a
 *                  rate has four bytes, 4 and 5 come after 12; the second 11 is `equity_correlation`
 *   4              the window holds no day
 *   6              the one-year forward rates of the window's days
 *
 * A refusal changes neither buffer. */
ginghamowl_valuation ginghamowl_rolling_value(ginghamowl_rolling_window window, ginghamowl_case_fields fields,
                                              const int32_t *case_rates, size_t case_rates_length,
                                              const uint64_t *pension, size_t pension_length,
                                              const uint64_t *bonds, size_t bonds_length,
                                              uint64_t *factors, size_t factors_length,
                                              int64_t *rates, size_t rates_length);

/* The UFR from a history of months, the month-end forward rates of ten years: their mean, rounded to the
 * nearest 100 steps, halves upward, also below 0, so that a mean of -50 steps gives 0.
 *
 * A history has 240 bytes, 120 months of two bytes each: two's complement, the high byte first, in steps
 * of 0.00001. It is a ring. The oldest month stands at `start` (0 to 119), which is at the bytes
 * 2 * start and 2 * start + 1, and the month i months later at (start + i) % 120. `start` is only
 * checked, and has no influence on the UFR.
 *
 * At each month end the host replaces the oldest month itself, without a call: it writes the two bytes of
 * the new month at offset 2 * start, and sets `start` to (start + 1) % 120.
 *
 * The first refusal that applies is given, in this order:
 *
 *   17             the history has not 240 bytes, or `start` is above 119
 *   18             a month is outside -1,000 to 10,000
 *   19             the rounded UFR is outside 0 to 5,000 */
ginghamowl_ufr ginghamowl_ufr_of(const uint8_t *history, size_t history_length, uint64_t start);

/* Values a case file with the UFR from a history of months, as if it stood in the file's UFR field. The
 * answer, and what both buffers hold afterwards, is what ginghamowl_value gives of the file with bit 0 of
 * its map set and this UFR in the two bytes behind the map: in place of the file's own UFR where the bit
 * is set already, else inserted there. The file may have either days field. The first refusal that
 * applies is given, in this order:
 *
 *   13             a buffer has fewer than 240 entries
 *   1 to 12        the file's own, as ginghamowl_refusal gives them; its own UFR is checked too (9)
 *   17, 18, 19     the history, as ginghamowl_ufr_of checks it
 *
 * A refusal changes neither buffer. */
ginghamowl_valuation ginghamowl_value_with_months(const uint8_t *file, size_t file_length,
                                                  const uint8_t *history, size_t history_length, uint64_t start,
                                                  uint64_t *factors, size_t factors_length,
                                                  int64_t *rates, size_t rates_length);

#ifdef __cplusplus
}
#endif

#endif
