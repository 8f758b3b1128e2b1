/* Times the engine beside plain C, C with the filter, C with the ratio, GMP and Arb; compiled with BEFORE, also
 * beside the engine of another commit, which is linked with ginghamowl_value under the name before_value.
 *
 *   bench time FILE..         checks each file, then prints the table
 *   bench check FILE..        only checks
 *   bench parts FILE          times parts of a valuation
 *   bench open FILE..         prints how many tests of the zero rates the filter in C leaves open to the year-by-year working
 *   bench count WORK FILE R   does the work R times and prints nothing, for callgrind
 *   bench stack WORK FILE     prints the bytes of stack that the work touches
 *
 * WORK is engine, before, plain, filter or ratio (a valuation), checks (the engine's checks of the file), saving (its
 * case, saved by the engine), or of a rolling window with the file's days: adding (the last of them), dropping (the
 * first), rolling (its valuation with the case) or window (only refusal 27's check of it, by a valuation without
 * buffers); of a history of months, whose UFR is 4,200: ufr (finding it) or months (a valuation of the file with it). A
 * file with four-byte days does not go with parts, nor with saving and the works of a window, whose days have two
 * bytes.
 *
 * No time is asserted. The exit status is 1 where any result differs. */
#define _XOPEN_SOURCE 700 /* clock_gettime and makecontext */

#include "bench.h"

#include <inttypes.h>
#include <stdio.h>
#include <stdlib.h>
#include <string.h>
#include <time.h>
#include <ucontext.h>

struct input {
    const char *name;
    uint8_t bytes[GINGHAMOWL_FILE_BYTES + 1]; /* one byte more than the longest accepted file, so that a longer one is refused */
    size_t length;
};

static struct input loaded;

struct result {
    uint64_t factors[GINGHAMOWL_ENTRIES];
    int64_t rates[GINGHAMOWL_ENTRIES];
    ginghamowl_valuation valuation;
};

/* The case of the file, as a host hands it in to be saved, and its days in a rolling window, with and without the last. */
static struct {
    ginghamowl_case_fields fields;
    int32_t rates[GINGHAMOWL_WINDOW_RATES];
    size_t rates_length;
    struct fund fund;
    ginghamowl_rolling_window all, but_last;
    ginghamowl_day last;
} held;

static void roll(void)
{
    held.all = ginghamowl_rolling_empty();
    for (size_t i = 0; i < held.rates_length; i += GINGHAMOWL_DAY_RATES) {
        held.but_last = held.all;
        memcpy(held.last.rates, held.rates + i, sizeof held.last.rates);
        held.all = ginghamowl_rolling_add(held.but_last, held.last).window;
    }
}

static void take_apart(void)
{
    ginghamowl_part part = ginghamowl_rates_part(loaded.bytes, loaded.length);
    const uint8_t *rates = loaded.bytes + part.offset;

    if (part.length == 0)
        return; /* refused: there is no case */
    read_fund(loaded.bytes, &held.fund);
    held.fields.rate_bytes = GINGHAMOWL_TWO_BYTES;
    held.fields.ufr = held.fund.ufr;
    memcpy(&held.fields.amounts, held.fund.amount, sizeof held.fields.amounts);
    memcpy(&held.fields.shocks, held.fund.shock, sizeof held.fields.shocks);
    held.fields.people = (ginghamowl_people){held.fund.heads, held.fund.pension_age, held.fund.mean_age};
    held.rates_length = part.length / 2;
    for (size_t i = 0; i < held.rates_length; i++)
        held.rates[i] = (int16_t)(rates[2 * i] << 8 | rates[2 * i + 1]);
    roll();
}

/* A history of months, all of them 4,200. */
static uint8_t history[GINGHAMOWL_HISTORY_BYTES];

static void take_months(void)
{
    for (int i = 0; i < GINGHAMOWL_HISTORY_MONTHS; i++) {
        history[2 * i] = 4200 >> 8;
        history[2 * i + 1] = 4200 & 0xff;
    }
}

/* Bit 7 of the map announces them; the map's low bits stand in its second byte. */
static bool has_four_byte_days(void) { return loaded.length >= 2 && loaded.bytes[1] & 0x80; }

static void load(const char *path)
{
    FILE *file = fopen(path, "rb");
    if (!file) {
        perror(path);
        exit(2);
    }
    loaded.name = path;
    loaded.length = fread(loaded.bytes, 1, sizeof loaded.bytes, file);
    fclose(file);
    if (!has_four_byte_days())
        take_apart();
    take_months();
}

static void require_two_byte_days(void)
{
    if (has_four_byte_days()) {
        fprintf(stderr, "%s: has four-byte days, and a rolling window holds two-byte days\n", loaded.name);
        exit(2);
    }
}

/* ---------------------------------------------------------------- what is timed */

static struct result latest;
static struct fund latest_fund;

static void engine(const struct input *input)
{
    latest.valuation = ginghamowl_value(input->bytes, input->length, latest.factors, GINGHAMOWL_ENTRIES, latest.rates,
                                        GINGHAMOWL_ENTRIES);
}

#ifdef BEFORE
ginghamowl_valuation before_value(const uint8_t *file, size_t file_length, uint64_t *factors, size_t factors_length,
                                  int64_t *rates, size_t rates_length);

static void engine_before(const struct input *input)
{
    latest.valuation = before_value(input->bytes, input->length, latest.factors, GINGHAMOWL_ENTRIES, latest.rates,
                                    GINGHAMOWL_ENTRIES);
}
#endif

static void plain(const struct input *input)
{
    latest.valuation = plain_value(input->bytes, latest.factors, latest.rates);
}

static void filter(const struct input *input)
{
    latest.valuation = filter_value(&plain_years, input->bytes, latest.factors, latest.rates);
}

static void ratio(const struct input *input)
{
    latest.valuation = filter_value(&ratio_years, input->bytes, latest.factors, latest.rates);
}

static void gmp(const struct input *input) { gmp_run(input->bytes); }
static void arb(const struct input *input) { arb_run(input->bytes); }

/* Parts of a valuation. The engine's other parts have no function of their own that a host can call. */
static void engine_checks(const struct input *input)
{
    latest.valuation.refusal = ginghamowl_refusal(input->bytes, input->length);
}

static void engine_saving(const struct input *input)
{
    static uint8_t out[GINGHAMOWL_FILE_BYTES];
    (void)input;
    latest.valuation.refusal = ginghamowl_save(held.fields, held.rates, held.rates_length, held.fund.pension, held.fund.m,
                                               held.fund.bonds, held.fund.k, out, sizeof out).refusal;
}

/* Rolling windows. */
static ginghamowl_changed_window latest_change;

static void engine_adding(const struct input *input)
{
    (void)input;
    latest_change = ginghamowl_rolling_add(held.but_last, held.last);
}

static void engine_dropping(const struct input *input)
{
    (void)input;
    latest_change = ginghamowl_rolling_drop(held.all);
}

static void value_window(size_t entries)
{
    latest.valuation = ginghamowl_rolling_value(held.all, held.fields, held.rates, held.rates_length, held.fund.pension, held.fund.m,
                                                held.fund.bonds, held.fund.k, latest.factors, entries, latest.rates, entries);
}

static void engine_rolling(const struct input *input)
{
    (void)input;
    value_window(GINGHAMOWL_ENTRIES);
}

/* 13 comes straight after 27. */
static void engine_window(const struct input *input)
{
    (void)input;
    value_window(0);
}

static void engine_ufr(const struct input *input)
{
    (void)input;
    latest.valuation.refusal = ginghamowl_ufr_of(history, sizeof history, 0).refusal;
}

static void engine_months(const struct input *input)
{
    latest.valuation = ginghamowl_value_with_months(input->bytes, input->length, history, sizeof history, 0, latest.factors,
                                                    GINGHAMOWL_ENTRIES, latest.rates, GINGHAMOWL_ENTRIES);
}

static void plain_reading(const struct input *input) { read_fund(input->bytes, &latest_fund); }

static void curves(const struct years *years, const struct input *input)
{
    uint64_t bond_factors[BOND_ENTRIES];
    plain_reading(input);
    for (int curve = DOWN; curve >= BASE; curve--) {
        plain_factors(years, &latest_fund, shift_of(&latest_fund, curve), latest.factors);
        plain_bond_factors(years, &latest_fund, shift_of(&latest_fund, curve), latest.factors, bond_factors);
    }
}

static void plain_curves(const struct input *input) { curves(&plain_years, input); }
static void ratio_curves(const struct input *input) { curves(&ratio_years, input); }

static void plain_curves_and_rates(const struct input *input)
{
    plain_curves(input);
    plain_rates(latest.factors, latest.rates);
}

static void filter_curves_and_rates(const struct input *input)
{
    plain_curves(input);
    filter_rates(&plain_years, latest.factors, latest.rates);
}

static void ratio_curves_and_rates(const struct input *input)
{
    ratio_curves(input);
    filter_rates(&ratio_years, latest.factors, latest.rates);
}

struct work {
    const char *name;
    void (*once)(const struct input *);
    const char *remark;
};

/* The programs, first those with a whole valuation. */
enum {
    ENGINE,
#ifdef BEFORE
    ENGINE_BEFORE,
#endif
    PLAIN, FILTER, RATIO, GMP, ARB, PROGRAMS
};
static const struct work programs[PROGRAMS] = {
    [ENGINE] = {"engine", engine, "whole valuation, with the checks of the file; proved"},
#ifdef BEFORE
    [ENGINE_BEFORE] = {"engine before", engine_before, "the same, by the archive of another commit"},
#endif
    [PLAIN] = {"plain C", plain, "whole valuation, without the checks of the file"},
    [FILTER] = {"C with the filter", filter, "whole valuation, without the checks of the file"},
    [RATIO] = {"C with the ratio", ratio, "whole valuation, without the checks of the file"},
    [GMP] = {"GMP", gmp, "only the exact factors of 3 curves"},
    [ARB] = {"Arb", arb, "only the factors of 3 curves and the zero rates"}};
/* The programs in whose time the times of all are told. */
static const int yardsticks[] = {
    PLAIN,
#ifdef BEFORE
    ENGINE_BEFORE,
#endif
};

enum { PARTS = 18 };
static const struct work parts[PARTS] = {
    {"engine: whole valuation", engine, ""},
    {"plain C: whole valuation", plain, ""},
    {"C with the filter: whole valuation", filter, ""},
    {"C with the ratio: whole valuation", ratio, ""},
    {"engine: the checks of the file alone", engine_checks, ""},
    {"engine: saving the case", engine_saving, ""},
    {"engine: adding a day to a window", engine_adding, ""},
    {"engine: dropping a day from it", engine_dropping, ""},
    {"engine: refusal 27's check of it alone", engine_window, ""},
    {"engine: valuing it", engine_rolling, ""},
    {"engine: the UFR of a history of months", engine_ufr, ""},
    {"engine: whole valuation with that UFR", engine_months, ""},
    {"plain C: reading", plain_reading, ""},
    {"plain C: reading, 3 curves", plain_curves, ""},
    {"plain C: reading, 3 curves, zero rates", plain_curves_and_rates, ""},
    {"C with the filter: reading, 3 curves, zero rates", filter_curves_and_rates, ""},
    {"C with the ratio: reading, 3 curves", ratio_curves, ""},
    {"C with the ratio: reading, 3 curves, zero rates", ratio_curves_and_rates, ""}};

/* The works that are counted, by name. */
static const struct work *work_named(const char *name)
{
    static const struct work counted[] = {
#ifdef BEFORE
        {"before", engine_before, ""},
#endif
        {"engine", engine, ""},        {"plain", plain, ""},              {"filter", filter, ""},
        {"ratio", ratio, ""},          {"checks", engine_checks, ""},     {"saving", engine_saving, ""},
        {"adding", engine_adding, ""}, {"dropping", engine_dropping, ""}, {"rolling", engine_rolling, ""},
        {"window", engine_window, ""}, {"ufr", engine_ufr, ""},           {"months", engine_months, ""}};

    for (size_t i = 0; i < sizeof counted / sizeof *counted; i++)
        if (strcmp(counted[i].name, name) == 0)
            return &counted[i];
    fprintf(stderr, "bench: there is no work %s\n", name);
    exit(2);
}

/* The work of this name on the loaded file. */
static const struct work *work_on_loaded(const char *name)
{
    const struct work *work = work_named(name);
    bool takes_held = work->once == engine_saving || work->once == engine_adding || work->once == engine_dropping ||
                      work->once == engine_rolling || work->once == engine_window;
    if (takes_held)
        require_two_byte_days();
    return work;
}

static void run(const struct work *work, const struct input *input, long repetitions)
{
    for (long i = 0; i < repetitions; i++)
        work->once(input);
}

/* ---------------------------------------------------------------- equality */

static bool same_valuation(const ginghamowl_valuation *a, const ginghamowl_valuation *b)
{
    return a->refusal == b->refusal && a->verdict == b->verdict &&
           memcmp(&a->figures, &b->figures, sizeof a->figures) == 0;
}

static bool require(bool holds, const char *program, const char *what, const struct input *input)
{
    if (!holds)
        printf("DIFFERENCE: %s: %s: %s\n", input->name, program, what);
    return holds;
}

/* Whether the program gives what the engine gave. */
static bool equal(const struct work *program, const struct result *ours, const struct input *input)
{
    memset(&latest, 0, sizeof latest);
    program->once(input);
    bool same = require(memcmp(ours->factors, latest.factors, sizeof ours->factors) == 0, program->name, "factors", input);
    same &= require(memcmp(ours->rates, latest.rates, sizeof ours->rates) == 0, program->name, "zero rates", input);
    same &= require(same_valuation(&ours->valuation, &latest.valuation), program->name, "figures or verdict", input);
    return same;
}

/* The engine gives the adjusted factors of the base curve; those of the other two and those of bonds are plain C's, which L, B
 * and S1 hold to the engine's. */
static bool check(const struct input *input)
{
    struct brackets brackets[CURVES];
    struct fund fund;
    engine(input);
    struct result ours = latest;
    if (!require(ours.valuation.refusal == GINGHAMOWL_ACCEPTED, "engine", "refuses the file", input))
        return false;
    read_fund(input->bytes, &fund);
    memcpy(brackets[BASE].factors, ours.factors, sizeof ours.factors);
    plain_factors(&plain_years, &fund, shift_of(&fund, UP), brackets[UP].factors);
    plain_factors(&plain_years, &fund, shift_of(&fund, DOWN), brackets[DOWN].factors);
    for (int curve = BASE; curve < CURVES; curve++)
        plain_bond_factors(&plain_years, &fund, shift_of(&fund, curve), brackets[curve].factors, brackets[curve].bonds);
    bool same = true;
    for (int p = ENGINE + 1; p <= RATIO; p++)
        same &= equal(&programs[p], &ours, input);
    same &= require(gmp_meets(input->bytes, brackets), "GMP", "an exact factor is outside its bracket", input);
    same &= require(arb_meets(input->bytes, brackets, ours.rates), "Arb", "a ball misses its bracket", input);
    return same;
}

/* ---------------------------------------------------------------- time */

enum { RUNS = 21 };

/* Processor time, which other programs on the machine disturb less than the clock on the wall. */
static double seconds(void)
{
    struct timespec now;
    clock_gettime(CLOCK_PROCESS_CPUTIME_ID, &now);
    return (double)now.tv_sec + (double)now.tv_nsec / 1e9;
}

static double timed(const struct work *work, const struct input *input, long repetitions)
{
    double began = seconds();
    run(work, input, repetitions);
    return seconds() - began;
}

/* So many repetitions that one run takes at least 20 ms. */
static long repetitions_of(const struct work *work, const struct input *input)
{
    long repetitions = 1;
    while (timed(work, input, repetitions) < 0.02)
        repetitions *= 2;
    return repetitions;
}

static int compare(const void *a, const void *b)
{
    double x = *(const double *)a, y = *(const double *)b;
    return (x > y) - (x < y);
}

/* The works take turns, so that a slow moment of the machine meets all of them. */
static void take_medians(const struct work *works, int count, const struct input *input, double *medians)
{
    long repetitions[PARTS];
    double each[PARTS][RUNS];
    for (int w = 0; w < count; w++)
        repetitions[w] = repetitions_of(&works[w], input);
    for (int i = 0; i < RUNS; i++)
        for (int w = 0; w < count; w++)
            each[w][i] = timed(&works[w], input, repetitions[w]) / (double)repetitions[w];
    for (int w = 0; w < count; w++) {
        qsort(each[w], RUNS, sizeof(double), compare);
        medians[w] = each[w][RUNS / 2];
    }
}

static const char *short_name(const struct input *input)
{
    const char *slash = strrchr(input->name, '/');
    return slash ? slash + 1 : input->name;
}

static void print_programs(const struct input *input)
{
    double medians[PROGRAMS];
    take_medians(programs, PROGRAMS, input, medians);
    printf("%s\n", short_name(input));
    for (int p = 0; p < PROGRAMS; p++) {
        printf("  %-17s %8.1f per second", programs[p].name, 1 / medians[p]);
        for (size_t y = 0; y < sizeof yardsticks / sizeof *yardsticks; y++)
            printf(" %7.3f x %s's time", medians[p] / medians[yardsticks[y]], programs[yardsticks[y]].name);
        printf("   %s\n", programs[p].remark);
    }
}

static void print_parts(const struct input *input)
{
    double medians[PARTS];
    take_medians(parts, PARTS, input, medians);
    for (int p = 0; p < PARTS; p++)
        printf("  %-48s %8.1f microseconds\n", parts[p].name, 1e6 * medians[p]);
}

/* ---------------------------------------------------------------- stack */

enum { STACK_BYTES = 1 << 18, PAINT = 0xA5 };
static unsigned char painted[STACK_BYTES];
static ucontext_t back, there;

static const struct work *work_there;

static void do_there(void) { run(work_there, &loaded, 1); }
static void nothing_there(void) { run(work_there, &loaded, 0); }

/* The stack grows downwards: the lowest byte that lost its paint tells how deep the call went. */
static size_t depth_of(void (*call)(void))
{
    memset(painted, PAINT, sizeof painted);
    getcontext(&there);
    there.uc_stack.ss_sp = painted;
    there.uc_stack.ss_size = sizeof painted;
    there.uc_link = &back;
    makecontext(&there, call, 0);
    swapcontext(&back, &there);
    size_t untouched = 0;
    while (untouched < sizeof painted && painted[untouched] == PAINT)
        untouched++;
    return sizeof painted - untouched;
}

/* ---------------------------------------------------------------- commands */

static void print_agreement(int count)
{
    printf("%d files: ", count);
    for (int p = ENGINE; p <= RATIO; p++)
        printf("%s%s", p == ENGINE ? "" : p == RATIO ? " and " : ", ", programs[p].name);
    printf(" equal; GMP and Arb meet every bracket\n");
}

static int check_all(int count, char **paths, bool times)
{
    bool all_same = true;
    for (int i = 0; i < count; i++) {
        load(paths[i]);
        bool same = check(&loaded);
        all_same = all_same && same;
        if (same && times)
            print_programs(&loaded);
    }
    if (all_same)
        print_agreement(count);
    return all_same ? 0 : 1;
}

/* Halving takes at most 15 tests for each rate. Only the open ones are counted, which costs the others no time. */
static void print_open(int count, char **paths)
{
    for (int i = 0; i < count; i++) {
        load(paths[i]);
        filter_left_open = 0;
        filter(&loaded);
        printf("%s: %" PRIu64 " of at most %d\n", short_name(&loaded), filter_left_open, 15 * GINGHAMOWL_ENTRIES);
    }
}

static void print_stack(const char *work)
{
    work_there = work_on_loaded(work);
    size_t empty = depth_of(nothing_there);
    printf("%zu\n", depth_of(do_there) - empty);
}

int main(int argc, char **argv)
{
    if (argc >= 3 && (strcmp(argv[1], "time") == 0 || strcmp(argv[1], "check") == 0))
        return check_all(argc - 2, argv + 2, argv[1][0] == 't');
    if (argc == 3 && strcmp(argv[1], "parts") == 0) {
        load(argv[2]);
        require_two_byte_days();
        print_parts(&loaded);
        return 0;
    }
    if (argc >= 3 && strcmp(argv[1], "open") == 0) {
        print_open(argc - 2, argv + 2);
        return 0;
    }
    if (argc == 4 && strcmp(argv[1], "stack") == 0) {
        load(argv[3]);
        print_stack(argv[2]);
        return 0;
    }
    if (argc == 5 && strcmp(argv[1], "count") == 0) {
        load(argv[3]);
        run(work_on_loaded(argv[2]), &loaded, atol(argv[4]));
        return 0;
    }
    fprintf(stderr, "usage: bench time FILE.. | check FILE.. | parts FILE | open FILE.. | stack WORK FILE | count WORK FILE R\n");
    return 2;
}
