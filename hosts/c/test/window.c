/* The points of the window. */
#include "files.h"

static int blank(ginghamowl_point p)
{
    return p.kind == GINGHAMOWL_BLANK && p.lower == 0.0 && p.upper == 0.0;
}

static int shows(ginghamowl_point p, uint8_t kind, uint64_t lower, uint64_t upper)
{
    return p.kind == kind && (uint64_t)p.lower == lower && (uint64_t)p.upper == upper;
}

static void test_points(void)
{
    uint8_t file[C1_BYTES];
    uint64_t factors[240] = {0};
    int64_t rates[240] = {0};
    ginghamowl_bracket figures[10];
    ginghamowl_valuation v;
    uint64_t p;

    c1(file);
    v = ginghamowl_value(file, C1_BYTES, factors, 240, rates, 240);
    for (p = 1; p <= 120; p++)
        CHECK(shows(ginghamowl_window_point(p, factors, 240, v.figures), GINGHAMOWL_FACTOR,
                    factors[GINGHAMOWL_LOWER(p)], factors[GINGHAMOWL_UPPER(p)]));
    v.figures.s3.lower = 7; /* the ends told apart */
    v.figures.s3.upper = 8;
    memcpy(figures, &v.figures, sizeof figures);
    for (p = 121; p <= 130; p++)
        CHECK(shows(ginghamowl_window_point(p, factors, 240, v.figures), GINGHAMOWL_MONEY, figures[p - 121].lower,
                    figures[p - 121].upper));
    CHECK(blank(ginghamowl_window_point(0, factors, 240, v.figures)));
    CHECK(blank(ginghamowl_window_point(131, factors, 240, v.figures)));
    CHECK(blank(ginghamowl_window_point(UINT64_MAX, factors, 240, v.figures)));
    factors[0] = 9007199254740992u;
    CHECK(ginghamowl_window_point(1, factors, 240, v.figures).lower == 9007199254740992.0);
    factors[0]++;
    CHECK(blank(ginghamowl_window_point(1, factors, 240, v.figures)));
    v.figures.s.upper = UINT64_MAX;
    CHECK(blank(ginghamowl_window_point(130, factors, 240, v.figures)));
}

/* Every point over a buffer of this many entries, 1000 and so on: a factor shows its own two entries or is
 * blank, a money figure needs none. */
static void window_over(size_t entries)
{
    uint64_t *factors = entries == 0 ? NULL : malloc(entries * sizeof *factors);
    ginghamowl_figures figures;
    ginghamowl_bracket ends[10];
    uint64_t p;

    if (entries != 0 && factors == NULL)
        abort();
    for (p = 0; p < entries; p++)
        factors[p] = 1000 + p;
    for (p = 0; p < 10; p++) {
        ends[p].lower = 2 * p + 1;
        ends[p].upper = 2 * p + 2;
    }
    memcpy(&figures, ends, sizeof figures);
    for (p = 1; p <= 120; p++) {
        ginghamowl_point point = ginghamowl_window_point(p, factors, entries, figures);

        CHECK(GINGHAMOWL_UPPER(p) < entries ? shows(point, GINGHAMOWL_FACTOR, 998 + 2 * p, 999 + 2 * p) : blank(point));
    }
    for (p = 121; p <= 130; p++)
        CHECK(shows(ginghamowl_window_point(p, factors, entries, figures), GINGHAMOWL_MONEY, 2 * p - 241, 2 * p - 240));
    CHECK(blank(ginghamowl_window_point(0, factors, entries, figures)));
    CHECK(blank(ginghamowl_window_point(131, factors, entries, figures)));
    CHECK(blank(ginghamowl_window_point(UINT64_MAX, factors, entries, figures)));
    free(factors);
}

static void test_short_window(void)
{
    size_t entries;

    for (entries = 0; entries <= 265; entries++)
        window_over(entries);
}

void test_window(void)
{
    test_points();
    test_short_window();
}
