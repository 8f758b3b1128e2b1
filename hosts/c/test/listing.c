/* Listings: of valuations, of refusals, and of what no call returned. */
#include "files.h"

static const char C1_LISTING[] = "L 100000000 100000000\nB 0 0\nA 110000000 110000000\nS1 0 0\nS2 0 0\nS3 0 0\n"
                                 "S4 0 0\nS5 0 0\nS6 10000000 10000000\nS 10000000 10000000\nV VRIJ VERMOGEN\n";

/* The listing of v into a buffer of this length is this text, or nothing. */
static void lists(ginghamowl_valuation v, size_t room, const char *text)
{
    size_t all = room + 2 * GUARDS, length = text == NULL ? 0 : strlen(text), i;
    uint8_t *bytes = malloc(all);

    if (bytes == NULL)
        abort();
    memset(bytes, 0xa5, all);
    CHECK(ginghamowl_listing(v, room == 0 ? NULL : bytes + GUARDS, room) == length);
    CHECK(length == 0 || memcmp(bytes + GUARDS, text, length) == 0);
    for (i = 0; i < all; i++)
        if ((i < GUARDS || i >= GUARDS + length) && bytes[i] != 0xa5)
            break;
    CHECK(i == all);
    free(bytes);
}

static void test_returned(void)
{
    uint8_t file[C1_BYTES];
    uint64_t factors[240] = {0};
    int64_t rates[240] = {0};
    size_t length = sizeof C1_LISTING - 1;
    ginghamowl_valuation v;

    c1(file);
    v = ginghamowl_value(file, C1_BYTES, factors, 240, rates, 240);
    lists(v, GINGHAMOWL_LISTING_BYTES, C1_LISTING);
    lists(v, length, C1_LISTING);
    lists(v, length - 1, NULL);
    lists(v, 0, NULL);
    v = ginghamowl_value(NULL, 0, factors, 240, rates, 240);
    lists(v, GINGHAMOWL_LISTING_BYTES, "R 1\n");
    lists(v, 4, "R 1\n");
    lists(v, 3, NULL);
    v = ginghamowl_value(NULL, 0, factors, 239, rates, 240);
    lists(v, 5, "R 13\n");
    lists(v, 4, NULL);
}

/* Valuations that no call returned. */
static void test_forged(void)
{
    static const char *const names[] = {"L", "B", "A", "S1", "S2", "S3", "S4", "S5", "S6", "S"};
    char text[GINGHAMOWL_LISTING_BYTES + 1];
    ginghamowl_valuation forged;
    ginghamowl_bracket figures[10];
    size_t length, i;

    memset(&forged, 0xff, sizeof forged);
    lists(forged, 6, "R 255\n");
    forged.refusal = 0;
    text[0] = '\0';
    for (i = 0; i < 10; i++) { /* the largest numbers, the upper ends told apart by their last digits */
        figures[i].lower = UINT64_MAX;
        figures[i].upper = UINT64_MAX - i % 6;
        sprintf(text + strlen(text), "%s 18446744073709551615 1844674407370955161%u\n", names[i], (unsigned)(5 - i % 6));
    }
    memcpy(&forged.figures, figures, sizeof figures);
    length = strlen(text);
    for (i = 0; i <= 255; i++) {
        forged.verdict = (uint8_t)i;
        strcpy(text + length, i == 1 ? "V DEKKINGSTEKORT\n"
                              : i == 2 ? "V RESERVETEKORT\n"
                              : i == 3 ? "V VRIJ VERMOGEN\n"
                                       : "V ONBESLIST\n");
        lists(forged, GINGHAMOWL_LISTING_BYTES, text);
    }
}

void test_listing(void)
{
    test_returned();
    test_forged();
}
