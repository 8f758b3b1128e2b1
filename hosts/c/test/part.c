/* Where a file has its rates. */
#include "files.h"

/* The part of a file, which has n days of the bytes that the header says, and that of the same with a UFR; neither where a byte is
 * missing. */
static void rates_part_is(const uint8_t *bytes, size_t length, size_t offset, size_t part_length)
{
    uint8_t file[2 * C1_FOUR_BYTES];
    ginghamowl_part part;

    part = ginghamowl_rates_part(bytes, length);
    CHECK(part.offset == offset && part.length == part_length);
    CHECK(part.length == bytes[part.offset - 1] * (size_t)GINGHAMOWL_DAY_RATES * GINGHAMOWL_RATE_BYTES(bytes));
    memcpy(file + 4, bytes + 2, length - 2);
    file[0] = bytes[0];
    file[1] = bytes[1] | 1;
    file[2] = 0x10;
    file[3] = 0x68;
    part = ginghamowl_rates_part(file, length + 2);
    CHECK(part.offset == offset + 2 && part.length == part_length);
    CHECK(GINGHAMOWL_RATE_BYTES(file) == GINGHAMOWL_RATE_BYTES(bytes));
    part = ginghamowl_rates_part(file, length + 1);
    CHECK(part.offset == 0 && part.length == 0);
}

void test_part(void)
{
    uint8_t file[C1_FOUR_BYTES + 240] = {0};
    ginghamowl_part part;

    c1(file);
    rates_part_is(file, C1_BYTES, 3, 120);
    c1_four(file);
    rates_part_is(file, C1_FOUR_BYTES, C1_FOUR_DAYS + 1, 240);
    file[C1_FOUR_DAYS] = 2;
    rates_part_is(file, C1_FOUR_BYTES + 240, C1_FOUR_DAYS + 1, 480);
    part = ginghamowl_rates_part(NULL, 0);
    CHECK(part.offset == 0 && part.length == 0);
}
