/* Cases saved: the bytes that are written, which are those of the shortest file. */
#include "files.h"
#include "saving.h"

static void test_c1(uint64_t rate_bytes)
{
    static held_case c;
    size_t form = rate_bytes == GINGHAMOWL_FOUR_BYTES, length = C1_FORMS[form].length, room;
    uint8_t file[C1_FOUR_BYTES], out[C1_FOUR_BYTES];
    uint64_t factors[240] = {0};
    int64_t rates[240] = {0};

    C1_FORMS[form].make(file);
    c1_case(&c);
    in_form(&c, rate_bytes);
    for (room = 0; room < length; room++)
        saves_into(&c, room, GINGHAMOWL_REFUSED_SAVED_BUFFER, NULL, 0);
    for (; room < length + 40; room++)
        saves_into(&c, room, GINGHAMOWL_ACCEPTED, file, length);
    ginghamowl_save(c.fields, c.rates, DAY, c.pension, 1, NULL, 0, out, length);
    CHECK(is_c1(ginghamowl_value(out, length, factors, 240, rates, 240)));
}

static void test_largest(void)
{
    static held_case c;
    static uint8_t file[MOST_BYTES];

    largest_case(&c);
    CHECK(shortest(&c, file) == 9225);
    saves(&c);
    in_form(&c, GINGHAMOWL_FOUR_BYTES);
    refine(&c);
    CHECK(shortest(&c, file) == GINGHAMOWL_FILE_BYTES);
    saves(&c);
    saves_into(&c, GINGHAMOWL_FILE_BYTES - 1, GINGHAMOWL_REFUSED_SAVED_BUFFER, NULL, 0);
}

/* Each of the four fields left out or not. What is written is as short as can be, and a bond flow of 0 is
 * no empty list. */
static void test_left_out(uint64_t rate_bytes)
{
    static held_case c;
    static uint8_t file[MOST_BYTES];
    size_t least = 40 + 60 * rate_bytes, bits = rate_bytes == GINGHAMOWL_FOUR_BYTES ? 0xe4 : 0x66;
    unsigned fields, i;

    for (fields = 0; fields < 16; fields++) {
        size_t ufr = fields & 1, bonds = fields >> 1 & 1, amounts = fields >> 2 & 1, equity = fields >> 3;

        c1_case(&c);
        in_form(&c, rate_bytes);
        c.fields.ufr -= ufr;
        c.bonds_length = bonds;
        c.fields.amounts.cash = amounts;
        c.fields.shocks.equity_correlation -= equity;
        CHECK(shortest(&c, file) == least + 2 * ufr + 5 * bonds + 64 * amounts + 2 * equity);
        CHECK(file[0] == equity && file[1] == bits + ufr + 8 * bonds + 16 * amounts);
        saves(&c);
    }
    for (i = 0; i < 8; i++) { /* one amount alone keeps the field */
        uint64_t amounts[8] = {0};

        amounts[i] = 1;
        memcpy(&c.fields.amounts, amounts, sizeof amounts);
        saves(&c);
    }
}

/* Up to three numbers, or lengths of lists, drawn anew; each fits into its bytes. */
static void spoil_at_random(held_case *c, uint64_t *state)
{
    static const size_t days[] = {0, 1, 70, 71}, pension[] = {0, 1, 120, 121}, bonds[] = {0, 1, 60, 61};
    uint64_t hits, numbers[FIELDS];

    for (hits = drawn(state) % 4; hits > 0; hits--) {
        uint64_t place = 1 + drawn(state) % 45, number = drawn(state) >> drawn(state) % 48;

        memcpy(numbers, &c->fields, sizeof numbers);
        if (place < FIELDS) /* UFR, amounts in 8 bytes, shocks, heads in 4 bytes, ages */
            numbers[place] = place >= AT_AMOUNTS && place < AT_SHOCKS ? number
                                                                      : number % ((uint64_t)1 << (place == AT_PEOPLE ? 32 : 16));
        else if (place < 32)
            c->rates[drawn(state) % (3 * DAY)] = fitting_rate(number, c->fields.rate_bytes);
        else if (place < 36)
            c->pension[drawn(state) % 3] = number % ((uint64_t)1 << 32);
        else if (place < 40)
            c->bonds[drawn(state) % 3] = number % ((uint64_t)1 << 32);
        else if (place < 42)
            c->rates_length = days[number % 4] * DAY;
        else if (place < 44)
            c->pension_length = pension[number % 4];
        else
            c->bonds_length = bonds[number % 4];
        memcpy(&c->fields, numbers, sizeof numbers);
    }
}

/* A case whose numbers fit into their bytes is refused as the file is that says the same; else it is saved as
 * that file. */
static void test_as_files_are_read(uint64_t rate_bytes)
{
    static held_case c;
    static uint8_t file[MOST_BYTES];
    uint64_t state = 88172645463325252u;
    unsigned long seen[13] = {0}, round;

    for (round = 0; round < 3000; round++) {
        uint8_t refusal;
        size_t length;

        largest_case(&c);
        in_form(&c, rate_bytes);
        c.rates_length = 3 * DAY;
        spoil_at_random(&c, &state);
        length = shortest(&c, file);
        refusal = ginghamowl_refusal(file, length);
        if (refusal == GINGHAMOWL_ACCEPTED)
            saves_into(&c, length + round % 3, refusal, file, length);
        else
            saves_into(&c, round % 2 * GINGHAMOWL_FILE_BYTES, refusal, NULL, 0);
        seen[refusal]++;
    }
    CHECK(seen[0] > 500 && seen[1] + seen[2] + seen[3] == 0);
    for (round = 4; round <= 12; round++)
        CHECK(seen[round] > 10);
}

void test_save(void)
{
    test_c1(GINGHAMOWL_TWO_BYTES);
    test_left_out(GINGHAMOWL_TWO_BYTES);
    test_as_files_are_read(GINGHAMOWL_TWO_BYTES);
    test_c1(GINGHAMOWL_FOUR_BYTES);
    test_left_out(GINGHAMOWL_FOUR_BYTES);
    test_as_files_are_read(GINGHAMOWL_FOUR_BYTES);
    test_largest();
}
