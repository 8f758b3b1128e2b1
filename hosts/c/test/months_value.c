/* Files valued with the UFR from a history of months. */
#include "files.h"
#include "months.h"

/* The start is checked, and makes no difference. */
static void test_start(uint64_t rate_bytes)
{
    static held_case c;
    static uint8_t file[MOST_BYTES];
    held_history h = uneven_months();
    size_t length;

    largest_case(&c);
    in_form(&c, rate_bytes);
    length = shortest(&c, file);
    for (h.start = 0; h.start < MONTHS; h.start++) {
        gives(&h, GINGHAMOWL_ACCEPTED, (uint64_t)rounded_mean(&h));
        months_into(file, length, &h, GINGHAMOWL_ACCEPTED, 240, 240);
    }
    refuses(&h, GINGHAMOWL_REFUSED_HISTORY);
}

/* Files with a UFR of their own and without, and each UFR that can be found. */
static void test_values(uint64_t rate_bytes)
{
    static const size_t lengths[] = {0, 1, 239, 240, 241, 1000};
    static held_case c;
    static uint8_t with[MOST_BYTES], without[MOST_BYTES];
    held_history h;
    size_t with_length, without_length, f, r;
    int ufr;

    largest_case(&c);
    in_form(&c, rate_bytes);
    with_length = shortest(&c, with);
    c.fields.ufr = 4200;
    without_length = shortest(&c, without);
    CHECK(with_length == without_length + 2);
    for (ufr = 0; ufr <= 5000; ufr += 100) {
        h = with_sum(ufr * MONTHS + (ufr % 300 == 0 ? -6000 : 5999));
        gives(&h, GINGHAMOWL_ACCEPTED, (uint64_t)ufr);
        months_into(with, with_length, &h, GINGHAMOWL_ACCEPTED, 240, 240);
        months_into(without, without_length, &h, GINGHAMOWL_ACCEPTED, 300, 241);
    }
    for (f = 0; f < sizeof lengths / sizeof *lengths; f++)
        for (r = 0; r < sizeof lengths / sizeof *lengths; r++) {
            int small = lengths[f] < GINGHAMOWL_ENTRIES || lengths[r] < GINGHAMOWL_ENTRIES;

            months_into(with, with_length, &h, small ? GINGHAMOWL_REFUSED_BUFFER : GINGHAMOWL_ACCEPTED, lengths[f], lengths[r]);
        }
}

/* C1 in this form is refused for its own faults, whatever the history is. */
static void files_own_refusals_first(size_t form, const held_history *h)
{
    static uint8_t named[MOST_BYTES];
    uint8_t file[C1_FOUR_BYTES + 1] = {0};
    size_t length = C1_FORMS[form].length, k;

    for (k = 0; k < C1_FORMS[form].count; k++) {
        changed_c1(form, C1_FORMS[form].changes[k], file);
        months_not(file, length, h, C1_FORMS[form].changes[k].refusal);
    }
    C1_FORMS[form].make(file);
    for (k = 0; k < length; k++)
        months_into(file, k, h, GINGHAMOWL_REFUSED_ENDS_EARLY, 240, 240);
    months_not(NULL, 0, h, GINGHAMOWL_REFUSED_ENDS_EARLY);
    months_not(file, length + 1, h, GINGHAMOWL_REFUSED_BYTES_FOLLOW);
    months_not(named, with_ufr_field(file, length, 5001, named), h, GINGHAMOWL_REFUSED_UFR);
}

/* 13; the file's own refusals; then the history's, of which the first is given. */
static void test_order(void)
{
    held_history histories[] = {flat_months(3100), flat_months(3100), flat_months(3100), flat_months(-51), flat_months(5050)};
    size_t i, form;

    histories[0].length--;
    histories[1].start = MONTHS;
    set_month(histories[2].bytes, MONTHS - 1, 10001);
    for (i = 0; i < sizeof histories / sizeof *histories; i++)
        for (form = 0; form < 2; form++)
            files_own_refusals_first(form, &histories[i]);
    refuses(&histories[0], GINGHAMOWL_REFUSED_HISTORY);
    refuses(&histories[1], GINGHAMOWL_REFUSED_HISTORY);
    refuses(&histories[2], GINGHAMOWL_REFUSED_MONTH);
    refuses(&histories[3], GINGHAMOWL_REFUSED_MONTHS_UFR);
    refuses(&histories[4], GINGHAMOWL_REFUSED_MONTHS_UFR);
    for (i = 3; i <= 4; i++) { /* 18 before 19, 17 before both */
        set_month(histories[i].bytes, 60, -1001);
        refuses(&histories[i], GINGHAMOWL_REFUSED_MONTH);
        histories[i].start = MONTHS;
        refuses(&histories[i], GINGHAMOWL_REFUSED_HISTORY);
    }
}

void test_months_value(void)
{
    test_start(GINGHAMOWL_TWO_BYTES);
    test_values(GINGHAMOWL_TWO_BYTES);
    test_start(GINGHAMOWL_FOUR_BYTES);
    test_values(GINGHAMOWL_FOUR_BYTES);
    test_order();
}
