/* Values a case file and prints the curve, the figures and the verdict, or says why it is refused.
 *
 *     example FILE          (- reads standard input)
 *     example --version
 *
 * Exit status: 0 valued, 1 refused, 2 no answer: the file can't be read, the call is wrong or the
 * output was lost.
 */
#define _POSIX_C_SOURCE 200809L /* SIGPIPE */

#include <errno.h>
#include <inttypes.h>
#include <signal.h>
#include <stdio.h>
#include <string.h>

#include "ginghamowl.h"
#include "ginghamowl_words.h"

enum { VALUED = 0, REFUSED = 1, NO_ANSWER = 2 };

/* Of a file that is longer than any accepted one, the first byte too many decides the refusal. */
enum { MOST_BYTES = GINGHAMOWL_FILE_BYTES + 1 };

/* All of a file, or its first MOST_BYTES bytes. Returns 0, or why it can't be read. */
static int read_file(const char *path, uint8_t *bytes, size_t *length)
{
    FILE *in = strcmp(path, "-") == 0 ? stdin : fopen(path, "rb");
    int why;

    if (in == NULL)
        return errno;
    errno = 0;
    *length = fread(bytes, 1, MOST_BYTES, in);
    why = !ferror(in) ? 0 : errno != 0 ? errno : EIO;
    if (in != stdin)
        fclose(in);
    return why;
}

static void print_curve(const uint64_t *factors, const int64_t *rates)
{
    size_t t;

    puts("factors in 10^-12, zero rates in steps of 0.00001\n"
         "term   factor, lower   factor, upper  rate, lower  rate, upper");
    for (t = 1; t <= GINGHAMOWL_TERMS; t++)
        printf("%4zu  %14" PRIu64 "  %14" PRIu64 "  %11" PRId64 "  %11" PRId64 "\n", t,
               factors[GINGHAMOWL_LOWER(t)], factors[GINGHAMOWL_UPPER(t)],
               rates[GINGHAMOWL_LOWER(t)], rates[GINGHAMOWL_UPPER(t)]);
}

static void print_figure(const char *name, ginghamowl_bracket b)
{
    printf("%-2s  %12" PRIu64 ".%02u  %12" PRIu64 ".%02u\n", name, b.lower / 100, (unsigned)(b.lower % 100),
           b.upper / 100, (unsigned)(b.upper % 100));
}

static void print_figures(const ginghamowl_figures *figures)
{
    puts("\n    lower, in euros  upper, in euros");
    print_figure("L", figures->l);
    print_figure("B", figures->b);
    print_figure("A", figures->a);
    print_figure("S1", figures->s1);
    print_figure("S2", figures->s2);
    print_figure("S3", figures->s3);
    print_figure("S4", figures->s4);
    print_figure("S5", figures->s5);
    print_figure("S6", figures->s6);
    print_figure("S", figures->s);
}

/* Values the file and prints the answer. Returns the exit status. */
static int value_file(const char *path)
{
    static uint8_t file[MOST_BYTES];
    static uint64_t factors[GINGHAMOWL_ENTRIES];
    static int64_t rates[GINGHAMOWL_ENTRIES];
    size_t length = 0;
    ginghamowl_valuation v;
    int why = read_file(path, file, &length);

    if (why != 0) {
        fprintf(stderr, "%s: %s\n", path, strerror(why));
        return NO_ANSWER;
    }
    v = ginghamowl_value(file, length, factors, GINGHAMOWL_ENTRIES, rates, GINGHAMOWL_ENTRIES);
    if (v.refusal != GINGHAMOWL_ACCEPTED) {
        printf("refused, %u: %s\n", (unsigned)v.refusal, ginghamowl_refusal_sentence(v.refusal));
        return REFUSED;
    }
    print_curve(factors, rates);
    print_figures(&v.figures);
    printf("\n%s\n", ginghamowl_verdict_word(v.verdict));
    return VALUED;
}

int main(int argc, char **argv)
{
    int status = VALUED;

    signal(SIGPIPE, SIG_IGN); /* a closed pipe is lost output like any other, and no silent end */
    if (argc != 2) {
        fprintf(stderr, "usage: %s FILE | --version   (- reads standard input)\n", argv[0]);
        return NO_ANSWER;
    }
    if (strcmp(argv[1], "--version") == 0)
        puts("ginghamowl " GINGHAMOWL_VERSION);
    else
        status = value_file(argv[1]);
    /* ferror: an earlier write may have failed, and the flush have nothing left to write. */
    if (fflush(stdout) != 0 || ferror(stdout)) {
        perror("standard output");
        return NO_ANSWER;
    }
    return status;
}
