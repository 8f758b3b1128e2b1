/* The engine's boundary under libFuzzer: each input is a case file, and is answered with lent buffers of several lengths. The case
 * of an accepted one is saved, and what was saved is answered too. Each input is also a rolling window, and a history of months. Each
 * of these is a topic, with a file of its own and a line in topics.h. What several topics need is in guard.h, cases.h, and common.h,
 * which the test has too. Since changed bytes seldom give a file that is accepted, a quarter of the inputs are files of drawn cases.
 *
 * The archive carries no instrumentation, so the fuzzer sees nothing of the engine's branches. What it sees is the answer: a
 * counter for each refusal, verdict and length with either days field, and for each kind of rolling window and of history
 * (ANSWERS), so that it keeps a file of each kind and goes on from there.
 *
 * At the end it says how many inputs were accepted with either days field, and how many of both had a correlation between the equity
 * classes. It fails where there were many inputs and one of the three fields had none.
 *
 * Every buffer ends where a page begins that nobody may touch: an entry read or written too many ends the run at once.
 */
#include <stdio.h>
#include <stdlib.h>
#include <unistd.h>

#include "guard.h"

int LLVMFuzzerInitialize(int *argc, char ***argv);
int LLVMFuzzerTestOneInput(const uint8_t *data, size_t size);

/* All inputs, and those that were accepted: with either days field, and with the field of bit 8. */
static unsigned long inputs, accepted_in[FORMS], accepted_with_equity;

/* Says how many inputs were accepted. A run of many inputs fails that reached no case with one of these fields: it has shown nothing
 * of it. */
static void tell_accepted(void)
{
    enum { MANY = 1000 };
    const char *missing = accepted_in[0] == 0 ? "days in two bytes" : accepted_in[1] == 0 ? "days in four bytes"
        : accepted_with_equity == 0 ? "a correlation between the equity classes" : NULL;

    fprintf(stderr, "fuzz: %lu inputs, accepted with days in two bytes %lu, in four bytes %lu, of both with an equity correlation %lu\n",
            inputs, accepted_in[0], accepted_in[1], accepted_with_equity);
    if (inputs >= MANY && missing != NULL) {
        fprintf(stderr, "fuzz: failed: no input was accepted with %s\n", missing);
        _exit(1);
    }
}

int LLVMFuzzerInitialize(int *argc, char ***argv)
{
    (void)argc;
    (void)argv;
    REQUIRE(atexit(tell_accepted) == 0);
    return 0;
}

int LLVMFuzzerTestOneInput(const uint8_t *data, size_t size)
{
    uint8_t *file = lend_copy(data, size);
    fuzz_input in = {file, size, size > 1 && file[1] >> 7, ginghamowl_refusal(file, size) == GINGHAMOWL_ACCEPTED};

#define TOPIC(name) fuzz_##name(in);
#include "topics.h"
#undef TOPIC
    inputs++;
    accepted_in[in.form] += in.accepted;
    accepted_with_equity += in.accepted && file[0] & 1;
    take_back(file, size);
    return 0;
}
