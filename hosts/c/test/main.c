/* Hostile calls of the engine's functions. Every buffer is lent between guards, every file and every list is in memory of exactly its
 * length (so that valgrind sees a byte read too many), and lengths are right, short, long and 0.
 *
 * Each topic has a file of its own and a line in topics.h. What several topics need has a header: guard.h, files.h, cases.h, saving.h,
 * rolling.h, months.h, and common.h, which the fuzzer has too.
 *
 * Prints 'c: N checks, 0 failed' and has exit status 0, or says what failed.
 */
#include "guard.h"

int main(void)
{
#define TOPIC(name) test_##name();
#include "topics.h"
#undef TOPIC
    return told() ? 0 : 1;
}
