/* What the library says of itself. */
#include "guard.h"

/* The library's own is that of the header, and its kit is a text with nothing but zeros after it. */
void test_version(void)
{
    ginghamowl_engine_version told = ginghamowl_version();
    char kit[sizeof told.kit] = GINGHAMOWL_KIT;
    char text[64];

    snprintf(text, sizeof text, "%u.%u.%u", (unsigned)told.major, (unsigned)told.minor, (unsigned)told.patch);
    CHECK(strcmp(text, GINGHAMOWL_VERSION) == 0);
    CHECK(told.major == GINGHAMOWL_VERSION_MAJOR);
    CHECK(told.minor == GINGHAMOWL_VERSION_MINOR);
    CHECK(told.patch == GINGHAMOWL_VERSION_PATCH);
    CHECK(told.kit[0] != 0 && told.kit[sizeof told.kit - 1] == 0);
    CHECK(memcmp(told.kit, kit, sizeof kit) == 0);
}
