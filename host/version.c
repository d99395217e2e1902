/* The version of the library: that of the header which it was built with. */
#include <hernganow.h>

const char *hernganow_version(void)
{
    return HERNGANOW_VERSION;
}
