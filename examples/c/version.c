/* The version of the header and that of the archive. The guard is called by a name that is made of the macros, so that
 * this file compiles only where they agree with the name that unit.h declares. */
#include "unit.h"
#include <stdio.h>

#define ABI_NAMED(major, minor) unit_abi_##major##_##minor
#define ABI_OF(major, minor) ABI_NAMED(major, minor)

int main(void) {
    uint32_t guard = ABI_OF(UNIT_VERSION_MAJOR, UNIT_VERSION_MINOR)();
    printf("header %u.%u.%u, archive %u.%u.%u\n", UNIT_VERSION >> 16, UNIT_VERSION >> 8 & 255, UNIT_VERSION & 255,
           (unsigned)(unit_version() >> 16), (unsigned)(unit_version() >> 8 & 255), (unsigned)(unit_version() & 255));
    return unit_version() == UNIT_VERSION && guard == UNIT_VERSION ? 0 : 1;
}
