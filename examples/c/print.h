/* Prints bytes as numbers, for the examples whose output is compared. */
#include <stdint.h>
#include <stdio.h>

static void bytes(const char *what, const uint8_t *b, size_t n) {
    printf("%s:", what);
    for (size_t i = 0; i < n; i++) printf(" %d", b[i]);
    puts("");
}
