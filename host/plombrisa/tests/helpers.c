/* Prints what the helpers of plombrisa.c answer, for a test to read: the version; the sentence of each number from 0 to 99 and of the
 * greatest; and for each four words, width, height, disparities and 1 for semi-global, the cells of the two rooms. C11 and C++17. */
#include <inttypes.h>
#include <stdio.h>
#include <stdlib.h>
#include "plombrisa.h"

static void print_reason(uint32_t number) {
    printf("%" PRIu32 " %s\n", number, plombrisa_reason(number));
}

int main(int count, char **words) {
    printf("%s %d.%d.%d\n", plombrisa_version(), PLOMBRISA_VERSION_MAJOR, PLOMBRISA_VERSION_MINOR, PLOMBRISA_VERSION_PATCH);
    for (uint32_t number = 0; number < 100; number++) print_reason(number);
    print_reason(UINT32_MAX);
    for (int at = 1; at + 3 < count; at += 4) {
        const size_t width = strtoull(words[at], NULL, 10), height = strtoull(words[at + 1], NULL, 10);
        const int32_t disparities = (int32_t)strtol(words[at + 2], NULL, 10);
        const bool semi_global = words[at + 3][0] == '1';
        printf("%zu %zu\n", plombrisa_whole_cells(width, height), plombrisa_float_cells(width, height, disparities, semi_global));
    }
    return 0;
}
