#include <stdio.h>
#include <stdlib.h>
#include "plombrisa.h"

int main(void) {
    const uint8_t left[15] = {9, 1, 4, 7, 2, 9, 1, 4, 7, 2, 9, 1, 4, 7, 2};
    const uint8_t right[15] = {1, 4, 7, 2, 5, 1, 4, 7, 2, 5, 1, 4, 7, 2, 5};
    float map[15];
    size_t whole_cells = plombrisa_whole_cells(5, 3);
    size_t float_cells = plombrisa_float_cells(5, 3, 2, false);
    uint64_t *whole_room = (uint64_t *)calloc(whole_cells, sizeof *whole_room);    /* rooms: scratch memory, lent to the call */
    float *float_room = (float *)calloc(float_cells, sizeof *float_room);
    if (whole_room == NULL || float_room == NULL) return 1;
    uint32_t number = plombrisa_match_block(
        left, 15, 5, 3, right, 15, 5, 3,               /* two pictures of 5 by 3 */
        0, 2, 3, 0.5f, 0.03f, true, 1.0f, true,        /* disparities 0 and 1, block 3; the gates, left-right, sub-pixel */
        false, 0.1f, 1.5f,                             /* a block map; the penalties are for semi-global ones */
        map, 15, whole_room, whole_cells, float_room, float_cells);
    free(whole_room);
    free(float_room);
    if (number != PLOMBRISA_DONE) {
        printf("refused, %u: %s\n", (unsigned)number, plombrisa_reason(number));
        return 1;
    }
    printf("disparity at (2, 1): %g\n", map[1 * 5 + 2]);
    return 0;
}
