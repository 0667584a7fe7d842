/* The helpers of plombrisa.h that are not proved: how long rooms are, the sentence for a number, the version. C11 and C++17. */
#include "plombrisa.h"

/* The sentence of one number. */
struct told {
    uint32_t number;
    const char *sentence;
};

static const struct told table[] = {
    {PLOMBRISA_DONE, "done"},
    {PLOMBRISA_SIZE_OUT_OF_RANGE, "a picture's width or height is outside 1 to 2,048"},
    {PLOMBRISA_BYTE_COUNT, "a picture's byte count is not its width times its height"},
    {PLOMBRISA_SIZES_DIFFER, "the two pictures are not of one size"},
    {PLOMBRISA_BLOCK_EVEN, "the block's side is zero or even"},
    {PLOMBRISA_BLOCK_TOO_LARGE, "the block's side is over 31"},
    {PLOMBRISA_COUNT_NOT_POSITIVE, "the number of disparities is zero or negative"},
    {PLOMBRISA_COUNT_TOO_LARGE, "the number of disparities is over 256"},
    {PLOMBRISA_PICTURE_SMALLER_THAN_BLOCK, "the pictures are narrower or lower than the block"},
    {PLOMBRISA_FIRST_OUT_OF_RANGE, "the first disparity is outside -4,096 to 4,096"},
    {PLOMBRISA_PENALTY_OUT_OF_RANGE, "a penalty is not finite or outside 0 to 1,024"},
    {PLOMBRISA_PENALTIES_REVERSED, "the penalty sgm_p2 is below sgm_p1"},
    {PLOMBRISA_OUTPUT_LENGTH, "the output's length does not fit"},
    {PLOMBRISA_ROOM_TOO_SHORT, "a room is too short"},
    {PLOMBRISA_CAMERA_OUT_OF_RANGE, "fx or fy is not finite and positive, or cx or cy is not finite"},
    {PLOMBRISA_BASELINE_OUT_OF_RANGE, "the baseline is not finite or not over 1e-12"},
    {PLOMBRISA_MAP_SIZE, "the map's width or height is outside 1 to 2,048 or not the pictures', or its length does not fit them"},
    {PLOMBRISA_LIST_TOO_SHORT, "the list is shorter than the points to write"},
    {PLOMBRISA_COORDINATE_NAN, "a coordinate is NaN"},
    {PLOMBRISA_PIXEL_OUTSIDE, "the pixel is outside the picture or the map"},
    {PLOMBRISA_INDEX_LENGTH, "the index's length is not the number of rows"},
    {PLOMBRISA_CELL_INFINITE, "a cell is infinite"},
    {PLOMBRISA_CELL_NOT_WHOLE, "a cell is minus zero, a fraction, or outside -8,192 to 8,192"},
    {PLOMBRISA_OUTPUT_TOO_SHORT, "the output is too short for the sheet"},
    {PLOMBRISA_NUMBER_UNFIT, "a number of the sheet is cut, not in its shortest form, or has more than five groups"},
    {PLOMBRISA_VERSION_OR_KIND_UNKNOWN, "the sheet's version or kind is unknown"},
    {PLOMBRISA_SHEET_SIZE, "the sheet's width or height is outside 1 to 2,048"},
    {PLOMBRISA_CELL_NUMBER, "the sheet has a number that no cell has"},
    {PLOMBRISA_BYTES_LEFT_OVER, "the sheet has bytes left over"},
    {PLOMBRISA_FILE_HEADER, "the file's header is not one of its format"},
    {PLOMBRISA_FILE_MAXIMUM, "the file's maximum is not 255"},
    {PLOMBRISA_FILE_SIZE, "the file's width or height is outside 1 to 2,048"},
    {PLOMBRISA_FILE_DATA, "the file's data are cut, or bytes are left over"},
    {PLOMBRISA_FILE_OUTPUT, "the output's length does not fit the file"},
    {PLOMBRISA_CELL_SIDE, "the cell's side is outside 10 to 10,000 mm"},
    {PLOMBRISA_DISTANCE_OUT_OF_RANGE,
     "a coordinate is not finite, or it, an edge or the floor's depth is over 100,000 mm in size, or the coordinates' "
     "lists are not of one length"},
    {PLOMBRISA_RECTANGLE_SIDES, "the rectangle's sides are not positive whole multiples of the cell's"},
    {PLOMBRISA_TOO_MANY_CELLS, "the rectangle has more than 65,536 cells"},
    {PLOMBRISA_GRID_LENGTH, "the grid's length is not the number of cells"}
};

/* The product and the sum of two counts, SIZE_MAX where they do not fit. */
static size_t times(size_t a, size_t b) { return b != 0 && a > SIZE_MAX / b ? SIZE_MAX : a * b; }
static size_t plus(size_t a, size_t b) { return a > SIZE_MAX - b ? SIZE_MAX : a + b; }

size_t plombrisa_whole_cells(size_t width, size_t height) {
    return times(5, times(plus(width, 1), plus(height, 1)));
}

size_t plombrisa_float_cells(size_t width, size_t height, int32_t num_disparities, bool semi_global) {
    const size_t area = times(width, height);
    const size_t volume = times(num_disparities > 0 ? (size_t)num_disparities : 0, area);
    return plus(semi_global ? times(3, volume) : volume, area);
}

const char *plombrisa_reason(uint32_t number) {
    for (size_t i = 0; i < sizeof table / sizeof table[0]; i++) {
        if (table[i].number == number) return table[i].sentence;
    }
    return "no such number";
}

const char *plombrisa_version(void) {
    return PLOMBRISA_VERSION;
}
