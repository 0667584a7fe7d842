/* The functions that the library exports. A slice is its pointer and then its length; its cells may not be shared with another
 * slice of the same call that is written. Every number that is answered is 0 or the number of a refusal, which leaves every
 * lent cell as it was. The library asks for no memory of its own: a room is scratch memory that the caller lends for the time of the
 * call. What stands in a room before the call does not matter, and after it the caller may use it again or free it.
 * docs/STATEMENTS.md of the repository says where each statement is proved. The text is C11 and C++17. */
#ifndef PLOMBRISA_H
#define PLOMBRISA_H

#include <stdbool.h>
#include <stddef.h>
#include <stdint.h>

/* The version of this header, for the preprocessor; plombrisa_version answers that of the library that is linked. */
#define PLOMBRISA_VERSION_MAJOR 0
#define PLOMBRISA_VERSION_MINOR 1
#define PLOMBRISA_VERSION_PATCH 0
#define PLOMBRISA_VERSION "0.1.0"

#ifdef __cplusplus
extern "C" {
#endif

/* Names for the numbers that are answered. The functions answer uint32_t and not this enum, whose size is the compiler's choice; a
 * case of it can be compared with an answer as it is. plombrisa_reason has the sentence of each. */
enum plombrisa_refusal {
    PLOMBRISA_DONE = 0, /* not refused */

    /* two pictures and how they are matched */
    PLOMBRISA_SIZE_OUT_OF_RANGE = 1,
    PLOMBRISA_BYTE_COUNT = 2,
    PLOMBRISA_SIZES_DIFFER = 3,
    PLOMBRISA_BLOCK_EVEN = 4,
    PLOMBRISA_BLOCK_TOO_LARGE = 5,
    PLOMBRISA_COUNT_NOT_POSITIVE = 6,
    PLOMBRISA_COUNT_TOO_LARGE = 7,
    PLOMBRISA_PICTURE_SMALLER_THAN_BLOCK = 8,
    PLOMBRISA_FIRST_OUT_OF_RANGE = 9,
    PLOMBRISA_PENALTY_OUT_OF_RANGE = 10,
    PLOMBRISA_PENALTIES_REVERSED = 13,
    PLOMBRISA_OUTPUT_LENGTH = 11,
    PLOMBRISA_ROOM_TOO_SHORT = 12,

    /* cameras, maps, points, single pixels and the index of rows */
    PLOMBRISA_CAMERA_OUT_OF_RANGE = 21,
    PLOMBRISA_BASELINE_OUT_OF_RANGE = 22,
    PLOMBRISA_MAP_SIZE = 23,
    PLOMBRISA_LIST_TOO_SHORT = 24,
    PLOMBRISA_COORDINATE_NAN = 25,
    PLOMBRISA_PIXEL_OUTSIDE = 26,
    PLOMBRISA_INDEX_LENGTH = 28,

    /* sheets */
    PLOMBRISA_CELL_INFINITE = 31,
    PLOMBRISA_CELL_NOT_WHOLE = 32,
    PLOMBRISA_OUTPUT_TOO_SHORT = 33,
    PLOMBRISA_NUMBER_UNFIT = 34,
    PLOMBRISA_VERSION_OR_KIND_UNKNOWN = 35,
    PLOMBRISA_SHEET_SIZE = 36,
    PLOMBRISA_CELL_NUMBER = 37,
    PLOMBRISA_BYTES_LEFT_OVER = 38,

    /* PGM and PFM files */
    PLOMBRISA_FILE_HEADER = 41,
    PLOMBRISA_FILE_MAXIMUM = 42,
    PLOMBRISA_FILE_SIZE = 43,
    PLOMBRISA_FILE_DATA = 44,
    PLOMBRISA_FILE_OUTPUT = 45,

    /* a heap's volume */
    PLOMBRISA_CELL_SIDE = 51,
    PLOMBRISA_DISTANCE_OUT_OF_RANGE = 52,
    PLOMBRISA_RECTANGLE_SIDES = 53,
    PLOMBRISA_TOO_MANY_CELLS = 54,
    PLOMBRISA_GRID_LENGTH = 55
};

/* Four helpers in plain C, which are tested and not proved. They stand in plombrisa.c: the installed libraries hold them, and a
 * program that links the archive of the repository, target/staticlib/libplombrisa.a, compiles that file too. */

/* How many cells the rooms of a match need: numbers of uint64_t in whole_room, of float in float_room. A number of disparities that
 * is not positive counts as 0; the match refuses it. The answer is SIZE_MAX, and no room is that long, where the count does not fit. */
size_t plombrisa_whole_cells(size_t width, size_t height);
size_t plombrisa_float_cells(size_t width, size_t height, int32_t num_disparities, bool semi_global);

/* The sentence for a number that was answered, without a full stop: "done" for 0, "no such number" for one that is not in the enum.
 * It is never NULL, and it is not to be freed. */
const char *plombrisa_reason(uint32_t number);

/* The version of the library, "0.1.0": the PLOMBRISA_VERSION that it was compiled with. */
const char *plombrisa_version(void);

/* All that follows is proved. */

/* The map of two pictures: cell (x, y) in cell y*w + x of out, a NaN where it is blank. whole_room needs 5(w+1)(h+1) cells,
 * which is what plombrisa_whole_cells answers, and float_room V + w*h, or 3V + w*h in semi-global mode, with V =
 * num_disparities*w*h, which is what plombrisa_float_cells answers. In semi-global mode the penalties are from 0 to 1,024, and sgm_p2
 * is not below sgm_p1. */
uint32_t plombrisa_match_block(
    const uint8_t *left, size_t left_len, size_t left_width, size_t left_height,
    const uint8_t *right, size_t right_len, size_t right_width, size_t right_height,
    int32_t min_disparity, int32_t num_disparities, size_t block_size,
    float min_correlation, float uniqueness_ratio, bool lr_consistency, float lr_max_diff, bool subpixel,
    bool semi_global, float sgm_p1, float sgm_p2,
    float *out, size_t out_len, uint64_t *whole_room, size_t whole_len, float *float_room, size_t float_len);

/* The raw costs from one side: index k of pixel (x, y) in cell k*w*h + y*w + x of out, negative infinity where it is blank. The room
 * is as long as a match's whole_room. */
uint32_t plombrisa_raw_volume(
    const uint8_t *left, size_t left_len, size_t left_width, size_t left_height,
    const uint8_t *right, size_t right_len, size_t right_width, size_t right_height,
    int32_t min_disparity, int32_t num_disparities, size_t block_size, bool from_right,
    float *out, size_t out_len, uint64_t *whole_room, size_t whole_len);

/* The level of one pixel, and a picture read between pixels. */
uint32_t plombrisa_pixel(
    const uint8_t *pic, size_t pic_len, size_t width, size_t height, size_t x, size_t y, uint8_t *level);
uint32_t plombrisa_bilinear(
    const uint8_t *pic, size_t pic_len, size_t width, size_t height, double x, double y, double *value);

/* A map's figures: how many cells are valid; how many of a thousand cells of the inner frame are, rounded down; and the least and
 * greatest valid number (some is 0, and the two are left as they were, where no cell is valid). The inner frame holds the cells
 * that lie block_size / 2 or more from every edge: nothing else of a map can hold a match. */
uint32_t plombrisa_valid_count(const float *cells, size_t cells_len, size_t width, size_t height, uint64_t *count);
uint32_t plombrisa_cover(
    const float *cells, size_t cells_len, size_t width, size_t height, size_t block_size, uint64_t *permille);
uint32_t plombrisa_valid_range(
    const float *cells, size_t cells_len, size_t width, size_t height, uint32_t *some, float *least, float *greatest);

/* The point of a pixel and a disparity, in the rectified left camera's frame; false, and nothing written, where there is none.
 * The intrinsics are taken as they are. */
bool plombrisa_rectified_point(
    double fx, double fy, double cx, double cy, double baseline, double x, double y, double disparity,
    double *px, double *py, double *pz);

/* What the list holds of a cell that gives a point: the point, the pixel and the disparity. */
typedef struct {
    double x, y, z;
    size_t column, row;
    double disparity;
} plombrisa_point_record;

/* Writes the record of each valid positive cell, rows first; count is how many. Records beyond them are left as they were. */
uint32_t plombrisa_points(
    const float *cells, size_t cells_len, size_t width, size_t height,
    double fx, double fy, double cx, double cy, double baseline,
    plombrisa_point_record *list, size_t list_len, uint64_t *count);

/* A sheet, a map stored as bytes: kind 0 holds whole disparities from -8192 to 8192, kind 1 any finite f32, and a NaN is stored
 * as the mark. The first answers how many bytes the sheet takes; the second writes them, with their number in count, and leaves
 * those beyond as they were. */
uint32_t plombrisa_sheet_length(
    const float *cells, size_t cells_len, size_t width, size_t height, uint64_t kind, uint64_t *count);
uint32_t plombrisa_write_sheet(
    const float *cells, size_t cells_len, size_t width, size_t height, uint64_t kind,
    uint8_t *out, size_t out_len, uint64_t *count);

/* The kind and the size of a sheet, and with the second its map too, a NaN for each mark, into w*h cells. Both judge every byte;
 * only the length of out is left to the second. */
uint32_t plombrisa_sheet_size(
    const uint8_t *sheet, size_t sheet_len, uint64_t *kind, uint64_t *width, uint64_t *height);
uint32_t plombrisa_read_sheet(
    const uint8_t *sheet, size_t sheet_len, float *out, size_t out_len, uint64_t *kind, uint64_t *width, uint64_t *height);

/* A PGM file (Netpbm's P5 with a maximum of 255): its size, and with the second its levels too, the top row first, into w*h bytes.
 * Both judge every byte; only the length of out is left to the second. */
uint32_t plombrisa_pgm_size(const uint8_t *file, size_t file_len, uint64_t *width, uint64_t *height);
uint32_t plombrisa_read_pgm(
    const uint8_t *file, size_t file_len, uint8_t *out, size_t out_len, uint64_t *width, uint64_t *height);

/* A map as a PFM file, little-endian, a NaN as plus infinity. The first answers how many bytes the file takes; the second writes
 * them, with their number in count, and leaves those beyond as they were. */
uint32_t plombrisa_pfm_length(const float *cells, size_t cells_len, size_t width, size_t height, uint64_t *count);
uint32_t plombrisa_write_pfm(
    const float *cells, size_t cells_len, size_t width, size_t height, uint8_t *out, size_t out_len, uint64_t *count);

/* The size of a PFM file of either byte order, and with the second its map too, the top row first, a NaN for each cell that is not
 * finite, into w*h cells. Both judge every byte; only the length of out is left to the second. */
uint32_t plombrisa_pfm_size(const uint8_t *file, size_t file_len, uint64_t *width, uint64_t *height);
uint32_t plombrisa_read_pfm(
    const uint8_t *file, size_t file_len, float *out, size_t out_len, uint64_t *width, uint64_t *height);

/* A heap over a rectangle of ground, whose low edges are left and top (x to the right, y downwards, as in the pictures), cut into
 * square cells; edges, the cell's side and the floor's depth are in whole millimetres. The first answers how many cells a row has
 * and how many rows there are. The second takes points in metres, a list for each coordinate, and writes the greatest height of
 * the points in each cell, in millimetres, 0 where there are none, by rows into columns*rows numbers; the volume in cubic
 * millimetres; how many points lie inside the rectangle and outside; and how many cells have no point. */
uint32_t plombrisa_heap_shape(
    int64_t left, int64_t right, int64_t top, int64_t bottom, size_t cell, int64_t floor, uint64_t *columns, uint64_t *rows);
uint32_t plombrisa_heap_volume(
    const double *xs, size_t xs_len, const double *ys, size_t ys_len, const double *zs, size_t zs_len,
    int64_t left, int64_t right, int64_t top, int64_t bottom, size_t cell, int64_t floor,
    uint64_t *grid, size_t grid_len, uint64_t *volume, uint64_t *inside, uint64_t *outside, uint64_t *empty);

/* What the index beside a map holds of one row: how many of its cells are valid, and the least and the greatest of those, which are
 * NaN, the mark, where none is. */
typedef struct plombrisa_row_record {
    size_t count;
    float least;
    float greatest;
} plombrisa_row_record;

/* The index has one record for each row, from the first row on. The first works it out from the cells. The second edits one cell, a
 * NaN being the mark, and works out the record of its row, and of no other: it reads one row, not the map. */
uint32_t plombrisa_fresh_index(
    const float *cells, size_t cells_len, size_t width, size_t height, plombrisa_row_record *index, size_t index_len);
uint32_t plombrisa_edit_cell(
    float *cells, size_t cells_len, size_t width, size_t height, size_t x, size_t y, float value,
    plombrisa_row_record *index, size_t index_len);

/* A check on the vendor's matcher: passed is 1, and x and y are left as they were, where every finite cell of a map of the pictures'
 * size is a disparity of the searched range whose raw cost, the left picture being the reference, is not blank, is not below
 * min_correlation and is not beaten by that of another disparity; else passed is 0, and (x, y) is the first cell by rows that is not
 * so. whole_room needs 5(w+1)(h+1) cells. */
uint32_t plombrisa_check_vendor(
    const uint8_t *left, size_t left_len, size_t left_width, size_t left_height,
    const uint8_t *right, size_t right_len, size_t right_width, size_t right_height,
    int32_t min_disparity, int32_t num_disparities, size_t block_size, float min_correlation,
    const float *map, size_t map_len, size_t map_width, size_t map_height,
    uint64_t *whole_room, size_t whole_len, uint32_t *passed, uint64_t *x, uint64_t *y);

#ifdef __cplusplus
}
#endif

#endif
