/* Calls each export as the header declares it, and exits with the number of the first that answers otherwise than it should. The text is
 * C11 and C++17. FIRST_MOST, the greatest first disparity, is given by whoever compiles it. */
#include <math.h>
#include <string.h>
#include "plombrisa.h"

typedef struct {
    uint32_t passed;
    uint64_t x, y;
} verdict;

/* The check of a map of one pair of 5 by 3 pixels, with two disparities and block 3. */
static uint32_t checked(
    int32_t first, float least, const float *map, size_t map_len, size_t width, size_t height,
    uint64_t *room, size_t room_len, verdict *at) {
    const uint8_t left[15] = {9, 1, 4, 7, 2, 9, 1, 4, 7, 2, 9, 1, 4, 7, 2}, right[15] = {1, 4, 7, 2, 5, 1, 4, 7, 2, 5, 1, 4, 7, 2, 5};
    return plombrisa_check_vendor(
        left, 15, 5, 3, right, 15, 5, 3, first, 2, 3, least, map, map_len, width, height, room, room_len, &at->passed, &at->x, &at->y);
}

/* The match of one picture of 2 by 2 pixels with itself, with one disparity and block 1. */
static uint32_t matched(bool semi_global, float p1, float p2, float *out, uint64_t *whole, float *room, size_t room_len) {
    const uint8_t picture[4] = {10, 20, 30, 40};
    return plombrisa_match_block(
        picture, 4, 2, 2, picture, 4, 2, 2, 0, 1, 1, 0.5f, 0.03f, false, 1, true, semi_global, p1, p2, out, 4, whole, 45, room, room_len);
}

int main(void) {
    const uint8_t picture[4] = {10, 20, 30, 40};
    uint8_t level = 0;
    double value = 0;
    if (plombrisa_pixel(picture, 4, 2, 2, 1, 0, &level) != 0 || level != 20) return 1;
    if (plombrisa_bilinear(picture, 4, 2, 2, 0.5, 0.5, &value) != 0 || value != 25) return 2;
    if (plombrisa_pixel(picture, 4, 2, 2, 2, 0, &level) != 26 || level != 20) return 3;

    const float cells[4] = {NAN, 4, 2, NAN};
    uint64_t number = 0;
    if (plombrisa_valid_count(cells, 4, 2, 2, &number) != 0 || number != 2) return 4;
    if (plombrisa_cover(cells, 4, 2, 2, 1, &number) != 0 || number != 500) return 5;
    if (plombrisa_cover(cells, 4, 2, 2, 3, &number) != 8 || number != 500) return 5;
    uint32_t some = 0;
    float least = 0, greatest = 0;
    if (plombrisa_valid_range(cells, 4, 2, 2, &some, &least, &greatest) != 0 || some != 1 || least != 2 || greatest != 4) return 6;

    double x, y, z;
    if (!plombrisa_rectified_point(800, 800, 320, 240, 0.125, 360, 200, 4, &x, &y, &z)) return 7;
    if (x != 1.25 || y != -1.25 || z != 25) return 8;

    plombrisa_point_record list[3];
    memset(list, 0, sizeof list);
    list[2].disparity = 7;
    if (plombrisa_points(cells, 4, 2, 2, 1, 1, 0, 0, 8, list, 3, &number) != 0 || number != 2) return 9;
    if (list[0].column != 1 || list[0].row != 0 || list[0].disparity != 4 || list[0].z != 2 || list[0].x != 2) return 10;
    if (list[1].column != 0 || list[1].row != 1 || list[1].disparity != 2 || list[1].z != 4 || list[1].y != 4) return 11;
    if (list[2].disparity != 7) return 12;

    float volume[4 * 1];
    uint64_t room[5 * 3 * 3];
    if (plombrisa_raw_volume(picture, 4, 2, 2, picture, 4, 2, 2, 0, 1, 1, true, volume, 4, room, 45) != 0) return 13;
    if (volume[0] != -INFINITY || room[0] != 0 || room[44] != 0) return 14;

    /* 4 by 1, so that kind, width and height are three numbers and cannot stand for each other */
    const float row[4] = {NAN, 4, -1, 0};
    const uint8_t stored[8] = {1, 0, 4, 1, 0, 9, 2, 1};
    uint8_t sheet[9] = {0, 0, 0, 0, 0, 0, 0, 0, 77};
    if (plombrisa_sheet_length(row, 4, 4, 1, 0, &number) != 0 || number != 8) return 15;
    number = 7;
    if (plombrisa_write_sheet(row, 4, 4, 1, 0, sheet, 7, &number) != 33 || number != 7 || sheet[0] != 0) return 16;
    if (plombrisa_write_sheet(row, 4, 4, 1, 0, sheet, 9, &number) != 0 || number != 8) return 17;
    if (memcmp(sheet, stored, 8) != 0 || sheet[8] != 77) return 18;

    uint64_t kind = 7, width = 7, height = 7;
    if (plombrisa_sheet_size(sheet, 9, &kind, &width, &height) != 38 || kind != 7 || width != 7 || height != 7) return 19;
    if (plombrisa_sheet_size(sheet, 8, &kind, &width, &height) != 0 || kind != 0 || width != 4 || height != 1) return 20;
    float back[4] = {7, 7, 7, 7};
    kind = width = height = 7;
    if (plombrisa_read_sheet(sheet, 8, back, 3, &kind, &width, &height) != 11 || kind != 7 || back[0] != 7) return 21;
    if (plombrisa_read_sheet(sheet, 8, back, 4, &kind, &width, &height) != 0 || kind != 0 || width != 4 || height != 1) return 22;
    if (!isnan(back[0]) || back[1] != 4 || back[2] != -1 || back[3] != 0) return 23;

    const uint8_t pgm[] = "P5\n3 2\n255\nabcdef";
    const size_t pgm_len = sizeof pgm - 1;
    uint8_t levels[7] = {7, 7, 7, 7, 7, 7, 77};
    width = height = 7;
    if (plombrisa_pgm_size(pgm, pgm_len - 1, &width, &height) != 44 || width != 7 || height != 7) return 24;
    if (plombrisa_pgm_size(pgm, pgm_len, &width, &height) != 0 || width != 3 || height != 2) return 25;
    width = height = 7;
    if (plombrisa_read_pgm(pgm, pgm_len, levels, 7, &width, &height) != 45 || width != 7 || levels[0] != 7) return 26;
    if (plombrisa_read_pgm(pgm, pgm_len, levels, 6, &width, &height) != 0 || width != 3 || height != 2) return 27;
    if (memcmp(levels, "abcdef", 6) != 0 || levels[6] != 77) return 28;

    const float two_rows[6] = {NAN, 4, -1, 0, 1, 2};
    uint8_t pfm[37];
    memset(pfm, 77, sizeof pfm);
    if (plombrisa_pfm_length(two_rows, 6, 3, 2, &number) != 0 || number != 36) return 29;
    number = 7;
    if (plombrisa_write_pfm(two_rows, 6, 2, 2, pfm, 37, &number) != 23 || number != 7 || pfm[0] != 77) return 30;
    if (plombrisa_write_pfm(two_rows, 6, 3, 2, pfm, 35, &number) != 45 || number != 7 || pfm[0] != 77) return 31;
    if (plombrisa_write_pfm(two_rows, 6, 3, 2, pfm, 37, &number) != 0 || number != 36 || pfm[36] != 77) return 32;
    const uint8_t blank[4] = {0, 0, 0x80, 0x7F};
    if (memcmp(pfm, "Pf\n3 2\n-1.0\n\0\0\0", 15) != 0 || memcmp(pfm + 24, blank, 4) != 0) return 33;

    float rows[6] = {7, 7, 7, 7, 7, 7};
    width = height = 7;
    if (plombrisa_pfm_size(pfm, 37, &width, &height) != 44 || width != 7 || height != 7) return 34;
    if (plombrisa_pfm_size(pfm, 36, &width, &height) != 0 || width != 3 || height != 2) return 35;
    width = height = 7;
    if (plombrisa_read_pfm(pfm, 36, rows, 5, &width, &height) != 45 || width != 7 || rows[0] != 7) return 36;
    if (plombrisa_read_pfm(pfm, 36, rows, 6, &width, &height) != 0 || width != 3 || height != 2) return 37;
    if (!isnan(rows[0]) || rows[1] != 4 || rows[2] != -1 || rows[3] != 0 || rows[4] != 1 || rows[5] != 2) return 38;

    /* six cells, and points in the first, lower in the first, in the last, and on the right edge: four figures that are four numbers */
    const double xs[4] = {0, 0.009, 0.025, 0.03}, ys[4] = {0, 0.009, 0.01, 0.01}, zs[4] = {0.9, 0.95, 0.8, 0.8};
    uint64_t columns = 7, cell_rows = 7;
    if (plombrisa_heap_shape(0, 31, 0, 20, 10, 1000, &columns, &cell_rows) != 53 || columns != 7 || cell_rows != 7) return 39;
    if (plombrisa_heap_shape(0, 30, 0, 20, 10, 1000, &columns, &cell_rows) != 0 || columns != 3 || cell_rows != 2) return 40;
    uint64_t grid[7] = {7, 7, 7, 7, 7, 7, 77}, measured = 7, inside = 7, outside = 7, empty = 7;
    if (plombrisa_heap_volume(xs, 4, ys, 4, zs, 3, 0, 30, 0, 20, 10, 1000, grid, 6, &measured, &inside, &outside, &empty) != 52) return 41;
    if (plombrisa_heap_volume(xs, 4, ys, 4, zs, 4, 0, 30, 0, 20, 10, 1000, grid, 7, &measured, &inside, &outside, &empty) != 55) return 42;
    if (grid[0] != 7 || grid[5] != 7 || measured != 7 || inside != 7 || outside != 7 || empty != 7) return 43;
    if (plombrisa_heap_volume(xs, 4, ys, 4, zs, 4, 0, 30, 0, 20, 10, 1000, grid, 6, &measured, &inside, &outside, &empty) != 0) return 44;
    if (measured != 30000 || inside != 3 || outside != 1 || empty != 4) return 45;
    if (grid[0] != 100 || grid[1] != 0 || grid[2] != 0 || grid[3] != 0 || grid[4] != 0 || grid[5] != 200 || grid[6] != 77) return 46;

    /* 3 by 2, the second row without a valid cell, and a record more than there are rows */
    float viewed[6] = {4, NAN, 0.5f, INFINITY, NAN, NAN};
    plombrisa_row_record index[3] = {{7, 7, 7}, {7, 7, 7}, {77, 77, 77}};
    if (plombrisa_fresh_index(viewed, 6, 2, 2, index, 2) != 23 || plombrisa_fresh_index(viewed, 6, 3, 2, index, 3) != 28) return 47;
    if (index[0].count != 7 || index[0].least != 7 || index[0].greatest != 7 || index[1].count != 7) return 48;
    if (plombrisa_fresh_index(viewed, 6, 3, 2, index, 2) != 0) return 49;
    if (index[0].count != 2 || index[0].least != 0.5f || index[0].greatest != 4) return 50;
    if (index[1].count != 0 || !isnan(index[1].least) || !isnan(index[1].greatest) || index[2].count != 77) return 51;
    if (plombrisa_edit_cell(viewed, 6, 3, 2, 2, 2, 1, index, 1) != 26) return 52;
    if (plombrisa_edit_cell(viewed, 6, 3, 2, 2, 1, 1, index, 1) != 28) return 53;
    if (!isnan(viewed[5]) || index[0].count != 2 || index[1].count != 0) return 54;
    if (plombrisa_edit_cell(viewed, 6, 3, 2, 2, 1, -2, index, 2) != 0 || viewed[5] != -2) return 55;
    if (index[1].count != 1 || index[1].least != -2 || index[1].greatest != -2 || index[0].count != 2) return 56;
    if (plombrisa_edit_cell(viewed, 6, 3, 2, 2, 0, NAN, index, 2) != 0 || !isnan(viewed[2]) || viewed[5] != -2) return 57;
    if (index[0].count != 1 || index[0].least != 4 || index[0].greatest != 4 || index[1].count != 1 || index[2].count != 77) return 58;

    /* a cell of the room more than is needed; disparity 1 is the better one at (3, 1), and 2 is not searched */
    float seen[15] = {NAN, NAN, NAN, NAN, NAN, NAN, NAN, 1, 1, NAN, NAN, NAN, NAN, NAN, INFINITY};
    uint64_t whole[121];
    for (int i = 0; i < 121; i++) whole[i] = 7;
    verdict at = {777, 7, 77};
    if (checked(0, 0.5f, seen, 15, 3, 5, whole, 121, &at) != 23 || checked(0, 0.5f, seen, 15, 5, 3, whole, 119, &at) != 12) return 59;
    if (checked(0, 0.5f, seen, 14, 5, 3, whole, 119, &at) != 23 || checked(FIRST_MOST + 1, 0.5f, seen, 14, 5, 3, whole, 119, &at) != 9) return 60;
    if (at.passed != 777 || at.x != 7 || at.y != 77 || whole[0] != 7 || whole[118] != 7 || whole[119] != 7) return 61;
    if (checked(0, 0.5f, seen, 15, 5, 3, whole, 121, &at) != 0 || at.passed != 1 || at.x != 7 || at.y != 77) return 62;
    if (whole[0] != 0 || whole[119] != 0 || whole[120] != 7) return 63;
    seen[1 * 5 + 3] = 0;
    seen[2 * 5 + 4] = 2;
    if (checked(0, 0.5f, seen, 15, 5, 3, whole, 120, &at) != 0 || at.passed != 0 || at.x != 3 || at.y != 1) return 64;
    seen[1 * 5 + 3] = 1;
    if (checked(0, 0.5f, seen, 15, 5, 3, whole, 120, &at) != 0 || at.passed != 0 || at.x != 4 || at.y != 2) return 65;
    /* no raw cost is over 1, so the first of the two cells is bad */
    if (checked(0, 1.5f, seen, 15, 5, 3, whole, 120, &at) != 0 || at.passed != 0 || at.x != 2 || at.y != 1) return 66;

    /* a window of one pixel shows one level: a semi-global map has a figure there, a block map, which reads no penalty, is blank */
    float map[4] = {7, 7, 7, 7}, floats[16] = {7};
    whole[0] = 7;
    if (matched(true, 1.5f, 0.1f, map, whole, floats, 15) != 13 || map[0] != 7 || whole[0] != 7 || floats[0] != 7) return 67;
    if (matched(true, 0.1f, 1.5f, map, whole, floats, 15) != 12 || matched(true, 1.5f, 1.5f, map, whole, floats, 16) != 0) return 68;
    if (map[0] != 0 || map[3] != 0 || whole[0] != 0 || floats[0] != 0) return 69;
    if (matched(false, 1.5f, 0.1f, map, whole, floats, 8) != 0 || !isnan(map[0]) || !isnan(map[3])) return 70;
    return 0;
}
