//! The exports of the proved library as they are declared to the linker. Their names and the order of their words are fixed in
//! crates/plombrisa/src; nothing checks these declarations against them but the runs (`differential`, `sheets_run`, `netpbm_run`,
//! `volume_run`, `rows_run` and `vendor_run`).
use crate::{PointRecord, RowRecord};

#[allow(improper_ctypes)]
unsafe extern "C" {
    pub fn plombrisa_match_block(
        left: *const u8, left_len: usize, left_width: usize, left_height: usize,
        right: *const u8, right_len: usize, right_width: usize, right_height: usize,
        min_disparity: i32, num_disparities: i32, block_size: usize,
        min_correlation: f32, uniqueness_ratio: f32, lr_consistency: bool, lr_max_diff: f32, subpixel: bool,
        semi_global: bool, sgm_p1: f32, sgm_p2: f32,
        out: *mut f32, out_len: usize, whole_room: *mut u64, whole_len: usize, float_room: *mut f32, float_len: usize,
    ) -> u32;

    pub fn plombrisa_raw_volume(
        left: *const u8, left_len: usize, left_width: usize, left_height: usize,
        right: *const u8, right_len: usize, right_width: usize, right_height: usize,
        min_disparity: i32, num_disparities: i32, block_size: usize, from_right: bool,
        out: *mut f32, out_len: usize, whole_room: *mut u64, whole_len: usize,
    ) -> u32;

    pub fn plombrisa_pixel(
        pic: *const u8, pic_len: usize, width: usize, height: usize, x: usize, y: usize, level: *mut u8,
    ) -> u32;

    pub fn plombrisa_bilinear(
        pic: *const u8, pic_len: usize, width: usize, height: usize, x: f64, y: f64, value: *mut f64,
    ) -> u32;

    pub fn plombrisa_valid_count(
        cells: *const f32, cells_len: usize, width: usize, height: usize, count: *mut u64,
    ) -> u32;

    pub fn plombrisa_cover(
        cells: *const f32, cells_len: usize, width: usize, height: usize, block_size: usize, permille: *mut u64,
    ) -> u32;

    pub fn plombrisa_valid_range(
        cells: *const f32, cells_len: usize, width: usize, height: usize,
        some: *mut u32, least: *mut f32, greatest: *mut f32,
    ) -> u32;

    pub fn plombrisa_rectified_point(
        fx: f64, fy: f64, cx: f64, cy: f64, baseline: f64, x: f64, y: f64, disparity: f64,
        px: *mut f64, py: *mut f64, pz: *mut f64,
    ) -> bool;

    pub fn plombrisa_points(
        cells: *const f32, cells_len: usize, width: usize, height: usize,
        fx: f64, fy: f64, cx: f64, cy: f64, baseline: f64,
        list: *mut PointRecord, list_len: usize, count: *mut u64,
    ) -> u32;

    pub fn plombrisa_sheet_length(
        cells: *const f32, cells_len: usize, width: usize, height: usize, kind: u64, count: *mut u64,
    ) -> u32;

    pub fn plombrisa_write_sheet(
        cells: *const f32, cells_len: usize, width: usize, height: usize, kind: u64,
        out: *mut u8, out_len: usize, count: *mut u64,
    ) -> u32;

    pub fn plombrisa_sheet_size(
        sheet: *const u8, sheet_len: usize, kind: *mut u64, width: *mut u64, height: *mut u64,
    ) -> u32;

    pub fn plombrisa_read_sheet(
        sheet: *const u8, sheet_len: usize, out: *mut f32, out_len: usize,
        kind: *mut u64, width: *mut u64, height: *mut u64,
    ) -> u32;

    pub fn plombrisa_pgm_size(file: *const u8, file_len: usize, width: *mut u64, height: *mut u64) -> u32;

    pub fn plombrisa_read_pgm(
        file: *const u8, file_len: usize, out: *mut u8, out_len: usize, width: *mut u64, height: *mut u64,
    ) -> u32;

    pub fn plombrisa_pfm_length(
        cells: *const f32, cells_len: usize, width: usize, height: usize, count: *mut u64,
    ) -> u32;

    pub fn plombrisa_write_pfm(
        cells: *const f32, cells_len: usize, width: usize, height: usize,
        out: *mut u8, out_len: usize, count: *mut u64,
    ) -> u32;

    pub fn plombrisa_pfm_size(file: *const u8, file_len: usize, width: *mut u64, height: *mut u64) -> u32;

    pub fn plombrisa_read_pfm(
        file: *const u8, file_len: usize, out: *mut f32, out_len: usize, width: *mut u64, height: *mut u64,
    ) -> u32;

    pub fn plombrisa_heap_shape(
        left: i64, right: i64, top: i64, bottom: i64, cell: usize, floor: i64, columns: *mut u64, rows: *mut u64,
    ) -> u32;

    pub fn plombrisa_heap_volume(
        xs: *const f64, xs_len: usize, ys: *const f64, ys_len: usize, zs: *const f64, zs_len: usize,
        left: i64, right: i64, top: i64, bottom: i64, cell: usize, floor: i64,
        grid: *mut u64, grid_len: usize, volume: *mut u64, inside: *mut u64, outside: *mut u64, empty: *mut u64,
    ) -> u32;

    pub fn plombrisa_fresh_index(
        cells: *const f32, cells_len: usize, width: usize, height: usize, index: *mut RowRecord, index_len: usize,
    ) -> u32;

    pub fn plombrisa_edit_cell(
        cells: *mut f32, cells_len: usize, width: usize, height: usize, x: usize, y: usize, value: f32,
        index: *mut RowRecord, index_len: usize,
    ) -> u32;

    pub fn plombrisa_check_vendor(
        left: *const u8, left_len: usize, left_width: usize, left_height: usize,
        right: *const u8, right_len: usize, right_width: usize, right_height: usize,
        min_disparity: i32, num_disparities: i32, block_size: usize, min_correlation: f32,
        map: *const f32, map_len: usize, map_width: usize, map_height: usize,
        whole_room: *mut u64, whole_len: usize, passed: *mut u32, x: *mut u64, y: *mut u64,
    ) -> u32;
}
