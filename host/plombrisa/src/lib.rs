//! Plombrisa from Rust: safe functions over the proved library of a stereo matcher for ready-mix concrete sites.
//!
//! Two cameras look down on a heap of sand. [`match_block`] makes of their two pictures a *disparity map*: for each pixel of the left
//! picture by how many pixels the right one shows the same spot further to the left. The nearer the spot, the larger its disparity. The map
//! gives [`points`] in metres, and the points give the volume of the heap ([`heap_volume`]).
//!
//! ```
//! use plombrisa::{Error, Intrinsics, Map, Options, Picture, Site, heap_volume, match_block, points};
//!
//! /// The cubic millimetres of a heap that two pictures of 5 by 3 pixels show.
//! fn volume(left: &[u8], right: &[u8], camera: &Intrinsics, site: &Site) -> Result<u64, Error> {
//!     let picture = |bytes| Picture { bytes, width: 5, height: 3 };
//!     let options = Options { num_disparities: 2, block_size: 3, ..Options::default() };
//!     let cells = match_block(picture(left), picture(right), &options)?;
//!     let points = points(Map { cells: &cells, width: 5, height: 3 }, camera)?;
//!     Ok(heap_volume(&points, site)?.figures.volume)
//! }
//!
//! let left = [9, 1, 4, 7, 2, 9, 1, 4, 7, 2, 9, 1, 4, 7, 2];
//! let right = [1, 4, 7, 2, 5, 1, 4, 7, 2, 5, 1, 4, 7, 2, 5];
//! let camera = Intrinsics { fx: 10.0, fy: 10.0, cx: 2.0, cy: 1.0, baseline: 0.5 };
//! let site = Site { left: -1000, right: 1000, top: -1000, bottom: 1000, cell: 500, floor: 6000 };
//! // two pixels have disparity 1, so they are 5 m away and 1 m above the floor, over two cells of 500 by 500 mm
//! assert_eq!(volume(&left, &right, &camera, &site), Ok(2 * 500 * 500 * 1000));
//! ```
//!
//! # What there is
//!
//! | for | calls |
//! |---|---|
//! | maps of two pictures | [`match_block`], [`raw_volume`]; [`Options`] |
//! | a map's figures | [`valid_count`], [`valid_range`], [`cover`] |
//! | points and volumes | [`points`], [`rectified_point`], [`heap_volume`], [`heap_shape`] |
//! | files of other programs | [`read_pgm`], [`read_pfm`], [`write_pfm`] |
//! | a map as a sheet, a few bytes to be mailed | [`write_sheet`], [`read_sheet`] |
//! | a map that is edited by hand | [`RowIndex`] |
//! | another matcher's map held to its pair | [`check_vendor`] |
//! | single pixels | [`pixel`], [`bilinear`] |
//!
//! # Memory
//!
//! The library itself asks for no memory. Each call has a form whose name ends in `_in`, which works in memory that the caller lends: where
//! it writes the answer, and for some a *room*, which is scratch memory that the caller lends and may use again for the next call
//! ([`whole_cells`] and [`float_cells`] tell how much). The form without `_in` asks for that memory itself. It has the library judge the
//! input first, so that nothing is asked for a call that is refused; where the memory cannot be had it answers [`Error::Memory`] with the
//! bytes needed, and nothing is aborted. [`match_bytes`] tells the bytes of a match beforehand.
//!
//! # Errors
//!
//! The library refuses what it cannot use, with the first row of its table that applies: a [`Refusal`]. What a refused call was lent is left
//! as it was. A call that asks for memory answers an [`Error`], which is a refusal or a want of memory. [`limits`] has the sizes that are
//! taken.
#![deny(missing_docs)]

mod error;
mod grouped;
pub mod limits;
mod maps;
mod matching;
mod memory;
mod netpbm;
mod options;
mod pictures;
mod points;
mod raw;
mod refusal;
mod rows;
mod sheets;
mod vendor;
mod version;
mod volume;

pub use error::Error;
pub use maps::{Map, OwnedMap, cover, cover_in, valid_count, valid_count_in, valid_range, valid_range_in};
pub use matching::{float_cells, match_block, match_block_in, match_bytes, raw_volume, raw_volume_in, whole_cells};
pub use netpbm::{pfm_length_in, pfm_size_in, pgm_size_in, read_pfm, read_pfm_in, read_pgm, read_pgm_in, write_pfm, write_pfm_in};
pub use options::Options;
pub use pictures::{OwnedPicture, Picture, bilinear, bilinear_in, pixel, pixel_in};
pub use points::{Intrinsics, PointRecord, points, points_in, rectified_point, rectified_point_in};
pub use refusal::Refusal;
pub use rows::{RowIndex, RowRecord, edit_cell_in, fresh_index_in};
pub use sheets::{Kind, Sheet, read_sheet, read_sheet_in, sheet_length_in, sheet_size_in, write_sheet, write_sheet_in};
pub use vendor::{Verdict, check_vendor, check_vendor_in};
pub use version::version;
pub use volume::{Figures, Heap, Site, heap_shape, heap_shape_in, heap_volume, heap_volume_in};
