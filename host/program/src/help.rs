//! What the program says of itself; man/plombrisa.1 says the same at more length.

/// What help can be asked on.
#[derive(Debug, Clone, Copy, PartialEq, Eq)]
pub enum Topic {
    All,
    Match,
    Volume,
    Points,
    Check,
    Sheet,
    WriteSheet,
    ReadSheet,
    Rig,
}

impl Topic {
    pub const ALL: [Self; 9] = [
        Self::All, Self::Match, Self::Volume, Self::Points, Self::Check, Self::Sheet, Self::WriteSheet, Self::ReadSheet, Self::Rig,
    ];

    /// The words behind `help` that ask for it.
    pub fn name(self) -> &'static str {
        match self {
            Self::All => "",
            Self::Match => "match",
            Self::Volume => "volume",
            Self::Points => "points",
            Self::Check => "check",
            Self::Sheet => "sheet",
            Self::WriteSheet => "sheet write",
            Self::ReadSheet => "sheet read",
            Self::Rig => "rig",
        }
    }

    /// How it is called.
    pub fn usage(self) -> &'static str {
        match self {
            Self::All => ALL_USAGE,
            Self::Match => "usage: plombrisa match LEFT.pgm RIGHT.pgm MAP.pfm [PREVIEW.png] [OPTION..]",
            Self::Volume => VOLUME_USAGE,
            Self::Points => POINTS_USAGE,
            Self::Check => "usage: plombrisa check LEFT.pgm RIGHT.pgm MAP.pfm [OPTION..]",
            Self::Sheet => SHEET_USAGE,
            Self::WriteSheet => "usage: plombrisa sheet write MAP.pfm SHEET [--kind exact|whole]",
            Self::ReadSheet => "usage: plombrisa sheet read SHEET MAP.pfm",
            Self::Rig => "usage: --rig FILE at any verb",
        }
    }

    /// All that is said of it.
    pub fn text(self) -> String {
        let parts: &[&str] = match self {
            Self::All => &[ALL_TEXT],
            Self::Match => &[MATCH_TEXT, SEARCH_TEXT, MATCHING_TEXT, EXPECTED_TEXT, COMMON_TEXT],
            Self::Volume => &[VOLUME_TEXT, CAMERA_TEXT, SITE_TEXT, SEARCH_TEXT, MATCHING_TEXT, EXPECTED_TEXT, COMMON_TEXT],
            Self::Points => &[POINTS_TEXT, CAMERA_TEXT, SEARCH_TEXT, MATCHING_TEXT, EXPECTED_TEXT, COMMON_TEXT],
            Self::Check => &[CHECK_TEXT, SEARCH_TEXT, EXPECTED_TEXT, COMMON_TEXT],
            Self::Sheet | Self::WriteSheet => &[SHEET_TEXT, KIND_TEXT, COMMON_TEXT],
            Self::ReadSheet => &[SHEET_TEXT, COMMON_TEXT],
            Self::Rig => &[RIG_TEXT],
        };
        format!("{}\n\n{}", self.usage(), parts.join("\n\n"))
    }
}

const ALL_USAGE: &str = "\
usage: plombrisa match LEFT.pgm RIGHT.pgm MAP.pfm [PREVIEW.png] [OPTION..]
       plombrisa volume LEFT.pgm RIGHT.pgm [OPTION..]
       plombrisa volume --map MAP.pfm [OPTION..]
       plombrisa points LEFT.pgm RIGHT.pgm POINTS.ply [OPTION..]
       plombrisa points --map MAP.pfm [--picture LEFT.pgm] POINTS.ply [OPTION..]
       plombrisa check LEFT.pgm RIGHT.pgm MAP.pfm [OPTION..]
       plombrisa sheet write MAP.pfm SHEET [--kind exact|whole]
       plombrisa sheet read SHEET MAP.pfm
       plombrisa help [match|volume|points|check|sheet|rig]
       plombrisa --version";

const VOLUME_USAGE: &str = "\
usage: plombrisa volume LEFT.pgm RIGHT.pgm CAMERA SITE [--heights GRID.asc] [OPTION..]
       plombrisa volume --map MAP.pfm CAMERA SITE [--heights GRID.asc]";

const POINTS_USAGE: &str = "\
usage: plombrisa points LEFT.pgm RIGHT.pgm POINTS.ply CAMERA [OPTION..]
       plombrisa points --map MAP.pfm [--picture LEFT.pgm] POINTS.ply CAMERA";

const SHEET_USAGE: &str = "\
usage: plombrisa sheet write MAP.pfm SHEET [--kind exact|whole]
       plombrisa sheet read SHEET MAP.pfm";

const ALL_TEXT: &str = "\
Two cameras look at a heap of sand; plombrisa tells from their pictures how far away the surface is.

  match   makes the disparity map of two pictures, and a coloured preview of it
  volume  says how many cubic metres lie over a rectangle of ground
  points  writes the points of the surface for other programs, as PLY
  check   says whether a map of another maker's matcher is borne out by the pictures
  sheet   stores a map as a sheet, a short run of bytes, and reads it back

`plombrisa help VERB` says what a verb does and which options it takes, `plombrisa help rig` what stands in a rig file.
A file that is - is standard input or standard output.

Exit status: 0 done; 1 something was refused, or a file could not be read or written, or memory was lacking; 2 the words make no
sense; 3 the answer of a check is no.";

const MATCH_TEXT: &str = "\
Reads two pictures of one size, a rectified pair, and writes their disparity map, a hole where there is no answer. Prints the map's size
and its cover: how many of 1000 cells that can hold a match do hold one. The preview shows the map in colours, dark for far and
bright for near, red for holes, with a scale. Where fewer than 300 of 1000 cells are borne out by the pictures a hint says what
may be the cause; the map is the same with and without it.";

const VOLUME_TEXT: &str = "\
Matches a pair, or takes a map that is there, and prints the volume of the heap over a rectangle of ground, cut into square cells that
each keep the greatest height; how many points of the map lie in the rectangle and outside; how many cells there are and how many no
point fell into; and the volume by the mean height of each cell, which this program reckons and no theorem is about.
  --heights GRID.asc      writes the greatest height of each cell, in metres, as an ESRI ASCII grid";

const POINTS_TEXT: &str = "\
Matches a pair, or takes a map that is there, and writes a point for each cell with a positive disparity as a PLY file (binary,
little-endian), in metres in the left camera's frame: x to the right, y downwards, z away from the camera. Each point has the level of
its pixel in the left picture as its colour; of a map alone --picture names that picture.";

const CHECK_TEXT: &str = "\
Reads two pictures and another maker's whole-pixel map of them, in which a cell that is not finite is blank. Prints yes where each cell
that is not blank is the best match of its pixel; else no with the first bad cell by rows from the top, its column and row counted from
0, and how many cells are bad and why. The exit status is then 3.";

const SHEET_TEXT: &str = "\
A sheet is a map as a short run of bytes, to be stored or mailed. write makes one of a PFM map, read gives the map back, cell for cell.";

const KIND_TEXT: &str = "\
  --kind exact            any finite number (so it is where nothing is said)
  --kind whole            whole disparities only, shorter";

const SEARCH_TEXT: &str = "\
The search:
  --min-disparity N       the first disparity (0)
  --num-disparities N     how many disparities are tried (64)
  --block-size N          the side of the block, odd (7)
  --min-correlation X     the least correlation of a match (0.5)";

const MATCHING_TEXT: &str = "\
The map:
  --semi-global, --block  a figure at nearly every pixel, or holes where the pictures do not show the answer (block)
  --uniqueness-ratio X    by how much the next match must be worse (0.03)
  --lr, --no-lr           with or without the left-right test (with)
  --lr-max-diff X         the most that the left-right test lets the two sides differ (1)
  --subpixel, --no-subpixel   fractions of a disparity, or whole ones only (fractions)
  --sgm-p1 X, --sgm-p2 X  the penalties of semi-global maps (0.1, 1.5), p2 not below p1";

const CAMERA_TEXT: &str = "\
CAMERA, all of them:
  --fx X, --fy X          the focal lengths in pixels
  --cx X, --cy X          the principal point in pixels
  --baseline X            the distance between the two cameras in metres";

const SITE_TEXT: &str = "\
SITE, all of them, in whole millimetres from the left camera:
  --left MM, --right MM   the edges of the rectangle to the left and to the right
  --top MM, --bottom MM   the edges towards the top and the bottom of the picture
  --cell MM               the side of a cell
  --floor MM              the depth of the floor; where it is not said, the lens height";

const EXPECTED_TEXT: &str = "\
What the rig can see; with fx and the baseline it tells which disparities can occur, and a warning says so where they are not searched:
  --lens-height M         how high the lens is above the floor, in metres
  --tallest-heap M        how high a heap is at most, in metres (0)";

const COMMON_TEXT: &str = "\
  --rig FILE              reads settings from a rig file; options on the line win (plombrisa help rig)
  --quiet                 no hints, and of match, points and sheet no report; warnings and errors are still said
  --help                  this text";

const RIG_TEXT: &str = "\
A rig file says what the head of the order form says of a rig, so that nobody types it twice. It has one `name = value` to a line; empty
lines and lines that begin with # say nothing. Any of these may be left out:

  rig, mount, moved       the rig's name, how it is mounted, the date when it was last moved
  lens-height             how high the lens is above the floor, in metres
  tallest-heap            how high a heap is at most, in metres
  fx, fy, cx, cy          the camera, in pixels
  baseline                the distance between the two cameras, in metres
  left, right, top, bottom, cell, floor
                          the site, in whole millimetres; without floor it is the lens height
  min-disparity, num-disparities, block-size, min-correlation, uniqueness-ratio, lr-max-diff, sgm-p1, sgm-p2
                          numbers of the match, as on the line
  semi-global, lr, subpixel
                          yes or no

Options on the line win over the file. A verb reads of the file what it has use for.";
