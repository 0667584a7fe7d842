//! The inputs, by kind.
use runs::limits::{BLOCK_MOST, FIRST_MOST};
use runs::pictures::{other_picture, picture};
use runs::rng::Rng;

pub struct Kind {
    pub name: &'static str,
    /// How the answer to each of the inputs begins; none where the inputs are of several sorts.
    pub head: Option<&'static str>,
    pub inputs: Vec<Vec<u8>>,
}

fn kind(name: &'static str, head: &'static str, inputs: Vec<Vec<u8>>) -> Kind {
    Kind { name, head: Some(head), inputs }
}

/// The line of the worked example.
const WORKED: [&str; 8] = ["5", "3", "0", "2", "3", "0", "0", "0"];

/// The worked example's pictures, three rows each.
fn worked_pictures() -> Vec<u8> {
    [[9, 1, 4, 7, 2].repeat(3), [1, 4, 7, 2, 5].repeat(3)].concat()
}

/// A line as it stands, and the pictures of the worked example.
fn with_line(line: &str) -> Vec<u8> {
    [line.as_bytes(), &worked_pictures()].concat()
}

/// The worked example with another field in one place.
fn with_field(place: usize, field: &str) -> Vec<u8> {
    let mut fields = WORKED;
    fields[place] = field;
    with_line(&(fields.join(" ") + "\n"))
}

/// A pair of this size behind a line.
fn pair_behind(line: &str, width: usize, height: usize, rng: &mut Rng) -> Vec<u8> {
    let left = picture(rng, width, height);
    let right = other_picture(rng, &left, width, height);
    [format!("{line}\n").as_bytes(), &left, &right].concat()
}

/// As many bytes behind a line.
fn bytes_behind(line: &str, count: usize) -> Vec<u8> {
    [format!("{line}\n").as_bytes(), &vec![7; count]].concat()
}

/// The longest input that is not turned down: each field has as many digits as it may have, and the map is the largest.
pub fn longest() -> Vec<u8> {
    let input = pair_behind("0024 0016 -0001 0008 0005 1 1 1", 24, 16, &mut Rng::new(800));
    assert_eq!(input.len(), 800);
    input
}

/// The three flags, in all their eight combinations.
fn flags() -> impl Iterator<Item = String> {
    (0..8).map(|bits| format!("{} {} {}", bits & 1, bits >> 1 & 1, bits >> 2 & 1))
}

fn largest_maps(rng: &mut Rng) -> Vec<Vec<u8>> {
    let line = |(first, block): (i32, usize), flags: &str| format!("24 16 {first} 8 {block} {flags}");
    let options = [(0, 3), (-3, 5), (2, 7)];
    flags().flat_map(|flags| options.map(|option| line(option, &flags))).map(|line| pair_behind(&line, 24, 16, rng)).collect()
}

/// Maps of any size, among them those with the first disparities at the ends of what is taken.
fn any_maps(rng: &mut Rng) -> Vec<Vec<u8>> {
    let mut made = Vec::new();
    // a field has four digits at most
    let most = FIRST_MOST.min(9999);
    for flags in flags() {
        for _ in 0..24 {
            let block = rng.pick(&[1, 3, 3, 3, 5, 7, 15]);
            let (width, height) = (block + rng.below(25 - block), block + rng.below(17 - block));
            let near = rng.within(-8, 8) as i32;
            let first = rng.pick(&[0, near, near, near, -most, most]);
            let line = format!("{width} {height} {first} {} {block} {flags}", rng.within(1, 8));
            made.push(pair_behind(&line, width, height, rng));
        }
    }
    made
}

fn maps(rng: &mut Rng) -> Vec<Kind> {
    let odd_digits = ["005 0003 -0 02 0003 0 0 0", "5 3 -0000 2 3 0 0 0", "0005 3 0000 0002 03 1 1 1"];
    vec![
        kind("the worked example", "MAP", vec![with_field(0, "5")]),
        kind("the largest map, in every mode", "MAP", largest_maps(rng)),
        kind("maps of any size, in every mode", "MAP", any_maps(rng)),
        kind("one pixel", "MAP", vec![bytes_behind("1 1 0 1 1 0 0 0", 2), bytes_behind("1 1 -7 8 1 1 0 1", 2)]),
        kind("zeros before a field's number", "MAP", odd_digits.map(|line| with_line(&format!("{line}\n"))).to_vec()),
        kind("the longest input that is taken, 800 bytes", "MAP", vec![longest()]),
    ]
}

/// Lines with a width, a height or a count over what is taken, each with nothing behind, with the pictures that it speaks of and with
/// more than the program reads.
fn too_big(name: &'static str, sizes: &[(usize, usize, usize)]) -> Kind {
    let mut inputs = Vec::new();
    for &(width, height, count) in sizes {
        for (first, block) in [(0, 3), (9999, 4)] {
            let line = format!("{width} {height} {first} {count} {block} 0 1 1");
            inputs.extend([0, 1, 2 * width * height, 4000].map(|bytes| bytes_behind(&line, bytes.min(10_000))));
        }
    }
    kind(name, "TOO BIG", inputs)
}

fn all_too_big() -> Vec<Kind> {
    vec![
        too_big("a width over 24", &[(25, 16, 8), (25, 1, 1), (9999, 3, 2)]),
        too_big("a height over 16", &[(24, 17, 8), (1, 17, 1), (5, 9999, 2)]),
        too_big("a count over 8", &[(24, 16, 9), (1, 1, 9), (5, 3, 9999), (0, 0, 9)]),
        too_big("two or three over", &[(25, 17, 1), (25, 1, 9), (3, 17, 9), (25, 17, 9), (9999, 9999, 9999)]),
    ]
}

/// Lines that are refused, each with the two pictures that it speaks of.
fn refused(name: &'static str, head: &'static str, lines: &[(usize, usize, i32, usize, usize)]) -> Kind {
    let input = |&(width, height, first, count, block): &(usize, usize, i32, usize, usize)| {
        bytes_behind(&format!("{width} {height} {first} {count} {block} 1 1 0"), 2 * width * height)
    };
    kind(name, head, lines.iter().map(input).collect())
}

/// Each number, also where numbers that come later in the table apply as well.
fn all_refused() -> Vec<Kind> {
    let (block, even, large, far) = (BLOCK_MOST, BLOCK_MOST + 1, BLOCK_MOST + 2, FIRST_MOST + 1);
    vec![
        refused("an empty picture", "REFUSED 1", &[(0, 3, 0, 2, 3), (5, 0, 0, 2, 3), (0, 0, 0, 2, 3), (0, 16, 9999, 0, 2)]),
        refused("an even block", "REFUSED 4", &[(5, 3, 0, 2, 0), (5, 3, 0, 2, 2), (5, 3, 0, 2, even), (24, 16, 9999, 0, 9998)]),
        refused("an odd block that is too large", "REFUSED 5", &[(5, 3, 0, 2, large), (24, 16, 0, 8, large), (5, 3, 9999, 0, 9999)]),
        refused("no disparity", "REFUSED 6", &[(5, 3, 0, 0, 3), (24, 16, 0, 0, 1), (5, 3, 9999, 0, block)]),
        refused("a picture smaller than the block", "REFUSED 8", &[(5, 3, 0, 2, 5), (3, 5, 0, 2, 5), (24, 16, 9999, 8, block)]),
        refused("a first disparity too far out", "REFUSED 9", &[(5, 3, far, 2, 3), (5, 3, -far, 2, 3), (24, 16, -9999, 8, 3)]),
    ]
}

/// The worked example with each of some fields in each of some places.
fn fields(places: impl IntoIterator<Item = usize>, wrong: &[&str]) -> Vec<Vec<u8>> {
    places.into_iter().flat_map(|place| wrong.iter().map(move |field| with_field(place, field))).collect()
}

/// The worked example with other text in place of one of the seven spaces, each in turn.
fn spaces(other: &str) -> Vec<Vec<u8>> {
    let line = |at: usize| WORKED[..=at].join(" ") + other + &WORKED[at + 1..].join(" ") + "\n";
    (0..7).map(|at| with_line(&line(at))).collect()
}

/// A line of the worked example's fields with something wrong before, behind or in the place of its end.
fn ends() -> Vec<Kind> {
    let line = WORKED.join(" ");
    let ended = |end: &str| with_line(&format!("{line}{end}"));
    let no_line_feed = vec![ended(""), ended("\r"), ended(" "), ended("\0"), line.as_bytes().to_vec(), b"5".to_vec()];
    vec![
        kind("a space before the line", "BAD INPUT", vec![with_line(&format!(" {line}\n"))]),
        kind("a space behind the line", "BAD INPUT", vec![ended(" \n"), ended("  \n")]),
        kind("a carriage return before the line feed", "BAD INPUT", vec![ended("\r\n")]),
        kind("a line feed too many", "BAD INPUT", vec![ended("\n\n"), with_line(&format!("\n{line}\n"))]),
        kind("no line feed", "BAD INPUT", no_line_feed),
        kind("an empty input", "BAD INPUT", vec![Vec::new()]),
        kind("a line feed alone", "BAD INPUT", vec![b"\n".to_vec()]),
    ]
}

fn malformed_fields() -> Vec<Kind> {
    let foreign = ["a", "x3", "3x", "0x3", "3.", "3,", "/", ":", "1_0", "\0", "\u{b2}", "1e1", "٣"];
    let signed = ["-", "--1", "1-", "- 1", "-00001", "-a", "+1", "-+1", "\u{2212}1"];
    vec![
        kind("an empty field", "BAD INPUT", fields(0..8, &[""])),
        kind("five digits or more", "BAD INPUT", fields(0..5, &["00003", "10000", "000000000000000000003", "18446744073709551619"])),
        kind("a plus", "BAD INPUT", fields(0..8, &["+1", "+"])),
        kind("a minus at another field", "BAD INPUT", fields([0, 1, 3, 4, 5, 6, 7], &["-1", "-0"])),
        kind("a first disparity with more than a minus and digits", "BAD INPUT", fields([2], &signed)),
        kind("a flag that is neither 0 nor 1", "BAD INPUT", fields(5..8, &["2", "3", "9"])),
        kind("a flag of two digits", "BAD INPUT", fields(5..8, &["00", "01", "10", "11", "0001"])),
        kind("a byte that is no digit", "BAD INPUT", fields(0..8, &foreign)),
    ]
}

fn malformed_lines() -> Vec<Kind> {
    let few = [0, 1, 4, 7].map(|count| with_line(&(WORKED[..count].join(" ") + "\n"))).to_vec();
    let many = ["0", "1", "5 3", "x"].map(|more| with_line(&format!("{} {more}\n", WORKED.join(" ")))).to_vec();
    vec![
        kind("too few fields", "BAD INPUT", few),
        kind("too many fields", "BAD INPUT", many),
        kind("two spaces", "BAD INPUT", spaces("  ")),
        kind("a tab in place of a space", "BAD INPUT", spaces("\t")),
        kind("a tab beside a space", "BAD INPUT", spaces(" \t")),
        kind("a comma in place of a space", "BAD INPUT", spaces(",")),
        kind("a line feed in place of a space", "BAD INPUT", spaces("\n")),
    ]
}

/// A sound line, with fewer or more bytes behind it than two pictures have.
fn other_lengths() -> Vec<Kind> {
    let lines = [("5 3 0 2 3 0 0 0", 30), ("24 16 -5 8 3 1 1 1", 768), ("0 16 0 8 3 0 0 0", 0), ("1 1 0 1 1 0 0 0", 2), ("5 3 0 2 4 0 0 0", 30)];
    let short = |&(line, bytes): &(&str, usize)| (bytes > 0).then(|| bytes_behind(line, bytes - 1));
    let long = |&(line, bytes): &(&str, usize)| bytes_behind(line, bytes + 1);
    let total = |bytes: usize| [longest(), vec![7; bytes - 800]].concat();
    vec![
        kind("one byte short", "BAD INPUT", lines.iter().filter_map(short).collect()),
        kind("one byte long", "BAD INPUT", lines.iter().map(long).collect()),
        kind("one picture only", "BAD INPUT", vec![bytes_behind("5 3 0 2 3 0 0 0", 15), bytes_behind("24 16 0 8 3 0 0 0", 384)]),
        kind("the longest input that is taken, cut", "BAD INPUT", [1, 31, 32, 416, 799].map(|end| longest()[..end].to_vec()).to_vec()),
        kind("801 bytes, one more than is ever taken", "BAD INPUT", vec![total(801)]),
        kind("802 bytes", "BAD INPUT", vec![total(802)]),
        kind("4,000 bytes and more", "BAD INPUT", vec![total(4000), total(70_000)]),
        kind("a line that is longer than what is read", "BAD INPUT", vec![vec![b'1'; 900], b"1 ".repeat(500)]),
    ]
}

/// A good input with a few bytes of its line replaced, taken out or put in.
fn altered(rng: &mut Rng) -> Vec<u8> {
    let mut input = with_field(0, "5");
    for _ in 0..1 + rng.below(3) {
        let at = rng.below(16);
        let byte = rng.pick(b"0123456789 -+\n\t\rx");
        match rng.below(3) {
            0 => input[at] = byte,
            1 => input.insert(at, byte),
            _ => drop(input.remove(at)),
        }
    }
    input
}

fn any_kinds(rng: &mut Rng) -> Vec<Kind> {
    let any_bytes = |rng: &mut Rng| (0..rng.below(900)).map(|_| rng.below(256) as u8).collect();
    vec![
        Kind { name: "a line with a few bytes altered", head: None, inputs: (0..200).map(|_| altered(rng)).collect() },
        Kind { name: "any bytes", head: None, inputs: (0..20).map(|_| any_bytes(rng)).collect() },
    ]
}

pub fn kinds() -> Vec<Kind> {
    let mut rng = Rng::new(1);
    let kinds = [maps(&mut rng), all_too_big(), all_refused(), malformed_lines(), malformed_fields(), ends(), other_lengths()];
    kinds.into_iter().flatten().chain(any_kinds(&mut rng)).collect()
}
