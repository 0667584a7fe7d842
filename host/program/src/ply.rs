//! Points as a PLY file, binary and little-endian, which CloudCompare opens.
use plombrisa::{Picture, PointRecord};

/// The level of the picture at a point's pixel.
fn level(picture: Picture, point: &PointRecord) -> u8 {
    picture.bytes[point.row * picture.width + point.column]
}

/// The file of some points, in metres; with the levels of a picture, of which the points' map is, as colours.
pub fn file(points: &[PointRecord], picture: Option<Picture>) -> Vec<u8> {
    let colours = if picture.is_some() { "property uchar red\nproperty uchar green\nproperty uchar blue\n" } else { "" };
    let header = format!(
        "ply\nformat binary_little_endian 1.0\ncomment metres; x to the right, y downwards, z away from the left camera\n\
         element vertex {}\nproperty double x\nproperty double y\nproperty double z\n{colours}end_header\n",
        points.len(),
    );
    let mut bytes = header.into_bytes();
    for point in points {
        [point.x, point.y, point.z].iter().for_each(|coordinate| bytes.extend(coordinate.to_le_bytes()));
        bytes.extend(picture.iter().flat_map(|picture| [level(*picture, point); 3]));
    }
    bytes
}
