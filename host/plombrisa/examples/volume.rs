use plombrisa::{PointRecord, Site, heap_volume};

pub fn main() {
    let point = |x, y, z| PointRecord { x, y, z, ..PointRecord::default() };
    let points = [point(0.25, 0.25, 2.5), point(0.75, 0.25, 2.875), point(0.5, 0.0, 2.75), point(1.0, 0.25, 2.0)];
    let site = Site { left: 0, right: 1000, top: 0, bottom: 500, cell: 500, floor: 3000 };
    match heap_volume(&points, &site) {
        Ok(heap) => println!("{} by {}: {:?}, {:?}", heap.columns, heap.rows, heap.heights, heap.figures),
        Err(error) => println!("{error}"),
    }
}
