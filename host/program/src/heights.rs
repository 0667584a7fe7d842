//! What this program reckons beside the library's volume, and no theorem is about: which cells have a point, the mean height of each, and
//! the volume by these; and the grid of heights as an ESRI ASCII file.
use plombrisa::{Heap, PointRecord, Site};

/// Of each cell, by rows: how many points fell into it, and the sum of their heights in millimetres.
pub struct Cells {
    counts: Vec<u64>,
    sums: Vec<u64>,
}

/// A coordinate in whole millimetres, halves away from zero, as the library rounds it.
pub fn millimetres(metres: f64) -> f64 {
    (metres * 1000.0).round()
}

/// The cell of a point by rows, where it lies in the rectangle: low edges inside, high edges outside.
fn cell_of(point: &PointRecord, site: &Site, columns: usize) -> Option<usize> {
    let (x, y) = (millimetres(point.x) as i64, millimetres(point.y) as i64);
    let inside = (site.left..site.right).contains(&x) && (site.top..site.bottom).contains(&y);
    let along = |at: i64, edge: i64| (at - edge) as usize / site.cell;
    inside.then(|| along(y, site.top) * columns + along(x, site.left))
}

impl Cells {
    /// The cells of points that the library has measured already, so that every number is in its range.
    pub fn of(points: &[PointRecord], site: &Site, heap: &Heap) -> Self {
        let count = heap.columns * heap.rows;
        let mut cells = Self { counts: vec![0; count], sums: vec![0; count] };
        for point in points {
            if let Some(at) = cell_of(point, site, heap.columns) {
                cells.counts[at] += 1;
                cells.sums[at] += (site.floor - millimetres(point.z) as i64).max(0) as u64;
            }
        }
        cells
    }

    /// The volume in cubic metres where each cell counts with its mean height.
    pub fn mean_volume(&self, site: &Site) -> f64 {
        let side = site.cell as f64 / 1000.0;
        let mean = |(sum, count): (&u64, &u64)| if *count == 0 { 0.0 } else { *sum as f64 / *count as f64 / 1000.0 };
        self.sums.iter().zip(&self.counts).map(mean).sum::<f64>() * side * side
    }

    /// The greatest height of each cell, in metres, as an ESRI ASCII grid: the row at the top edge first, north being the picture's top,
    /// so that a place's northing is minus its y. A cell that no point fell into has no datum.
    pub fn grid(&self, heap: &Heap, site: &Site) -> Vec<u8> {
        const NO_DATUM: &str = "-9999";
        let metres = |millimetres: i64| millimetres as f64 / 1000.0;
        let mut text = format!(
            "ncols {}\nnrows {}\nxllcorner {:.3}\nyllcorner {:.3}\ncellsize {:.3}\nNODATA_value {NO_DATUM}\n",
            heap.columns, heap.rows, metres(site.left), metres(-site.bottom), metres(site.cell as i64),
        );
        let datum = |at: usize| match self.counts[at] {
            0 => String::from(NO_DATUM),
            _ => format!("{:.3}", metres(heap.heights[at] as i64)),
        };
        for row in 0..heap.rows {
            let line: Vec<String> = (0..heap.columns).map(|column| datum(row * heap.columns + column)).collect();
            text.push_str(&line.join(" "));
            text.push('\n');
        }
        text.into_bytes()
    }
}
