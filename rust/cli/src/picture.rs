//! A site from above, by height: a raster of cells, each in the colour of its highest point.

use super::{
    png::{png, Color},
    progress::Progress,
    sheet::{Grid, Site, Taken},
    show::counted,
};
use inscjarol::{File, Refusal, Sheet};

/// The most cells of a side.
const SIDE: f64 = 900.0;

/// How many points a cell is to have, where the side lets it: fewer would leave holes.
const FILLED: f64 = 2.0;

/// How many points are read at a time.
const STRETCH: usize = 1 << 16;

/// How many of the eight cells around one without points have to have some for it to be filled.
const AROUND: u32 = 6;

/// The part of the cells, at either end, whose heights share a colour: a bird or a hole leaves the colours to the site.
const OUTLIERS: f64 = 0.01;

/// The colours from low to high: light to dark, so that they are told apart in black and white too.
pub(crate) const RAMP: [Color; 8] = [
    [0xfe, 0xee, 0xb4],
    [0xfe, 0xdd, 0x85],
    [0xfe, 0xbe, 0x4a],
    [0xfa, 0x96, 0x2b],
    [0xe6, 0x6d, 0x17],
    [0xbf, 0x48, 0x08],
    [0x86, 0x2d, 0x08],
    [0x4c, 0x1a, 0x08],
];

/// Cells without points.
const EMPTY: Color = [0xff; 3];

/// The picture.
pub(crate) struct Picture {
    /// In cells.
    pub(crate) width: u32,
    pub(crate) height: u32,
    /// The side of a cell, in the files' units.
    pub(crate) cell: f64,
    /// The heights of the first and the last colour, and whether there are others below and above.
    pub(crate) low: f64,
    pub(crate) high: f64,
    pub(crate) outliers: bool,
    /// How many files could not be drawn, since their coordinates are no numbers or they could not be read again.
    pub(crate) left_out: u64,
    pub(crate) png: Vec<u8>,
}

/// Where points lie: smallest and largest x and y.
#[derive(Clone, Copy)]
struct Area {
    x: [f64; 2],
    y: [f64; 2],
}

impl Area {
    /// The area of these bounds of stored numbers.
    fn of(sheet: &Sheet, grid: &Grid) -> Option<Area> {
        let bounds = sheet.bounds()?;
        let ends = |axis: usize| {
            let (scale, offset) = (grid.scale.get(axis)?, grid.offset.get(axis)?);
            let end = |stored: [i32; 3]| Some(f64::from(*stored.get(axis)?) * scale + offset);
            let (one, other) = (end(bounds.min)?, end(bounds.max)?);
            let numbers = one.is_finite() && other.is_finite();
            numbers.then_some([one.min(other), one.max(other)])
        };
        let z = ends(2);
        z.and(Some(Area {
            x: ends(0)?,
            y: ends(1)?,
        }))
    }

    fn with(self, other: Area) -> Area {
        let both = |one: [f64; 2], other: [f64; 2]| [one[0].min(other[0]), one[1].max(other[1])];
        Area {
            x: both(self.x, other.x),
            y: both(self.y, other.y),
        }
    }
}

/// The cells, row after row from the top, each with the height of its highest point; below all numbers where it has none.
struct Raster {
    width: usize,
    height: usize,
    cell: f64,
    area: Area,
    heights: Vec<f64>,
}

impl Raster {
    fn new(area: Area, points: u64) -> Raster {
        let (width, height) = (area.x[1] - area.x[0], area.y[1] - area.y[0]);
        let cells = (points as f64 / FILLED).max(1.0);
        let long = width.max(height);
        // A line has cells along its length alone.
        let filled = (width * height / cells).sqrt().max(long / cells);
        // One point, or points at the ends of what numbers there are, have one cell without a side.
        let cell = Some(filled.max(long / SIDE)).filter(|cell| cell.is_normal());
        let side =
            |length: f64| cell.map_or(1.0, |cell| (length / cell).ceil().clamp(1.0, SIDE)) as usize;
        let (width, height) = (side(width), side(height));
        Raster {
            width,
            height,
            cell: cell.unwrap_or(0.0),
            area,
            heights: vec![f64::NEG_INFINITY; width.saturating_mul(height)],
        }
    }

    /// Draws the points of a file, whose numbers are in this grid.
    fn draw(&mut self, file: &File<'_>, grid: &Grid, progress: &Drawn<'_>) -> Result<(), Refusal> {
        let [(to_x, from_x), (to_y, from_y)] = [
            self.steps(grid.scale[0], grid.offset[0], self.area.x[0]),
            self.steps(grid.scale[1], grid.offset[1], self.area.y[0]),
        ];
        let (z_scale, z_offset) = (grid.scale[2], grid.offset[2]);
        let (right, top) = (self.width.saturating_sub(1), self.height.saturating_sub(1));
        let [mut xs, mut ys, mut zs] = [(); 3].map(|()| vec![0_i32; STRETCH]);
        let points = file.point_count();
        let mut first = 1_u64;
        while first <= points {
            let last = points.min(first.saturating_add(STRETCH as u64 - 1));
            let read = file.xyz(first..=last, &mut xs, &mut ys, &mut zs)?;
            for ((x, y), z) in xs.iter().zip(&ys).zip(&zs).take(read) {
                // What would lie outside by rounding, or is no number, lies at the edge.
                let column = ((f64::from(*x) * to_x + from_x) as usize).min(right);
                let row = ((f64::from(*y) * to_y + from_y) as usize).min(top);
                let place = top.saturating_sub(row) * self.width + column;
                let z = f64::from(*z) * z_scale + z_offset;
                if let Some(height) = self.heights.get_mut(place) {
                    *height = height.max(z);
                }
            }
            progress.more(read as u64);
            first = last.saturating_add(1);
        }
        Ok(())
    }

    /// The cells, those without points among others that have some filled: with the mean of what is around them.
    fn filled(&self) -> Vec<f64> {
        let heights = &self.heights;
        let mean = |place: usize| {
            let (row, column) = (place / self.width, place % self.width);
            let around = |at: usize, most: usize| at.saturating_sub(1)..=(at + 1).min(most - 1);
            let cells = around(row, self.height)
                .flat_map(|row| around(column, self.width).map(move |column| (row, column)))
                .filter_map(|(row, column)| heights.get(row * self.width + column))
                .filter(|z| z.is_finite());
            let (count, sum) = cells.fold((0_u32, 0.0), |(count, sum), z| (count + 1, sum + z));
            (count >= AROUND).then(|| sum / f64::from(count))
        };
        let cells = heights.iter().enumerate();
        cells
            .map(|(place, z)| match z.is_finite() {
                true => *z,
                false => mean(place).unwrap_or(*z),
            })
            .collect()
    }

    /// Factor and summand that make a place in the raster of a stored number.
    fn steps(&self, scale: f64, offset: f64, from: f64) -> (f64, f64) {
        match self.cell > 0.0 {
            true => (scale / self.cell, (offset - from) / self.cell),
            false => (0.0, 0.0),
        }
    }
}

/// How far the drawing is.
struct Drawn<'p> {
    progress: &'p Progress,
    points: std::cell::Cell<u64>,
}

impl Drawn<'_> {
    fn more(&self, points: u64) {
        self.points.set(self.points.get().saturating_add(points));
        self.progress.at(self.points.get());
    }
}

impl Picture {
    /// The picture of a site; none where it has no points with a place.
    pub(crate) fn of(site: &Site) -> Option<Picture> {
        let points = site.sheet.points();
        let progress = Progress::new(
            format!("drawing {}", counted(points, "point")),
            Some(points),
        );
        let files: Vec<&Taken> = site.taken().map(|(_, taken)| taken).collect();
        let drawable: Vec<(&Taken, Area)> = match site.grid() {
            // One grid: the bounds of the sheet are those of the site.
            Some(grid) => {
                let area = Area::of(&site.sheet, &grid)?;
                files.iter().map(|file| (*file, area)).collect()
            }
            None => files
                .iter()
                .filter_map(|file| {
                    let mut own = Sheet::default();
                    file.again(|bytes| own.add(bytes)).ok()?.ok()?;
                    Area::of(&own, &file.grid).map(|area| (*file, area))
                })
                .collect(),
        };
        let area = drawable.iter().map(|(_, area)| *area).reduce(Area::with)?;
        let mut raster = Raster::new(area, points);
        let drawn = Drawn {
            progress: &progress,
            points: std::cell::Cell::new(0),
        };
        let with_points = files.iter().filter(|file| file.points > 0).count();
        let mut left_out = with_points as u64;
        for (taken, _) in drawable.iter().filter(|(file, _)| file.points > 0) {
            let done = taken.again(|bytes| {
                let file = File::check(bytes)?;
                raster.draw(&file, &taken.grid, &drawn)
            });
            left_out = left_out.saturating_sub(u64::from(matches!(done, Ok(Ok(())))));
        }
        Picture::drawn(&raster, left_out)
    }

    /// The raster in colours.
    fn drawn(raster: &Raster, left_out: u64) -> Option<Picture> {
        let filled = raster.heights.iter().copied().filter(|z| z.is_finite());
        let mut heights: Vec<f64> = filled.collect();
        let cells = heights.len();
        let mut at = |part: f64| {
            let place = (cells.saturating_sub(1) as f64 * part).round() as usize;
            (place < cells).then(|| *heights.select_nth_unstable_by(place, f64::total_cmp).1)
        };
        let (lowest, highest) = (at(0.0)?, at(1.0)?);
        let (mut low, mut high) = (at(OUTLIERS)?, at(1.0 - OUTLIERS)?);
        // Where nearly all is flat, what is not is shown.
        if low >= high {
            (low, high) = (lowest, highest);
        }
        let colors = colors();
        let pixels: Vec<u8> = raster
            .filled()
            .iter()
            .map(|z| match z.is_finite() {
                true => level(*z, low, high),
                false => 0,
            })
            .collect();
        Some(Picture {
            width: raster.width as u32,
            height: raster.height as u32,
            cell: raster.cell,
            low,
            high,
            outliers: lowest < low || highest > high,
            left_out,
            png: png(raster.width as u32, &pixels, &colors),
        })
    }
}

/// The colour of a height, 1 to 255.
fn level(z: f64, low: f64, high: f64) -> u8 {
    match high > low {
        true => 1 + (((z - low) / (high - low)).clamp(0.0, 1.0) * 254.0).round() as u8,
        false => 128,
    }
}

/// All colours: the first for cells without points, and the ramp.
fn colors() -> [Color; 256] {
    let mut colors = [EMPTY; 256];
    let steps = (RAMP.len() - 1) as f64;
    for (level, color) in colors.iter_mut().enumerate().skip(1) {
        let at = (level - 1) as f64 / 254.0 * steps;
        let from = at.floor().min(steps - 1.0);
        let part = at - from;
        let stop = |place: usize| RAMP.get(place).copied().unwrap_or(EMPTY);
        let (one, other) = (stop(from as usize), stop(from as usize + 1));
        for ((mixed, one), other) in color.iter_mut().zip(one).zip(other) {
            *mixed = (f64::from(one) * (1.0 - part) + f64::from(other) * part).round() as u8;
        }
    }
    colors
}

#[cfg(test)]
mod tests {
    use super::*;

    fn area(width: f64, height: f64) -> Area {
        Area {
            x: [500.0, 500.0 + width],
            y: [-20.0, -20.0 + height],
        }
    }

    #[test]
    fn cells_of_every_shape_of_site() {
        let size = |width, height, points| {
            let raster = Raster::new(area(width, height), points);
            assert_eq!(raster.heights.len(), raster.width * raster.height);
            (raster.width, raster.height)
        };
        assert_eq!(size(30.0, 30.0, 3_000), (39, 39));
        assert_eq!(size(30.0, 30.0, 1 << 40), (900, 900));
        assert_eq!(size(300.0, 30.0, 1 << 40), (900, 90));
        assert_eq!(size(30.0, 0.0, 100), (50, 1));
        assert_eq!(size(0.0, 30.0, 1 << 40), (1, 900));
        assert_eq!(size(0.0, 0.0, 100), (1, 1));
        assert_eq!(size(30.0, 30.0, 1), (1, 1));
        assert_eq!(size(f64::MAX, 1.0, 9_000), (900, 1));
        assert_eq!(size(f64::INFINITY, 1.0, 9_000), (1, 1));
    }

    #[test]
    fn single_cells_are_filled_and_edges_are_not() {
        let mut raster = Raster::new(area(5.0, 5.0), 50);
        assert_eq!((raster.width, raster.height), (5, 5));
        let none = f64::NEG_INFINITY;
        for (place, height) in raster.heights.iter_mut().enumerate() {
            *height = if place / 5 == 4 { none } else { 2.0 };
        }
        // One without points in the middle of a slope, and the last row.
        (raster.heights[6], raster.heights[7]) = (8.0, none);
        let filled = raster.filled();
        assert_eq!(filled[7], (8.0 + 7.0 * 2.0) / 8.0);
        assert_eq!(filled[20..], [none; 5]);
        raster.heights[7] = filled[7];
        assert_eq!(filled, raster.heights);
    }

    #[test]
    fn darker_is_higher() {
        let light = |[r, g, b]: Color| {
            0.2126 * f64::from(r) + 0.7152 * f64::from(g) + 0.0722 * f64::from(b)
        };
        let colors = colors();
        assert_eq!(
            (colors[0], colors[1], colors[255]),
            (EMPTY, RAMP[0], RAMP[7])
        );
        assert!(colors
            .windows(2)
            .all(|pair| light(pair[0]) >= light(pair[1])));
        assert_eq!(
            [0.0, 1.0, 5.0, 9.0].map(|z| level(z, 1.0, 5.0)),
            [1, 1, 255, 255]
        );
        assert_eq!(level(3.0, 1.0, 5.0), 128);
        assert_eq!(level(1.0, 1.0, 1.0), 128);
    }
}
