//! Where the banks stand: a column for each wave, wrapped into sub-columns, so that the picture keeps
//! its proportions whatever the sizes of the waves are. The many columns of a small plan stand in
//! several bands, so that they fit a phone. Lengths are in units of the picture's view box.

use wave_plan::{Bank, Wave};

/// The space of a bank; rows are spread over some more where there are few.
const PITCH: i32 = 26;
const WIDEST_ROW: i32 = 60;
const SPREAD: i32 = 260;

/// The width of a small picture: as many units as a narrow phone has pixels.
const SMALL_WIDTH: i32 = 360;
const MARGIN: i32 = 12;
const SMALL_SPACE: i32 = SMALL_WIDTH - 2 * MARGIN;

/// More than all columns of a plan take: 1,024 sub-columns, and the space between 24.
const WIDEST: i32 = 30_000;

/// The least and the widest space between columns.
const GAPS: (i32, i32) = (10, 120);

/// The least size of title and legend.
const SMALL_TEXT: i32 = 11;

/// The column of a wave.
pub struct Column {
    pub left: i32,
    pub top: i32,
    pub width: i32,
    pub height: i32,
    pub banks: Vec<Bank>,
}

pub struct Layout {
    pub width: i32,
    /// The lower end of the last columns.
    pub bottom: i32,
    /// The size of title and legend.
    pub text: i32,
    pub columns: Vec<Column>,
    /// The centre of each bank by its number.
    centres: Vec<(i32, i32)>,
}

impl Layout {
    /// The layout of banks with these waves; in several bands, if the plan is small and has many.
    pub fn new(waves: &[Wave], wave_count: usize, small: bool) -> Layout {
        let mut members = vec![Vec::new(); wave_count];
        for (number, wave) in (0..).zip(waves) {
            members[usize::from(wave.0)].push(Bank(number));
        }
        let sizes: Vec<i32> = members.iter().map(|banks| banks.len() as i32).collect();
        let shape = Shape::best(&sizes, small);
        let width = (shape.width + 2 * MARGIN).max(SMALL_WIDTH);
        let text = (width / 60).max(SMALL_TEXT);
        let mut layout = Layout {
            width,
            bottom: 2 * text,
            text,
            columns: Vec::new(),
            centres: vec![(0, 0); waves.len()],
        };
        let mut members = members.into_iter();
        for &count in &shape.bands {
            layout.place(members.by_ref().take(count), &shape);
        }
        layout
    }

    pub fn centre(&self, b: Bank) -> (i32, i32) {
        self.centres[usize::from(b.0)]
    }

    /// Places a band of columns below those that stand already, with space for their letters. Every other
    /// column is lower by half a row: a line from its left to its right then passes between its banks.
    fn place(&mut self, band: impl Iterator<Item = Vec<Bank>>, shape: &Shape) {
        let top = self.bottom + 3 * self.text;
        let row = shape.row();
        let height = shape.band_height();
        let mut left = (self.width - shape.width) / 2;
        for (number, banks) in (0..).zip(band) {
            let first = top + row / 2 + number % 2 * row / 2;
            for (index, b) in (0..).zip(&banks) {
                let (column, place) = (index / shape.rows, index % shape.rows);
                let x = left + column * PITCH + PITCH / 2;
                self.centres[usize::from(b.0)] = (x, first + place * row);
            }
            let width = column_width(banks.len() as i32, shape.rows);
            self.columns.push(Column {
                left,
                top,
                width,
                height,
                banks,
            });
            left += width + shape.gap;
            self.bottom = top + height;
        }
    }
}

/// How the columns are arranged.
struct Shape {
    rows: i32,
    /// How many columns each band has.
    bands: Vec<usize>,
    gap: i32,
    width: i32,
}

impl Shape {
    /// The shape that is nearest to 4 by 3; of a small plan, among those that fit a phone.
    fn best(sizes: &[i32], small: bool) -> Shape {
        let largest = sizes.iter().copied().max().unwrap_or(1);
        let shapes = (1..=largest).map(|rows| Shape::of(sizes, rows, small));
        let off = |shape: &Shape| {
            let (width, height) = (3 * shape.width, 4 * shape.height());
            1000 * width.max(height) / width.min(height).max(1)
        };
        let fits = |shape: &Shape| !small || shape.width <= SMALL_SPACE;
        shapes
            .filter(fits)
            .min_by_key(off)
            .expect("a shape of one sub-column for each wave fits")
    }

    /// The shape with so many rows. Space that a band has left is shared between its columns.
    fn of(sizes: &[i32], rows: i32, small: bool) -> Shape {
        let mut widths = sizes.iter().map(|&size| column_width(size, rows));
        let bands = bands(widths.clone(), if small { SMALL_SPACE } else { WIDEST });
        // The width of the columns of each band, and how many spaces are between them.
        let filled: Vec<(i32, i32)> = bands
            .iter()
            .map(|&count| (widths.by_ref().take(count).sum(), count as i32 - 1))
            .collect();
        let gap = |&(columns, gaps): &(i32, i32)| {
            let least = if small { 0 } else { columns / 3 };
            (SMALL_SPACE - columns).max(least) / gaps.max(1)
        };
        let gap = filled.iter().map(gap).min().unwrap_or(0);
        let gap = gap.clamp(GAPS.0, GAPS.1);
        let width = filled.iter().map(|(columns, gaps)| columns + gaps * gap);
        Shape {
            rows,
            width: width.max().unwrap_or(0),
            bands,
            gap,
        }
    }

    /// The height of a row.
    fn row(&self) -> i32 {
        (SPREAD / self.rows).clamp(PITCH, WIDEST_ROW)
    }

    fn band_height(&self) -> i32 {
        self.rows * self.row() + self.row() / 2
    }

    /// The height of all bands with their letters.
    fn height(&self) -> i32 {
        self.bands.len() as i32 * (self.band_height() + 3 * SMALL_TEXT)
    }
}

/// How many columns of these widths stand in each band of so much space.
fn bands(widths: impl Iterator<Item = i32>, space: i32) -> Vec<usize> {
    let mut bands: Vec<usize> = Vec::new();
    let mut left = 0;
    for width in widths {
        match bands.last_mut() {
            Some(count) if width + GAPS.0 <= left => *count += 1,
            _ => {
                bands.push(1);
                left = space + GAPS.0;
            }
        }
        left -= width + GAPS.0;
    }
    bands
}

/// The width of a wave's column, in sub-columns of so many rows.
fn column_width(size: i32, rows: i32) -> i32 {
    PITCH * ((size + rows - 1) / rows)
}
