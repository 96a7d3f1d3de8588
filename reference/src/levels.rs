//! "Levels": "All in 256ths, signed", here in integers too wide to wrap.

use crate::tag_test::Fraction;

/// In a greater frame a visit to every sample, which every call would make
/// again, would cost too much.
const GREATEST_VISITED: u64 = 1 << 16;

#[derive(Clone, Debug)]
pub struct Levels {
    repeat_rows: u64,
    repeat_columns: u64,
    samples: u64,
    /// "row, column, sample order"
    black: Vec<i128>,
    column_delta: Vec<i128>,
    row_delta: Vec<i128>,
    /// S of each plane.
    span: Vec<i128>,
}

impl Levels {
    /// Takes carried values: every denominator divides 256.
    pub fn new(
        (repeat_rows, repeat_columns, samples): (u64, u64, u64),
        black: &[Fraction],
        column_delta: &[Fraction],
        row_delta: &[Fraction],
        white: &[Fraction],
    ) -> Levels {
        let mut levels = Levels {
            repeat_rows,
            repeat_columns,
            samples,
            black: in_256ths(black),
            column_delta: in_256ths(column_delta),
            row_delta: in_256ths(row_delta),
            span: Vec::new(),
        };
        // "W is white x 256; S = W - M"
        let white = in_256ths(white);
        levels.span = (0..samples).map(|p| white[p as usize] - levels.greatest_black(p)).collect();
        levels
    }

    /// M: "the greatest B over all active samples of the plane" (document 02),
    /// by whichever way is affordable.
    pub fn greatest_black(&self, plane: u64) -> i128 {
        if self.rows() * self.columns() <= GREATEST_VISITED {
            self.greatest_of_samples(plane)
        } else {
            self.greatest_of_rows(plane)
        }
    }

    /// M as it is defined: every active row with every active column.
    pub fn greatest_of_samples(&self, plane: u64) -> i128 {
        greatest((0..self.rows()).map(|row| self.greatest_of_row(row, plane)))
    }

    /// The same maximum. A row's greatest B is its delta + the greatest sum of
    /// a cell and a column's delta in it. That sum is the same in all rows that
    /// take the same cells, so it is looked for only in the first row to take
    /// them; the maximum still goes over every active row.
    pub fn greatest_of_rows(&self, plane: u64) -> i128 {
        let first_rows = 0..self.repeat_rows.min(self.rows());
        let without_delta = |row| self.greatest_of_row(row, plane) - self.row_delta(row);
        let of_cells: Vec<i128> = first_rows.map(without_delta).collect();
        let in_row = |row| of_cells[(row % self.repeat_rows) as usize] + self.row_delta(row);
        greatest((0..self.rows()).map(in_row))
    }

    fn greatest_of_row(&self, row: u64, plane: u64) -> i128 {
        greatest((0..self.columns()).map(|column| self.black_at(row, column, plane)))
    }

    /// There is one 50716, stored or by default, to an active row.
    fn rows(&self) -> u64 {
        self.row_delta.len() as u64
    }

    fn columns(&self) -> u64 {
        self.column_delta.len() as u64
    }

    /// "S = W - M must be positive on every plane (9)"
    pub fn white_above_black(&self) -> bool {
        self.span.iter().all(|s| *s > 0)
    }

    /// B: "the BlackLevel cell at (active row mod repeat rows, active column
    /// mod repeat columns, plane) + the column's 50715 + the row's 50716"
    pub fn black_at(&self, row: u64, column: u64, plane: u64) -> i128 {
        self.cell_at(row, column, plane) + self.column_delta(column) + self.row_delta(row)
    }

    pub fn cell_at(&self, row: u64, column: u64, plane: u64) -> i128 {
        self.cell(row % self.repeat_rows, column % self.repeat_columns, plane)
    }

    /// The black of a cell by its row and column in the repeat.
    pub fn cell(&self, cell_row: u64, cell_column: u64, plane: u64) -> i128 {
        let cell = (cell_row * self.repeat_columns + cell_column) * self.samples + plane;
        self.black[cell as usize]
    }

    /// Rows and columns of the repeat.
    pub fn repeat(&self) -> [u64; 2] {
        [self.repeat_rows, self.repeat_columns]
    }

    pub fn column_delta(&self, column: u64) -> i128 {
        self.column_delta[column as usize]
    }

    pub fn row_delta(&self, row: u64) -> i128 {
        self.row_delta[row as usize]
    }

    /// L of the value v at an active row and column.
    pub fn level(&self, v: u64, row: u64, column: u64, plane: u64) -> i128 {
        self.level_under(self.black_at(row, column, plane), v, plane)
    }

    /// L of the value v where B is this black.
    fn level_under(&self, black: i128, v: u64, plane: u64) -> i128 {
        let d = 256 * i128::from(v) - black;
        let s = self.span[plane as usize];
        if d <= 0 {
            0
        } else if d >= s {
            65535
        } else {
            // "65535 D / S rounded to nearest, halves up": the floor of that plus 1/2.
            (2 * 65535 * d + s).div_euclid(2 * s)
        }
    }

    /// "The scaled value is L as f64 divided by 65535.0."
    pub fn scaled(&self, v: u64, row: u64, column: u64, plane: u64) -> f64 {
        self.scaled_under(self.black_at(row, column, plane), v, plane)
    }

    pub fn scaled_under(&self, black: i128, v: u64, plane: u64) -> f64 {
        self.level_under(black, v, plane) as f64 / 65535.0
    }
}

fn in_256ths(values: &[Fraction]) -> Vec<i128> {
    values.iter().map(|v| 256 * v.numerator / v.denominator).collect()
}

fn greatest(values: impl Iterator<Item = i128>) -> i128 {
    values.max().expect("an active area has a row and a column")
}
