//! The core's C interface.

use reference::{Answer, Card, Chain, Crop, LevelNumbers};

extern "C" {
    fn dng_card(file: *const u8, file_len: usize, numbers: &mut [u64; 11]);
    fn dng_spot(
        file: *const u8,
        file_len: usize,
        row: usize,
        column: usize,
        plane: usize,
        value: &mut f64,
    ) -> u64;
    fn dng_chain(
        file: *const u8,
        file_len: usize,
        row: usize,
        column: usize,
        plane: usize,
        numbers: &mut [i64; 10],
        value: &mut f64,
        places: *mut u64,
        places_len: usize,
        ids: *mut u64,
        ids_len: usize,
        before: *mut f64,
        before_len: usize,
        after: *mut f64,
        after_len: usize,
        skipped: *mut u64,
        skipped_len: usize,
    ) -> u64;
}

macro_rules! declare_windows {
    ($($name:ident),*) => {
        extern "C" {
            $(
                fn $name(
                    file: *const u8,
                    file_len: usize,
                    top: usize,
                    left: usize,
                    height: usize,
                    width: usize,
                    out: *mut f64,
                    out_len: usize,
                ) -> u64;
            )*
        }
    };
}

declare_windows!(dng_window, dng_colour_window, dng_half_window, dng_table_window);

/// One of these.
type Window = unsafe extern "C" fn(*const u8, usize, usize, usize, usize, usize, *mut f64, usize) -> u64;

/// Asks one of them. Its slice and the file lie apart, and both are lent for as
/// long as the call runs.
fn ask(call: Window, file: &[u8], rectangle: [u64; 4], out: &mut [f64]) -> Answer {
    let [top, left, height, width] = rectangle.map(|n| n as usize);
    answer(unsafe { call(file.as_ptr(), file.len(), top, left, height, width, out.as_mut_ptr(), out.len()) })
}

/// Before the call every number is one that no card has.
pub fn card(file: &[u8]) -> Card {
    let mut numbers = [u64::MAX; 11];
    unsafe { dng_card(file.as_ptr(), file.len(), &mut numbers) };
    let [number, detail, rows, columns, samples, kept, skipped, of_crop @ ..] = numbers;
    let [number, detail] = [number, detail].map(|n| u32::try_from(n).expect("32 bits"));
    let [crop_left, crop_top, crop_columns, crop_rows] = of_crop;
    let crop = Crop { left: crop_left, top: crop_top, columns: crop_columns, rows: crop_rows };
    Card { number, detail, rows, columns, samples, kept, skipped, crop }
}

pub fn window(file: &[u8], top: u64, left: u64, height: u64, width: u64, out: &mut [f64]) -> Answer {
    ask(dng_window, file, [top, left, height, width], out)
}

/// Before the call the value is a NaN, which no call answers.
pub fn spot(file: &[u8], row: u64, column: u64, plane: u64) -> (Answer, f64) {
    let [row, column, plane] = [row, column, plane].map(|n| n as usize);
    let mut value = f64::NAN;
    let packed = unsafe { dng_spot(file.as_ptr(), file.len(), row, column, plane, &mut value) };
    (answer(packed), value)
}

pub fn colour_window(file: &[u8], top: u64, left: u64, height: u64, width: u64, out: &mut [f64]) -> Answer {
    ask(dng_colour_window, file, [top, left, height, width], out)
}

pub fn half_window(file: &[u8], top: u64, left: u64, height: u64, width: u64, out: &mut [f64]) -> Answer {
    ask(dng_half_window, file, [top, left, height, width], out)
}

pub fn table_window(file: &[u8], top: u64, left: u64, height: u64, width: u64, out: &mut [f64]) -> Answer {
    ask(dng_table_window, file, [top, left, height, width], out)
}

/// Before the call the value is a NaN, and every number one that no chain has. The
/// slices and the file lie apart, and all are lent for as long as the call runs.
#[allow(clippy::too_many_arguments)]
pub fn chain(
    file: &[u8],
    row: u64,
    column: u64,
    plane: u64,
    places: &mut [u64],
    ids: &mut [u64],
    before: &mut [f64],
    after: &mut [f64],
    skipped: &mut [u64],
) -> Chain {
    let [row, column, plane] = [row, column, plane].map(|n| n as usize);
    let (mut numbers, mut value) = ([i64::MIN; 10], f64::NAN);
    let packed = unsafe {
        dng_chain(
            file.as_ptr(),
            file.len(),
            row,
            column,
            plane,
            &mut numbers,
            &mut value,
            places.as_mut_ptr(),
            places.len(),
            ids.as_mut_ptr(),
            ids.len(),
            before.as_mut_ptr(),
            before.len(),
            after.as_mut_ptr(),
            after.len(),
            skipped.as_mut_ptr(),
            skipped.len(),
        )
    };
    let Answer { number, detail } = answer(packed);
    let [stored, table, cell, column_delta, row_delta, black, greatest_black, level, counts @ ..] = numbers;
    let level = LevelNumbers { stored, table, cell, column_delta, row_delta, black, greatest_black, level };
    let [covering, skipped] = counts.map(|count| count as u64);
    Chain { number, detail, value, level, covering, skipped }
}

/// number x 2^32 + detail
fn answer(packed: u64) -> Answer {
    Answer { number: (packed >> 32) as u32, detail: packed as u32 }
}
