//! The functions of the C library, and over each a safe function that lends it slices and references. This is the only unsafe
//! code of the crate. `tests/header.py` of the repository holds the declarations to the C header, and that to the library's source.
//!
//! What the header asks of a caller, Rust's references keep: a slice is not null, is aligned, and is as long as it says; what is lent
//! as `&mut` overlaps with nothing else that the call is given; and nothing else writes to any of it meanwhile.

#![allow(unsafe_code)]

use crate::{Border, Cell, Pictures, Plane, Refusal, Size, Sums, Window};

/// The statuses that are not the number of a refusal.
pub const OK: i32 = 0;
pub const EMPTY: i32 = -1;
pub const FLAT: i32 = -2;
pub const NOWHERE: i32 = -3;

/// The kind of a voice that is steady.
pub const STEADY: u32 = 1;

#[rustfmt::skip] // a declaration a line
extern "C" {
    fn ls_direct_sum(rows: usize, columns: usize, columns_wrap: u32, f: *const i16, f_length: usize, g: *const i16, g_length: usize, shape: u32, first: i32, second: i32, down: i32, right: i32, plane: u32, row: usize, column: usize, sum: *mut i64) -> i32;
    fn ls_build(rows: usize, columns: usize, columns_wrap: u32, f: *const i16, f_length: usize, g: *const i16, g_length: usize, down: i32, right: i32, plane: u32, table: *mut i64, table_length: usize) -> i32;
    fn ls_read(rows: usize, columns: usize, columns_wrap: u32, table: *const i64, table_length: usize, shape: u32, first: i32, second: i32, row: usize, column: usize, sum: *mut i64) -> i32;
    fn ls_rows(position: *mut usize, rows: usize, columns: usize, columns_wrap: u32, f: *const i16, f_length: usize, g: *const i16, g_length: usize, shape: u32, first: i32, second: i32, down: i32, right: i32, plane: u32, request: usize, work: *mut i64, work_length: usize, out: *mut i64, out_length: usize, granted: *mut usize) -> i32;
    fn ls_mean(n: i64, s: i64, t: i64, a: i64, b: i64, p: i64, mean: *mut i64) -> i32;
    fn ls_variance(n: i64, s: i64, t: i64, a: i64, b: i64, p: i64, variance: *mut i64) -> i32;
    fn ls_deviation(n: i64, s: i64, t: i64, a: i64, b: i64, p: i64, deviation: *mut i64) -> i32;
    fn ls_coefficient(n: i64, s: i64, t: i64, a: i64, b: i64, p: i64, coefficient: *mut i64) -> i32;
    fn ls_voice(n: i64, s: i64, t: i64, a: i64, b: i64, p: i64, kind: *mut u32, level: *mut f32, spread: *mut f32) -> i32;
    fn ls_smooth(rows: usize, columns: usize, columns_wrap: u32, f: *const i16, f_length: usize, shape: u32, first: i32, second: i32, out: *mut i16, out_length: usize) -> i32;
    fn ls_steady(rows: usize, columns: usize, columns_wrap: u32, f: *const i16, f_length: usize, g: *const i16, g_length: usize, shape: u32, first: i32, second: i32, down: i32, right: i32, row: *mut usize, column: *mut usize) -> i32;
    fn ls_panel(text: *const u8, text_length: usize, out: *mut u8, out_length: usize, written: *mut usize) -> i32;
    fn ls_version() -> u32;
}

/// What a status says of a call that answers or refuses.
pub fn answered(status: i32) -> Result<(), Refusal> {
    if status == OK {
        return Ok(());
    }
    match Refusal::of_number(status) {
        Some(refusal) => Err(refusal),
        None => panic!("the status {status} is unknown to this crate: liblocal_statistics.a is of another version"),
    }
}

pub fn direct_sum(pictures: Pictures, window: Window, plane: Plane, cell: Cell, sum: &mut i64) -> i32 {
    let Pictures { size, border, f, g, shift } = pictures;
    // SAFETY: f and g are slices with their own lengths, only read; sum is lent as `&mut`.
    unsafe {
        ls_direct_sum(
            size.rows,
            size.columns,
            border as u32,
            f.as_ptr(),
            f.len(),
            g.as_ptr(),
            g.len(),
            window.shape,
            window.first,
            window.second,
            shift.down,
            shift.right,
            plane.0,
            cell.row,
            cell.column,
            sum,
        )
    }
}

pub fn build(pictures: Pictures, plane: Plane, table: &mut [i64]) -> i32 {
    let Pictures { size, border, f, g, shift } = pictures;
    // SAFETY: f and g are slices with their own lengths, only read; table is lent as `&mut`, with its own length.
    unsafe {
        ls_build(
            size.rows,
            size.columns,
            border as u32,
            f.as_ptr(),
            f.len(),
            g.as_ptr(),
            g.len(),
            shift.down,
            shift.right,
            plane.0,
            table.as_mut_ptr(),
            table.len(),
        )
    }
}

pub fn read(size: Size, border: Border, table: &[i64], window: Window, cell: Cell, sum: &mut i64) -> i32 {
    // SAFETY: table is a slice with its own length, only read; sum is lent as `&mut`.
    unsafe {
        ls_read(
            size.rows,
            size.columns,
            border as u32,
            table.as_ptr(),
            table.len(),
            window.shape,
            window.first,
            window.second,
            cell.row,
            cell.column,
            sum,
        )
    }
}

#[allow(clippy::too_many_arguments)] // one for each thing that the call is given
pub fn rows(
    position: &mut usize,
    pictures: Pictures,
    window: Window,
    plane: Plane,
    request: usize,
    work: &mut [i64],
    out: &mut [i64],
    granted: &mut usize,
) -> i32 {
    let Pictures { size, border, f, g, shift } = pictures;
    // SAFETY: f and g are slices with their own lengths, only read; position, work, out and granted are each lent as `&mut`, the areas
    // with their own lengths.
    unsafe {
        ls_rows(
            position,
            size.rows,
            size.columns,
            border as u32,
            f.as_ptr(),
            f.len(),
            g.as_ptr(),
            g.len(),
            window.shape,
            window.first,
            window.second,
            shift.down,
            shift.right,
            plane.0,
            request,
            work.as_mut_ptr(),
            work.len(),
            out.as_mut_ptr(),
            out.len(),
            granted,
        )
    }
}

/// The four functions from six sums to a whole number.
type Statistic = unsafe extern "C" fn(i64, i64, i64, i64, i64, i64, *mut i64) -> i32;

fn statistic(function: Statistic, sums: Sums, value: &mut i64) -> i32 {
    let Sums { n, s, t, a, b, p } = sums;
    // SAFETY: the function is one of the four below; value is lent as `&mut`.
    unsafe { function(n, s, t, a, b, p, value) }
}

pub fn mean(sums: Sums, mean: &mut i64) -> i32 {
    statistic(ls_mean, sums, mean)
}

pub fn variance(sums: Sums, variance: &mut i64) -> i32 {
    statistic(ls_variance, sums, variance)
}

pub fn deviation(sums: Sums, deviation: &mut i64) -> i32 {
    statistic(ls_deviation, sums, deviation)
}

pub fn coefficient(sums: Sums, coefficient: &mut i64) -> i32 {
    statistic(ls_coefficient, sums, coefficient)
}

pub fn voice(sums: Sums, kind: &mut u32, level: &mut f32, spread: &mut f32) -> i32 {
    let Sums { n, s, t, a, b, p } = sums;
    // SAFETY: kind, level and spread are each lent as `&mut`.
    unsafe { ls_voice(n, s, t, a, b, p, kind, level, spread) }
}

pub fn smooth(size: Size, border: Border, f: &[i16], window: Window, out: &mut [i16]) -> i32 {
    // SAFETY: f is a slice with its own length, only read; out is lent as `&mut`, with its own length.
    unsafe {
        ls_smooth(
            size.rows,
            size.columns,
            border as u32,
            f.as_ptr(),
            f.len(),
            window.shape,
            window.first,
            window.second,
            out.as_mut_ptr(),
            out.len(),
        )
    }
}

pub fn steady(pictures: Pictures, window: Window, cell: &mut Cell) -> i32 {
    let Pictures { size, border, f, g, shift } = pictures;
    // SAFETY: f and g are slices with their own lengths, only read; the fields of cell are two places that do not overlap, lent as `&mut`.
    unsafe {
        ls_steady(
            size.rows,
            size.columns,
            border as u32,
            f.as_ptr(),
            f.len(),
            g.as_ptr(),
            g.len(),
            window.shape,
            window.first,
            window.second,
            shift.down,
            shift.right,
            &mut cell.row,
            &mut cell.column,
        )
    }
}

pub fn panel(text: &[u8], out: &mut [u8], written: &mut usize) -> i32 {
    // SAFETY: text is a slice with its own length, only read; out, with its own length, and written are each lent as `&mut`.
    unsafe { ls_panel(text.as_ptr(), text.len(), out.as_mut_ptr(), out.len(), written) }
}

#[cfg(test)]
mod tests {
    use super::{answered, OK};
    use crate::Refusal;

    #[test]
    fn statuses_are_answers_or_refusals() {
        assert_eq!(answered(OK), Ok(()));
        assert_eq!(answered(8), Err(Refusal::Area));
    }

    #[test]
    #[should_panic(expected = "another version")]
    fn an_unknown_status_is_reported() {
        let _ = answered(-4);
    }
}

pub fn version() -> u32 {
    // SAFETY: it takes nothing and reads nothing.
    unsafe { ls_version() }
}
