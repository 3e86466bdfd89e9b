//! The same sums in plain Rust, for the benchmarks alone: no checks, no proof, one plane, no shift. A loop is written as one would write it who
//! wants it fast and knows nothing else of the task.

#![allow(clippy::missing_safety_doc)]

use std::slice::{from_raw_parts, from_raw_parts_mut};

/// The half sizes of a shape at the distance `p` from its middle row: shape 1 has rows of half length b, the others are as long as k + h - p.
fn reach(shape: u32, first: usize, second: usize, p: usize) -> usize {
    match shape {
        1 => second,
        2 => first - p,
        _ => first + second - p,
    }
}

fn height(shape: u32, first: usize, second: usize) -> usize {
    if shape == 3 {
        second
    } else {
        first
    }
}

/// The cumulative table of the levels.
#[no_mangle]
pub unsafe extern "C" fn plain_build(rows: usize, columns: usize, f: *const i16, table: *mut i64) {
    let f = from_raw_parts(f, rows * columns);
    let table = from_raw_parts_mut(table, rows * columns);
    let mut sum = 0i64;
    for (t, &x) in table[..columns].iter_mut().zip(f) {
        sum += x as i64;
        *t = sum;
    }
    for i in 1..rows {
        let (above, here) = table[(i - 1) * columns..(i + 1) * columns].split_at_mut(columns);
        let mut sum = 0i64;
        for ((t, &a), &x) in here.iter_mut().zip(above.iter()).zip(&f[i * columns..]) {
            sum += x as i64;
            *t = a + sum;
        }
    }
}

/// A window's sum from the table.
#[no_mangle]
pub unsafe extern "C" fn plain_read(rows: usize, columns: usize, table: *const i64, shape: u32, first: usize, second: usize, row: usize, column: usize) -> i64 {
    let table = from_raw_parts(table, rows * columns);
    let corner = |x: usize, y: usize| if x == 0 || y == 0 { 0 } else { table[(x - 1) * columns + y - 1] };
    let h = height(shape, first, second);
    let box_sum = |top: usize, bottom: usize, reach: usize| {
        let (left, right) = (column.saturating_sub(reach), (column + reach + 1).min(columns));
        corner(bottom, right) - corner(top, right) - corner(bottom, left) + corner(top, left)
    };
    if shape == 1 {
        return box_sum(row.saturating_sub(h), (row + h + 1).min(rows), second);
    }
    (row.saturating_sub(h)..(row + h + 1).min(rows)).map(|m| box_sum(m, m + 1, reach(shape, first, second, m.abs_diff(row)))).sum()
}

/// A window's sum, cell by cell.
#[no_mangle]
pub unsafe extern "C" fn plain_direct_sum(rows: usize, columns: usize, f: *const i16, shape: u32, first: usize, second: usize, row: usize, column: usize) -> i64 {
    let f = from_raw_parts(f, rows * columns);
    let h = height(shape, first, second);
    let mut sum = 0i64;
    for m in row.saturating_sub(h)..(row + h + 1).min(rows) {
        let reach = reach(shape, first, second, m.abs_diff(row));
        let line = &f[m * columns..(m + 1) * columns];
        sum += line[column.saturating_sub(reach)..(column + reach + 1).min(columns)].iter().map(|&x| x as i64).sum::<i64>();
    }
    sum
}

/// The sums across a row of column sums, sliding.
fn slide(work: &[i64], b: usize, out: &mut [i64]) {
    let n = work.len();
    let (last, first) = (n.saturating_sub(b), (b + 1).min(n));
    let mut sum: i64 = work[..b.min(n)].iter().sum();
    for j in 0..last.min(first) {
        sum += work[j + b];
        out[j] = sum;
    }
    for j in first..last {
        sum += work[j + b] - work[j - b - 1];
        out[j] = sum;
    }
    for j in last..first {
        out[j] = sum;
    }
    for j in last.max(first)..n {
        sum -= work[j - b - 1];
        out[j] = sum;
    }
}

/// The column sums of every row, of the levels or of their squares, from row to row.
fn column_sums(rows: usize, columns: usize, f: &[i16], a: usize, value: impl Fn(i16) -> i64, work: &mut [i64], mut row_done: impl FnMut(usize, &[i64])) {
    work.fill(0);
    for i in 0..a.min(rows) {
        for (w, &x) in work.iter_mut().zip(&f[i * columns..(i + 1) * columns]) {
            *w += value(x);
        }
    }
    for i in 0..rows {
        let enter = (i + a < rows).then(|| &f[(i + a) * columns..(i + a + 1) * columns]);
        let leave = (i > a).then(|| &f[(i - a - 1) * columns..(i - a) * columns]);
        match (enter, leave) {
            (Some(e), Some(l)) => work.iter_mut().zip(e.iter().zip(l)).for_each(|(w, (&e, &l))| *w += value(e) - value(l)),
            (Some(e), None) => work.iter_mut().zip(e).for_each(|(w, &e)| *w += value(e)),
            (None, Some(l)) => work.iter_mut().zip(l).for_each(|(w, &l)| *w -= value(l)),
            (None, None) => {}
        }
        row_done(i, work);
    }
}

/// Every sum over a rectangle, of the levels or of their squares.
#[no_mangle]
pub unsafe extern "C" fn plain_rectangle(rows: usize, columns: usize, f: *const i16, a: usize, b: usize, squares: bool, work: *mut i64, out: *mut i64) {
    let f = from_raw_parts(f, rows * columns);
    let work = from_raw_parts_mut(work, columns);
    let out = from_raw_parts_mut(out, rows * columns);
    let done = |i: usize, w: &[i64]| slide(w, b, &mut out[i * columns..(i + 1) * columns]);
    if squares {
        column_sums(rows, columns, f, a, |x| x as i64 * x as i64, work, done);
    } else {
        column_sums(rows, columns, f, a, |x| x as i64, work, done);
    }
}

/// Every sum over a rectangle of the products f(m, n) * g(m + down, n + right): what enters and leaves is multiplied as it is added.
#[no_mangle]
pub unsafe extern "C" fn plain_products(
    rows: usize, columns: usize, f: *const i16, g: *const i16, down: usize, right: usize, a: usize, b: usize, work: *mut i64, out: *mut i64,
) {
    let f = from_raw_parts(f, rows * columns);
    let g = from_raw_parts(g, rows * columns);
    let work = from_raw_parts_mut(work, columns);
    let out = from_raw_parts_mut(out, rows * columns);
    let counting = columns - right;
    let row = |m: usize| (&f[m * columns..m * columns + counting], &g[(m + down) * columns + right..(m + down + 1) * columns]);
    let last = rows - down;
    work.fill(0);
    for m in 0..a.min(last) {
        let (x, y) = row(m);
        work.iter_mut().zip(x.iter().zip(y)).for_each(|(w, (&x, &y))| *w += x as i64 * y as i64);
    }
    for i in 0..rows {
        let enter = (i + a < last).then(|| row(i + a));
        let leave = (i > a && i - a - 1 < last).then(|| row(i - a - 1));
        match (enter, leave) {
            (Some((x, y)), Some((c, d))) => {
                work.iter_mut().zip(x.iter().zip(y).zip(c.iter().zip(d))).for_each(|(w, ((&x, &y), (&c, &d)))| *w += x as i64 * y as i64 - c as i64 * d as i64)
            }
            (Some((x, y)), None) => work.iter_mut().zip(x.iter().zip(y)).for_each(|(w, (&x, &y))| *w += x as i64 * y as i64),
            (None, Some((c, d))) => work.iter_mut().zip(c.iter().zip(d)).for_each(|(w, (&c, &d))| *w -= c as i64 * d as i64),
            (None, None) => {}
        }
        slide(work, b, &mut out[i * columns..(i + 1) * columns]);
    }
}

/// Every sum over a diamond or hexagon: the cells on the lower edge enter and those on the upper edge leave, column by column of the window.
#[no_mangle]
pub unsafe extern "C" fn plain_slanted(rows: usize, columns: usize, f: *const i16, k: usize, h: usize, work: *mut i64, out: *mut i64) {
    let picture = from_raw_parts(f, rows * columns);
    let work = from_raw_parts_mut(work, columns);
    let out = from_raw_parts_mut(out, rows * columns);
    for (j, w) in work.iter_mut().enumerate() {
        *w = plain_direct_sum(rows, columns, f, 3, k, h, 0, j);
    }
    out[..columns].copy_from_slice(work);
    for i in 0..rows - 1 {
        for c in 0..(k + h + 1).min(columns) {
            let d = h.min(k + h - c);
            let mut add = |row: usize, sign: i64| {
                let line = &picture[row * columns..(row + 1) * columns];
                work[c..].iter_mut().zip(line).for_each(|(w, &x)| *w += sign * x as i64);
                if c > 0 {
                    work.iter_mut().zip(&line[c..]).for_each(|(w, &x)| *w += sign * x as i64);
                }
            };
            if i + 1 + d < rows {
                add(i + 1 + d, 1);
            }
            if d <= i {
                add(i - d, -1);
            }
        }
        out[(i + 1) * columns..(i + 2) * columns].copy_from_slice(work);
    }
}

/// The means over a rectangle, a half going up.
#[no_mangle]
pub unsafe extern "C" fn plain_smooth(rows: usize, columns: usize, f: *const i16, a: usize, b: usize, out: *mut i16) {
    let f = from_raw_parts(f, rows * columns);
    let out = from_raw_parts_mut(out, rows * columns);
    let mut work = vec![0i64; columns];
    let mut sums = vec![0i64; columns];
    column_sums(rows, columns, f, a, |x| x as i64, &mut work, |i, w| {
        slide(w, b, &mut sums);
        let high = (i + a + 1).min(rows) - i.saturating_sub(a);
        for (j, (o, &s)) in out[i * columns..(i + 1) * columns].iter_mut().zip(&sums).enumerate() {
            let n = (high * ((j + b + 1).min(columns) - j.saturating_sub(b))) as i64;
            *o = (2 * s + n).div_euclid(2 * n) as i16;
        }
    });
}

/// The place of the first cell, row by row, over whose rectangle all levels are equal, and rows · columns where there is none. A window's N needs no sum: it is the
/// number of rows times that of columns which lie in the picture.
#[no_mangle]
pub unsafe extern "C" fn plain_steady(rows: usize, columns: usize, f: *const i16, a: usize, b: usize) -> usize {
    let f = from_raw_parts(f, rows * columns);
    let (mut sums, mut squares) = (vec![0i64; columns], vec![0i64; columns]);
    let (mut s, mut q) = (vec![0i64; columns], vec![0i64; columns]);
    let add = |sums: &mut [i64], squares: &mut [i64], row: usize, sign: i64| {
        for ((s, q), &x) in sums.iter_mut().zip(squares.iter_mut()).zip(&f[row * columns..(row + 1) * columns]) {
            *s += sign * x as i64;
            *q += sign * x as i64 * x as i64;
        }
    };
    (0..a.min(rows)).for_each(|i| add(&mut sums, &mut squares, i, 1));
    for i in 0..rows {
        if i + a < rows {
            add(&mut sums, &mut squares, i + a, 1);
        }
        if i > a {
            add(&mut sums, &mut squares, i - a - 1, -1);
        }
        slide(&sums, b, &mut s);
        slide(&squares, b, &mut q);
        let height = (i + a + 1).min(rows) - i.saturating_sub(a);
        for j in 0..columns {
            let n = (height * ((j + b + 1).min(columns) - j.saturating_sub(b))) as i64;
            if n * q[j] == s[j] * s[j] {
                return i * columns + j;
            }
        }
    }
    rows * columns
}
