//! The rival: document 01, and change 1 of document 02, in plain loops, which shares nothing with the library but the types of the calls. Each function answers what the
//! call of that name answers, with the number of a refusal, and leaves in the areas what the call leaves.

use local_statistics::{Border, Cell, Pictures, Plane, Size, Sums, Window};

pub type Answer<T> = Result<T, u32>;

// ---- When a call is turned down

type Condition = (u32, bool);

/// "Checks run in number order", and 11 is "checked after 5".
const ORDER: [u32; 9] = [1, 2, 3, 4, 5, 11, 6, 7, 8];

/// Of the conditions that hold, the first in this order is the answer; 9 and 10 meet no other.
fn refuse(conditions: &[Condition]) -> Answer<()> {
    let held = conditions.iter().filter(|(_, holds)| *holds).map(|&(number, _)| number);
    match held.min_by_key(|number| ORDER.iter().position(|ordered| ordered == number)) {
        Some(number) => Err(number),
        None => Ok(()),
    }
}

/// Those of two pictures under a shift, and more.
fn refuse_pictures(pictures: Pictures, more: &[Condition]) -> Answer<()> {
    let Pictures { size, f, g, .. } = pictures;
    let own = [size_beyond(size), picture_length(size, f), picture_length(size, g), shift_beyond(pictures)];
    refuse(&[&own, more].concat())
}

fn cells(size: Size) -> u128 {
    size.rows as u128 * size.columns as u128
}

fn size_beyond(size: Size) -> Condition {
    (1, size.rows < 1 || size.rows > 256 || size.columns < 1 || size.columns > 1024)
}

fn picture_length(size: Size, picture: &[i16]) -> Condition {
    (2, picture.len() as u128 != cells(size))
}

fn window_illegal(window: Window) -> Condition {
    let (first, second) = (i64::from(window.first), i64::from(window.second));
    let legal = match window.shape {
        1 => (0..=127).contains(&first) && (0..=127).contains(&second),
        2 => (0..=127).contains(&first) && second == 0,
        3 => first >= 0 && second >= 0 && first + second <= 127,
        _ => false,
    };
    (3, !legal)
}

fn shift_beyond(pictures: Pictures) -> Condition {
    let shift = pictures.shift;
    (4, shift.down < -255 || shift.down > 255 || shift.right < -1023 || shift.right > 1023)
}

fn plane_above(plane: Plane) -> Condition {
    (5, plane.0 > 5)
}

/// "widest row above columns with the switch on"
fn row_above(size: Size, border: Border, window: Window) -> Condition {
    let widest = (-127..=127).filter(|&q| holds(window, 0, q)).count();
    (11, border == Border::Wrapped && widest > size.columns)
}

fn cell_outside(size: Size, cell: Cell) -> Condition {
    (6, cell.row >= size.rows || cell.column >= size.columns)
}

fn request_above(size: Size, position: usize, request: usize) -> Condition {
    (7, position > size.rows || request > size.rows - position)
}

fn area_length(length: usize, wanted: u128) -> Condition {
    (8, length as u128 != wanted)
}

// ---- The picture, its window and its planes

/// The shape holds the offset (p, q).
fn holds(window: Window, p: i64, q: i64) -> bool {
    let (first, second) = (i64::from(window.first), i64::from(window.second));
    match window.shape {
        1 => p.abs() <= first && q.abs() <= second,
        2 => p.abs() + q.abs() <= first,
        _ => p.abs() <= second && p.abs() + q.abs() <= first + second,
    }
}

/// The widest q of a row of a legal window, where it has that row.
fn reach(window: Window, p: i64) -> Option<i64> {
    (0..).take_while(|&q| holds(window, p, q)).last()
}

fn row_at(size: Size, m: i64) -> Option<i64> {
    (0 <= m && m < size.rows as i64).then_some(m)
}

/// "A looping pad joins its last column to its first"
fn column_at(size: Size, border: Border, n: i64) -> Option<i64> {
    let columns = size.columns as i64;
    match border {
        Border::Clipped => (0 <= n && n < columns).then_some(n),
        Border::Wrapped => Some(n.rem_euclid(columns)),
    }
}

/// The plane at a row, which may be outside, and a column of the picture.
fn plane_value(pictures: Pictures, plane: Plane, m: i64, n: i64) -> i64 {
    let Pictures { size, border, f, g, shift } = pictures;
    let other_row = row_at(size, m).and_then(|m| row_at(size, m + i64::from(shift.down)));
    let other_column = column_at(size, border, n + i64::from(shift.right));
    let (Some(other_m), Some(other_n)) = (other_row, other_column) else {
        return 0;
    };
    let level = |picture: &[i16], m: i64, n: i64| i64::from(picture[m as usize * size.columns + n as usize]);
    let (x, y) = (level(f, m, n), level(g, other_m, other_n));
    match plane.0 {
        0 => 1,
        1 => x,
        2 => y,
        3 => x * x,
        4 => y * y,
        _ => x * y,
    }
}

fn window_sum(pictures: Pictures, window: Window, plane: Plane, cell: Cell) -> i64 {
    let (i, j) = (cell.row as i64, cell.column as i64);
    let rows = pictures.size.rows as i64;
    let mut sum = 0;
    for m in (i - 127).max(0)..=(i + 127).min(rows - 1) {
        for n in columns_near(pictures.size, pictures.border, j, reach(window, m - i)) {
            sum += plane_value(pictures, plane, m, n);
        }
    }
    sum
}

/// The columns j-q to j+q that the picture has, or round the edge; none where there is no q.
fn columns_near(size: Size, border: Border, j: i64, q: Option<i64>) -> impl Iterator<Item = i64> {
    let q = q.unwrap_or(-1);
    (j - q..=j + q).filter_map(move |n| column_at(size, border, n))
}

pub fn direct_sum(pictures: Pictures, window: Window, plane: Plane, cell: Cell) -> Answer<i64> {
    let Pictures { size, border, .. } = pictures;
    refuse_pictures(pictures, &[window_illegal(window), plane_above(plane), row_above(size, border, window), cell_outside(size, cell)])?;
    Ok(window_sum(pictures, window, plane, cell))
}

// ---- Cumulative table

pub fn build(pictures: Pictures, plane: Plane, table: &mut [i64]) -> Answer<()> {
    let size = pictures.size;
    refuse_pictures(pictures, &[plane_above(plane), area_length(table.len(), cells(size))])?;
    for i in 0..size.rows {
        let mut row = 0;
        for j in 0..size.columns {
            row += plane_value(pictures, plane, i as i64, j as i64);
            let above = if i == 0 { 0 } else { table[(i - 1) * size.columns + j] };
            table[i * size.columns + j] = above + row;
        }
    }
    Ok(())
}

/// "T being 0 left of and above the picture, and a corner past its last row or column being taken on that last one"
fn corner(size: Size, table: &[i64], i: i64, j: i64) -> i64 {
    if i < 0 || j < 0 {
        return 0;
    }
    table[(i as usize).min(size.rows - 1) * size.columns + (j as usize).min(size.columns - 1)]
}

fn rectangle_of(size: Size, table: &[i64], (top, bottom): (i64, i64), (left, right): (i64, i64)) -> i64 {
    corner(size, table, bottom, right)
        .wrapping_sub(corner(size, table, top - 1, right))
        .wrapping_sub(corner(size, table, bottom, left - 1))
        .wrapping_add(corner(size, table, top - 1, left - 1))
}

/// Some rows, and columns j-q to j+q: where they wrap, column by column.
fn rectangle_near(size: Size, border: Border, table: &[i64], rows: (i64, i64), j: i64, q: i64) -> i64 {
    match border {
        Border::Clipped => rectangle_of(size, table, rows, (j - q, j + q)),
        Border::Wrapped => {
            columns_near(size, border, j, Some(q)).fold(0, |sum: i64, n| sum.wrapping_add(rectangle_of(size, table, rows, (n, n))))
        }
    }
}

pub fn read(size: Size, border: Border, table: &[i64], window: Window, cell: Cell) -> Answer<i64> {
    let of_window = [window_illegal(window), row_above(size, border, window)];
    let others = [size_beyond(size), cell_outside(size, cell), area_length(table.len(), cells(size))];
    refuse(&[&of_window[..], &others].concat())?;
    let (i, j) = (cell.row as i64, cell.column as i64);
    let (first, second) = (i64::from(window.first), i64::from(window.second));
    if window.shape == 1 {
        return Ok(rectangle_near(size, border, table, (i - first, i + first), j, second));
    }
    let mut sum = 0i64;
    for p in -127..=127 {
        if let Some(q) = reach(window, p) {
            sum = sum.wrapping_add(rectangle_near(size, border, table, (i + p, i + p), j, q));
        }
    }
    Ok(sum)
}

// ---- Row session

/// The work area after row 0.
fn first_work(pictures: Pictures, window: Window, plane: Plane, j: i64) -> i64 {
    if window.shape == 1 {
        return (0..=i64::from(window.first)).map(|m| plane_value(pictures, plane, m, j)).sum();
    }
    window_sum(pictures, window, plane, Cell { row: 0, column: j as usize })
}

/// What column j of the work area gains from row i to row i + 1: what enters less what leaves.
fn change(pictures: Pictures, window: Window, plane: Plane, i: i64, j: i64) -> i64 {
    let (first, second) = (i64::from(window.first), i64::from(window.second));
    let Pictures { size, border, .. } = pictures;
    let value = |m, n| column_at(size, border, n).map_or(0, |n| plane_value(pictures, plane, m, n));
    if window.shape == 1 {
        return value(i + 1 + first, j) - value(i - first, j);
    }
    let (k, h) = if window.shape == 2 { (0, first) } else { (first, second) };
    let mut gain = 0;
    for q in -(k + h)..=k + h {
        let d = h.min(k + h - q.abs());
        gain += value(i + 1 + d, j + q) - value(i - d, j + q);
    }
    gain
}

/// The output row of a work area.
fn output(pictures: Pictures, window: Window, work: &[i64], j: i64) -> i64 {
    if window.shape != 1 {
        return work[j as usize];
    }
    let columns = columns_near(pictures.size, pictures.border, j, Some(window.second.into()));
    columns.fold(0, |sum, n| sum.wrapping_add(work[n as usize]))
}

pub fn rows(
    position: &mut usize,
    pictures: Pictures,
    window: Window,
    plane: Plane,
    request: usize,
    work: &mut [i64],
    out: &mut [i64],
) -> Answer<usize> {
    let size = pictures.size;
    let conditions = [
        window_illegal(window),
        plane_above(plane),
        row_above(size, pictures.border, window),
        request_above(size, *position, request),
        area_length(work.len(), size.columns as u128),
        area_length(out.len(), request as u128 * size.columns as u128),
    ];
    refuse_pictures(pictures, &conditions)?;
    for granted in 0..request {
        for (j, number) in work.iter_mut().enumerate() {
            *number = if *position == 0 {
                first_work(pictures, window, plane, j as i64)
            } else {
                number.wrapping_add(change(pictures, window, plane, *position as i64 - 1, j as i64))
            };
        }
        for j in 0..size.columns {
            out[granted * size.columns + j] = output(pictures, window, work, j as i64);
        }
        *position += 1;
    }
    Ok(request)
}

// ---- Statistics

/// N, Vf, Vg and C.
struct Central {
    n: i128,
    s: i128,
    vf: i128,
    vg: i128,
    c: i128,
}

/// 9, "sums impossible", or the central moments, or None where N = 0.
fn central(sums: Sums) -> Answer<Option<Central>> {
    let [n, s, t, a, b, p] = [sums.n, sums.s, sums.t, sums.a, sums.b, sums.p].map(i128::from);
    let beyond = |x: i128, limit: i128| x.abs() > limit * n;
    let out_of_bounds = !(0..=65025).contains(&n)
        || beyond(s, 32768)
        || beyond(t, 32768)
        || a < 0
        || beyond(a, 1 << 30)
        || b < 0
        || beyond(b, 1 << 30)
        || beyond(p, 1 << 30);
    refuse(&[(9, out_of_bounds)])?;
    let (vf, vg, c) = (n * a - s * s, n * b - t * t, n * p - s * t);
    refuse(&[(9, vf < 0 || vg < 0 || c * c > vf * vg)])?;
    Ok(if n == 0 { None } else { Some(Central { n, s, vf, vg, c }) })
}

/// The whole number nearest x / y, a half going up.
fn nearest(x: i128, y: i128) -> i64 {
    (2 * x + y).div_euclid(2 * y) as i64
}

fn mean_of(moments: &Central) -> i64 {
    nearest(moments.s, moments.n)
}

/// The largest whole number that a test passes which all below it pass, bit by bit.
fn largest(test: impl Fn(i128) -> bool) -> i128 {
    let mut number = 0;
    for bit in (0..=20).rev() {
        if test(number + (1 << bit)) {
            number += 1 << bit;
        }
    }
    number
}

fn deviation_of(moments: &Central) -> i64 {
    largest(|d| d * d * moments.n * moments.n <= moments.vf) as i64
}

pub fn mean(sums: Sums) -> Answer<Option<i64>> {
    Ok(central(sums)?.map(|moments| mean_of(&moments)))
}

pub fn variance(sums: Sums) -> Answer<Option<i64>> {
    Ok(central(sums)?.map(|moments| nearest(moments.vf, moments.n * moments.n)))
}

pub fn deviation(sums: Sums) -> Answer<Option<i64>> {
    Ok(central(sums)?.map(|moments| deviation_of(&moments)))
}

#[derive(Debug, PartialEq)]
pub enum Voice {
    Empty,
    Steady(f32),
    Grainy(f32, f32),
}

pub fn voice(sums: Sums) -> Answer<Voice> {
    let over_32768 = |x: i64| (x as f64 / 32768.0) as f32;
    Ok(match central(sums)? {
        None => Voice::Empty,
        Some(moments) if moments.vf == 0 => Voice::Steady(over_32768(mean_of(&moments))),
        Some(moments) => Voice::Grainy(over_32768(mean_of(&moments)), over_32768(deviation_of(&moments))),
    })
}

#[derive(Debug, PartialEq)]
pub enum Coefficient {
    Empty,
    Flat,
    Value(i64),
}

/// x·y, which may pass 128 bits, as two digits of which the lower has 64 bits.
fn product(x: i128, y: i128) -> (i128, i128) {
    let digit = 1 << 64;
    let low = x % digit * y;
    (x / digit * y + low / digit, low % digit)
}

pub fn coefficient(sums: Sums) -> Answer<Coefficient> {
    let Some(Central { vf, vg, c, .. }) = central(sums)? else {
        return Ok(Coefficient::Empty);
    };
    if vf == 0 || vg == 0 {
        return Ok(Coefficient::Flat);
    }
    let size = largest(|size| product(vf * vg, size * size) <= product(c * c, 1_000_000));
    Ok(Coefficient::Value((size * c.signum()) as i64))
}

// ---- Smoothing, steady cell, program

fn six_sums(pictures: Pictures, window: Window, cell: Cell) -> Sums {
    let sum = |plane| window_sum(pictures, window, Plane(plane), cell);
    Sums { n: sum(0), s: sum(1), t: sum(2), a: sum(3), b: sum(4), p: sum(5) }
}

pub fn mean_at(size: Size, border: Border, f: &[i16], window: Window, cell: Cell) -> i16 {
    let one = Pictures { border, ..Pictures::one(size, f) };
    let (n, s) = (window_sum(one, window, Plane(0), cell), window_sum(one, window, Plane(1), cell));
    nearest(s.into(), n.into()) as i16
}

pub fn smooth(size: Size, border: Border, f: &[i16], window: Window, out: &mut [i16]) -> Answer<()> {
    let of_window = [window_illegal(window), row_above(size, border, window)];
    let others = [size_beyond(size), picture_length(size, f), area_length(out.len(), cells(size))];
    refuse(&[&of_window[..], &others].concat())?;
    for row in 0..size.rows {
        for column in 0..size.columns {
            out[row * size.columns + column] = mean_at(size, border, f, window, Cell { row, column });
        }
    }
    Ok(())
}

pub fn steady(pictures: Pictures, window: Window) -> Answer<Option<Cell>> {
    let size = pictures.size;
    refuse_pictures(pictures, &[window_illegal(window), row_above(size, pictures.border, window)])?;
    for row in 0..size.rows {
        for column in 0..size.columns {
            let cell = Cell { row, column };
            if let Voice::Steady(_) = voice(six_sums(pictures, window, cell))? {
                return Ok(Some(cell));
            }
        }
    }
    Ok(None)
}

/// "A number is an optional minus sign and 1 to 9 digits"
fn number(run: &[u8]) -> Option<i64> {
    let digits = run.strip_prefix(b"-").unwrap_or(run);
    if digits.is_empty() || digits.len() > 9 || !digits.iter().all(u8::is_ascii_digit) {
        return None;
    }
    std::str::from_utf8(run).ok()?.parse().ok()
}

struct Drawing {
    size: Size,
    window: Window,
    levels: Vec<i16>,
}

/// What a text asks for, or the number of its refusal.
fn drawing(text: &[u8]) -> Answer<Drawing> {
    refuse(&[(10, text.len() > 65536)])?;
    let runs = text.split(|byte| b" \t\n".contains(byte)).filter(|run| !run.is_empty());
    let numbers: Vec<Option<i64>> = runs.map(number).collect();
    let [Some(rows), Some(columns), rest @ ..] = &numbers[..] else {
        return Err(10);
    };
    // a negative number of rows or columns is beyond limits, as 0 is
    let [rows, columns] = [*rows, *columns].map(|n| usize::try_from(n).unwrap_or(0));
    let size = Size { rows, columns };
    refuse(&[size_beyond(size), (1, cells(size) > 4096)])?;
    let [Some(shape), Some(first), Some(second), rest @ ..] = rest else {
        return Err(10);
    };
    let levels: Option<Vec<i16>> = rest.iter().map(|level| i16::try_from((*level)?).ok()).collect();
    let levels = levels.ok_or(10u32)?;
    refuse(&[(10, levels.len() as u128 != cells(size))])?;
    // nine digits fit an i32; a negative shape is none of 1 to 3
    let window = Window { shape: u32::try_from(*shape).unwrap_or(0), first: *first as i32, second: *second as i32 };
    refuse(&[window_illegal(window)])?;
    Ok(Drawing { size, window, levels })
}

pub fn panel(text: &[u8]) -> String {
    let Drawing { size, window, levels } = match drawing(text) {
        Ok(drawing) => drawing,
        Err(number) => return format!("refused {number}\n"),
    };
    let mut out = String::new();
    for row in 0..size.rows {
        let means = (0..size.columns).map(|column| mean_at(size, Border::Clipped, &levels, window, Cell { row, column }).to_string());
        out += &means.collect::<Vec<_>>().join(" ");
        out += "\n";
    }
    out
}
