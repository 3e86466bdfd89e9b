//! Scrolled, frozen, shifted: a picture's sums row by row and from a table, and that one cancels the other; and the shift under which
//! one picture matches another.

use local_statistics::{build, read, six_sums, Border, Cell, Coefficient, Pictures, Plane, Refusal, Session, Shift, Size, Window};

const SIZE: Size = Size { rows: 8, columns: 12 };
const CELLS: usize = 8 * 12;

fn draw(row: usize, column: usize) -> [i16; CELLS] {
    let bell = [[100, 300, 100], [300, 900, 300], [100, 300, 100]];
    let mut picture = [0; CELLS];
    for (i, line) in bell.iter().enumerate() {
        let start = (row + i) * SIZE.columns + column;
        picture[start..start + 3].copy_from_slice(line);
    }
    picture
}

/// The largest of all differences between scrolled and frozen sums, over a diamond of 2.
fn largest_difference(pictures: Pictures) -> Result<u64, Refusal> {
    let window = Window::diamond(2);
    let mut table = [0; CELLS];
    build(pictures, Plane::F, &mut table)?;
    let mut work = [0; 12];
    let mut session = Session::new(pictures, window, Plane::F, &mut work);
    let mut largest = 0;
    for row in 0..SIZE.rows {
        let mut scrolled = [0; 12];
        session.rows(1, &mut scrolled)?;
        for (column, sum) in scrolled.iter().enumerate() {
            let frozen = read(SIZE, Border::Clipped, &table, window, Cell { row, column })?;
            largest = largest.max(sum.abs_diff(frozen));
        }
    }
    Ok(largest)
}

fn main() -> Result<(), Refusal> {
    let f = draw(1, 1);
    // What f shows, 3 rows lower and 5 columns further to the right.
    let g = draw(4, 6);
    println!("scrolled less frozen: {} at most", largest_difference(Pictures::one(SIZE, &f))?);
    for right in 4..=6 {
        let pictures = Pictures { g: &g, shift: Shift { down: 3, right }, ..Pictures::one(SIZE, &f) };
        let sums = six_sums(pictures, Window::rectangle(2, 2), Cell { row: 2, column: 2 })?;
        match sums.coefficient()? {
            Coefficient::Value(c) => println!("shift (3, {right}): {c} thousandths"),
            other => println!("shift (3, {right}): {other:?}"),
        }
    }
    Ok(())
}
