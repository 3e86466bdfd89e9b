//! A looping drawing: its last column is joined to its first. A bell over the seam, smoothed with columns that clip and with columns that wrap, and
//! the shift under which the loop, turned by some columns, matches itself.

use local_statistics::{six_sums, smooth, Border, Cell, Coefficient, Pictures, Refusal, Shift, Size, Window};

const SIZE: Size = Size { rows: 1, columns: 8 };
/// A bell whose top is at column 0, and the same turned by three columns.
const BELL: [i16; 8] = [900, 300, 0, 0, 0, 0, 0, 300];
const TURNED: [i16; 8] = [0, 0, 300, 900, 300, 0, 0, 0];

fn main() -> Result<(), Refusal> {
    let window = Window::rectangle(0, 1);
    for border in [Border::Clipped, Border::Wrapped] {
        let mut out = [0; 8];
        smooth(SIZE, border, &BELL, window, &mut out)?;
        println!("{border:?}: {out:?}");
    }
    // three columns to the right, or five to the left, or many times round
    for right in [3, -5, 803] {
        let shift = Shift { down: 0, right };
        let pictures = Pictures { size: SIZE, border: Border::Wrapped, f: &BELL, g: &TURNED, shift };
        let sums = six_sums(pictures, Window::rectangle(0, 3), Cell { row: 0, column: 0 })?;
        match sums.coefficient()? {
            Coefficient::Value(c) => println!("turned by {right}: {c} thousandths"),
            other => println!("turned by {right}: {other:?}"),
        }
    }
    Ok(())
}
