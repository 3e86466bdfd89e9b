//! Window sums: directly, and from a cumulative table.

use crate::calls::{self, answered};
use crate::{Border, Cell, Pictures, Plane, Refusal, Size, Sums, Window};

/// The sum of the plane over the window on the cell.
///
/// Refusals: [`Size`](Refusal::Size), [`Picture`](Refusal::Picture), [`Window`](Refusal::Window), [`Shift`](Refusal::Shift),
/// [`Plane`](Refusal::Plane), [`Width`](Refusal::Width), [`Cell`](Refusal::Cell).
///
/// ```
/// use local_statistics::{direct_sum, Cell, Pictures, Plane, Size, Window};
///
/// let levels = [1, 2, 3, 4, 5, 6, 7, 8, 9];
/// let pictures = Pictures::one(Size { rows: 3, columns: 3 }, &levels);
/// let centre = Cell { row: 1, column: 1 };
/// assert_eq!(direct_sum(pictures, Window::rectangle(1, 1), Plane::F, centre), Ok(45));
/// assert_eq!(direct_sum(pictures, Window::diamond(1), Plane::F_SQUARED, centre), Ok(145));
/// assert_eq!(direct_sum(pictures, Window::hexagon(1, 1), Plane::ONE, centre), Ok(9));
/// ```
pub fn direct_sum(pictures: Pictures, window: Window, plane: Plane, cell: Cell) -> Result<i64, Refusal> {
    let mut sum = 0;
    answered(calls::direct_sum(pictures, window, plane, cell, &mut sum))?;
    Ok(sum)
}

/// The direct sums of the planes 0 to 5 at one cell, which the statistics take.
///
/// Refusals: those of [`direct_sum`] but [`Plane`](Refusal::Plane).
///
/// ```
/// use local_statistics::{six_sums, Cell, Pictures, Size, Sums, Window};
///
/// let levels = [1, 2, 3, 4, 5, 6, 7, 8, 9];
/// let pictures = Pictures::one(Size { rows: 3, columns: 3 }, &levels);
/// let sums = six_sums(pictures, Window::rectangle(1, 1), Cell { row: 0, column: 0 });
/// assert_eq!(sums, Ok(Sums { n: 4, s: 12, t: 12, a: 46, b: 46, p: 46 }));
/// ```
pub fn six_sums(pictures: Pictures, window: Window, cell: Cell) -> Result<Sums, Refusal> {
    let sum = |plane| direct_sum(pictures, window, plane, cell);
    Ok(Sums {
        n: sum(Plane::ONE)?,
        s: sum(Plane::F)?,
        t: sum(Plane::G)?,
        a: sum(Plane::F_SQUARED)?,
        b: sum(Plane::G_SQUARED)?,
        p: sum(Plane::PRODUCT)?,
    })
}

/// Fills `table`, one number a cell, with the cumulative table: at each cell the plane's sum over all cells that are neither below it
/// nor to its right. [`read`] takes window sums from it.
///
/// Refusals: [`Size`](Refusal::Size), [`Picture`](Refusal::Picture), [`Shift`](Refusal::Shift), [`Plane`](Refusal::Plane),
/// [`Area`](Refusal::Area).
///
/// ```
/// use local_statistics::{build, Pictures, Plane, Size};
///
/// let pictures = Pictures::one(Size { rows: 2, columns: 2 }, &[1, 2, 3, 4]);
/// let mut table = [0; 4];
/// build(pictures, Plane::F, &mut table)?;
/// assert_eq!(table, [1, 3, 4, 10]);
/// # Ok::<(), local_statistics::Refusal>(())
/// ```
pub fn build(pictures: Pictures, plane: Plane, table: &mut [i64]) -> Result<(), Refusal> {
    answered(calls::build(pictures, plane, table))
}

/// The sum over the window on the cell, from a table of a picture of this size and border. From a table that [`build`] filled with the
/// same border it is the [`direct_sum`]; from other contents it is the same formula of the table's corners, with sums that wrap at 64
/// bits.
///
/// Refusals: [`Size`](Refusal::Size), [`Window`](Refusal::Window), [`Width`](Refusal::Width), [`Cell`](Refusal::Cell),
/// [`Area`](Refusal::Area).
///
/// ```
/// use local_statistics::{read, Border, Cell, Refusal, Size, Window};
///
/// let size = Size { rows: 2, columns: 3 };
/// let sum = |border, b| read(size, border, &[1, 3, 6, 5, 12, 21], Window::rectangle(0, b), Cell { row: 1, column: 0 });
/// assert_eq!(sum(Border::Clipped, 1), Ok(9));
/// assert_eq!(sum(Border::Wrapped, 1), Ok(15));
/// assert_eq!(sum(Border::Wrapped, 2), Err(Refusal::Width));
/// ```
pub fn read(size: Size, border: Border, table: &[i64], window: Window, cell: Cell) -> Result<i64, Refusal> {
    let mut sum = 0;
    answered(calls::read(size, border, table, window, cell, &mut sum))?;
    Ok(sum)
}
