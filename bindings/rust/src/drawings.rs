//! Smoothing, the search for the first steady cell, and panel's text.

use crate::calls::{self, answered};
use crate::{Border, Cell, Pictures, Refusal, Size, Window};

/// Writes the mean of f over the window at every cell to `out`, a picture of the same size.
///
/// Refusals: [`Size`](Refusal::Size), [`Picture`](Refusal::Picture), [`Window`](Refusal::Window), [`Width`](Refusal::Width),
/// [`Area`](Refusal::Area).
///
/// ```
/// use local_statistics::{smooth, Border, Size, Window};
///
/// let size = Size { rows: 2, columns: 3 };
/// let mut out = [0; 6];
/// smooth(size, Border::Clipped, &[1, 2, 6, -1, -2, -6], Window::rectangle(0, 1), &mut out)?;
/// assert_eq!(out, [2, 3, 4, -1, -3, -4]);
/// smooth(size, Border::Wrapped, &[1, 2, 6, -1, -2, -6], Window::rectangle(0, 1), &mut out)?;
/// assert_eq!(out, [3, 3, 3, -3, -3, -3]);
/// # Ok::<(), local_statistics::Refusal>(())
/// ```
pub fn smooth(size: Size, border: Border, f: &[i16], window: Window, out: &mut [i16]) -> Result<(), Refusal> {
    answered(calls::smooth(size, border, f, window, out))
}

/// The first cell, row by row, whose voice is Steady, or None where there is none.
///
/// Refusals: [`Size`](Refusal::Size), [`Picture`](Refusal::Picture), [`Window`](Refusal::Window), [`Shift`](Refusal::Shift),
/// [`Width`](Refusal::Width).
///
/// ```
/// use local_statistics::{steady, Cell, Pictures, Size, Window};
///
/// let pictures = Pictures::one(Size { rows: 1, columns: 4 }, &[5, 7, 7, 7]);
/// assert_eq!(steady(pictures, Window::rectangle(0, 1)), Ok(Some(Cell { row: 0, column: 2 })));
/// assert_eq!(steady(pictures, Window::rectangle(0, 2)), Ok(Some(Cell { row: 0, column: 3 })));
/// assert_eq!(steady(pictures, Window::rectangle(0, 3)), Ok(None));
/// ```
pub fn steady(pictures: Pictures, window: Window) -> Result<Option<Cell>, Refusal> {
    let mut cell = Cell { row: 0, column: 0 };
    let status = calls::steady(pictures, window, &mut cell);
    if status == calls::NOWHERE {
        return Ok(None);
    }
    answered(status)?;
    Ok(Some(cell))
}

/// What the program *panel* prints for a text, written to the front of `out`, and given back. The rest of `out` keeps its contents.
///
/// The text has decimal numbers divided by spaces, tabs and line feeds: rows, columns, shape, the two window numbers, then the levels; at
/// most [`PANEL_MAX_CELLS`](crate::PANEL_MAX_CELLS) cells and [`PANEL_MAX_BYTES`](crate::PANEL_MAX_BYTES) bytes. The output is the smoothed
/// picture, one line a row, whose columns clip, or for a text that panel refuses the one line `refused N`.
///
/// Refusal: [`Area`](Refusal::Area) where `out` has fewer than [`PANEL_ROOM`](crate::PANEL_ROOM) bytes.
///
/// ```
/// use local_statistics::{panel, PANEL_ROOM};
///
/// let mut out = [0; PANEL_ROOM];
/// assert_eq!(panel(b"2 3 1 0 1 1 2 6 -1 -2 -6", &mut out), Ok(&b"2 3 4\n-1 -3 -4\n"[..]));
/// assert_eq!(panel(b"2 3 1 0 1 1 2 6", &mut out), Ok(&b"refused 10\n"[..]));
/// ```
pub fn panel<'out>(text: &[u8], out: &'out mut [u8]) -> Result<&'out [u8], Refusal> {
    let mut written = 0;
    answered(calls::panel(text, out, &mut written))?;
    Ok(&out[..written])
}
