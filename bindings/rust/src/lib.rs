//! Local statistics of drawn pictures: sums, means, variances, deviations and correlations of the levels in a window that
//! moves over a picture.
//!
//! A picture has 1 to [`MAX_ROWS`] rows of 1 to [`MAX_COLUMNS`] signed 16-bit levels, row by row; rows and columns count from 0.
//! Two [`Pictures`] of one size stand under a [`Shift`]. A [`Window`] sits on a [`Cell`]; a [`Plane`] says what is summed. A [`Border`]
//! says whether the columns clip, or wrap as those of a looping picture do.
//!
//! The sum over a window is found in three ways that agree to the last bit: [`direct_sum`]; [`build`] and [`read`], from a
//! cumulative table; and a [`Session`], row by row. [`six_sums`] gives the [`Sums`] of all planes at a cell, and these their
//! statistics. [`smooth`] takes the mean at every cell, [`steady`] finds the first cell whose levels are all equal, and [`panel`]
//! goes from a text to a text.
//!
//! The functions are those of the C library `local_statistics`, which is proved to answer as document 01, *Local statistics of
//! drawn pictures*, says, and change 1 of document 02 where columns wrap. They allocate nothing and keep nothing between calls. No input crashes them or keeps them
//! running: what the documents turn down comes back as a [`Refusal`], and every area that the call was lent then keeps its contents.
//!
//! ```
//! use local_statistics::{direct_sum, six_sums, Cell, Pictures, Plane, Size, Window};
//!
//! let levels = [1, 2, 3, 4, 5, 6, 7, 8, 9];
//! let pictures = Pictures::one(Size { rows: 3, columns: 3 }, &levels);
//! let window = Window::rectangle(1, 1);
//! let corner = Cell { row: 0, column: 0 };
//!
//! assert_eq!(direct_sum(pictures, window, Plane::F, corner), Ok(12));
//! assert_eq!(six_sums(pictures, window, corner)?.mean(), Ok(Some(3)));
//! # Ok::<(), local_statistics::Refusal>(())
//! ```

#![no_std]
#![deny(missing_docs)]
#![deny(unsafe_code)]

mod calls;
mod drawings;
mod refusal;
mod session;
mod statistics;
mod sums;
mod types;

/// The version of the linked library: major · 1,000,000 + minor · 1,000 + patch.
///
/// ```
/// assert_eq!(local_statistics::version() / 1_000_000, 2);
/// ```
pub fn version() -> u32 {
    calls::version()
}

pub use drawings::{panel, smooth, steady};
pub use refusal::Refusal;
pub use session::Session;
pub use statistics::{Coefficient, Sums, Voice};
pub use sums::{build, direct_sum, read, six_sums};
pub use types::{
    Border, Cell, Pictures, Plane, Shift, Size, Window, MAX_CELLS, MAX_COLUMNS, MAX_DOWN, MAX_RIGHT, MAX_ROWS, MAX_WINDOW, PANEL_MAX_BYTES,
    PANEL_MAX_CELLS, PANEL_ROOM,
};
