//! The row session.

use crate::calls::{self, answered};
use crate::{Pictures, Plane, Refusal, Window};

/// A row session: window sums row by row, from a work area that one row hands to the next. The session has borrowed its pictures and
/// its work area, so that every call of it has the same.
///
/// ```
/// use local_statistics::{Pictures, Plane, Refusal, Session, Size, Window};
///
/// let levels = [1, 2, 3, 4, 5, 6, 7, 8, 9];
/// let pictures = Pictures::one(Size { rows: 3, columns: 3 }, &levels);
/// let mut work = [0; 3];
/// let mut session = Session::new(pictures, Window::rectangle(1, 1), Plane::F, &mut work);
///
/// let mut two = [0; 6];
/// assert_eq!(session.rows(2, &mut two), Ok(2));
/// assert_eq!(two, [12, 21, 16, 27, 45, 33]);
///
/// let mut one = [0; 3];
/// assert_eq!(session.rows(1, &mut one), Ok(1));
/// assert_eq!(one, [24, 39, 28]);
///
/// assert_eq!(session.rows(1, &mut one), Err(Refusal::Request));
/// assert_eq!(session.position(), 3);
/// ```
#[derive(Debug)]
pub struct Session<'a> {
    pictures: Pictures<'a>,
    window: Window,
    plane: Plane,
    position: usize,
    work: &'a mut [i64],
}

impl<'a> Session<'a> {
    /// A fresh session. The work area has one number a column, and may hold anything.
    pub fn new(pictures: Pictures<'a>, window: Window, plane: Plane, work: &'a mut [i64]) -> Session<'a> {
        Session::resume(0, pictures, window, plane, work)
    }

    /// A session that goes on from a position. Where the work area holds what [`work`](Session::work) was of a session at that position
    /// with these pictures, this window and this plane, it goes on as that session would. Other contents are taken by the same rule
    /// from row to row, with sums that wrap at 64 bits.
    ///
    /// ```
    /// use local_statistics::{Pictures, Plane, Session, Size, Window};
    ///
    /// let pictures = Pictures::one(Size { rows: 3, columns: 1 }, &[1, 2, 3]);
    /// let mut work = [3]; // the first row's: 1 + 2
    /// let mut session = Session::resume(1, pictures, Window::rectangle(1, 0), Plane::F, &mut work);
    /// let mut rest = [0; 2];
    /// assert_eq!(session.rows(2, &mut rest), Ok(2));
    /// assert_eq!(rest, [6, 5]);
    /// ```
    pub fn resume(position: usize, pictures: Pictures<'a>, window: Window, plane: Plane, work: &'a mut [i64]) -> Session<'a> {
        Session { pictures, window, plane, position, work }
    }

    /// The number of rows granted so far.
    pub fn position(&self) -> usize {
        self.position
    }

    /// The work area: after a granted row, for a rectangle the sums of the columns over the window's rows, for the others the window sums
    /// of that row.
    ///
    /// ```
    /// use local_statistics::{Pictures, Plane, Session, Size, Window};
    ///
    /// let pictures = Pictures::one(Size { rows: 2, columns: 2 }, &[1, 2, 3, 4]);
    /// let mut work = [0; 2];
    /// let mut session = Session::new(pictures, Window::rectangle(1, 1), Plane::F, &mut work);
    /// let mut row = [0; 2];
    /// session.rows(1, &mut row)?;
    /// assert_eq!((session.work(), row), (&[4, 6][..], [10, 10]));
    /// # Ok::<(), local_statistics::Refusal>(())
    /// ```
    pub fn work(&self) -> &[i64] {
        self.work
    }

    /// Writes the sums of the next `request` rows to `out`, which has that many rows of numbers, moves the position on, and gives the
    /// granted count, which is the request. A request of 0 changes nothing.
    ///
    /// Refusals: [`Size`](Refusal::Size), [`Picture`](Refusal::Picture), [`Window`](Refusal::Window), [`Shift`](Refusal::Shift),
    /// [`Plane`](Refusal::Plane), [`Width`](Refusal::Width), [`Request`](Refusal::Request), [`Area`](Refusal::Area). A refused call changes nothing, and the
    /// session goes on as if it had not been made.
    pub fn rows(&mut self, request: usize, out: &mut [i64]) -> Result<usize, Refusal> {
        let mut granted = 0;
        answered(calls::rows(&mut self.position, self.pictures, self.window, self.plane, request, self.work, out, &mut granted))?;
        Ok(granted)
    }
}
