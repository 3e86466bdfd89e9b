//! Why a call was turned down.

use core::error::Error;
use core::fmt::{Display, Formatter, Result};

/// Why a call was turned down: the conditions of documents 01 and 02, with their numbers. They are tried in the order of their numbers,
/// but [`Width`](Refusal::Width) before 6, 7 and 8, and the first that holds comes back. A later version may have more of them, so a `match` needs an arm for the others.
///
/// ```
/// use local_statistics::{direct_sum, Cell, Pictures, Plane, Refusal, Size, Window};
///
/// let pictures = Pictures::one(Size { rows: 1, columns: 2 }, &[7, 8]);
/// let refusal = direct_sum(pictures, Window::diamond(128), Plane::F, Cell { row: 0, column: 0 }).unwrap_err();
/// assert_eq!(refusal, Refusal::Window);
/// assert_eq!(refusal.number(), 3);
/// assert_eq!(refusal.to_string(), "refused 3: shape not 1 to 3, or window numbers other than its shape allows");
/// ```
#[derive(Clone, Copy, Debug, PartialEq, Eq, Hash)]
#[non_exhaustive]
pub enum Refusal {
    /// Rows or columns beyond limits.
    Size = 1,
    /// A picture's length is not rows times columns.
    Picture = 2,
    /// Shape not 1 to 3, or window numbers other than its shape allows.
    Window = 3,
    /// Shift beyond limits.
    Shift = 4,
    /// Plane above 5.
    Plane = 5,
    /// Cell outside the picture.
    Cell = 6,
    /// Position above rows, or request above rows minus position.
    Request = 7,
    /// Table, work or output area of another length.
    Area = 8,
    /// Sums impossible.
    Sums = 9,
    /// Columns wrap, and the window's widest row is above columns.
    Width = 11,
}

const ALL: [Refusal; 10] = [
    Refusal::Size,
    Refusal::Picture,
    Refusal::Window,
    Refusal::Shift,
    Refusal::Plane,
    Refusal::Cell,
    Refusal::Request,
    Refusal::Area,
    Refusal::Sums,
    Refusal::Width,
];

impl Refusal {
    /// The refusal's number, 1 to 9 or 11.
    pub const fn number(self) -> u32 {
        self as u32
    }

    /// The refusal with a number.
    pub(crate) fn of_number(number: i32) -> Option<Refusal> {
        ALL.into_iter().find(|refusal| *refusal as i32 == number)
    }

    const fn words(self) -> &'static str {
        match self {
            Refusal::Size => "rows or columns beyond limits",
            Refusal::Picture => "a picture's length is not rows times columns",
            Refusal::Window => "shape not 1 to 3, or window numbers other than its shape allows",
            Refusal::Shift => "shift beyond limits",
            Refusal::Plane => "plane above 5",
            Refusal::Cell => "cell outside the picture",
            Refusal::Request => "position above rows, or request above rows minus position",
            Refusal::Area => "table, work or output area of another length",
            Refusal::Sums => "sums impossible",
            Refusal::Width => "columns wrap, and the window's widest row is above columns",
        }
    }
}

impl Display for Refusal {
    fn fmt(&self, f: &mut Formatter<'_>) -> Result {
        write!(f, "refused {}: {}", self.number(), self.words())
    }
}

impl Error for Refusal {}

#[cfg(test)]
mod tests {
    use super::Refusal;

    #[test]
    fn numbers_1_to_9_and_11_are_refusals_and_no_others() {
        for number in -4..=13 {
            let found = Refusal::of_number(number).map(Refusal::number);
            assert_eq!(found, ((1..=9).contains(&number) || number == 11).then_some(number as u32));
        }
    }
}
