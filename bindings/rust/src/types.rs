//! What a call is given: plain numbers, none of them tested here. The call that takes them tests them.

/// The most rows that a picture has.
pub const MAX_ROWS: usize = 256;
/// The most columns that a picture has.
pub const MAX_COLUMNS: usize = 1024;
/// How far a shift goes down, or up.
pub const MAX_DOWN: i32 = 255;
/// How far a shift goes to the right, or to the left.
pub const MAX_RIGHT: i32 = 1023;
/// The largest number of a window; of a hexagon, the largest sum of the two.
pub const MAX_WINDOW: i32 = 127;
/// The most cells that a window has, and so the largest N.
pub const MAX_CELLS: i64 = 65025;
/// The most bytes that a text of [`panel`](crate::panel) has.
pub const PANEL_MAX_BYTES: usize = 65536;
/// The most cells that a picture of [`panel`](crate::panel) has.
pub const PANEL_MAX_CELLS: usize = 4096;
/// The bytes that hold the longest output of [`panel`](crate::panel).
pub const PANEL_ROOM: usize = 28672;

/// The size of a picture: 1 to [`MAX_ROWS`] rows and 1 to [`MAX_COLUMNS`] columns.
#[derive(Clone, Copy, Debug, PartialEq, Eq, Hash)]
pub struct Size {
    /// The number of rows.
    pub rows: usize,
    /// The number of columns.
    pub columns: usize,
}

/// What is past the first and the last column of a picture. Rows clip always: nothing is above the first one or below the last one.
///
/// ```
/// use local_statistics::{direct_sum, Border, Cell, Pictures, Plane, Size, Window};
///
/// let clipped = Pictures::one(Size { rows: 1, columns: 4 }, &[1, 20, 300, 4000]);
/// let wrapped = Pictures { border: Border::Wrapped, ..clipped };
/// let sum = |pictures| direct_sum(pictures, Window::rectangle(0, 1), Plane::F, Cell { row: 0, column: 0 });
/// assert_eq!(sum(clipped), Ok(21));
/// assert_eq!(sum(wrapped), Ok(4021));
/// ```
#[derive(Clone, Copy, Debug, Default, PartialEq, Eq, Hash)]
pub enum Border {
    /// Nothing: the columns clip.
    #[default]
    Clipped = 0,
    /// The columns at the other end, as if the last one were joined to the first: a looping picture. A window's widest row must then fit
    /// the columns, or the call is turned down with [`Refusal::Width`](crate::Refusal::Width).
    Wrapped = 1,
}

/// A cell of a picture; rows and columns count from 0.
#[derive(Clone, Copy, Debug, PartialEq, Eq, Hash)]
pub struct Cell {
    /// The row.
    pub row: usize,
    /// The column.
    pub column: usize,
}

/// A window: the number of its shape and two numbers. On a cell (i, j) it holds the cells (i+p, j+q) that its shape says; where columns
/// wrap, j+q is taken mod columns.
///
/// ```
/// use local_statistics::Window;
///
/// assert_eq!(Window::hexagon(1, 2), Window { shape: 3, first: 1, second: 2 });
/// ```
#[derive(Clone, Copy, Debug, PartialEq, Eq, Hash)]
pub struct Window {
    /// 1 a rectangle, 2 a diamond, 3 a hexagon.
    pub shape: u32,
    /// The first number: a, r or k.
    pub first: i32,
    /// The second number: b, 0 or h.
    pub second: i32,
}

impl Window {
    /// |p| ≤ a and |q| ≤ b; each number from 0 to [`MAX_WINDOW`].
    pub const fn rectangle(a: i32, b: i32) -> Window {
        Window { shape: 1, first: a, second: b }
    }

    /// |p| + |q| ≤ r; r from 0 to [`MAX_WINDOW`].
    pub const fn diamond(r: i32) -> Window {
        Window { shape: 2, first: r, second: 0 }
    }

    /// |p| ≤ h and |p| + |q| ≤ k + h; neither number below 0, and k + h at most [`MAX_WINDOW`].
    pub const fn hexagon(k: i32, h: i32) -> Window {
        Window { shape: 3, first: k, second: h }
    }
}

/// A shift of g against f: down by -[`MAX_DOWN`] to [`MAX_DOWN`] rows and to the right by -[`MAX_RIGHT`] to [`MAX_RIGHT`] columns.
#[derive(Clone, Copy, Debug, Default, PartialEq, Eq, Hash)]
pub struct Shift {
    /// Rows down.
    pub down: i32,
    /// Columns to the right.
    pub right: i32,
}

/// A plane, by its number: what is summed at a cell (m, n) that counts. At every other cell a plane is 0.
///
/// ```
/// use local_statistics::Plane;
///
/// assert_eq!(Plane::PRODUCT, Plane(5));
/// ```
#[derive(Clone, Copy, Debug, PartialEq, Eq, Hash)]
pub struct Plane(
    /// The number, 0 to 5.
    pub u32,
);

impl Plane {
    /// 1: the sum counts the cells.
    pub const ONE: Plane = Plane(0);
    /// f(m, n).
    pub const F: Plane = Plane(1);
    /// g(m+down, n+right).
    pub const G: Plane = Plane(2);
    /// The square of plane 1.
    pub const F_SQUARED: Plane = Plane(3);
    /// The square of plane 2.
    pub const G_SQUARED: Plane = Plane(4);
    /// The product of planes 1 and 2.
    pub const PRODUCT: Plane = Plane(5);
}

/// Two pictures of one size under a shift. A cell (m, n) counts when it and (m+down, n+right) are both inside the picture; where columns
/// wrap, g is read at column (n+right) mod columns, which always is.
#[derive(Clone, Copy, Debug, PartialEq, Eq)]
pub struct Pictures<'a> {
    /// The size of each.
    pub size: Size,
    /// What is past their first and last column.
    pub border: Border,
    /// The levels of f, row by row: rows times columns.
    pub f: &'a [i16],
    /// The levels of g, row by row: rows times columns.
    pub g: &'a [i16],
    /// How g is moved against f.
    pub shift: Shift,
}

impl<'a> Pictures<'a> {
    /// One picture alone, whose columns clip: g is f, and the shift is (0, 0).
    ///
    /// ```
    /// use local_statistics::{Border, Pictures, Shift, Size};
    ///
    /// let one = Pictures::one(Size { rows: 1, columns: 2 }, &[7, 8]);
    /// assert_eq!((one.g, one.shift), (one.f, Shift { down: 0, right: 0 }));
    /// assert_eq!(one.border, Border::Clipped);
    /// ```
    pub const fn one(size: Size, f: &'a [i16]) -> Pictures<'a> {
        Pictures { size, border: Border::Clipped, f, g: f, shift: Shift { down: 0, right: 0 } }
    }
}
