//! What the calls are given, and what is kept of their answers.

use crate::random::Random;
use crate::rival::Answer;
use local_statistics::{Border, Cell, Pictures, Plane, Refusal, Shift, Size, Window};
use std::fmt::Debug;

/// The inputs of a call.
#[derive(Clone, Debug)]
pub struct Case {
    pub size: Size,
    pub border: Border,
    pub f: Vec<i16>,
    pub g: Vec<i16>,
    pub window: Window,
    pub shift: Shift,
    pub plane: Plane,
    pub cell: Cell,
}

impl Case {
    /// A case that no check refuses, of a picture of at most so many rows and columns.
    pub fn legal(random: &mut Random, rows: usize, columns: usize) -> Case {
        let size = Size { rows: 1 + random.below(rows), columns: 1 + random.below(columns) };
        let cells = size.rows * size.columns;
        let f = random.picture(cells);
        let g = if random.once_in(3) { f.clone() } else { random.picture(cells) };
        let border = random.pick(&[Border::Clipped, Border::Wrapped]);
        Case {
            size,
            border,
            f,
            g,
            window: if border == Border::Wrapped { fitting_window(random, size.columns as i64) } else { window(random) },
            shift: shift(random, size),
            plane: Plane(random.below(6) as u32),
            cell: Cell { row: random.below(size.rows), column: random.below(size.columns) },
        }
    }

    /// A legal case, in one of three with faults, often more than one.
    pub fn any(random: &mut Random, rows: usize, columns: usize) -> Case {
        let mut case = Case::legal(random, rows, columns);
        if random.once_in(3) {
            case.spoil(random);
        }
        case
    }

    /// Each input gets a fault once in eight times.
    fn spoil(&mut self, random: &mut Random) {
        let Size { rows, columns } = self.size;
        if random.once_in(8) {
            self.size.rows = random.pick(&[0, 257, usize::MAX, rows + 1]);
        }
        if random.once_in(8) {
            self.size.columns = random.pick(&[0, 1025, usize::MAX, columns + 1]);
        }
        if random.once_in(8) {
            spoil_length(random, &mut self.f);
        }
        if random.once_in(8) {
            spoil_length(random, &mut self.g);
        }
        if random.once_in(8) {
            self.window = illegal_window(random);
        }
        if self.border == Border::Wrapped && random.once_in(8) {
            self.window = with_reach(random, ((columns as i64 + 1) / 2).min(127));
        }
        if random.once_in(8) {
            self.shift.down = random.pick(&[-256, 256, i32::MIN, i32::MAX]);
        }
        if random.once_in(8) {
            self.shift.right = random.pick(&[-1024, 1024, i32::MIN, i32::MAX]);
        }
        if random.once_in(8) {
            self.plane = Plane(random.pick(&[6, 7, u32::MAX]));
        }
        if random.once_in(8) {
            self.cell.row = random.pick(&[rows, usize::MAX]);
        }
        if random.once_in(8) {
            self.cell.column = random.pick(&[columns, usize::MAX]);
        }
    }

    pub fn pictures(&self) -> Pictures<'_> {
        Pictures { size: self.size, border: self.border, f: &self.f, g: &self.g, shift: self.shift }
    }

    /// The length of an area that has one number a cell of f; once in eight times another.
    pub fn area_length(&self, random: &mut Random) -> usize {
        length(random, self.f.len())
    }
}

/// A length that is wanted; once in eight times another one near it.
pub fn length(random: &mut Random, wanted: usize) -> usize {
    match random.below(16) {
        0 => wanted + 1,
        1 => wanted.saturating_sub(1),
        _ => wanted,
    }
}

fn spoil_length(random: &mut Random, picture: &mut Vec<i16>) {
    match random.below(3) {
        0 => picture.push(0),
        1 => drop(picture.pop()),
        _ => picture.clear(),
    }
}

/// A legal window, small ones and the largest among them.
pub fn window(random: &mut Random) -> Window {
    let most = random.pick(&[0, 1, 3, 8, 127]);
    let first = random.within(0..=most) as i32;
    match random.below(3) {
        0 => Window::rectangle(first, random.within(0..=most) as i32),
        1 => Window::diamond(first),
        _ => Window::hexagon(first, random.within(0..=most - i64::from(first)) as i32),
    }
}

/// A legal window whose widest row goes so far to both sides.
fn with_reach(random: &mut Random, reach: i64) -> Window {
    let most = random.pick(&[0, 1, 3, 8, 127]);
    let height = random.within(0..=most) as i32;
    let reach = reach as i32;
    match random.below(3) {
        0 => Window::rectangle(height, reach),
        1 => Window::diamond(reach),
        _ => Window::hexagon(reach - height.min(reach), height.min(reach)),
    }
}

/// A legal window whose widest row fits so many columns, which it often fills.
fn fitting_window(random: &mut Random, columns: i64) -> Window {
    let most = ((columns - 1) / 2).min(127);
    let reach = if random.once_in(3) { most } else { random.within(0..=most) };
    with_reach(random, reach)
}

fn illegal_window(random: &mut Random) -> Window {
    let shape = random.pick(&[0, 1, 2, 3, 4, u32::MAX]);
    let (first, second) = random.pick(&[(128, 0), (0, 128), (-1, 0), (0, -1), (1, 127), (127, 1), (i32::MAX, i32::MAX), (i32::MIN, 0)]);
    Window { shape, first, second }
}

/// A legal shift: none, a small one, one as large as the picture, one that goes far beyond its columns, or a limit.
fn shift(random: &mut Random, size: Size) -> Shift {
    let (rows, columns) = (size.rows as i64, size.columns as i64);
    match random.below(6) {
        0 => Shift::default(),
        1 | 2 => Shift { down: random.within(-2..=2) as i32, right: random.within(-2..=2) as i32 },
        3 => Shift {
            down: random.within(-rows.min(255)..=rows.min(255)) as i32,
            right: random.within(-columns.min(1023)..=columns.min(1023)) as i32,
        },
        4 => Shift { down: random.within(-2..=2) as i32, right: random.within(-1023..=1023) as i32 },
        _ => Shift { down: random.pick(&[-255, 0, 255]), right: random.pick(&[-1023, 0, 1023]) },
    }
}

/// An area in the middle of a larger one, whose ends must keep what they hold.
pub struct Guarded<T> {
    whole: Vec<T>,
}

const ENDS: usize = 8;

impl<T: Copy + Debug + PartialEq> Guarded<T> {
    pub fn new(contents: &[T], guard: T) -> Guarded<T> {
        let ends = [guard; ENDS];
        Guarded { whole: [&ends, contents, &ends].concat() }
    }

    pub fn area(&mut self) -> &mut [T] {
        let end = self.whole.len() - ENDS;
        &mut self.whole[ENDS..end]
    }

    /// The area holds what is expected, and its ends what they held.
    pub fn expect(&self, expected: &[T], guard: T) {
        assert_eq!(self.whole, Guarded::new(expected, guard).whole);
    }
}

/// How often calls answered, and how often they were refused with each number.
#[derive(Default)]
pub struct Tally {
    answered: usize,
    refused: [usize; 12],
}

impl Tally {
    /// The library's answer is the rival's.
    pub fn compare<T: Debug + PartialEq>(&mut self, library: Result<T, Refusal>, rival: Answer<T>, given: &impl Debug) {
        let library = library.map_err(Refusal::number);
        assert_eq!(library, rival, "given {given:?}");
        match rival {
            Ok(_) => self.answered += 1,
            Err(number) => self.refused[number as usize] += 1,
        }
    }

    /// The trials were not idle: so many calls answered, and each of the refusals, and no other, was met.
    pub fn expect(&self, answered: usize, refusals: &[usize]) {
        assert!(self.answered >= answered, "only {} calls answered", self.answered);
        for (number, &met) in self.refused.iter().enumerate() {
            assert_eq!(met > 0, refusals.contains(&number), "refusal {number} was met {met} times");
        }
    }
}
