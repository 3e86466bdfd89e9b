//! The statistics of six sums.

use crate::calls::{self, answered};
use crate::Refusal;

/// The six sums of the planes 0 to 5 at one cell; [`six_sums`](crate::six_sums) finds them. With Vf = N·A - S², Vg = N·B - T² and
/// C = N·P - S·T, every statistic refuses sums that no picture has with [`Refusal::Sums`].
///
/// ```
/// use local_statistics::{Coefficient, Refusal, Sums, Voice};
///
/// let sums = Sums { n: 3, s: 6, t: 6, a: 14, b: 14, p: 13 }; // f 1 2 3, g 1 3 2
/// assert_eq!(sums.mean(), Ok(Some(2)));
/// assert_eq!(sums.variance(), Ok(Some(1)));
/// assert_eq!(sums.deviation(), Ok(Some(0)));
/// assert_eq!(sums.coefficient(), Ok(Coefficient::Value(500)));
/// assert_eq!(sums.voice(), Ok(Voice::Grainy { level: 2.0 / 32768.0, spread: 0.0 }));
///
/// let none = Sums { n: 0, s: 0, t: 0, a: 0, b: 0, p: 0 };
/// assert_eq!(none.mean(), Ok(None));
/// assert_eq!(Sums { s: 1, ..none }.mean(), Err(Refusal::Sums));
/// ```
#[derive(Clone, Copy, Debug, PartialEq, Eq, Hash)]
pub struct Sums {
    /// N: the cells that count.
    pub n: i64,
    /// S: the levels of f.
    pub s: i64,
    /// T: the levels of g.
    pub t: i64,
    /// A: the squares of the levels of f.
    pub a: i64,
    /// B: the squares of the levels of g.
    pub b: i64,
    /// P: the products of the levels of f and g.
    pub p: i64,
}

/// How f sounds at a cell. Level and spread are exact; a spread of 0 is legal.
#[derive(Clone, Copy, Debug, PartialEq)]
pub enum Voice {
    /// No cell counts.
    Empty,
    /// All levels are equal.
    Steady {
        /// The mean over 32,768.
        level: f32,
    },
    /// The levels differ.
    Grainy {
        /// The mean over 32,768.
        level: f32,
        /// The deviation over 32,768.
        spread: f32,
    },
}

/// How f and g go together.
#[derive(Clone, Copy, Debug, PartialEq, Eq, Hash)]
pub enum Coefficient {
    /// No cell counts.
    Empty,
    /// All levels of f, or all of g, are equal.
    Flat,
    /// The coefficient in thousandths, -1,000 to 1,000.
    Value(i64),
}

/// A whole number where a call answered, and None where it found N = 0.
fn whole(status: i32, value: i64) -> Result<Option<i64>, Refusal> {
    if status == calls::EMPTY {
        return Ok(None);
    }
    answered(status)?;
    Ok(Some(value))
}

impl Sums {
    /// The mean of f: the whole number nearest S/N, a half going up; None where N = 0.
    ///
    /// ```
    /// use local_statistics::Sums;
    ///
    /// let sums = Sums { n: 2, s: -3, t: 0, a: 5, b: 0, p: 0 }; // f -1 -2
    /// assert_eq!(sums.mean(), Ok(Some(-1)));
    /// ```
    pub fn mean(self) -> Result<Option<i64>, Refusal> {
        let mut mean = 0;
        let status = calls::mean(self, &mut mean);
        whole(status, mean)
    }

    /// The variance of f: the whole number nearest Vf/N², a half going up; None where N = 0.
    ///
    /// ```
    /// use local_statistics::Sums;
    ///
    /// let sums = Sums { n: 3, s: 1, t: 0, a: 11, b: 0, p: 0 }; // f 3 -1 -1: 32/9
    /// assert_eq!(sums.variance(), Ok(Some(4)));
    /// ```
    pub fn variance(self) -> Result<Option<i64>, Refusal> {
        let mut variance = 0;
        let status = calls::variance(self, &mut variance);
        whole(status, variance)
    }

    /// The deviation of f: the largest whole d with d²·N² ≤ Vf; None where N = 0. It is of the variance before rounding.
    ///
    /// ```
    /// use local_statistics::Sums;
    ///
    /// let sums = Sums { n: 3, s: 1, t: 0, a: 11, b: 0, p: 0 }; // f 3 -1 -1: the root of 32/9
    /// assert_eq!(sums.deviation(), Ok(Some(1)));
    /// ```
    pub fn deviation(self) -> Result<Option<i64>, Refusal> {
        let mut deviation = 0;
        let status = calls::deviation(self, &mut deviation);
        whole(status, deviation)
    }

    /// The coefficient of f and g: the sign of C times the largest whole c with c²·Vf·Vg ≤ 1,000,000·C².
    ///
    /// ```
    /// use local_statistics::{Coefficient, Sums};
    ///
    /// let against = Sums { n: 3, s: 6, t: 6, a: 14, b: 14, p: 10 }; // f 1 2 3, g 3 2 1
    /// assert_eq!(against.coefficient(), Ok(Coefficient::Value(-1000)));
    /// let level = Sums { n: 3, s: 6, t: 12, a: 14, b: 48, p: 24 }; // f 1 2 3, g 4 4 4
    /// assert_eq!(level.coefficient(), Ok(Coefficient::Flat));
    /// ```
    pub fn coefficient(self) -> Result<Coefficient, Refusal> {
        let mut coefficient = 0;
        let status = calls::coefficient(self, &mut coefficient);
        if status == calls::FLAT {
            return Ok(Coefficient::Flat);
        }
        Ok(whole(status, coefficient)?.map_or(Coefficient::Empty, Coefficient::Value))
    }

    /// The voice of f.
    ///
    /// ```
    /// use local_statistics::{Sums, Voice};
    ///
    /// let sums = Sums { n: 2, s: 32768, t: 0, a: 536870912, b: 0, p: 0 }; // f 16384 16384
    /// assert_eq!(sums.voice(), Ok(Voice::Steady { level: 0.5 }));
    /// ```
    pub fn voice(self) -> Result<Voice, Refusal> {
        let (mut kind, mut level, mut spread) = (0, 0.0, 0.0);
        let status = calls::voice(self, &mut kind, &mut level, &mut spread);
        if status == calls::EMPTY {
            return Ok(Voice::Empty);
        }
        answered(status)?;
        Ok(if kind == calls::STEADY { Voice::Steady { level } } else { Voice::Grainy { level, spread } })
    }
}
