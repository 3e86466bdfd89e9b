//! The five statistics.

use crate::cases::{Case, Tally};
use crate::random::Random;
use crate::rival;
use local_statistics::{six_sums, Coefficient, Sums, Voice};

/// Six sums of a list of cells, which are possible.
fn of_cells(random: &mut Random) -> Sums {
    let count = random.pick(&[0, 1, 2, 3, 9, 50]);
    let f = random.picture(count);
    let g = if random.once_in(3) { f.iter().map(|&x| x / 2).collect() } else { random.picture(count) };
    let mut sums = Sums { n: count as i64, s: 0, t: 0, a: 0, b: 0, p: 0 };
    for (&x, &y) in f.iter().zip(&g) {
        let (x, y) = (i64::from(x), i64::from(y));
        sums = Sums { s: sums.s + x, t: sums.t + y, a: sums.a + x * x, b: sums.b + y * y, p: sums.p + x * y, ..sums };
    }
    // many cells more of the same kind, up to the largest window
    let times = if count == 0 { 1 } else { random.pick(&[1, 1, 65025 / count as i64]) };
    each(sums, |x| x * times)
}

fn each(sums: Sums, change: impl Fn(i64) -> i64) -> Sums {
    let [n, s, t, a, b, p] = [sums.n, sums.s, sums.t, sums.a, sums.b, sums.p].map(change);
    Sums { n, s, t, a, b, p }
}

fn field(sums: &mut Sums, number: usize) -> &mut i64 {
    match number {
        0 => &mut sums.n,
        1 => &mut sums.s,
        2 => &mut sums.t,
        3 => &mut sums.a,
        4 => &mut sums.b,
        _ => &mut sums.p,
    }
}

/// Sums of cells; such sums with a number changed a little or wholly; six numbers of any kind; sums at the bounds of 9.
fn any_sums(random: &mut Random) -> Sums {
    let mut sums = of_cells(random);
    match random.below(8) {
        0 => *field(&mut sums, random.below(6)) += random.pick(&[-1, 1]),
        1 => *field(&mut sums, random.below(6)) = random.number(),
        2 => (0..6).for_each(|number| *field(&mut sums, number) = random.number()),
        3 => {
            let n = random.pick(&[0, 1, 65025, 65026, -1]);
            let near = |random: &mut Random, bound: i64| random.pick(&[-1, 1]) * n * bound + random.within(-1..=1);
            sums = Sums {
                n,
                s: near(random, 32768),
                t: near(random, 32768),
                a: n << 30,
                b: (n << 30) + random.within(-1..=1),
                p: near(random, 1 << 30),
            };
        }
        _ => {}
    }
    sums
}

fn voice_of(voice: Voice) -> rival::Voice {
    match voice {
        Voice::Empty => rival::Voice::Empty,
        Voice::Steady { level } => rival::Voice::Steady(level),
        Voice::Grainy { level, spread } => rival::Voice::Grainy(level, spread),
    }
}

fn coefficient_of(coefficient: Coefficient) -> rival::Coefficient {
    match coefficient {
        Coefficient::Empty => rival::Coefficient::Empty,
        Coefficient::Flat => rival::Coefficient::Flat,
        Coefficient::Value(c) => rival::Coefficient::Value(c),
    }
}

/// No float is negative zero: `==` does not see it.
fn no_negative_zero(voice: Voice) {
    let positive = |x: f32| assert!(x != 0.0 || x.is_sign_positive());
    match voice {
        Voice::Empty => {}
        Voice::Steady { level } => positive(level),
        Voice::Grainy { level, spread } => {
            positive(level);
            positive(spread);
        }
    }
}

#[test]
fn statistics() {
    let mut random = Random(7);
    let mut tally = Tally::default();
    let (mut empty, mut flat, mut steady, mut grainy, mut values) = (0, 0, 0, 0, 0);
    for _ in 0..200_000 {
        let sums = any_sums(&mut random);
        tally.compare(sums.mean(), rival::mean(sums), &sums);
        tally.compare(sums.variance(), rival::variance(sums), &sums);
        tally.compare(sums.deviation(), rival::deviation(sums), &sums);
        tally.compare(sums.coefficient().map(coefficient_of), rival::coefficient(sums), &sums);
        tally.compare(sums.voice().map(voice_of), rival::voice(sums), &sums);
        if let (Ok(voice), Ok(coefficient)) = (sums.voice(), sums.coefficient()) {
            no_negative_zero(voice);
            empty += usize::from(voice == Voice::Empty);
            steady += usize::from(matches!(voice, Voice::Steady { .. }));
            grainy += usize::from(matches!(voice, Voice::Grainy { .. }));
            flat += usize::from(coefficient == Coefficient::Flat);
            values += usize::from(matches!(coefficient, Coefficient::Value(_)));
        }
    }
    tally.expect(500_000, &[9]);
    for kind in [empty, flat, steady, grainy, values] {
        assert!(kind > 5_000, "{empty} Empty, {flat} Flat, {steady} Steady, {grainy} Grainy, {values} coefficients");
    }
}

/// No statistic refuses the six sums of a cell, and `six_sums` are the rival's.
#[test]
fn statistics_of_pictures() {
    let mut random = Random(8);
    for _ in 0..10_000 {
        let case = Case::legal(&mut random, 14, 14);
        let sums = six_sums(case.pictures(), case.window, case.cell).unwrap();
        let mut rival = sums;
        for plane in 0..6 {
            let plane_sum = rival::direct_sum(case.pictures(), case.window, local_statistics::Plane(plane), case.cell);
            *field(&mut rival, plane as usize) = plane_sum.unwrap();
        }
        assert_eq!(sums, rival, "given {case:?}");
        assert!(sums.mean().is_ok() && sums.variance().is_ok() && sums.deviation().is_ok());
        assert!(sums.coefficient().is_ok() && sums.voice().is_ok());
    }
}
