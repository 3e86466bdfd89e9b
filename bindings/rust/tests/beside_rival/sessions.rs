//! Row sessions: lists of calls, some of them refused.

use crate::cases::{length, Case, Guarded, Tally};
use crate::random::Random;
use crate::rival;
use local_statistics::{build, direct_sum, read, Cell, Session};

/// A request, mostly one that can be granted.
fn request(random: &mut Random, case: &Case, position: usize) -> usize {
    match random.below(8) {
        0 => random.pick(&[case.size.rows.saturating_add(1), usize::MAX]),
        1 => 0,
        _ => random.below(case.size.rows.saturating_sub(position).min(5) + 1),
    }
}

/// Sessions from any position with any work area, beside the rival's.
#[test]
fn any_sessions() {
    let mut random = Random(5);
    let mut tally = Tally::default();
    for _ in 0..15_000 {
        let case = Case::any(&mut random, 12, 12);
        let start = if random.once_in(2) { 0 } else { random.below(case.size.rows.min(300) + 2) };
        let mut position = if random.once_in(40) { usize::MAX } else { start };
        let columns = length(&mut random, case.size.columns.min(1100));
        let mut work = random.numbers(columns);
        let mut lent = Guarded::new(&work, 7);
        let mut session = Session::resume(position, case.pictures(), case.window, case.plane, lent.area());
        for _ in 0..5 {
            let request = request(&mut random, &case, position);
            let room = length(&mut random, request.saturating_mul(case.size.columns).min(5_000));
            let mut expected = random.numbers(room);
            let mut out = Guarded::new(&expected, 9);
            let library = session.rows(request, out.area());
            let rival = rival::rows(&mut position, case.pictures(), case.window, case.plane, request, &mut work, &mut expected);
            tally.compare(library, rival, &(&case, request));
            out.expect(&expected, 9);
            assert_eq!(session.position(), position);
            assert_eq!(session.work(), work);
        }
        lent.expect(&work, 7);
    }
    tally.expect(25_000, &[1, 2, 3, 4, 5, 7, 8, 11]);
}

/// Demand 3 of document 01: whatever the list of calls, the rows that a fresh session writes are the direct sums, and what reading gives.
#[test]
fn fresh_sessions_give_the_direct_sums() {
    let mut random = Random(6);
    for _ in 0..5_000 {
        let case = Case::legal(&mut random, 10, 10);
        let columns = case.size.columns;
        let mut table = vec![0; case.f.len()];
        assert_eq!(build(case.pictures(), case.plane, &mut table), Ok(()));
        let mut work = random.numbers(columns);
        let mut session = Session::new(case.pictures(), case.window, case.plane, &mut work);
        let mut joined = Vec::new();
        for _ in 0..6 {
            let request = request(&mut random, &case, session.position());
            let mut out = vec![0; request.min(20) * columns];
            if session.rows(request, &mut out).is_ok() {
                joined.append(&mut out);
            }
        }
        assert_eq!(joined.len(), session.position() * columns);
        for (place, &sum) in joined.iter().enumerate() {
            let cell = Cell { row: place / columns, column: place % columns };
            assert_eq!(direct_sum(case.pictures(), case.window, case.plane, cell), Ok(sum), "given {case:?} at {cell:?}");
            assert_eq!(read(case.size, case.border, &table, case.window, cell), Ok(sum));
            assert_eq!(rival::direct_sum(case.pictures(), case.window, case.plane, cell), Ok(sum));
        }
    }
}
