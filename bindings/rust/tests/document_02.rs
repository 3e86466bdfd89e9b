//! Change 1 of document 02: "A looping pad joins its last column to its first".

use local_statistics::{
    build, direct_sum, read, six_sums, smooth, steady, Border, Cell, Pictures, Plane, Refusal, Session, Shift, Size, Window, MAX_RIGHT,
};

const ROW: [i16; 4] = [1, 20, 300, 4000];
const OF_ROW: Size = Size { rows: 1, columns: 4 };

/// Three rows of five columns.
const PAD: [i16; 15] = [1, 2, 3, 4, 5, 10, 20, 30, 40, 50, 100, 200, 300, 400, 500];
const OF_PAD: Size = Size { rows: 3, columns: 5 };

fn looped(size: Size, f: &[i16]) -> Pictures<'_> {
    Pictures { border: Border::Wrapped, ..Pictures::one(size, f) }
}

#[test]
fn a_window_goes_on_at_the_other_end() {
    let sum = |column| direct_sum(looped(OF_ROW, &ROW), Window::rectangle(0, 1), Plane::F, Cell { row: 0, column });
    assert_eq!([0, 1, 2, 3].map(sum), [Ok(4021), Ok(321), Ok(4320), Ok(4301)]);

    // rows clip
    let pad = |window| direct_sum(looped(OF_PAD, &PAD), window, Plane::F, Cell { row: 0, column: 4 });
    assert_eq!(pad(Window::rectangle(1, 1)), Ok(4 + 5 + 1 + 40 + 50 + 10));
    assert_eq!(pad(Window::diamond(1)), Ok(4 + 5 + 1 + 50));
    assert_eq!(pad(Window::hexagon(1, 1)), Ok(3 + 4 + 5 + 1 + 2 + 40 + 50 + 10));
}

#[test]
fn g_is_read_at_the_wrapped_column() {
    let moved = |right| {
        let pictures = Pictures { shift: Shift { down: 0, right }, ..looped(OF_PAD, &PAD) };
        [0, 1, 2, 3, 4].map(|column| direct_sum(pictures, Window::diamond(0), Plane::G, Cell { row: 0, column }).unwrap())
    };
    assert_eq!(moved(1), [2, 3, 4, 5, 1]);
    assert_eq!(moved(-7), [4, 5, 1, 2, 3]);
    assert_eq!(moved(5), moved(0));
    assert_eq!(moved(MAX_RIGHT), moved(3));
    assert_eq!(moved(-MAX_RIGHT), moved(2));

    // a cell counts when the row of g is inside
    let down = Pictures { shift: Shift { down: 2, right: -MAX_RIGHT }, ..looped(OF_PAD, &PAD) };
    let n = |row| six_sums(down, Window::rectangle(0, 2), Cell { row, column: 0 }).unwrap().n;
    assert_eq!([0, 1, 2].map(n), [5, 0, 0]);
}

#[test]
fn one_column() {
    let column = Pictures { shift: Shift { down: 0, right: 1000 }, ..looped(Size { rows: 3, columns: 1 }, &[1, 2, 4]) };
    let sum = |window| direct_sum(column, window, Plane::PRODUCT, Cell { row: 1, column: 0 });
    assert_eq!(sum(Window::rectangle(127, 0)), Ok(21));
    assert_eq!(sum(Window::diamond(0)), Ok(4));
    for window in [Window::rectangle(0, 1), Window::diamond(1), Window::hexagon(0, 1), Window::hexagon(1, 0)] {
        assert_eq!(sum(window), Err(Refusal::Width));
    }
}

#[test]
fn scrolled_and_frozen_loops_cancel() {
    let pad = Pictures { shift: Shift { down: 1, right: -7 }, ..looped(OF_PAD, &PAD) };
    for window in [Window::rectangle(1, 2), Window::diamond(2), Window::hexagon(1, 1)] {
        let mut table = [0; 15];
        assert_eq!(build(pad, Plane::PRODUCT, &mut table), Ok(()));
        let mut work = [77; 5];
        let mut rows = [0; 15];
        assert_eq!(Session::new(pad, window, Plane::PRODUCT, &mut work).rows(3, &mut rows), Ok(3));
        for (place, sum) in rows.into_iter().enumerate() {
            let cell = Cell { row: place / 5, column: place % 5 };
            assert_eq!(read(OF_PAD, Border::Wrapped, &table, window, cell), Ok(sum));
            assert_eq!(direct_sum(pad, window, Plane::PRODUCT, cell), Ok(sum));
        }
    }
}

#[test]
fn the_widest_row_must_fit_the_columns() {
    let mut out = [0; 4];
    assert_eq!(smooth(OF_ROW, Border::Wrapped, &ROW, Window::rectangle(0, 2), &mut out), Err(Refusal::Width));
    assert_eq!(smooth(OF_ROW, Border::Clipped, &ROW, Window::rectangle(0, 2), &mut out), Ok(()));
    assert_eq!(steady(looped(OF_ROW, &ROW), Window::diamond(2)), Err(Refusal::Width));
    assert_eq!(steady(looped(OF_ROW, &ROW), Window::rectangle(127, 1)), Ok(None));

    // equality is taken, and the height is not asked
    assert_eq!(direct_sum(looped(OF_PAD, &PAD), Window::rectangle(127, 2), Plane::ONE, Cell { row: 0, column: 3 }), Ok(15));
}

#[test]
fn width_is_checked_after_5_and_before_6_7_and_8() {
    let row = looped(OF_ROW, &ROW);
    let wide = Window::diamond(2);
    let outside = Cell { row: 1, column: 0 };
    assert_eq!(direct_sum(row, wide, Plane(6), outside), Err(Refusal::Plane));
    assert_eq!(direct_sum(row, wide, Plane::F, outside), Err(Refusal::Width));
    assert_eq!(read(OF_ROW, Border::Wrapped, &[], wide, outside), Err(Refusal::Width));
    assert_eq!(Session::new(row, wide, Plane::F, &mut []).rows(9, &mut []), Err(Refusal::Width));
    assert_eq!(Session::new(row, Window::diamond(1), Plane::F, &mut []).rows(9, &mut []), Err(Refusal::Request));
    // a table has no window
    assert_eq!(build(row, Plane::F, &mut [0; 4]), Ok(()));
}
