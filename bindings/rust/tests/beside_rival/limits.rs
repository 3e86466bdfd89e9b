//! The largest pictures and windows.

use crate::cases::Case;
use crate::random::Random;
use crate::rival;
use local_statistics::{
    build, direct_sum, read, smooth, Border, Cell, Plane, Refusal, Session, Shift, Size, Window, MAX_COLUMNS, MAX_ROWS, MAX_WINDOW,
};

const LARGEST: Size = Size { rows: MAX_ROWS, columns: MAX_COLUMNS };
/// The narrowest whose columns may wrap under each of the windows below.
const NARROWEST: Size = Size { rows: MAX_ROWS, columns: 255 };
const WINDOWS: [Window; 4] = [
    Window::rectangle(MAX_WINDOW, MAX_WINDOW),
    Window::rectangle(1, MAX_WINDOW),
    Window::diamond(MAX_WINDOW),
    Window::hexagon(100, MAX_WINDOW - 100),
];

fn of_size(random: &mut Random, size: Size, border: Border, window: Window) -> Case {
    let cells = size.rows * size.columns;
    Case {
        size,
        border,
        f: random.picture(cells),
        g: random.picture(cells),
        window,
        shift: Shift { down: random.within(-40..=40) as i32, right: random.within(-40..=40) as i32 },
        plane: Plane(random.below(6) as u32),
        cell: Cell { row: 0, column: 0 },
    }
}

/// Corners, borders and cells inside.
fn some_cells(random: &mut Random, size: Size) -> Vec<Cell> {
    let last = Cell { row: size.rows - 1, column: size.columns - 1 };
    let mut cells = vec![Cell { row: 0, column: 0 }, last, Cell { row: 0, ..last }, Cell { column: 0, ..last }];
    cells.extend((0..20).map(|_| Cell { row: random.below(size.rows), column: random.below(size.columns) }));
    cells
}

/// The three ways to a sum, and smoothing.
fn compare(random: &mut Random, case: &Case) {
    let Case { size, border, window, plane, .. } = *case;
    let pictures = case.pictures();
    let mut table = vec![0; case.f.len()];
    let mut expected = table.clone();
    assert_eq!(build(pictures, plane, &mut table), Ok(()));
    assert_eq!(rival::build(pictures, plane, &mut expected), Ok(()));
    assert_eq!(table, expected);

    let mut work = random.numbers(size.columns);
    let mut session = Session::new(pictures, window, plane, &mut work);
    let mut rows = vec![0; case.f.len()];
    for four in rows.chunks_mut(4 * size.columns) {
        assert_eq!(session.rows(4, four), Ok(4));
    }
    let mut work = random.numbers(size.columns);
    let mut at_once = vec![0; case.f.len()];
    assert_eq!(Session::new(pictures, window, plane, &mut work).rows(size.rows, &mut at_once), Ok(size.rows));
    assert_eq!(rows, at_once);

    let mut smoothed = vec![0; case.f.len()];
    assert_eq!(smooth(size, border, &case.f, window, &mut smoothed), Ok(()));
    for cell in some_cells(random, size) {
        let sum = rival::direct_sum(pictures, window, plane, cell).unwrap();
        let place = cell.row * size.columns + cell.column;
        assert_eq!(direct_sum(pictures, window, plane, cell), Ok(sum), "{window:?} at {cell:?}, {border:?}");
        assert_eq!(read(size, border, &table, window, cell), Ok(sum));
        assert_eq!(rows[place], sum);
        assert_eq!(smoothed[place], rival::mean_at(size, border, &case.f, window, cell));
    }
}

#[test]
fn largest_pictures() {
    let mut random = Random(12);
    for window in WINDOWS {
        for (size, border) in [(LARGEST, Border::Clipped), (LARGEST, Border::Wrapped), (NARROWEST, Border::Wrapped)] {
            let case = of_size(&mut random, size, border, window);
            compare(&mut random, &case);
        }
    }
}

/// The widest windows are turned down where the columns that wrap are one too few, and nowhere else.
#[test]
fn widest_windows() {
    let mut random = Random(14);
    let cell = Cell { row: 0, column: 0 };
    for window in WINDOWS {
        for (columns, border) in [(254, Border::Wrapped), (255, Border::Wrapped), (254, Border::Clipped)] {
            let case = of_size(&mut random, Size { rows: 1, columns }, border, window);
            let refusal = (columns == 254 && border == Border::Wrapped).then_some(Refusal::Width);
            assert_eq!(direct_sum(case.pictures(), window, case.plane, cell).err(), refusal, "{window:?} on {columns} columns");
        }
    }
}

/// A work area with foreign contents follows the recurrence to the last row.
#[test]
fn largest_foreign_sessions() {
    let mut random = Random(13);
    let borders = [Border::Clipped, Border::Wrapped];
    for (window, border) in [WINDOWS[0], WINDOWS[2]].into_iter().flat_map(|window| borders.map(|border| (window, border))) {
        let case = of_size(&mut random, LARGEST, border, window);
        let mut position = LARGEST.rows - 6;
        let mut work = random.numbers(LARGEST.columns);
        let mut lent = work.clone();
        let mut session = Session::resume(position, case.pictures(), window, case.plane, &mut lent);
        let mut out = vec![0; 6 * LARGEST.columns];
        let mut expected = out.clone();
        assert_eq!(session.rows(6, &mut out), Ok(6));
        assert_eq!(rival::rows(&mut position, case.pictures(), window, case.plane, 6, &mut work, &mut expected), Ok(6));
        assert_eq!((session.position(), &out), (position, &expected));
        assert_eq!(lent, work);
    }
}
