//! Document 01's own numbers: "Sums to try", and "Shortcuts that sound wrong".

use local_statistics::{
    direct_sum, six_sums, steady, Cell, Coefficient, Pictures, Plane, Refusal, Session, Shift, Size, Sums, Voice, Window, MAX_CELLS,
    MAX_COLUMNS, MAX_DOWN, MAX_RIGHT, MAX_ROWS, MAX_WINDOW,
};

const K: [i16; 9] = [1, 2, 3, 4, 5, 6, 7, 8, 9];
const SIZE: Size = Size { rows: 3, columns: 3 };
const CENTRE: Cell = Cell { row: 1, column: 1 };
const CORNER: Cell = Cell { row: 0, column: 0 };

fn of_k(window: Window, cell: Cell) -> Sums {
    six_sums(Pictures::one(SIZE, &K), window, cell).unwrap()
}

/// The six sums of two rows of levels, under a window that holds them all.
fn of_rows(f: &[i16], g: &[i16]) -> Sums {
    let pictures = Pictures { g, ..Pictures::one(Size { rows: 1, columns: f.len() }, f) };
    six_sums(pictures, Window::rectangle(0, MAX_WINDOW), CORNER).unwrap()
}

#[test]
fn windows_on_k() {
    let whole = of_k(Window::rectangle(1, 1), CENTRE);
    assert_eq!((whole.n, whole.s, whole.a), (9, 45, 285));
    assert_eq!((whole.mean(), whole.variance(), whole.deviation()), (Ok(Some(5)), Ok(Some(7)), Ok(Some(2))));

    let corner = of_k(Window::rectangle(1, 1), CORNER);
    assert_eq!((corner.n, corner.s, corner.a), (4, 12, 46));
    assert_eq!((corner.mean(), corner.variance(), corner.deviation()), (Ok(Some(3)), Ok(Some(3)), Ok(Some(1))));

    let diamond = of_k(Window::diamond(1), CENTRE);
    assert_eq!((diamond.n, diamond.s, diamond.a), (5, 25, 145));
    assert_eq!((diamond.variance(), diamond.deviation()), (Ok(Some(4)), Ok(Some(2))));

    let hexagon = of_k(Window::hexagon(1, 1), CENTRE);
    assert_eq!((hexagon.n, hexagon.s), (9, 45));
}

#[test]
fn a_half_goes_up() {
    assert_eq!(of_rows(&[0, -1], &[0, 0]).mean(), Ok(Some(0)));
    assert_eq!(of_rows(&[-1, -2], &[0, 0]).mean(), Ok(Some(-1)));
    assert_eq!(of_rows(&[-1, -2, -2], &[0, 0, 0]).mean(), Ok(Some(-2)));
}

#[test]
fn extreme_levels() {
    let sums = of_rows(&[-32768, 32767], &[0, 0]);
    assert_eq!(sums.n * sums.a - sums.s * sums.s, 4_294_836_225);
    assert_eq!((sums.variance(), sums.deviation()), (Ok(Some(1_073_709_056)), Ok(Some(32_767))));
    assert_eq!(of_rows(&[-32768], &[0]).voice(), Ok(Voice::Steady { level: -1.0 }));
}

#[test]
fn the_root_is_of_the_unrounded_variance() {
    let sums = of_rows(&[3, -1, -1], &[0, 0, 0]);
    assert_eq!((sums.variance(), sums.deviation()), (Ok(Some(4)), Ok(Some(1))));
}

#[test]
fn coefficients() {
    let with = |g: &[i16]| of_rows(&[1, 2, 3], g).coefficient();
    assert_eq!(with(&[2, 4, 6]), Ok(Coefficient::Value(1000)));
    assert_eq!(with(&[3, 2, 1]), Ok(Coefficient::Value(-1000)));
    assert_eq!(with(&[1, 3, 2]), Ok(Coefficient::Value(500)));
    assert_eq!(with(&[4, 4, 4]), Ok(Coefficient::Flat));
}

#[test]
fn empty_everywhere() {
    let pictures = Pictures { shift: Shift { down: 3, right: 0 }, ..Pictures::one(SIZE, &K) };
    for row in 0..3 {
        for column in 0..3 {
            let sums = six_sums(pictures, Window::rectangle(1, 1), Cell { row, column }).unwrap();
            assert_eq!((sums.mean(), sums.variance(), sums.deviation()), (Ok(None), Ok(None), Ok(None)));
            assert_eq!((sums.voice(), sums.coefficient()), (Ok(Voice::Empty), Ok(Coefficient::Empty)));
        }
    }
    assert_eq!(steady(pictures, Window::rectangle(1, 1)), Ok(None));
}

#[test]
fn requests_0_2_1_equal_request_3() {
    let mut works = [[0; 3], [-1; 3]];
    let [parted, whole] = &mut works;
    let session = |work| Session::new(Pictures::one(SIZE, &K), Window::rectangle(1, 1), Plane::F, work);
    let (mut parted, mut whole) = (session(parted), session(whole));
    let (mut rows, mut all) = ([0; 9], [0; 9]);
    assert_eq!(parted.rows(0, &mut []), Ok(0));
    assert_eq!(parted.rows(2, &mut rows[..6]), Ok(2));
    assert_eq!(parted.rows(1, &mut rows[6..]), Ok(1));
    assert_eq!(whole.rows(3, &mut all), Ok(3));
    assert_eq!(rows, all);
    assert_eq!(parted.rows(1, &mut rows[6..]), Err(Refusal::Request));
    assert_eq!(parted.rows(0, &mut []), Ok(0));
    assert_eq!((parted.position(), rows), (3, all));
}

#[test]
fn limits() {
    let levels = [0; 257];
    let column = |rows, window| direct_sum(Pictures::one(Size { rows, columns: 1 }, &levels[..rows]), window, Plane::ONE, CORNER);
    assert_eq!(column(MAX_ROWS, Window::rectangle(MAX_WINDOW, 0)), Ok(128));
    assert_eq!(column(0, Window::rectangle(0, 0)), Err(Refusal::Size));
    assert_eq!(column(MAX_ROWS + 1, Window::rectangle(0, 0)), Err(Refusal::Size));
    assert_eq!(column(1, Window::diamond(MAX_WINDOW)), Ok(1));
    assert_eq!(column(1, Window::diamond(MAX_WINDOW + 1)), Err(Refusal::Window));
    let wide = Size { rows: 1, columns: MAX_COLUMNS + 1 };
    assert_eq!(direct_sum(Pictures::one(wide, &[0; MAX_COLUMNS + 1]), Window::diamond(0), Plane::ONE, CORNER), Err(Refusal::Size));

    let shifted = |down, right| {
        let pictures = Pictures { shift: Shift { down, right }, ..Pictures::one(SIZE, &K) };
        direct_sum(pictures, Window::diamond(0), Plane::ONE, CORNER)
    };
    assert_eq!(shifted(-MAX_DOWN, MAX_RIGHT), Ok(0));
    assert_eq!(shifted(MAX_DOWN + 1, 0), Err(Refusal::Shift));
    assert_eq!(shifted(0, -MAX_RIGHT - 1), Err(Refusal::Shift));

    let cells = |n| Sums { n, s: 0, t: 0, a: 0, b: 0, p: 0 }.mean();
    assert_eq!((cells(MAX_CELLS), cells(MAX_CELLS + 1)), (Ok(Some(0)), Err(Refusal::Sums)));
}

/// The crate and the library that it is linked to are of one version.
#[test]
fn version() {
    let part = |text: &str| text.parse::<u32>().unwrap();
    let crates = [env!("CARGO_PKG_VERSION_MAJOR"), env!("CARGO_PKG_VERSION_MINOR"), env!("CARGO_PKG_VERSION_PATCH")].map(part);
    assert_eq!(local_statistics::version(), crates[0] * 1_000_000 + crates[1] * 1_000 + crates[2]);
}
