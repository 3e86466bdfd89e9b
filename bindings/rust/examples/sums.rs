//! The sums of a window at every cell of a picture, by a call for each cell, from a table and by a session, and the mean at the centre.

use local_statistics::{build, direct_sum, read, six_sums, Border, Cell, Pictures, Plane, Refusal, Session, Size, Window};

fn main() -> Result<(), Refusal> {
    let levels = [1, 2, 3, 4, 5, 6, 7, 8, 9];
    let size = Size { rows: 3, columns: 3 };
    let pictures = Pictures::one(size, &levels);
    let window = Window::rectangle(1, 1);

    let mut table = [0; 9];
    build(pictures, Plane::F, &mut table)?;
    let mut work = [0; 3];
    let mut session = Session::new(pictures, window, Plane::F, &mut work);
    let mut sums = [0; 3];
    for row in 0..size.rows {
        session.rows(1, &mut sums)?;
        for (column, &sum) in sums.iter().enumerate() {
            let cell = Cell { row, column };
            assert_eq!(direct_sum(pictures, window, Plane::F, cell)?, sum);
            assert_eq!(read(size, Border::Clipped, &table, window, cell)?, sum);
        }
        println!("row {row}: {sums:?}");
    }

    let centre = Cell { row: 1, column: 1 };
    if let Some(mean) = six_sums(pictures, window, centre)?.mean()? {
        println!("mean at the centre: {mean}");
    }
    Ok(())
}
