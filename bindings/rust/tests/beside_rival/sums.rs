//! Direct sums, tables built, and tables read.

use crate::cases::{Case, Guarded, Tally};
use crate::random::Random;
use crate::rival;
use local_statistics::{build, direct_sum, read};

#[test]
fn direct_sums() {
    let mut random = Random(1);
    let mut tally = Tally::default();
    for _ in 0..100_000 {
        let case = Case::any(&mut random, 14, 14);
        let library = direct_sum(case.pictures(), case.window, case.plane, case.cell);
        let rival = rival::direct_sum(case.pictures(), case.window, case.plane, case.cell);
        tally.compare(library, rival, &case);
    }
    tally.expect(50_000, &[1, 2, 3, 4, 5, 6, 11]);
}

#[test]
fn tables_built() {
    let mut random = Random(2);
    let mut tally = Tally::default();
    for _ in 0..50_000 {
        let case = Case::any(&mut random, 14, 14);
        let length = case.area_length(&mut random);
        let mut expected = random.numbers(length);
        let mut table = Guarded::new(&expected, i64::MIN);
        let library = build(case.pictures(), case.plane, table.area());
        tally.compare(library, rival::build(case.pictures(), case.plane, &mut expected), &case);
        table.expect(&expected, i64::MIN);
    }
    tally.expect(25_000, &[1, 2, 4, 5, 8]);
}

#[test]
fn built_tables_read() {
    let mut random = Random(3);
    for _ in 0..20_000 {
        let case = Case::legal(&mut random, 14, 14);
        let mut table = vec![0; case.f.len()];
        assert_eq!(build(case.pictures(), case.plane, &mut table), Ok(()));
        let sum = read(case.size, case.border, &table, case.window, case.cell);
        assert_eq!(sum, direct_sum(case.pictures(), case.window, case.plane, case.cell), "given {case:?}");
        assert_eq!(sum.ok(), rival::direct_sum(case.pictures(), case.window, case.plane, case.cell).ok());
    }
}

#[test]
fn foreign_tables_read() {
    let mut random = Random(4);
    let mut tally = Tally::default();
    for _ in 0..100_000 {
        let case = Case::any(&mut random, 14, 14);
        let length = case.area_length(&mut random);
        let table = random.numbers(length);
        let library = read(case.size, case.border, &table, case.window, case.cell);
        tally.compare(library, rival::read(case.size, case.border, &table, case.window, case.cell), &case);
    }
    tally.expect(50_000, &[1, 3, 6, 8, 11]);
}
