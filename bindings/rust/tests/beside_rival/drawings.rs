//! Smoothing, the search for the first steady cell, and panel's text.

use crate::cases::{Case, Guarded, Tally};
use crate::random::Random;
use crate::rival;
use local_statistics::{panel, smooth, steady, Refusal, PANEL_ROOM};

#[test]
fn smoothing() {
    let mut random = Random(9);
    let mut tally = Tally::default();
    for _ in 0..6_000 {
        let case = Case::any(&mut random, 14, 14);
        let length = case.area_length(&mut random);
        let mut expected = random.picture(length);
        let mut out = Guarded::new(&expected, 77);
        let library = smooth(case.size, case.border, &case.f, case.window, out.area());
        tally.compare(library, rival::smooth(case.size, case.border, &case.f, case.window, &mut expected), &case);
        out.expect(&expected, 77);
    }
    tally.expect(3_000, &[1, 2, 3, 8, 11]);
}

#[test]
fn steady_cells() {
    let mut random = Random(10);
    let mut tally = Tally::default();
    let (mut first, mut later, mut nowhere) = (0, 0, 0);
    for _ in 0..6_000 {
        let case = Case::any(&mut random, 14, 14);
        let library = steady(case.pictures(), case.window);
        match library {
            Ok(None) => nowhere += 1,
            Ok(Some(cell)) if cell.row == 0 && cell.column == 0 => first += 1,
            Ok(Some(_)) => later += 1,
            Err(_) => {}
        }
        tally.compare(library, rival::steady(case.pictures(), case.window), &case);
    }
    tally.expect(3_000, &[1, 2, 3, 4, 11]);
    assert!(first > 100 && later > 100 && nowhere > 100, "{first} at the first cell, {later} later, {nowhere} nowhere");
}

/// A text of a drawing, in one of two damaged.
fn text(random: &mut Random) -> Vec<u8> {
    let case = Case::legal(random, 9, 9);
    let window = case.window;
    let mut numbers = vec![case.size.rows as i64, case.size.columns as i64, window.shape.into(), window.first.into(), window.second.into()];
    numbers.extend(case.f.iter().map(|&level| i64::from(level)));
    let damaged = random.once_in(2);
    if damaged {
        let place = random.below(numbers.len().min(8));
        match random.below(4) {
            0 => numbers[place] = random.pick(&[-1, 0, 4, 128, 257, 1025, 32768, -32768, -32769, 999_999_999]),
            1 => numbers.insert(place, random.within(-9..=9)),
            2 => drop(numbers.remove(place)),
            _ => numbers[place] = random.number(),
        }
    }
    let mut text = Vec::new();
    for number in numbers {
        let zeros = if random.once_in(20) { "00" } else { "" };
        let sign = if number < 0 || (number == 0 && random.once_in(4)) { "-" } else { "" };
        text.extend(format!("{sign}{zeros}{}", number.unsigned_abs()).bytes());
        text.extend(random.pick(&[&b" "[..], b"\n", b"\t", b"  \n "]));
    }
    if random.once_in(2) {
        text.pop();
    }
    if damaged && random.once_in(2) {
        let place = random.below(text.len() + 1);
        text.insert(place, random.pick(b"-+ .\r\x00x90\n\t"));
    }
    text
}

fn compare(text: &[u8], room: usize) {
    let expected = rival::panel(text);
    let before = vec![b'?'; room];
    let mut out = Guarded::new(&before, b'!');
    let written = panel(text, out.area()).map(<[u8]>::len);
    let given_text = String::from_utf8_lossy(text);
    assert_eq!(written, Ok(expected.len()), "given {given_text}");
    let area = [expected.as_bytes(), &before[expected.len()..]].concat();
    out.expect(&area, b'!');
}

#[test]
fn panels() {
    let mut random = Random(11);
    let mut refused = [0; 11];
    let mut accepted = 0;
    for _ in 0..6_000 {
        let text = text(&mut random);
        compare(&text, PANEL_ROOM + random.below(2));
        match rival::panel(&text).strip_prefix("refused ") {
            Some(number) => refused[number.trim_end().parse::<usize>().unwrap()] += 1,
            None => accepted += 1,
        }
    }
    assert!(accepted > 500 && refused[1] > 50 && refused[3] > 50 && refused[10] > 500, "{accepted} accepted, refused {refused:?}");
}

#[test]
fn panels_at_their_limits() {
    let picture = |head: &str, level: &str, cells: usize| format!("{head} {}", [level].repeat(cells).join(" ")).into_bytes();
    let longest = picture("4 1024 1 0 0", "-32768", 4096);
    assert_eq!(rival::panel(&longest).len(), PANEL_ROOM);
    compare(&longest, PANEL_ROOM);
    compare(&picture("64 64 2 127 0", "32767", 4096), PANEL_ROOM);
    compare(&picture("17 241 1 0 0", "1", 4097), PANEL_ROOM);
    compare(&picture("256 16 3 100 27", "-1", 4096), PANEL_ROOM);
    for bytes in [65535, 65536, 65537] {
        let mut text = b"1 1 1 0 0 5".to_vec();
        text.resize(bytes, b' ');
        compare(&text, PANEL_ROOM);
    }
    for text in [&b""[..], b" ", b"-", b"1", b"1 1", b"1 x", b"300 x", b"300 1", b"1 1 1 0 0", b"1 1 1 0 0 --1", b"1 1 4 0 0 70000"] {
        compare(text, PANEL_ROOM);
    }
    let mut short = Guarded::new(&[b'?'; PANEL_ROOM - 1], b'!');
    assert_eq!(panel(b"1 1 1 0 0 5", short.area()), Err(Refusal::Area));
    short.expect(&[b'?'; PANEL_ROOM - 1], b'!');
    assert_eq!(panel(b"", &mut []), Err(Refusal::Area));
}
