//! "Pits on paper" of document 01, with the numbers and counts that it gives, and with the marks and the file lengths
//! of document 02, L5, the readings of its L6 and the allowances of its L7.

use pump_tests::calls::{compare, Call, Lent, Outcome};
use pump_tests::LARGEST_FILE;

/// A map in a buffer that holds any.
struct Editor(Vec<u8>);

impl Editor {
    fn fresh(w: usize, h: usize) -> Editor {
        let mut editor = Editor(vec![]);
        assert_eq!(editor.call(Call::Fresh(w, h)).number, 0);
        editor
    }

    fn call(&mut self, call: Call) -> Outcome {
        let lent = if call.changes() { Lent::buffer(&self.0, LARGEST_FILE) } else { Lent::file(&self.0) };
        let outcome = compare(&call, &lent, &String::new);
        if call.changes() {
            self.0 = outcome.bytes()[..outcome.used].to_vec();
        }
        outcome
    }

    /// The number of blends after a split.
    fn split(&mut self, split: [usize; 4], allowance: usize) -> Result<usize, usize> {
        let number = self.call(Call::Split(split, allowance)).number;
        if number == 0 {
            Ok(self.blends())
        } else {
            Err(number)
        }
    }

    fn reading(&mut self, u: usize, v: usize) -> Result<usize, usize> {
        let outcome = self.call(Call::Reading(u, v));
        if outcome.number == 0 {
            Ok(outcome.numbers[0])
        } else {
            Err(outcome.number)
        }
    }

    fn text(&mut self) -> String {
        let outcome = self.call(Call::Table);
        assert_eq!(outcome.number, 0);
        String::from_utf8(outcome.out()[..outcome.numbers[0]].to_vec()).unwrap()
    }

    fn blends(&mut self) -> usize {
        self.text().lines().next().unwrap().parse().unwrap()
    }
}

#[test]
fn sides() {
    for (side, number) in [(0, 1), (1, 0), (128, 0), (129, 1)] {
        for call in [Call::Fresh(side, 5), Call::Fresh(5, side)] {
            assert_eq!(Editor(vec![]).call(call).number, number);
        }
    }
}

#[test]
fn counts_of_blends() {
    let mut map = Editor::fresh(8, 8);
    assert_eq!(map.split([0, 4, 0, 8], 0), Ok(6));
    assert_eq!(map.split([1, 4, 0, 8], 0), Ok(9));
    assert_eq!(map.split([0, 2, 0, 4], 0), Ok(10));
    assert_eq!(map.split([1, 2, 0, 2], 0), Err(8));
    assert_eq!(map.split([1, 2, 0, 4], 0), Err(8));
    assert_eq!(map.split([1, 2, 0, 2], 5), Err(8));
    assert_eq!(map.split([1, 2, 0, 2], 6), Ok(14));
    let last_split = 8 + 12 * 3;
    assert_eq!(map.0[last_split..last_split + 12], [10, 0, 2, 0, 1, 0, 2, 0, 0, 0, 8, 0]);
    assert_eq!(map.0.len(), 12 + 12 * 4 + 12 * 14);

    let mut map = Editor::fresh(8, 8);
    map.split([1, 2, 0, 8], 0).unwrap();
    map.split([1, 4, 0, 8], 0).unwrap();
    assert_eq!(map.split([0, 4, 2, 4], 0), Err(7));
    assert_eq!(map.split([0, 4, 0, 4], 0), Ok(10));
}

#[test]
fn refused_splits() {
    let mut map = Editor::fresh(8, 8);
    assert_eq!(map.split([0, 4, 0, 3], 0), Err(6));
    assert_eq!(map.split([0, 0, 0, 8], 0), Err(3));
    assert_eq!(map.split([0, 8, 0, 8], 0), Err(3));
    assert_eq!(map.split([0, 4, 0, 8], 0), Ok(6));
    assert_eq!(map.split([0, 4, 0, 8], 0), Err(5));
    assert_eq!(map.split([0, 4, 0, 8], 128), Err(5));
    assert_eq!(map.split([0, 4, 0, 8], 129), Err(3));
    assert_eq!(map.split([0, 2, 0, 8], 129), Err(3));
    assert_eq!(map.split([0, 2, 0, 8], 128), Ok(8));
}

#[test]
fn readings() {
    let mut map = Editor::fresh(3, 1);
    map.call(Call::Set(3, 0, 10));
    map.call(Call::Set(3, 1, 10));
    assert_eq!(map.reading(1, 0), Ok(3));
    assert_eq!(map.reading(2, 1), Ok(7));

    let mut map = Editor::fresh(4, 1);
    map.call(Call::Set(4, 0, 6));
    map.call(Call::Set(4, 1, 6));
    assert_eq!(map.reading(2, 0), Ok(3));
    assert_eq!(map.split([0, 1, 0, 1], 0), Ok(6));
    assert_eq!(map.reading(2, 0), Ok(3));

    let mut map = Editor::fresh(8, 8);
    assert_eq!(map.reading(9, 0), Err(10));
    assert_eq!(map.reading(8, 8), Ok(0));
}

/// A fresh map with these values, in table order.
fn with_values(w: usize, h: usize, values: [usize; 4]) -> Editor {
    let mut map = Editor::fresh(w, h);
    for ((m, n), value) in [(0, 0), (0, h), (w, 0), (w, h)].into_iter().zip(values) {
        assert_eq!(map.call(Call::Set(m, n, value)).number, 0);
    }
    map
}

/// A reading is the nearest whole number, and the higher of two that are as near.
#[test]
fn rounding() {
    // A value at the far corner alone: what is read of it at a point.
    for ((w, h), value, (u, v), reading) in [
        ((2, 1), 1, (1, 1), 1),
        ((1, 2), 65_535, (1, 1), 32_768),
        ((127, 1), 1, (63, 1), 0),
        ((127, 1), 1, (64, 1), 1),
        ((2, 2), 1, (1, 1), 0),
        ((2, 2), 2, (1, 1), 1),
        ((2, 2), 3, (1, 1), 1),
        ((3, 3), 4, (1, 1), 0),
        ((3, 3), 5, (1, 1), 1),
        ((3, 3), 13, (1, 1), 1),
        ((3, 3), 14, (1, 1), 2),
        ((128, 128), 8_191, (1, 1), 0),
        ((128, 128), 8_192, (1, 1), 1),
        ((128, 128), 24_575, (1, 1), 1),
        ((128, 128), 24_576, (1, 1), 2),
        ((128, 128), 65_535, (1, 1), 4),
    ] {
        assert_eq!(with_values(w, h, [0, 0, 0, value]).reading(u, v), Ok(reading), "{value} on {w} by {h}");
    }
    // The sum is rounded, not what is added up: halves and quarters of each value.
    for (values, side, middle) in
        [([1, 1, 1, 1], 1, 1), ([1, 2, 2, 1], 2, 2), ([1, 0, 0, 0], 1, 0), ([2, 1, 1, 1], 2, 1)]
    {
        let mut map = with_values(2, 2, values);
        assert_eq!((map.reading(1, 0), map.reading(1, 1)), (Ok(side), Ok(middle)), "{values:?}");
    }
}

/// A new anchor takes the rounded reading: an exact half goes up, and what lies just below it goes down.
#[test]
fn new_anchors() {
    // A fresh map of height 1, the values at its far side, and what an upright at a level finds there.
    for (w, values, position, found) in [
        (2, [1, 3], 1, [1, 2]),
        (2, [0, 65_535], 1, [0, 32_768]),
        (3, [4, 5], 1, [1, 2]),
        (4, [6, 7], 1, [2, 2]),
        (4, [2, 1], 1, [1, 0]),
        (4, [5, 6], 3, [4, 5]),
        (127, [1, 1], 63, [0, 0]),
        (127, [1, 1], 64, [1, 1]),
    ] {
        let mut map = with_values(w, 1, [0, 0, values[0], values[1]]);
        assert_eq!(map.split([0, position, 0, 1], 0), Ok(6));
        let value = |line: &str| line.split(' ').nth(6).unwrap().parse().unwrap();
        let held: Vec<usize> = map.text().lines().skip(1).map(value).collect();
        assert_eq!(held, [[0, 0], found, values].concat(), "{position} of {w}");
        assert_eq!([0, 1].map(|v| map.reading(position, v)), found.map(Ok));
    }
}

/// A split moves a reading between the anchors by one, up or down, and a later split may move it again.
#[test]
fn moved_readings() {
    // A map of height 1, the value at both anchors of its far side, uprights in turn, and what is read at a level before
    // the first and after each.
    for (w, value, uprights, u, readings) in [
        (3, 1, 2..=2, 1, vec![0, 1]),
        (4, 1, 1..=1, 2, vec![1, 0]),
        (11, 8, 1..=5, 6, vec![4, 5, 5, 5, 5, 6]),
        (12, 3, 1..=5, 6, vec![2, 1, 1, 1, 1, 0]),
    ] {
        let mut map = with_values(w, 1, [0, 0, value, value]);
        let mut read = vec![map.reading(u, 0).unwrap()];
        for position in uprights {
            map.split([0, position, 0, 1], 0).unwrap();
            read.push(map.reading(u, 0).unwrap());
        }
        assert_eq!(read, readings, "{value} on {w} by 1");
    }
}

#[test]
fn fresh_file_and_table() {
    let mut map = Editor::fresh(2, 3);
    assert_eq!(map.0.len(), 60);
    assert_eq!(map.text(), "4\n-1 0 2 -1 0 3 0 0\n-1 0 2 0 3 4 0 0\n0 2 3 -1 0 3 0 0\n0 2 3 0 3 4 0 0\n");
    let outcome = map.call(Call::Weights(2, 1));
    let numbers: Vec<i16> = outcome.out()[..64].chunks(2).map(|pair| i16::from_ne_bytes([pair[0], pair[1]])).collect();
    let want =
        [[-1, 0, 2, -1, 0, 3, 0, 6], [-1, 0, 2, 0, 3, 4, 0, 6], [0, 2, 3, -1, 0, 3, 4, 6], [0, 2, 3, 0, 3, 4, 2, 6]];
    assert_eq!(numbers, want.concat());
}

/// A set value is measured, also where it is the one from before; a split keeps the marks of old anchors, and what it
/// works out for new ones is not measured.
#[test]
fn marks() {
    let mut map = Editor::fresh(4, 1);
    map.call(Call::Set(4, 0, 6));
    map.call(Call::Set(0, 1, 0));
    assert_eq!(map.text(), "4\n-1 0 4 -1 0 1 0 0\n-1 0 4 0 1 2 0 1\n0 4 5 -1 0 1 6 1\n0 4 5 0 1 2 0 0\n");
    map.split([0, 1, 0, 1], 0).unwrap();
    let (left, middle) = ("-1 0 1 -1 0 1 0 0\n-1 0 1 0 1 2 0 1\n", "0 1 4 -1 0 1 2 0\n0 1 4 0 1 2 0 0\n");
    assert_eq!(map.text(), format!("6\n{left}{middle}1 4 5 -1 0 1 6 1\n1 4 5 0 1 2 0 0\n"));
    let entry = map.call(Call::Place(4)).out()[..16].to_vec();
    assert_eq!(entry, [1, 4, 5, -1, 0, 1, 6, 1i16].map(i16::to_ne_bytes).concat());
}

/// No value is above 65,535: a larger number is refused, -1 from C among them, and is never set as another one. What is
/// wrong with the file comes before that, what is wrong with the anchor and the buffer after it.
#[test]
fn wide_values() {
    let mut map = with_values(2, 3, [7, 0, 0, 9]);
    let file = map.0.clone();
    let old = pump_tests::files::old(&file);
    let number = |file: &[u8], size: usize, (m, n): (usize, usize), value: usize| {
        compare(&Call::Set(m, n, value), &Lent::buffer(file, size), &String::new).number
    };
    for value in [65_536, 70_000, u32::MAX as usize, 1 << 63, usize::MAX] {
        assert_eq!(map.call(Call::Set(2, 0, value)).number, 3);
        assert_eq!(map.0, file);
        assert_eq!(number(&file[..59], 60, (2, 0), value), 11);
        assert_eq!(number(&file, 60, (1, 1), value), 3);
        assert_eq!(number(&old, 59, (2, 0), value), 3);
    }
    assert_eq!(number(&file, 60, (1, 1), 65_535), 9);
    assert_eq!(number(&old, 59, (2, 0), 65_535), 12);
    assert_eq!(map.call(Call::Set(2, 0, 65_535)).number, 0);
    assert_eq!(map.reading(2, 0), Ok(65_535));
}

/// An old file stays as it is until a value is set or a line is drawn.
#[test]
fn old_file() {
    let bytes = |numbers: &[u16]| numbers.iter().flat_map(|number| number.to_le_bytes()).collect::<Vec<u8>>();
    let old = bytes(&[6, 1, 2, 3, 8, 3, 0, 0, 7, 8, 3, 0, 3, 0, 8, 3, 2, 0, 0, 8, 3, 2, 3, 9, 2, 4]);
    assert_eq!(old.len(), 52);
    let mut map = Editor(old.clone());
    assert_eq!(map.text(), "4\n-1 0 2 -1 0 3 7 0\n-1 0 2 0 3 4 0 0\n0 2 3 -1 0 3 0 0\n0 2 3 0 3 4 9 0\n");
    assert_eq!(map.reading(2, 3), Ok(9));
    assert_eq!(map.call(Call::Set(1, 1, 5)).number, 9);
    assert_eq!(map.split([1, 1, 0, 1], 0), Err(6));
    assert_eq!(map.0, old);
    for (size, number) in [(59, 12), (60, 0)] {
        assert_eq!(compare(&Call::Set(2, 0, 5), &Lent::buffer(&old, size), &String::new).number, number);
    }
    map.call(Call::Set(2, 0, 5));
    let new = [6, 1, 2, 3, 10, 5, 0, 0, 7, 0, 10, 5, 0, 3, 0, 0, 10, 5, 2, 0, 5, 1, 10, 5, 2, 3, 9, 0, 2, 4];
    assert_eq!(map.0, bytes(&new));
    let mut map = Editor(old);
    assert_eq!(map.split([0, 1, 0, 3], 0), Ok(6));
    assert_eq!(map.0.len(), 12 + 12 + 12 * 6);
}
