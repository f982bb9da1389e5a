//! Document 02, L3: two good maps that differ only in values take the same line or get the same number. Here by the
//! library: maps are drawn, of each a second one is made with the same lines and other values, and both are asked for
//! the same splits. What the answers should be is not looked at, only that they are the same.
#![cfg(feature = "library")]

use pump_tests::calls::{perform, Call, Lent, Outcome};
use pump_tests::draw::{self, Random};
use pump_tests::ffi::Library;
use pump_tests::files::{anchors, lines, number};
use pump_tests::model::{Lines, Map, Split, MOST_SPLITS};
use std::collections::BTreeMap;

/// Splits that each pair of maps is asked for, each of them with no allowance, with all and with some.
const ASKED: usize = 14;

/// Bytes for what a split adds to a file: its record, and an anchor on each line that it meets, of 59 splits and two
/// edges at most.
const ROOM: usize = 12 + 61 * 12;

/// Anchors of a second map that are set at most. Each time the library reads the whole file.
const SET: usize = 64;

/// Sides that some maps must have had.
const SIDES: [usize; 4] = [1, 16, 17, 128];

/// The ends of the range of values, which some second maps must have had where the first had others.
const ENDS: [u16; 2] = [0, 65_535];

/// The blends, as the library prints them, without the values and their marks.
fn blends(file: &[u8]) -> Vec<String> {
    let table = perform(&Library, &Call::Table, &Lent::file(file));
    assert_eq!(table.number, 0);
    let text = std::str::from_utf8(&table.out()[..table.numbers[0]]).unwrap();
    let blend = |line: &str| line.rsplitn(3, ' ').last().unwrap().to_string();
    text.lines().skip(1).map(blend).collect()
}

/// The file that an accepted call leaves.
fn left(outcome: &Outcome) -> Vec<u8> {
    outcome.bytes()[..outcome.used].to_vec()
}

fn fresh(w: usize, h: usize) -> Vec<u8> {
    let outcome = perform(&Library, &Call::Fresh(w, h), &Lent::buffer(&[], 60));
    assert_eq!(outcome.number, 0);
    left(&outcome)
}

fn set(file: &[u8], (m, n): (u16, u16), value: u16) -> Vec<u8> {
    let outcome =
        perform(&Library, &Call::Set(m as usize, n as usize, value as usize), &Lent::buffer(file, file.len()));
    assert_eq!(outcome.number, 0);
    left(&outcome)
}

/// A value, often at an end of the range.
fn any_value(random: &mut Random) -> u16 {
    match random.below(5) {
        0..=1 => random.pick(&ENDS),
        _ => random.draw() as u16 >> random.below(16),
    }
}

/// What draws need of a map: its sides, its splits and its lines. The values are in its file alone.
#[derive(Clone)]
struct Drawn {
    map: Map,
    lines: Lines,
}

impl Drawn {
    fn fresh(w: usize, h: usize) -> Drawn {
        let map = Map { values: vec![], ..Map::fresh(w, h).unwrap() };
        Drawn { lines: map.lines(), map }
    }

    /// Takes in the last split of a file.
    fn take(&mut self, file: &[u8]) {
        let at = lines(file).len() - 12;
        let [direction, position, from, to] = [4, 6, 8, 10].map(|field| number(file, at + field) as i64);
        let split = Split { direction: direction as usize, position, from, to };
        self.map.splits.push(split);
        self.lines.draw(split);
    }

    /// A split, with no allowance, with all and with some.
    fn calls(&self, random: &mut Random) -> [Call; 3] {
        let split = draw::split(random, &self.map, &self.lines);
        let some = if random.chance(80) { random.between(1, 12) } else { random.between(1, 127) };
        [0, 128, some].map(|allowance| Call::Split(split, allowance))
    }
}

/// A map grown by splits, with values set on the way.
fn grown(random: &mut Random, (w, h): (usize, usize), tries: usize) -> (Drawn, Vec<u8>) {
    let (mut drawn, mut file) = (Drawn::fresh(w, h), fresh(w, h));
    for _ in 0..tries {
        if drawn.map.splits.len() == MOST_SPLITS {
            break;
        }
        let call = &drawn.calls(random)[random.below(3)];
        let outcome = perform(&Library, call, &Lent::buffer(&file, file.len() + ROOM));
        if outcome.number == 0 {
            file = left(&outcome);
            drawn.take(&file);
        }
        if random.chance(50) {
            let anchors: Vec<_> = anchors(&file).into_keys().collect();
            file = set(&file, random.pick(&anchors), any_value(random));
        }
    }
    (drawn, file)
}

/// The map of the same splits, drawn anew as they stand in the record from a fresh map with some values at its corners.
fn again(random: &mut Random, drawn: &Drawn) -> Vec<u8> {
    let mut file = fresh(drawn.map.w as usize, drawn.map.h as usize);
    for corner in anchors(&file).into_keys() {
        file = set(&file, corner, any_value(random));
    }
    for split in &drawn.map.splits {
        let [position, from, to] = [split.position, split.from, split.to].map(|number| number as usize);
        let call = Call::Split([split.direction, position, from, to], 0);
        let outcome = perform(&Library, &call, &Lent::buffer(&file, file.len() + ROOM));
        assert_eq!(outcome.number, 0, "{:?}: {split:?} is refused the second time", drawn.map);
        file = left(&outcome);
    }
    file
}

/// A map with the same lines and other values: the same map or the same splits drawn anew, then with values set at one
/// anchor, at a third or at all of them, `SET` at most. At one at least the value is another than in the first map.
fn with_other_values(random: &mut Random, drawn: &Drawn, file: &[u8]) -> Vec<u8> {
    let mut other = if random.chance(50) { file.to_vec() } else { again(random, drawn) };
    let mut chosen: Vec<_> = anchors(file).into_iter().collect();
    random.shuffle(&mut chosen);
    let count = chosen.len();
    chosen.truncate(random.pick(&[1, count / 3 + 1, count]).min(SET));
    let ends_alone = random.chance(30);
    for (place, (anchor, (old, _))) in chosen.into_iter().enumerate() {
        let mut value = if ends_alone { random.pick(&ENDS) } else { any_value(random) };
        if place == 0 && value == old {
            value = 65_535 - old;
        }
        other = set(&other, anchor, value);
    }
    other
}

/// What came up: the numbers of each call; splits with a longer line than given; old anchors at which the two maps have
/// two values, after a split as before; new anchors that got two values. And maps: how many were full, had each of
/// `SIDES`, and had each of `ENDS` for other values.
#[derive(Default)]
struct Seen {
    numbers: BTreeMap<(&'static str, usize), usize>,
    longer: usize,
    apart: usize,
    new_apart: usize,
    full: usize,
    of_sides: [usize; SIDES.len()],
    of_ends: [usize; ENDS.len()],
}

impl Seen {
    /// How often splits of this name gave each number.
    fn gave(&self, name: &'static str) -> Vec<usize> {
        (0..=12).map(|number| self.numbers.get(&(name, number)).copied().unwrap_or(0)).collect()
    }

    /// What came up too few times for so many maps.
    fn missing(&self, maps: u64) -> Option<String> {
        let [none, some, all] = ["split by 0", "split by some", "split by 128"].map(|name| self.gave(name));
        let mut wanted = vec![];
        for (number, each) in [(0, 2.0), (3, 1.0), (4, 0.5), (5, 2.0), (6, 0.2), (7, 0.6), (8, 0.25), (12, 0.02)] {
            wanted.push((format!("without allowance with {number}"), none[number], each));
            // Most of what is refused as given is drawn with some allowance, and all of it with all.
            let (few, nothing) = if number == 8 { (0.02, 0.0) } else { (each, each) };
            wanted.push((format!("with some allowance with {number}"), some[number], few));
            wanted.push((format!("with all allowance with {number}"), all[number], nothing));
        }
        wanted.push(("longer than given".to_string(), self.longer, 0.25));
        wanted.push(("old anchors with two values".to_string(), self.apart, 80.0));
        wanted.push(("new anchors with two values".to_string(), self.new_apart, 6.0));
        wanted.push(("full".to_string(), self.full, 0.05));
        wanted.extend(SIDES.iter().zip(self.of_sides).map(|(side, count)| (format!("of side {side}"), count, 0.05)));
        let ends = ENDS.iter().zip(self.of_ends);
        wanted.extend(ends.map(|(end, count)| (format!("with {end} for another value"), count, 0.3)));
        let few = wanted.into_iter().find(|(_, seen, each)| (*seen as f64) < each * maps as f64);
        few.map(|(what, seen, _)| format!("only {seen} {what} for {maps} maps"))
    }
}

/// Two maps with the same lines.
struct Pair {
    drawn: Drawn,
    files: [Vec<u8>; 2],
}

impl Pair {
    /// Asks both for a split, in buffers with as much room after the file. If they take it, the pair that it leaves.
    fn ask(&self, call: &Call, room: usize, seen: &mut Seen) -> Option<Pair> {
        let tell = || format!("{call:?} with {room} bytes of room, on {:?} in {:?}", self.drawn.map, self.files);
        let lent = [0, 1].map(|place| Lent::buffer(&self.files[place], self.files[place].len() + room));
        let outcomes = [0, 1].map(|place| perform(&Library, call, &lent[place]));
        let [one, other] = outcomes.each_ref().map(|outcome| outcome.number);
        assert_eq!(one, other, "two numbers: {}", tell());
        *seen.numbers.entry((call.name(), one)).or_default() += 1;
        assert!(matches!(one, 0 | 3..=8) || one == 12 && room < ROOM, "{one}: {}", tell());
        if one != 0 {
            for (outcome, lent) in outcomes.iter().zip(&lent) {
                assert_eq!(outcome.used, lent.used, "*used after {one}: {}", tell());
                assert!(outcome.bytes() == lent.bytes, "a changed buffer after {one}: {}", tell());
            }
            return None;
        }

        let files = outcomes.each_ref().map(left);
        for (outcome, lent) in outcomes.iter().zip(&lent) {
            assert!(outcome.bytes()[outcome.used..] == lent.bytes[outcome.used..], "after the file: {}", tell());
        }

        // The lines: those from before and one more, as given or longer.
        let [one, other] = files.each_ref().map(|file| lines(file));
        assert_eq!(one, other, "other lines: {}", tell());
        let (before, last) = one.split_at(one.len() - 12);
        assert_eq!(before, lines(&self.files[0]), "lines from before: {}", tell());
        let line = [4, 6, 8, 10].map(|at| number(last, at) as usize);
        let Call::Split(given, allowance) = call else { unreachable!() };
        assert_eq!(line[..2], given[..2], "{}", tell());
        assert!(line[2] <= given[2] && given[3] <= line[3], "{line:?}: {}", tell());
        let longer = given[2] - line[2] + line[3] - given[3];
        assert!(longer <= *allowance, "{line:?}: {}", tell());
        seen.longer += (longer > 0) as usize;
        assert_eq!(blends(&files[0]), blends(&files[1]), "other blends: {}", tell());

        // Old anchors keep their values and marks, each map its own.
        let old = self.files.each_ref().map(|file| anchors(file));
        let new = files.each_ref().map(|file| anchors(file));
        for (old, new) in old.iter().zip(&new) {
            let kept = old.iter().all(|(anchor, entry)| new.get(anchor) == Some(entry));
            assert!(kept, "an old anchor has another value or mark: {}", tell());
        }
        let apart = |entries: &[BTreeMap<_, (u16, u16)>; 2], anchor| entries[0][anchor].0 != entries[1][anchor].0;
        let still = old[0].keys().filter(|anchor| apart(&old, anchor) && apart(&new, anchor)).count();
        assert_eq!(still, old[0].keys().filter(|anchor| apart(&old, anchor)).count(), "{}", tell());
        assert!(still > 0, "the two maps have the same values: {}", tell());
        seen.apart += still;
        seen.new_apart += new[0].keys().filter(|anchor| apart(&new, anchor)).count() - still;

        let mut drawn = self.drawn.clone();
        drawn.take(&files[0]);
        Some(Pair { drawn, files })
    }
}

fn any_side(random: &mut Random) -> usize {
    match random.below(20) {
        0..=1 => 1,
        2..=3 => 16,
        4..=5 => 17,
        6 => 128,
        7..=12 => random.between(2, 5),
        13..=18 => random.between(6, 12),
        _ => random.between(2, 128),
    }
}

/// The sides of a map and the number of splits tried: enough to fill it, on sides that hold as many, or any.
fn sizes(random: &mut Random, full: bool) -> ((usize, usize), usize) {
    if full {
        let (long, short) = (random.pick(&[62, 90, 128]), random.pick(&[1, 2, 3, 16, 17, 40]));
        let sides = if random.chance(50) { (long, short) } else { (short, long) };
        return (sides, 250);
    }
    if random.chance(2) {
        return ((128, 128), random.below(50));
    }
    let tries = if random.chance(10) { 120 } else { random.below(40) };
    ((any_side(random), any_side(random)), tries)
}

#[test]
fn same_line_or_same_number() {
    let seed = draw::seed("same_line_or_same_number");
    let maps = draw::count() / 10;
    let mut seen = Seen::default();
    for number in 0.. {
        if !draw::another(number, maps, || draw::quick() || seen.missing(maps).is_none()) {
            break;
        }
        let mut random = Random(seed ^ number << 32);
        let ((w, h), tries) = sizes(&mut random, number % 12 == 0);
        let (drawn, file) = grown(&mut random, (w, h), tries);
        let other = with_other_values(&mut random, &drawn, &file);
        assert_eq!(lines(&file), lines(&other));
        seen.full += (drawn.map.splits.len() == MOST_SPLITS) as usize;
        for (count, side) in seen.of_sides.iter_mut().zip(SIDES) {
            *count += (w == side || h == side) as usize;
        }
        let (values, others) = (anchors(&file), anchors(&other));
        assert!(others.iter().any(|(anchor, entry)| entry.0 != values[anchor].0));
        for (count, end) in seen.of_ends.iter_mut().zip(ENDS) {
            *count += others.iter().any(|(anchor, entry)| entry.0 == end && values[anchor].0 != end) as usize;
        }

        let mut pair = Pair { drawn, files: [file, other] };
        for _ in 0..ASKED {
            let room = if random.chance(5) { random.below(60) } else { ROOM };
            let mut left = pair.drawn.calls(&mut random).map(|call| pair.ask(&call, room, &mut seen));
            // Half of the time the pair goes on as one of the three calls left it, if that was accepted.
            if random.chance(50) {
                pair = left[random.below(3)].take().unwrap_or(pair);
            }
        }
    }

    let [none, some, all] = ["split by 0", "split by some", "split by 128"].map(|name| seen.gave(name));
    let Seen { longer, apart, new_apart, full, of_sides, of_ends, .. } = &seen;
    println!(
        "{maps} maps, {full} full, {of_sides:?} of sides {SIDES:?}, {of_ends:?} with {ENDS:?} for other values; splits \
         gave 0 to 12: without allowance {none:?}, with some {some:?}, with all {all:?}; {longer} were longer than \
         given; anchors with two values: {apart} old, {new_apart} new"
    );
    assert_eq!(all[8], 0);
    assert!(draw::quick() || seen.missing(maps).is_none(), "{}", seen.missing(maps).unwrap());
}
