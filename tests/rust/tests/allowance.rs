//! Document 02, L7: the allowance of a split, by each of the three alone. What is drawn with an allowance is held to what
//! the same one draws without: the exact splits of all lines that contain the given one.

use pump_tests::calls::{perform, Call, Lent};
use pump_tests::draw::{self, Random};
use pump_tests::files::{anchors, lines, number, put};
use pump_tests::maps::Split;
use pump_tests::model::{self, Map, Model, MOST_SPLITS};
use pump_tests::plain::Plain;
use pump_tests::{subjects, Pump};
use std::collections::BTreeMap;

/// The largest allowance.
const MOST: usize = 128;

/// Allowances out of range. Some would be in range if they were cut to 8, 16 or 32 bits, or taken as signed.
const TOO_MUCH: [usize; 14] = [
    129,
    130,
    255,
    256,
    264,
    65_536,
    65_544,
    65_664,
    1 << 32,
    (1 << 32) + 8,
    1 << 63,
    (1 << 63) + 8,
    usize::MAX - 1,
    usize::MAX,
];

fn pumps() -> Vec<&'static dyn Pump> {
    [&Model as &dyn Pump].into_iter().chain(subjects()).collect()
}

/// The file that a split leaves, or its number.
fn split(pump: &dyn Pump, file: &[u8], line: Split, allowance: usize) -> Result<Vec<u8>, usize> {
    let lent = Lent::buffer(file, file.len() + 900);
    let outcome = perform(pump, &Call::Split(line, allowance), &lent);
    if outcome.number != 0 {
        let unchanged = outcome.used == lent.used && outcome.bytes() == lent.bytes;
        assert!(unchanged, "{}: {line:?} by {allowance} is refused and changes {file:?}", pump.name());
        return Err(outcome.number);
    }
    Ok(outcome.bytes()[..outcome.used].to_vec())
}

/// The ends of the last split of a file.
fn last(file: &[u8]) -> (usize, usize) {
    let end = lines(file).len();
    (number(file, end - 4) as usize, number(file, end - 2) as usize)
}

/// The map of these splits.
fn drawn(w: usize, h: usize, splits: &[Split]) -> Vec<u8> {
    let mut map = Map::fresh(w, h).unwrap();
    for [direction, position, from, to] in splits {
        map.exact_split(*direction, *position, *from, *to).unwrap();
    }
    map.write()
}

// -------------------------------------------------------------------------------------------------- Every allowance

/// A split of a map, and the side that it runs along.
struct Asked<'a> {
    file: &'a [u8],
    given: Split,
    along: usize,
}

/// How many splits were refused with each number whatever the allowance, how many were drawn as given, and how many
/// longer, by the number of longer ends; how many had several lines to choose from.
#[derive(Default)]
struct Seen {
    refused: BTreeMap<usize, usize>,
    as_given: usize,
    longer: [usize; 2],
    choices: usize,
}

impl Asked<'_> {
    /// The files that exact splits leave, of all lines that contain the given one.
    fn exact(&self, pump: &dyn Pump) -> Vec<Vec<u8>> {
        let [direction, position, from, to] = self.given;
        let lines = (0..=from).flat_map(|start| (to..=self.along).map(move |end| [direction, position, start, end]));
        lines.filter_map(|line| split(pump, self.file, line, 0).ok()).collect()
    }

    fn check(&self, pump: &dyn Pump, random: &mut Random, seen: &mut Seen) {
        let [.., from, to] = self.given;
        let tell = || format!("{}: {:?} on {:?}", pump.name(), self.given, self.file);
        let some = random.between(self.along + 1, 127);
        let allowances: Vec<usize> = (0..=self.along + 1).chain([some, 127, MOST]).collect();
        let answers: Vec<_> = allowances.iter().map(|by| split(pump, self.file, self.given, *by)).collect();

        // 3 to 7 look at the split as given.
        if let Err(number @ 3..=7) = answers[0] {
            assert!(answers.iter().all(|answer| *answer == Err(number)), "{}", tell());
            *seen.refused.entry(number).or_default() += 1;
            return;
        }

        // Of the lines within the allowance, the one that adds the fewest anchors, then the shortest, then the lowest.
        let mut candidates = self.exact(pump);
        candidates.sort_by_key(|file| (anchors(file).len(), last(file).1 - last(file).0, last(file).0));
        for (allowance, answer) in allowances.iter().zip(&answers) {
            let mut within = candidates.iter().filter(|file| last(file).1 - last(file).0 <= to - from + allowance);
            assert_eq!(*answer, within.next().cloned().ok_or(8), "{} by {allowance}", tell());
        }

        // So 8 up to some allowance, and from there on one line, which lies in all the others.
        let taken = answers.last().unwrap().as_ref().unwrap_or_else(|no| panic!("{no}: {}", tell()));
        let (start, end) = last(taken);
        let needed = from - start + end - to;
        for (allowance, answer) in allowances.iter().zip(&answers) {
            let want = if *allowance < needed { &Err(8) } else { &Ok(taken.clone()) };
            assert_eq!(answer, want, "{} by {allowance}", tell());
        }
        assert!(candidates.iter().all(|file| last(file).0 <= start && end <= last(file).1), "{}", tell());
        match (start < from) as usize + (to < end) as usize {
            0 => seen.as_given += 1,
            ends => seen.longer[ends - 1] += 1,
        }
        seen.choices += (candidates.len() > 1) as usize;
    }
}

/// Every split is drawn with the least line that is sound, if the allowance reaches so far, else refused with 8; never
/// with all the allowance that there is.
#[test]
fn every_allowance() {
    let seed = draw::seed("every_allowance");
    let maps = draw::count() / 4;
    let mut seen = Seen::default();
    let met = |Seen { refused, longer, choices, .. }: &Seen| {
        let enough = longer[0] as u64 > maps && longer[1] as u64 > maps / 40 && *choices as u64 > maps;
        draw::quick() || enough && [3, 5, 6, 7].iter().all(|number| refused.contains_key(number))
    };
    for map_number in 0.. {
        if !draw::another(map_number, maps, || met(&seen)) {
            break;
        }
        let mut random = Random(seed ^ map_number << 32);
        let (largest, tries) = (random.pick(&[4, 8, 12, 16]), random.below(40));
        let map = draw::map(&mut random, largest, tries);
        let (file, lines) = (map.write(), map.lines());
        for round in 0..6 {
            let mut given = draw::split(&mut random, &map, &lines);
            // Half of the time, of many draws the first that needs an allowance.
            for _ in 0..round % 2 * 40 {
                if split(&Plain, &file, given, 0) == Err(8) {
                    break;
                }
                given = draw::split(&mut random, &map, &lines);
            }
            let along = if given[0] == 0 { map.h } else { map.w } as usize;
            for pump in pumps() {
                Asked { file: &file, given, along }.check(pump, &mut random, &mut seen);
            }
        }
    }
    let Seen { refused, as_given, longer, choices } = &seen;
    println!(
        "{maps} maps; refused whatever the allowance {refused:?}; drawn as given {as_given}, longer at one end and at \
         both {longer:?}; {choices} with several lines to choose from"
    );
    assert!(met(&seen), "too few of some");
}

/// Allowance 0 accepts what a file may hold as its next split, draws it as given, and nothing else. A file that tells a
/// split as given where it was drawn longer is none, though its anchors are those of the longer line.
#[test]
fn without_allowance_as_in_a_file() {
    let seed = draw::seed("without_allowance_as_in_a_file");
    let mut seen: BTreeMap<usize, usize> = BTreeMap::new();
    let met = |seen: &BTreeMap<_, _>| draw::quick() || [0, 5, 6, 7, 8].iter().all(|number| seen.contains_key(number));
    for map_number in 0.. {
        if !draw::another(map_number, draw::count() / 5, || met(&seen)) {
            break;
        }
        let mut random = Random(seed ^ map_number << 32);
        let tries = random.below(16);
        let map = draw::map(&mut random, 9, tries);
        for _ in 0..4 {
            let given = draw::split(&mut random, &map, &map.lines());
            let [direction, position, from, to] = given;
            let sides = [map.w, map.h].map(|side| side as usize);
            if direction > 1 || !(1..sides[direction]).contains(&position) || from >= to || to > sides[1 - direction] {
                continue;
            }
            // The file with one more split, and the anchors of its lines, whether they make a sound map or not.
            let mut more = map.clone();
            let [position, from, to] = [position, from, to].map(|number| number as i64);
            more.splits.push(model::Split { direction, position, from, to });
            let count = more.table().len();
            more.values.resize(count, 0);
            more.marks.resize(count, 0);
            let more = more.write();
            for pump in pumps() {
                let checked = perform(pump, &Call::Check, &Lent::file(&more)).number;
                let left = split(pump, &map.write(), given, 0);
                *seen.entry(*left.as_ref().err().unwrap_or(&0)).or_default() += 1;
                let tell = || format!("{}: {given:?} on {map:?}", pump.name());
                assert_eq!(checked, if left.is_ok() { 0 } else { 11 }, "{}", tell());
                match left {
                    Ok(left) => {
                        assert_eq!(lines(&left), lines(&more), "{}", tell());
                        assert!(anchors(&left).keys().eq(anchors(&more).keys()), "{}", tell());
                    }
                    Err(8) => {
                        let mut longer = split(pump, &map.write(), given, MOST).unwrap();
                        let end = lines(&longer).len();
                        put(&mut longer, end - 4, from as u16);
                        put(&mut longer, end - 2, to as u16);
                        assert_eq!(perform(pump, &Call::Check, &Lent::file(&longer)).number, 11, "{}", tell());
                    }
                    Err(_) => (),
                }
            }
        }
    }
    println!("splits by their number: {seen:?}");
    assert!(met(&seen), "some number never came");
}

// ----------------------------------------------------------------------------------------------------------- By hand

/// The allowance is counted from the given line, at both ends together: one step too few is 8, and just enough will do.
#[test]
fn counted_from_the_given_line() {
    let cross = [[0, 4, 0, 8], [1, 4, 0, 8], [0, 2, 0, 4]];
    let stairs = [[0, 2, 0, 8], [1, 6, 0, 8], [1, 7, 0, 8], [1, 5, 2, 8]];
    let middle = [[0, 12, 0, 3], [0, 3, 0, 3], [1, 2, 3, 14], [0, 7, 0, 3], [0, 5, 0, 3], [0, 6, 0, 2]];
    for (sides, splits, [direction, position, from, to], (start, end)) in [
        ([8, 8], &cross[..], [1, 2, 0, 2], (0, 8)),
        ([8, 8], &cross, [1, 2, 0, 4], (0, 8)),
        ([8, 8], &cross, [1, 2, 4, 8], (4, 8)),
        ([8, 8], &stairs, [0, 3, 0, 5], (0, 7)),
        ([8, 8], &stairs, [0, 3, 0, 6], (0, 7)),
        ([14, 3], &middle, [1, 1, 5, 7], (3, 12)),
        ([14, 3], &middle, [1, 1, 3, 7], (3, 12)),
        ([14, 3], &middle, [1, 1, 5, 12], (3, 12)),
    ] {
        // The map as it is, and with the axes changed round.
        for turned in [0, 1] {
            let turn =
                |[direction, rest @ ..]: [usize; 4]| [&[direction ^ turned], &rest[..]].concat().try_into().unwrap();
            let splits: Vec<Split> = splits.iter().map(|split| turn(*split)).collect();
            let file = drawn(sides[turned], sides[1 - turned], &splits);
            let given = turn([direction, position, from, to]);
            let needed = (from - start) + (end - to);
            for pump in pumps() {
                let exact = split(pump, &file, turn([direction, position, start, end]), 0);
                assert!(exact.is_ok());
                for allowance in 0..=MOST {
                    let want = if allowance < needed { &Err(8) } else { &exact };
                    let tell = || format!("{}: {given:?} by {allowance} on {splits:?}", pump.name());
                    assert_eq!(split(pump, &file, given, allowance), *want, "{}", tell());
                    // Without room for the line, 8 comes before 12.
                    let call = Call::Split(given, allowance);
                    let short = perform(pump, &call, &Lent::buffer(&file, file.len())).number;
                    assert_eq!(short, if allowance < needed { 8 } else { 12 }, "{}", tell());
                }
            }
        }
    }
}

// ------------------------------------------------------------------------------------------------------ Out of range

/// An allowance out of range is 3, before 4 to 8 and 12 and after 11.
#[test]
fn out_of_range_comes_first() {
    let cross = [[0, 4, 0, 8], [1, 4, 0, 8], [0, 2, 0, 4]];
    let full: Vec<Split> = (1..=MOST_SPLITS).map(|at| [0, at, 0, 1]).collect();
    for (file, line, number) in [
        (drawn(8, 8, &cross), [0, 8, 0, 8], 3),
        (drawn(62, 1, &full), [0, 61, 0, 1], 4),
        (drawn(8, 8, &cross), [0, 4, 2, 4], 5),
        (drawn(8, 8, &cross), [0, 6, 0, 3], 6),
        (drawn(8, 8, &[[1, 2, 0, 8], [1, 4, 0, 8]]), [0, 4, 2, 4], 7),
        (drawn(8, 8, &cross), [1, 2, 0, 2], 8),
        (drawn(8, 8, &cross), [0, 6, 0, 8], 0),
    ] {
        let damaged = &file[..file.len() - 1];
        for pump in pumps() {
            let tell = |by: usize| format!("{}: {line:?} by {by}", pump.name());
            assert_eq!(split(pump, &file, line, 0).err().unwrap_or(0), number, "{}", tell(0));
            let most = if number == 8 { 0 } else { number };
            assert_eq!(split(pump, &file, line, MOST).err().unwrap_or(0), most, "{}", tell(128));
            for by in TOO_MUCH {
                assert_eq!(split(pump, &file, line, by), Err(3), "{}", tell(by));
                assert_eq!(split(pump, damaged, line, by), Err(11), "{}", tell(by));
                // No room for what would be drawn, and less than the file.
                for (room, number) in [(file.len(), 3), (file.len() - 1, 11)] {
                    let lent = Lent { used: file.len(), ..Lent::buffer(&file, room) };
                    let outcome = perform(pump, &Call::Split(line, by), &lent);
                    assert_eq!((outcome.number, outcome.used), (number, file.len()), "{}", tell(by));
                    assert!(outcome.bytes() == lent.bytes, "{}", tell(by));
                }
            }
        }
    }
}
