//! Document 02, L5: marks decide nothing. Of each drawn map a second file is made with other marks, or in the old form,
//! and every call gets both: the answers are the same but for the marks that are shown and kept.

use pump_tests::calls::{perform, Call, Lent, Outcome};
use pump_tests::draw::{self, Random};
use pump_tests::files::{anchors, of_kinds, old};
use pump_tests::model::{Map, Model, MEASURED, WORKED_OUT};
use pump_tests::{subjects, Pump};
use std::collections::{BTreeMap, BTreeSet};

/// Calls that each pair of files gets.
const ASKED: usize = 12;

/// The mark at each anchor.
type Marks = BTreeMap<(u16, u16), u16>;

fn marks(file: &[u8]) -> Marks {
    anchors(file).into_iter().map(|(anchor, (_, mark))| (anchor, mark)).collect()
}

/// A file of the same map but for the marks: in the old form, with one other mark, or with any.
fn with_other_marks(random: &mut Random, map: &Map) -> Vec<u8> {
    let mut other = map.clone();
    let place = random.below(map.marks.len());
    match random.below(3) {
        0 => return old(&map.write()),
        1 => other.marks[place] = 1 - map.marks[place],
        _ => other.marks.iter_mut().for_each(|mark| *mark = random.below(2) as u16),
    }
    other.write()
}

/// The answer of a call without its marks, and these: those of the table, or the one of a place.
fn answer(call: &Call, outcome: &Outcome) -> (Vec<u8>, Vec<u16>) {
    let out = outcome.out();
    match call {
        Call::Place(_) if outcome.number == 0 => (out[..14].to_vec(), vec![u16::from_le_bytes([out[14], out[15]])]),
        Call::Table if outcome.number == 0 => {
            let text = std::str::from_utf8(&out[..outcome.numbers[0]]).unwrap();
            let (first, blends) = text.split_once('\n').unwrap();
            let (blends, marks): (Vec<_>, Vec<_>) = blends.lines().map(|line| line.rsplit_once(' ').unwrap()).unzip();
            (format!("{first}\n{}", blends.join("\n")).into(), marks.iter().map(|mark| mark.parse().unwrap()).collect())
        }
        _ => (out.to_vec(), vec![]),
    }
}

/// The marks that an accepted change leaves: a set one is measured, old anchors keep theirs, new ones are worked out.
fn marks_after(call: &Call, before: &Marks, anchors: impl Iterator<Item = (u16, u16)>) -> Marks {
    let mark = |anchor: (u16, u16)| match call {
        Call::Set(m, n, _) if (*m, *n) == (anchor.0 as usize, anchor.1 as usize) => MEASURED,
        _ => before.get(&anchor).copied().unwrap_or(WORKED_OUT),
    };
    anchors.map(|anchor| (anchor, mark(anchor))).collect()
}

/// Makes the call on both files, in buffers of one size: its number, and the files that it leaves.
fn ask(pump: &dyn Pump, call: &Call, size: usize, files: &[Vec<u8>; 2]) -> (usize, [Vec<u8>; 2]) {
    let tell = || format!("{}: {call:?} in {size} bytes, on {files:?}", pump.name());
    let lent = files.each_ref().map(|file| match call.changes() {
        true => Lent::buffer(file, size),
        false => Lent::file(file),
    });
    let outcomes = lent.each_ref().map(|lent| perform(pump, call, lent));
    let [one, other] = &outcomes;
    assert_eq!((one.number, one.numbers), (other.number, other.numbers), "other numbers: {}", tell());
    assert_eq!(answer(call, one).0, answer(call, other).0, "other answers: {}", tell());
    for ((outcome, lent), file) in outcomes.iter().zip(&lent).zip(files) {
        let shown = answer(call, outcome).1;
        match call {
            Call::Table => assert!(shown.iter().eq(marks(file).values()), "{}", tell()),
            Call::Place(place) if outcome.number == 0 => {
                assert_eq!(shown[0], *marks(file).values().nth(*place).unwrap(), "{}", tell());
            }
            _ => (),
        }
        if outcome.number != 0 || !call.changes() {
            assert!(outcome.used == lent.used && outcome.bytes() == lent.bytes, "changed bytes: {}", tell());
        }
    }
    let after = outcomes.each_ref().map(|outcome| outcome.bytes()[..outcome.used].to_vec());
    if one.number != 0 || !call.changes() {
        return (one.number, after);
    }
    assert_eq!(old(&after[0]), old(&after[1]), "more than marks: {}", tell());
    for (file, after) in files.iter().zip(&after) {
        assert!(of_kinds(after, &[3]).is_empty(), "{}", tell());
        let want = marks_after(call, &marks(file), anchors(after).into_keys());
        assert_eq!(marks(after), want, "{}", tell());
    }
    (0, after)
}

#[test]
fn same_answers_but_for_marks() {
    let seed = draw::seed("same_answers_but_for_marks");
    let maps = draw::count() / 10;
    let (mut numbers, mut from_old, mut apart) = (BTreeSet::new(), 0, 0);
    let pumps: Vec<&dyn Pump> = [&Model as &dyn Pump].into_iter().chain(subjects()).collect();
    let changing = ["set", "split by 0", "split by some", "split by 128"];
    let met = |numbers: &BTreeSet<_>, from_old: usize, apart: usize| {
        let changed = changing.iter().all(|call| numbers.contains(&(*call, 0)));
        draw::quick() || changed && apart as u64 > 4 * maps && 2 * from_old as u64 > maps
    };
    for map_number in 0.. {
        if !draw::another(map_number, maps, || met(&numbers, from_old, apart)) {
            break;
        }
        let mut random = Random(seed ^ map_number << 32);
        let tries = random.below(16);
        let map = draw::map(&mut random, 9, tries);
        let mut files = [map.write(), with_other_marks(&mut random, &map)];
        if random.chance(50) {
            files.swap(0, 1);
        }
        for _ in 0..ASKED {
            let [one, other] = files.each_ref().map(|file| Map::read(file).unwrap());
            from_old += files.iter().any(|file| !of_kinds(file, &[3]).is_empty()) as usize;
            apart += (one.marks != other.marks) as usize;
            for pump in &pumps {
                for (first, second) in [(0, 1), (1, 0), (0, 0), (1, 1)] {
                    let call = Call::Same(files[first].clone(), true);
                    let same = perform(*pump, &call, &Lent::file(&files[second]));
                    assert_eq!((same.number, same.numbers[0]), (0, 1), "{}: {files:?}", pump.name());
                }
            }
            let others = [files[0].clone(), draw::map(&mut random, 3, 2).write()];
            let call = draw::call(&mut random, &one, &others);
            // The walker of records looks at the bytes alone.
            if matches!(call, Call::Payload(_)) {
                continue;
            }
            let least = files.iter().map(Vec::len).max().unwrap();
            let size = if random.chance(10) { least + random.below(30) } else { least + 900 };
            let mut outcomes: Vec<_> = pumps.iter().map(|pump| ask(*pump, &call, size, &files)).collect();
            let (number, after) = outcomes.swap_remove(0);
            numbers.insert((call.name(), number));
            files = after;
        }
    }
    println!("{maps} pairs, {apart} calls with other marks, {from_old} with an old file; call and number: {numbers:?}");
    assert!(met(&numbers, from_old, apart), "too few of some");
}
