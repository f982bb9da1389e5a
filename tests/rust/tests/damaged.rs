//! Damaged files: what was a file, and mostly is none any more, handed to every call.

use pump_tests::calls::{compare, Call, Lent};
use pump_tests::draw::{self, Random};
use pump_tests::files::{number, of_kinds, old, other_kind, put, records};
use pump_tests::model::{Map, Split};
use std::ops::Range;

/// Numbers that are no marks. Some would be if only a byte or a bit of them were looked at.
const NO_MARKS: [u16; 8] = [2, 3, 255, 256, 257, 512, 32_768, 65_535];

/// Changes the 16-bit number at a place.
fn change(file: &mut [u8], at: usize, to: impl FnOnce(usize) -> usize) {
    let number = number(file, at) as usize;
    put(file, at, to(number) as u16);
}

/// The file with these records of values in the other kind.
fn with_others(file: &[u8], chosen: &[Range<usize>], mark: u16) -> Vec<u8> {
    let mut other = file.to_vec();
    for record in chosen.iter().rev() {
        other.splice(record.clone(), other_kind(&file[record.clone()], mark));
    }
    other
}

/// Damages the values of a file.
fn damage_values(random: &mut Random, file: &mut Vec<u8>) {
    let whole = |record: &Range<usize>| matches!((file[record.start + 2], record.len()), (3, 10) | (5, 12));
    let mut values: Vec<_> = of_kinds(file, &[3, 5]).into_iter().filter(whole).collect();
    if values.is_empty() {
        return;
    }
    let one = values[random.below(values.len())].clone();
    match random.below(8) {
        // Another value, or another kind for all: these leave a file.
        0..=1 => put(file, one.start + 8, random.below(130) as u16),
        2 => *file = with_others(file, &values, 1),
        // A mark that is one or none, or in an old file another value.
        3..=4 => put(file, one.end - 2, random.pick(&[&NO_MARKS[..], &[0, 1]].concat())),
        // Mixes.
        5..=6 => *file = with_others(file, &[one], random.below(2) as u16),
        _ => {
            values.retain(|_| random.chance(50));
            *file = with_others(file, &values, random.below(3) as u16);
        }
    }
}

/// Damages a file in one way.
fn damage(random: &mut Random, file: &mut Vec<u8>) {
    let records = records(file);
    if records.is_empty() {
        return;
    }
    // Half of the time two splits, if there are any: those may go in another order, or as other lines.
    let splits: Vec<_> = records.iter().filter(|record| file[record.start + 2] == 2).cloned().collect();
    let from = if splits.is_empty() || random.chance(50) { &records } else { &splits };
    let (one, other) = (random.below(from.len()), random.below(from.len()));
    let (one, other) = (from[one.min(other)].clone(), from[one.max(other)].clone());
    let at = random.below(file.len());
    // A 16-bit number of the first record picked.
    let field = one.start + 2 * random.below(one.len() / 2);
    match random.below(24) {
        0 => file[at] ^= 1 << random.below(8),
        1 => file[at] = random.draw() as u8,
        2 => file.truncate(at),
        3 => file.extend_from_within(one),
        4 => file.extend((0..random.between(1, 12)).map(|at| at as u8)),
        5 => *file = [&file[..one.start], &file[one.end..]].concat(),
        6 => *file = [&file[..one.start], &file[other], &file[one.start..]].concat(),
        7 | 14 | 15 if one != other => {
            let between = &file[one.end..other.start];
            *file =
                [&file[..one.start], &file[other.clone()], between, &file[one.clone()], &file[other.end..]].concat();
        }
        8 => change(file, one.start, |length| draw::extreme(random, length)),
        9 => change(file, one.start + 2, |_| random.below(7)),
        10 => file[at..].iter_mut().take(4).for_each(|byte| *byte = 0),
        11 => file[at..].fill(0),
        12 => change(file, one.end - 2, |_| random.below(130)),
        13 => change(file, field, |number| draw::extreme(random, number)),
        18.. => damage_values(random, file),
        _ => change(file, field, |number| number.wrapping_add(random.pick(&[1, 2, usize::MAX]))),
    }
}

#[test]
fn damaged_files() {
    let seed = draw::seed("damaged_files");
    let count = draw::count();
    let (mut refused, mut splits_refused, mut accepted, mut accepted_old) = (0, 0, 0, 0);
    let met = |refused, splits_refused, accepted, accepted_old| {
        let enough = refused > count / 10 && splits_refused > count / 10 && accepted > count / 40;
        draw::quick() || enough && accepted_old > count / 80
    };
    for number in 0.. {
        if !draw::another(number, count, || met(refused, splits_refused, accepted, accepted_old)) {
            break;
        }
        let mut random = Random(seed ^ number << 32);
        let tries = random.below(14);
        let map = draw::map(&mut random, 9, tries);
        let good = draw::file(&mut random, &map);
        let mut bad = good.clone();
        for _ in 0..random.pick(&[1, 1, 1, 2, 3]) {
            damage(&mut random, &mut bad);
        }
        let story = || format!("file {number}: {good:?}");
        let lent = Lent::file(&bad);
        let checked = compare(&Call::Check, &lent, &story).number;
        match checked {
            0 if bad != good => accepted += 1,
            11 if records(&bad).last().is_some_and(|last| last.end == bad.len()) => splits_refused += 1,
            11 => refused += 1,
            _ => assert_eq!(bad, good),
        }
        if checked == 0 {
            // What is read and written again is the same file, or an old one with kind 5.
            let again = Map::read(&bad).unwrap().write();
            let was_old = of_kinds(&bad, &[5]).is_empty();
            assert_eq!(if was_old { old(&again) } else { again }, bad);
            accepted_old += was_old as u64;
        }
        for _ in 0..3 {
            let call = match draw::call(&mut random, &map, &[bad.clone(), good.clone()]) {
                // Nobody but the record walker works on bytes that are no file, so it looks at every place.
                Call::Payload(_) => Call::Check,
                call => call,
            };
            let room = match call.changes() {
                true => Lent::buffer(&bad, bad.len() + 400),
                // Bytes that are no file are refused with 11 even where no answer would fit.
                false => Lent { out: random.pick(&[0, 65_536]), ..lent.clone() },
            };
            let number = compare(&call, &room, &story).number;
            assert!(checked == 0 || number == 11);
        }
        for second in [true, false] {
            assert_eq!(compare(&Call::Same(bad.clone(), second), &Lent::file(&good), &story).number, checked);
        }
        for place in 0..bad.len() + 4 {
            compare(&Call::Payload(place), &lent, &story);
        }
        for near in [usize::MAX, usize::MAX - 1, usize::MAX - 3, 1 << 63, 1 << 32, 1 << 16] {
            compare(&Call::Payload(near), &lent, &story);
        }
    }
    println!(
        "{count} files: {refused} cut up, {splits_refused} refused though whole records, {accepted} accepted; \
         {accepted_old} old ones read"
    );
    assert!(met(refused, splits_refused, accepted, accepted_old), "too few of some");
}

/// A mix of the two kinds is no file, and neither is a mark above 1, wherever it stands: no call takes it.
#[test]
fn mixes_and_other_marks() {
    let seed = draw::seed("mixes_and_other_marks");
    let mut refused = 0;
    for round in 0..draw::count() / 40 {
        let mut random = Random(seed ^ round << 32);
        let tries = random.below(14);
        let map = draw::map(&mut random, 9, tries);
        let new = map.write();
        let goods = [old(&new), new];
        let mut bads = vec![];
        for good in &goods {
            assert_eq!(compare(&Call::Check, &Lent::file(good), &String::new).number, 0);
            let values = of_kinds(good, &[3, 5]);
            for at in [0, random.below(values.len()), values.len() - 1] {
                let one = values[at].clone();
                let rest = [&values[..at], &values[at + 1..]].concat();
                bads.push(with_others(good, &values[at..=at], random.below(2) as u16));
                bads.push(with_others(good, &rest, random.below(2) as u16));
                // The other kind with the payload of this one.
                let mut kind = good.clone();
                change(&mut kind, one.start + 2, |kind| 8 - kind);
                bads.push(kind);
                for mark in NO_MARKS.iter().filter(|_| number(good, one.start + 2) == 5) {
                    bads.push(good.clone());
                    put(bads.last_mut().unwrap(), one.end - 2, *mark);
                }
            }
            // So for all values.
            let mut kinds = good.clone();
            values.iter().for_each(|value| change(&mut kinds, value.start + 2, |kind| 8 - kind));
            bads.push(kinds);
        }
        bads.push(with_others(&goods[0], &of_kinds(&goods[0], &[3]), 2));
        let calls = [
            Call::Set(0, 0, 1),
            Call::Split([0, 1, 0, map.h as usize], 0),
            Call::Split([0, 1, 0, map.h as usize], 128),
            Call::Split([0, 1, 0, map.h as usize], 129),
            Call::Place(0),
            Call::Reading(0, 0),
            Call::Weights(0, 0),
            Call::Row(0, 1),
            Call::Column(0, 1),
            Call::Same(goods[0].clone(), true),
            Call::Same(goods[1].clone(), false),
            Call::Table,
        ];
        for (at, bad) in bads.iter().enumerate() {
            for call in [&Call::Check, &calls[(at + round as usize) % calls.len()]] {
                let lent = if call.changes() { Lent::buffer(bad, bad.len() + 400) } else { Lent::file(bad) };
                assert_eq!(compare(call, &lent, &String::new).number, 11, "{call:?} on {bad:?}");
                refused += 1;
            }
        }
    }
    println!("{refused} calls refused");
}

/// A file of 61 splits, all of which would be accepted but for their number.
#[test]
fn one_split_too_many() {
    let mut map = Map::fresh(62, 1).unwrap();
    for position in 1..=60 {
        map.exact_split(0, position, 0, 1).unwrap();
    }
    let good = map.write();
    assert_eq!(compare(&Call::Check, &Lent::file(&good), &String::new).number, 0);
    let mut more = map.clone();
    more.splits.push(Split { direction: 0, position: 61, from: 0, to: 1 });
    more.values.extend([0, 0]);
    more.marks.extend([0, 0]);
    assert_eq!(more.write().len(), good.len() + 36);
    assert_eq!(compare(&Call::Check, &Lent::file(&more.write()), &String::new).number, 11);
}
