//! Random histories: every answer of every subject is compared with the model's.

use pump_tests::calls::{compare, Call, Lent, Outcome};
use pump_tests::draw::{self, Random};
use pump_tests::files::old;
use pump_tests::maps;
use pump_tests::model::{Map, WORKED_OUT};
use pump_tests::plain::Plain;
use pump_tests::{Pump, LARGEST_FILE};
use std::collections::BTreeMap;

/// How often each call gave each number, how often it gave 0 on an old file, and how often two maps were the same.
#[derive(Default)]
struct Seen {
    numbers: BTreeMap<(&'static str, usize), usize>,
    on_old: BTreeMap<&'static str, usize>,
    same: [usize; 2],
}

impl Seen {
    fn note(&mut self, call: &Call, outcome: &Outcome, on_old: bool) {
        *self.numbers.entry((call.name(), outcome.number)).or_default() += 1;
        *self.on_old.entry(call.name()).or_default() += (on_old && outcome.number == 0) as usize;
        if matches!(call, Call::Same(..)) && outcome.number == 0 {
            self.same[outcome.numbers[0]] += 1;
        }
    }

    fn count(&self, call: &'static str, number: usize) -> usize {
        self.numbers.get(&(call, number)).copied().unwrap_or(0)
    }

    /// Whether every call has given every number that it can give, and 0 on old files if it can, and maps were the same and
    /// not. 1 and 4 have tests of their own. No call may have given another number.
    fn all(&self) -> bool {
        let can: [(&'static str, &[usize]); 14] = [
            ("set", &[0, 3, 9, 11, 12]),
            ("split by 0", &[0, 3, 5, 6, 7, 8, 11, 12]),
            ("split by some", &[0, 3, 5, 6, 7, 8, 11, 12]),
            ("split by 128", &[0, 3, 5, 6, 7, 11, 12]),
            ("split by more", &[3, 11]),
            ("place", &[0, 9, 11, 12]),
            ("reading", &[0, 10, 11]),
            ("weights", &[0, 10, 11, 12]),
            ("row", &[0, 10, 11, 13]),
            ("column", &[0, 10, 11, 13]),
            ("same", &[0, 11]),
            ("check", &[0, 11]),
            ("payload", &[0, 11]),
            ("table", &[0, 11, 12]),
        ];
        let mut all = self.same[0] > 0 && self.same[1] > 0;
        for (call, numbers) in can {
            all &= self.on_old.get(call).is_some_and(|count| *count > 0) || !numbers.contains(&0);
            for number in 0..=13 {
                let (count, can) = (self.count(call, number), numbers.contains(&number));
                let may = can || number == 4 && call != "split by more";
                assert!(may || count == 0, "{call} gave {number} {count} times");
                all &= count > 0 || !can;
            }
        }
        all
    }

    fn print(&self) {
        for (call, on_old) in &self.on_old {
            let counts: Vec<usize> = (0..=13).map(|number| self.count(call, number)).collect();
            println!("{call:>13} gave 0 to 13: {counts:?}; 0 on old files: {on_old}");
        }
        println!("two maps were not the same, and were: {:?}", self.same);
    }
}

/// The bytes lent: the file with room after it or none, sometimes too little, sometimes a length beyond the bytes.
fn lend(random: &mut Random, call: &Call, map: &Map, file: &[u8]) -> Lent {
    if call.changes() {
        // An old file may fit where the one that a call would leave does not.
        let written = 12 + 12 * (map.splits.len() + map.values.len());
        let size = match random.below(20) {
            0 => file.len(),
            1 => file.len() + random.below(60),
            2 => LARGEST_FILE,
            3 => file.len().max(written - random.below(2)),
            _ => file.len() + random.between(300, 900),
        };
        let mut lent = Lent::buffer(file, size);
        if random.chance(2) {
            lent.used = match random.below(3) {
                0 => size + random.between(1, 9),
                1 => random.below(file.len()),
                _ => draw::extreme(random, file.len()),
            };
        }
        return lent;
    }
    let mut lent = Lent::file(file);
    lent.out = match call {
        Call::Place(_) => random.pick(&[0, 14, 15, 16, 16, 16, 17, 40]),
        Call::Weights(..) => random.pick(&[0, 63, 64, 64, 64, 65, 100]),
        Call::Table => {
            let text = map.text().len();
            random.pick(&[0, text - 1, text, text, text + 1, 65_536])
        }
        _ => 0,
    };
    if random.chance(2) {
        lent.used = random.below(file.len());
    }
    lent
}

/// One history, from a fresh map; any calls, or splits alone. Now and then it goes on from the map's file in the old
/// form. The model's map goes along, for the draws and as a check on the model's own files.
fn history(random: &mut Random, seen: &mut Seen, (w, h): (usize, usize), length: usize, splits_alone: bool) -> Map {
    let mut story = vec![];
    let mut map = Map::fresh(w, h).unwrap();
    let mut file = map.write();
    let mut others = vec![draw::file(random, &map)];
    let mut on_old = false;
    for _ in 0..length {
        if random.chance(10) {
            file = old(&file);
            map.marks.fill(WORKED_OUT);
            on_old = true;
        }
        let call = match splits_alone {
            true => Call::Split(draw::split(random, &map, &map.lines()), draw::allowance(random)),
            false => draw::call(random, &map, &others),
        };
        let lent = lend(random, &call, &map, &file);
        story.push((call.clone(), on_old, lent.bytes.len(), lent.used, lent.out));
        let tell = || format!("sides {w} by {h}; calls, each with old file, size, used, size of out: {story:?}");
        let outcome = compare(&call, &lent, &tell);
        seen.note(&call, &outcome, on_old);
        if outcome.number != 0 || !call.changes() {
            continue;
        }
        file = outcome.bytes()[..outcome.used].to_vec();
        match call {
            Call::Set(m, n, value) => map.set(m, n, value).unwrap(),
            Call::Split([d, p, f, t], allowance) => drop(map.split(d, p, f, t, allowance).unwrap()),
            _ => unreachable!(),
        }
        assert_eq!(map.write(), file);
        on_old = false;
        others.push(draw::file(random, &map));
    }
    map
}

#[test]
fn random_histories() {
    let seed = draw::seed("random_histories");
    let count = draw::count();
    let mut seen = Seen::default();
    let (mut accepted, mut drawn) = (0, 0);
    for number in 0.. {
        if !draw::another(number, count, || draw::quick() || seen.all()) {
            break;
        }
        let mut random = Random(seed ^ number << 32);
        let (sides, length) = (draw::sides(&mut random), random.below(40));
        accepted += history(&mut random, &mut seen, sides, length, false).splits.len();
        drawn += length;
    }
    println!("{count} histories, {drawn} calls, {accepted} splits accepted");
    seen.print();
    assert!(seen.all() || draw::quick(), "some call never gave one of its numbers");
}

/// Histories long enough to fill a map with 60 splits, on sides that hold them.
#[test]
fn full_histories() {
    let seed = draw::seed("full_histories");
    let mut seen = Seen::default();
    let full = |seen: &Seen| ["split by 0", "split by some", "split by 128"].iter().all(|call| seen.count(call, 4) > 0);
    let sizes = [((70, 2), 160), ((30, 40), 110), ((128, 128), 90)];
    for (number, (sides, length)) in (0..).zip(sizes.into_iter().cycle()) {
        if !draw::another(number, sizes.len() as u64, || full(&seen)) {
            break;
        }
        let mut random = Random(seed ^ number << 32);
        let map = history(&mut random, &mut seen, sides, length, true);
        println!("{sides:?}: {} splits, {} blends", map.splits.len(), map.values.len());
    }
    assert!(full(&seen), "no map was full");
}

/// The map of these splits on sides of 128, by the plain implementation, with values.
fn largest(splits: &[maps::Split]) -> Vec<u8> {
    let (mut buffer, mut used) = (vec![0; LARGEST_FILE], 0);
    assert_eq!(Plain.fresh(128, 128, &mut buffer, &mut used), 0);
    for split in splits {
        assert_eq!(Plain.split(&mut buffer, &mut used, *split, 0), 0);
    }
    buffer.truncate(used);
    maps::with_values(buffer)
}

/// The largest file there is, and the split that makes it in a buffer that just holds it.
#[test]
fn most_blends() {
    let (last, first) = maps::grid().split_last().map(|(last, first)| (*last, first.to_vec())).unwrap();
    let before = largest(&first);
    let short = compare(&Call::Split(last, 0), &Lent::buffer(&before, LARGEST_FILE - 1), &String::new);
    let whole = compare(&Call::Split(last, 0), &Lent::buffer(&before, LARGEST_FILE), &String::new);
    assert_eq!((short.number, whole.number, whole.used), (12, 0, LARGEST_FILE));
    let file = largest(&maps::grid());
    let old = old(&file);
    for (size, number) in [(old.len(), 12), (LARGEST_FILE - 1, 12), (LARGEST_FILE, 0)] {
        assert_eq!(compare(&Call::Set(4, 8, 15), &Lent::buffer(&old, size), &String::new).number, number);
    }
    for call in [
        Call::Table,
        Call::Place(1023),
        Call::Place(1024),
        Call::Reading(127, 126),
        Call::Weights(128, 77),
        Call::Row(65, 32_768),
        Call::Column(127, 32_768),
        Call::Same(whole.bytes().to_vec(), true),
        Call::Set(128, 120, 65_535),
        Call::Split([0, 2, 0, 4], 0),
        Call::Split([0, 2, 0, 4], 128),
        Call::Split([0, 2, 0, 4], 129),
    ] {
        for file in [&file, &old] {
            compare(&call, &Lent::file(file), &String::new);
        }
    }
}

/// A table's text goes into bytes that just hold it, and into no fewer: the shortest text, and that of the most blends.
#[test]
fn table_that_just_fits() {
    for file in [Map::fresh(1, 1).unwrap().write(), largest(&maps::grid())] {
        let table = |out| compare(&Call::Table, &Lent { out, ..Lent::file(&file) }, &String::new);
        let text = table(65_536).numbers[0];
        for (out, want) in [(0, 12), (1, 12), (text - 1, 12), (text, 0), (text + 1, 0), (65_535, 0)] {
            let outcome = table(out);
            assert_eq!((outcome.number, outcome.numbers[0]), (want, if want == 0 { text } else { 0 }));
        }
    }
}

/// A split that finds its line as the last of very many, or stops just before it.
#[test]
fn longest_search() {
    let (last, first) = maps::fan().split_last().map(|(last, first)| (*last, first.to_vec())).unwrap();
    let before = Lent::buffer(&largest(&first), LARGEST_FILE);
    let drawn = compare(&Call::Split(last, 0), &before, &String::new);
    let [.., from, to] = maps::FAN_GIVEN;
    let needed = 128 - (to - from);
    for (allowance, left) in [(needed - 1, None), (needed, Some(&drawn)), (128, Some(&drawn))] {
        let searched = compare(&Call::Split(maps::FAN_GIVEN, allowance), &before, &String::new);
        let bytes = left.map_or(&before.bytes[..], Outcome::bytes);
        assert_eq!((searched.number, searched.bytes()), (if left.is_some() { 0 } else { 8 }, bytes));
    }
}

/// Calls on different bytes may run at the same time.
#[test]
fn at_the_same_time() {
    let seed = draw::seed("at_the_same_time");
    std::thread::scope(|scope| {
        for number in 0..4 {
            scope.spawn(move || {
                let mut random = Random(seed ^ (100 + number) << 32);
                for _ in 0..20 {
                    history(&mut random, &mut Seen::default(), (9, 8), 30, false);
                }
            });
        }
    });
}

/// Fresh maps of all sides, good and bad, in buffers of all sizes around the file's.
#[test]
fn fresh_maps() {
    let mut random = Random(draw::seed("fresh_maps"));
    let mut seen = Seen::default();
    for round in 0..2000 {
        let mut side = || match random.below(4) {
            0 => draw::extreme(&mut random, 128),
            _ => random.between(0, 129),
        };
        let call = Call::Fresh(side(), side());
        let mut lent = Lent::buffer(&[], random.pick(&[0, 1, 52, 59, 60, 61, 100]));
        lent.used = round;
        let outcome = compare(&call, &lent, &String::new);
        assert_eq!(outcome.used, if outcome.number == 0 { 60 } else { round });
        seen.note(&call, &outcome, false);
    }
    assert!([0, 1, 12].iter().all(|number| seen.count("fresh", *number) > 100));
}
