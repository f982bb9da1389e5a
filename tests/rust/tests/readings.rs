//! What users are told of weights, readings and numbers (README.md; docs/READING.md, "What users
//! are told"), of each of the three alone and from its own answers: places, the table, weights,
//! readings. Nothing is compared with the model, whose maps serve the draws.

use pump_tests::calls::{perform, Call, Lent, Outcome};
use pump_tests::draw::{self, Random};
use pump_tests::files::{anchors, number, old, put};
use pump_tests::maps;
use pump_tests::model::{Map, Model, MOST_SPLITS};
use pump_tests::plain::Plain;
use pump_tests::{subjects, Pump, LARGEST_FILE};
use std::collections::{BTreeMap, BTreeSet};

const MOST: usize = 65_535;

/// Bytes that are always enough: for the table's text, a place and the weights.
const TEXT: usize = 65_536;
const PLACE: usize = 16;
const WEIGHTS: usize = 64;

fn pumps() -> Vec<&'static dyn Pump> {
    [&Model as &dyn Pump].into_iter().chain(subjects()).collect()
}

/// All whole points. The model cuts its blends anew for every call, so it is asked at some alone.
fn asked(pump: &dyn Pump, random: &mut Random, (w, h): (usize, usize)) -> Vec<(usize, usize)> {
    let mut points: Vec<_> = (0..=w).flat_map(|u| (0..=h).map(move |v| (u, v))).collect();
    if pump.name() == Model.name() {
        random.shuffle(&mut points);
        points.truncate(6);
    }
    points
}

/// A blend l m r b n t with its value and mark, or with its weight as numerator and denominator.
type Entry = [u16; 8];

fn anchor(entry: &Entry) -> (u16, u16) {
    (entry[1], entry[4])
}

fn entries(out: &[u8]) -> Vec<Entry> {
    let entry = |bytes: &[u8]| std::array::from_fn(|at| number(bytes, 2 * at));
    out.chunks_exact(PLACE).map(entry).collect()
}

/// The outcome of a call that must be accepted.
fn accepted(pump: &dyn Pump, call: &Call, lent: &Lent) -> Outcome {
    let outcome = perform(pump, call, lent);
    assert_eq!(outcome.number, 0, "{}: {call:?} on {:?}", pump.name(), &lent.bytes[..lent.used]);
    outcome
}

fn reading(pump: &dyn Pump, lent: &Lent, (u, v): (usize, usize)) -> usize {
    accepted(pump, &Call::Reading(u, v), lent).numbers[0]
}

/// The file that an accepted change leaves.
fn left(outcome: &Outcome) -> Vec<u8> {
    outcome.bytes()[..outcome.used].to_vec()
}

/// The sides that a file tells.
fn sides(file: &[u8]) -> (usize, usize) {
    (number(file, 4) as usize, number(file, 6) as usize)
}

/// The table's entries by their anchors: what the text says, and so do the places that are asked
/// for; the one after the last says 9.
fn table(pump: &dyn Pump, file: &[u8], places: &mut dyn FnMut() -> bool) -> BTreeMap<(u16, u16), Entry> {
    let lent = Lent { out: TEXT, ..Lent::file(file) };
    let outcome = accepted(pump, &Call::Table, &lent);
    let text = std::str::from_utf8(&outcome.out()[..outcome.numbers[0]]).unwrap();
    let (count, lines) = text.split_once('\n').unwrap();
    let entry = |line: &str| -> Entry {
        let numbers: Vec<u16> = line.split(' ').map(|number| number.parse::<i32>().unwrap() as u16).collect();
        numbers.try_into().unwrap()
    };
    let table: Vec<Entry> = lines.lines().map(entry).collect();
    assert_eq!(count, table.len().to_string());
    let lent = Lent { out: PLACE, ..lent };
    for (place, entry) in table.iter().enumerate().filter(|_| places()) {
        assert_eq!(entries(accepted(pump, &Call::Place(place), &lent).out()), [*entry], "{}: {file:?}", pump.name());
    }
    assert_eq!(perform(pump, &Call::Place(table.len()), &lent).number, 9);
    let by_anchor: BTreeMap<_, _> = table.iter().map(|entry| (anchor(entry), *entry)).collect();
    assert_eq!(by_anchor.len(), table.len(), "{}: one anchor twice on {file:?}", pump.name());
    by_anchor
}

/// What the points were like.
#[derive(Default, Debug)]
struct Points {
    /// By how many of the four weigh more than 0.
    weighing: [usize; 5],
    anchors: usize,
    /// Readings strictly between the least value and the greatest, and exact halves.
    between: usize,
    halves: usize,
    /// Points where denominators differ, and the greatest of all.
    differ: usize,
    over: u16,
}

impl Points {
    fn met(&self) -> bool {
        let four = [self.weighing[1], self.weighing[2], self.weighing[4]];
        draw::quick() || four.into_iter().chain([self.anchors, self.between, self.halves, self.differ]).all(|n| n > 0)
    }

    /// Holds the weights and the reading at a point to what is told of them.
    fn look(&mut self, pump: &dyn Pump, lent: &Lent, table: &BTreeMap<(u16, u16), Entry>, (u, v): (usize, usize)) {
        let weights = accepted(pump, &Call::Weights(u, v), &Lent { out: WEIGHTS, ..lent.clone() });
        let litres = reading(pump, lent, (u, v));
        let four = entries(weights.out());
        let tell = || format!("{}: {litres} by {four:?} at {u} {v} on {:?}", pump.name(), lent.bytes);

        // Each is at most one, over at most 128 * 128, and they add up to one.
        for [.., numerator, denominator] in &four {
            assert!(numerator <= denominator && (1..=128 * 128).contains(denominator), "{}", tell());
        }
        let over: u128 = four.iter().map(|entry| entry[7] as u128).product();
        let part = |entry: &Entry| entry[6] as u128 * (over / entry[7] as u128);
        assert_eq!(four.iter().map(part).sum::<u128>(), over, "{}", tell());

        // They are blends of the table, in its order.
        assert!(four.windows(2).all(|pair| anchor(&pair[0]) < anchor(&pair[1])), "{}", tell());
        let tabled: Vec<&Entry> = four.iter().filter_map(|entry| table.get(&anchor(entry))).collect();
        assert!(tabled.iter().map(|entry| &entry[..6]).eq(four.iter().map(|entry| &entry[..6])), "{}", tell());

        // The reading lies between the values that weigh, and is nearest to the sum, of two the higher.
        let weigh = four.iter().zip(&tabled).filter(|(weight, _)| weight[6] > 0);
        let values: Vec<usize> = weigh.map(|(_, entry)| entry[6] as usize).collect();
        let (least, most) = (*values.iter().min().unwrap(), *values.iter().max().unwrap());
        assert!(least <= litres && litres <= most, "{}", tell());
        let sum: u128 = four.iter().zip(&tabled).map(|(weight, entry)| entry[6] as u128 * part(weight)).sum();
        let litres_over = litres as u128 * over;
        assert!(2 * litres_over <= 2 * sum + over && 2 * sum < 2 * litres_over + over, "{}", tell());

        // At an anchor it is the value there.
        if let Some(entry) = table.get(&(u as u16, v as u16)) {
            assert_eq!(litres, entry[6] as usize, "{}", tell());
            self.anchors += 1;
        }

        self.weighing[values.len()] += 1;
        self.between += (least < litres && litres < most) as usize;
        self.halves += (2 * litres_over == 2 * sum + over) as usize;
        self.differ += four.iter().any(|entry| entry[7] != four[0][7]) as usize;
        self.over = four.iter().map(|entry| entry[7]).fold(self.over, u16::max);
    }
}

/// At every whole point the weights add up to one, and the reading lies between the values that weigh.
#[test]
fn readings_by_weights() {
    let seed = draw::seed("readings_by_weights");
    let mut points = Points::default();
    for round in 0.. {
        if !draw::another(round, draw::count() / 10, || points.met()) {
            break;
        }
        let mut random = Random(seed ^ round << 32);
        let (largest, tries) = (random.pick(&[3, 6, 12]), random.below(16));
        let mut map = draw::map(&mut random, largest, tries);
        match random.below(4) {
            0 => map.values.iter_mut().for_each(|value| *value = random.pick(&[0, MOST as u16])),
            1 => map.values.iter_mut().for_each(|value| *value = random.pick(&[MOST as u16 - 1, MOST as u16])),
            2 => map.values.iter_mut().for_each(|value| *value = random.below(4) as u16),
            _ => (),
        }
        let file = draw::file(&mut random, &map);
        for pump in pumps() {
            let lent = Lent::file(&file);
            let table = table(pump, &file, &mut || true);
            for point in asked(pump, &mut random, sides(&file)) {
                points.look(pump, &lent, &table, point);
            }
        }
    }
    println!("{points:?}");
    assert!(points.met(), "points of some kind never came");
}

/// The file of these splits on sides of 128, with values over the whole range.
fn largest(splits: &[maps::Split]) -> Vec<u8> {
    let mut lent = Lent::buffer(&[], LARGEST_FILE);
    let calls = splits.iter().map(|split| Call::Split(*split, 0));
    for call in [Call::Fresh(128, 128)].into_iter().chain(calls) {
        let outcome = accepted(&Plain, &call, &lent);
        lent = Lent::buffer(&left(&outcome), LARGEST_FILE);
    }
    maps::with_values(lent.bytes[..lent.used].to_vec())
}

/// The same at some points of the largest maps: from none to all of the splits that make them.
#[test]
fn readings_of_the_largest_maps() {
    let mut random = Random(draw::seed("readings_of_the_largest_maps"));
    let mut points = Points::default();
    for splits in [maps::grid(), maps::fan()] {
        for count in [0, random.between(1, MOST_SPLITS - 1), MOST_SPLITS] {
            let file = largest(&splits[..count]);
            let lent = Lent::file(&file);
            for pump in subjects() {
                let table = table(pump, &file, &mut || random.chance(5));
                let anchored: Vec<_> = table.keys().map(|(m, n)| (*m as usize, *n as usize)).collect();
                for _ in 0..60 {
                    let mut side = || if random.chance(10) { 128 } else { random.below(129) };
                    let point = (side(), side());
                    points.look(pump, &lent, &table, point);
                    points.look(pump, &lent, &table, random.pick(&anchored));
                }
            }
        }
    }
    println!("{points:?}");
    assert_eq!(points.over, 128 * 128);
}

/// What lists of calls were like.
#[derive(Default, Debug)]
struct Lists {
    /// Accepted sets.
    set: usize,
    /// Lists from a fresh map with splits and no accepted set, and lists from a file with either.
    none_set: usize,
    from_file: usize,
    /// Readings of the greatest value that was set, and lists that end with all values below it.
    reached: usize,
    lowered: usize,
    /// Lists with a refused set of a greater one.
    refused_above: usize,
}

impl Lists {
    fn met(&self) -> bool {
        let all = [self.set, self.none_set, self.from_file, self.reached, self.lowered, self.refused_above];
        draw::quick() || all.into_iter().all(|count| count > 0)
    }

    /// A list of calls from a fresh map or from a file. After an accepted set its anchor reads as was
    /// set, and after the list nothing reads above the greatest value that was set, or that the file
    /// had.
    fn list(&mut self, pump: &dyn Pump, random: &mut Random, start: Option<&[u8]>) {
        let (w, h) = draw::sides(random);
        let fresh = accepted(pump, &Call::Fresh(w.min(30), h.min(30)), &Lent::buffer(&[], 60));
        let mut file = start.map_or_else(|| left(&fresh), <[u8]>::to_vec);
        let most_of = |file: &[u8]| anchors(file).into_values().map(|(value, _)| value as usize).max().unwrap();
        let mut most = start.map_or(0, most_of);
        let (mut sets, mut splits, mut refused, mut story) = (0, 0, 0, vec![]);
        let shift = random.below(16);
        for _ in 0..random.below(14) {
            let map = Map::read(&file).unwrap();
            let call = match random.below(20) {
                0..=5 => {
                    let (m, n) = random.pick(&anchors(&file).into_keys().collect::<Vec<_>>());
                    let value = random.below(MOST + 1) >> shift;
                    let value = if random.chance(15) { draw::extreme(random, value) } else { value };
                    Call::Set(m as usize, n as usize, value)
                }
                6..=13 => Call::Split(draw::split(random, &map, &map.lines()), draw::allowance(random)),
                14 if random.chance(20) => Call::Fresh(random.below(9), random.below(9)),
                _ => draw::call(random, &map, &[file.clone()]),
            };
            let room = if random.chance(5) { random.below(40) } else { 900 };
            let lent = if call.changes() { Lent::buffer(&file, file.len() + room) } else { Lent::file(&file) };
            let outcome = perform(pump, &call, &lent);
            story.push((call.clone(), outcome.number));
            match call {
                Call::Set(m, n, value) if outcome.number == 0 => {
                    most = most.max(value);
                    sets += 1;
                    let after = Lent::file(&left(&outcome));
                    assert_eq!(reading(pump, &after, (m, n)), value, "{}: {story:?} from {start:?}", pump.name());
                }
                Call::Set(_, _, value) => refused = refused.max(value),
                Call::Split(..) if outcome.number == 0 => splits += 1,
                _ => (),
            }
            if call.changes() && outcome.number == 0 {
                file = left(&outcome);
            }
        }
        let in_table = table(pump, &file, &mut || false).values().map(|entry| entry[6] as usize).max().unwrap();
        let lent = Lent::file(&file);
        for point in asked(pump, random, sides(&file)) {
            let litres = reading(pump, &lent, point);
            let tell = || format!("{}: {litres} at {point:?} after {story:?} from {start:?}", pump.name());
            assert!(litres <= in_table, "above {in_table}, the greatest of the table: {}", tell());
            assert!(litres <= most, "above {most}, the greatest value set: {}", tell());
            self.reached += (litres == most && most > 0) as usize;
        }
        self.set += sets;
        self.none_set += (sets == 0 && splits > 0 && start.is_none()) as usize;
        self.from_file += (start.is_some() && splits + sets > 0) as usize;
        self.lowered += (in_table < most) as usize;
        self.refused_above += (refused > most) as usize;
    }
}

/// After any list of calls nothing reads above what an accepted one set, or what the file had.
#[test]
fn none_above_what_was_set() {
    let seed = draw::seed("none_above_what_was_set");
    let mut lists = Lists::default();
    for round in 0.. {
        if !draw::another(round, draw::count() / 6, || lists.met()) {
            break;
        }
        let mut random = Random(seed ^ round << 32);
        let tries = random.below(10);
        let map = draw::map(&mut random, 8, tries);
        let file = draw::file(&mut random, &map);
        let start = random.chance(40).then_some(&file[..]);
        let next = random.draw();
        for pump in pumps() {
            lists.list(pump, &mut Random(next), start);
        }
    }
    println!("{lists:?}");
    assert!(lists.met(), "lists of some kind never came");
}

/// Each call's own numbers.
const OWN: [(&str, &[usize]); 12] = [
    ("fresh", &[0, 1, 12]),
    ("set", &[0, 11, 3, 9, 12]),
    ("split", &[0, 11, 3, 4, 5, 6, 7, 8, 12]),
    ("place", &[0, 11, 9, 12]),
    ("reading", &[0, 11, 10]),
    ("weights", &[0, 11, 10, 12]),
    ("row", &[0, 11, 10, 13]),
    ("column", &[0, 11, 10, 13]),
    ("same", &[0, 11]),
    ("check", &[0, 11]),
    ("payload", &[0, 11]),
    ("table", &[0, 11, 12]),
];

/// The call's name, one for all splits.
fn name(call: &Call) -> &'static str {
    call.name().split(' ').next().unwrap()
}

/// Whether the bytes lent to a call are always enough for its answer.
fn has_room(call: &Call, lent: &Lent) -> bool {
    match call {
        Call::Fresh(..) | Call::Set(..) | Call::Split(..) => lent.bytes.len() >= LARGEST_FILE,
        Call::Place(_) => lent.out >= PLACE,
        Call::Weights(..) => lent.out >= WEIGHTS,
        Call::Table => lent.out >= TEXT,
        _ => true,
    }
}

/// Which numbers each call of each of the three gave.
#[derive(Default)]
struct Numbers(BTreeSet<(&'static str, &'static str, usize)>);

impl Numbers {
    /// Makes the call: its number is one of its own, 11 where `used` is above the size, and not 12
    /// where there is room.
    fn ask(&mut self, pump: &dyn Pump, call: &Call, lent: &Lent) -> Outcome {
        let outcome = perform(pump, call, lent);
        let (_, own) = OWN.iter().find(|(call_name, _)| *call_name == name(call)).unwrap();
        let number = outcome.number;
        let tell = || format!("{}: {number} from {call:?} on {lent:?}", pump.name());
        assert!(own.contains(&number), "{}", tell());
        assert!(number != 12 || !has_room(call, lent), "12 though there is room; {}", tell());
        let beyond = lent.used > lent.bytes.len() && !matches!(call, Call::Fresh(..));
        assert!(number == 11 || !beyond, "used is above the size; {}", tell());
        self.0.insert((pump.name(), name(call), number));
        outcome
    }

    /// Whether each call of each of the three gave each of its numbers.
    fn met(&self) -> bool {
        let all = |pump: &&dyn Pump| {
            OWN.iter().all(|(call, own)| own.iter().all(|number| self.0.contains(&(pump.name(), *call, *number))))
        };
        pumps().iter().all(all)
    }
}

/// Any call, with arguments near those that would do or anywhere.
fn any_call(random: &mut Random, map: &Map, others: &[Vec<u8>]) -> Call {
    let mut any = || {
        let near = random.below(10);
        if random.chance(50) {
            near
        } else {
            draw::extreme(random, near)
        }
    };
    let (one, other, third) = (any(), any(), any());
    let split = [any() % 3, any(), any(), any()];
    match random.below(30) {
        0..=1 => Call::Fresh(one, other),
        2 => Call::Set(one, other, third),
        3 => Call::Split(split, third),
        4 => Call::Place(one),
        5 => Call::Reading(one, other),
        6 => Call::Weights(one, other),
        7 => Call::Row(one, other),
        8 => Call::Column(one, other),
        9 => Call::Payload(one),
        10..=11 => Call::Check,
        12..=13 => Call::Same(others[random.below(others.len())].clone(), random.chance(50)),
        14..=15 => Call::Table,
        _ => draw::call(random, map, others),
    }
}

/// Bytes that are no file, or are what a file has become.
fn no_file(random: &mut Random, file: &[u8]) -> Vec<u8> {
    let mut bytes = file.to_vec();
    let at = random.below(bytes.len());
    match random.below(7) {
        0 => vec![],
        1 => (0..random.below(100)).map(|_| random.draw() as u8).collect(),
        2 => vec![0; random.below(100)],
        3 => bytes[..at].to_vec(),
        4 => [bytes, vec![0; random.between(1, 12)]].concat(),
        5 => {
            bytes[at] ^= 1 << random.below(8);
            bytes
        }
        _ => {
            let changed = draw::extreme(random, number(file, at & !1) as usize);
            put(&mut bytes, at & !1, changed as u16);
            bytes
        }
    }
}

/// The bytes lent: as many as any call needs, or some, or too few; sometimes `used` is above the
/// size.
fn lend(random: &mut Random, call: &Call, bytes: &[u8]) -> Lent {
    if !call.changes() {
        let out = random.pick(&[0, PLACE - 1, PLACE, WEIGHTS - 1, WEIGHTS, 300, TEXT, TEXT]);
        return Lent { out, ..Lent::file(bytes) };
    }
    let size = match call {
        Call::Fresh(..) => random.pick(&[0, 59, 60, LARGEST_FILE]),
        _ => bytes.len() + random.pick(&[0, 12, 40, 900, LARGEST_FILE - bytes.len()]),
    };
    let mut lent = Lent::buffer(&bytes[..size.min(bytes.len())], size);
    if random.chance(10) {
        lent.used = draw::extreme(random, size).max(size + 1);
    }
    lent
}

/// A call gives no number but its own, whatever it is given.
#[test]
fn own_numbers() {
    let seed = draw::seed("own_numbers");
    let mut numbers = Numbers::default();

    // A map with 60 splits, which draws seldom make.
    let mut full = Map::fresh(62, 1).unwrap();
    for position in 1..=MOST_SPLITS {
        full.exact_split(0, position, 0, 1).unwrap();
    }
    for pump in pumps() {
        for (file, allowance) in [(full.write(), 0), (old(&full.write()), 128)] {
            let lent = Lent::buffer(&file, LARGEST_FILE);
            assert_eq!(numbers.ask(pump, &Call::Split([0, 61, 0, 1], allowance), &lent).number, 4);
        }
    }

    for round in 0.. {
        if !draw::another(round, draw::count() / 6, || draw::quick() || numbers.met()) {
            break;
        }
        let mut random = Random(seed ^ round << 32);
        let tries = random.below(12);
        let map = draw::map(&mut random, 9, tries);
        let file = draw::file(&mut random, &map);
        let others = [file.clone(), draw::map(&mut random, 3, 2).write(), no_file(&mut random, &file)];
        let mut bytes: BTreeMap<_, _> = pumps().iter().map(|pump| (pump.name(), file.clone())).collect();
        for _ in 0..12 {
            let call = any_call(&mut random, &map, &others);
            let bad = random.chance(20).then(|| no_file(&mut random, &file));
            let next = random.draw();
            for pump in pumps() {
                let lent = lend(&mut Random(next), &call, bad.as_ref().unwrap_or(&bytes[pump.name()]));
                let outcome = numbers.ask(pump, &call, &lent);
                if call.changes() && outcome.number == 0 && bad.is_none() {
                    bytes.insert(pump.name(), left(&outcome));
                }
            }
        }
    }
    println!("{} of call and number, for each of the three", numbers.0.len());
    assert!(draw::quick() || numbers.met(), "some call never gave one of its numbers");
}

/// A buffer of LARGEST_FILE bytes holds the largest maps, also after a set on an old file, and
/// 65,536 bytes hold their tables' text. The model is asked for the last split and what comes after.
#[test]
fn room_for_the_largest() {
    let mut numbers = Numbers::default();
    let (mut file_most, mut text_most) = (0, 0);
    for splits in [maps::grid(), maps::fan()] {
        let (last, before) = splits.split_last().unwrap();
        let before = largest(before);
        for pump in pumps() {
            if pump.name() != Model.name() {
                let mut lent = Lent::buffer(&[], LARGEST_FILE);
                let calls = splits.iter().map(|split| Call::Split(*split, 0));
                for call in [Call::Fresh(128, 128)].into_iter().chain(calls) {
                    let outcome = numbers.ask(pump, &call, &lent);
                    assert_eq!(outcome.number, 0, "{}: {call:?}", pump.name());
                    lent = Lent::buffer(&left(&outcome), LARGEST_FILE);
                }
            }
            let lent = Lent::buffer(&before, LARGEST_FILE);
            let whole = left(&numbers.ask(pump, &Call::Split(*last, 0), &lent));
            let anchors: Vec<_> = anchors(&whole).into_keys().collect();
            for file in [&whole, &old(&whole)] {
                let (m, n) = anchors[anchors.len() / 2];
                let call = Call::Set(m as usize, n as usize, MOST);
                let outcome = numbers.ask(pump, &call, &Lent::buffer(file, LARGEST_FILE));
                assert_eq!((outcome.number, outcome.used), (0, whole.len()), "{}: {call:?}", pump.name());
            }
            let mut longest = whole.clone();
            let first = whole.len() - 4 - 12 * anchors.len();
            for at in (first..whole.len() - 4).step_by(12) {
                put(&mut longest, at + 8, MOST as u16);
            }
            let text = numbers.ask(pump, &Call::Table, &Lent { out: TEXT, ..Lent::file(&longest) });
            assert_eq!(text.number, 0, "{}", pump.name());
            (file_most, text_most) = (whole.len().max(file_most), text.numbers[0].max(text_most));
            let outcome = numbers.ask(pump, &Call::Fresh(128, 128), &Lent::buffer(&whole, LARGEST_FILE));
            assert_eq!(outcome.number, 0, "{}", pump.name());
        }
    }
    println!("files of {file_most} bytes, texts of {text_most}");
    assert_eq!(file_most, LARGEST_FILE);
}
