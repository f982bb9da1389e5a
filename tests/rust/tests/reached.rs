//! Document 02, L2: the pairs of neighbouring points of a row or a column of which one reading is below a wanted flow and
//! the other is not.

use pump_tests::calls::{compare, perform, Call, Lent};
use pump_tests::draw::{self, Random};
use pump_tests::maps;
use pump_tests::model::{reading, Map};
use pump_tests::subjects;

const MOST: usize = 65_535;

/// A call's number, and the two numbers that it hands back.
type Answer = (usize, [usize; 2]);

/// The answer of the model, over the bytes of the map's file, and of all the others.
fn answer(call: &Call, lent: &Lent) -> Answer {
    let outcome = compare(call, lent, &String::new);
    (outcome.number, outcome.numbers)
}

/// A row or a column: its call, its place, and the readings along it.
struct Points {
    call: fn(usize, usize) -> Call,
    at: usize,
    readings: Vec<usize>,
}

impl Points {
    fn row(v: usize, w: usize, read: impl Fn(usize, usize) -> usize) -> Points {
        Points { call: Call::Row, at: v, readings: (0..=w).map(|u| read(u, v)).collect() }
    }

    fn column(u: usize, h: usize, read: impl Fn(usize, usize) -> usize) -> Points {
        Points { call: Call::Column, at: u, readings: (0..=h).map(|v| read(u, v)).collect() }
    }

    /// All rows and columns of a map, with what the reading call gives.
    fn all(map: &Map, lent: &Lent) -> Vec<Points> {
        let (w, h) = (map.w as usize, map.h as usize);
        let read = |u, v| {
            let (number, [litres, _]) = answer(&Call::Reading(u, v), lent);
            assert_eq!(number, 0);
            litres
        };
        let readings: Vec<Vec<usize>> = (0..=w).map(|u| (0..=h).map(|v| read(u, v)).collect()).collect();
        let known = |u: usize, v: usize| readings[u][v];
        (0..=h).map(|v| Points::row(v, w, known)).chain((0..=w).map(|u| Points::column(u, h, known))).collect()
    }

    /// Readings of these points with the flows next to them, one half way between two, any, the ends of the range, what
    /// lies beyond, and what would be in range if it were cut to 16 or 32 bits.
    fn flows(&self, random: &mut Random) -> Vec<usize> {
        let (one, other) = (random.pick(&self.readings), random.pick(&self.readings));
        let near = [one.wrapping_sub(1), one, one + 1, other, (one + other) / 2, random.between(1, MOST)];
        let cut = near.map(|flow| flow.wrapping_add(random.pick(&[1 << 16, 1 << 32, 1 << 63])));
        [&near[..], &cut[..1], &[0, 1, MOST, MOST + 1, usize::MAX]].concat()
    }

    /// Holds the answers for a wanted flow to the readings.
    fn check(&self, wanted: usize, answer: impl Fn(&Call) -> Answer, seen: &mut Seen) {
        let call = (self.call)(self.at, wanted);
        let (number, [count, first]) = answer(&call);
        let tell = || format!("{call:?} gives {number}, {count} {first} on {:?}", self.readings);

        // Of a pair, the lower reading is below the flow and the higher one is not.
        let parted = |x: &usize| {
            let (one, other) = (self.readings[*x], self.readings[x + 1]);
            one.min(other) < wanted && wanted <= one.max(other)
        };
        let last = self.readings.len() - 1;
        let pairs: Vec<usize> = (0..last).filter(parted).collect();
        let want = pairs.first().map_or((13, [0, 0]), |first| (0, [pairs.len(), *first]));
        assert_eq!((number, [count, first]), want, "{}", tell());
        assert_eq!(number == 0, count > 0, "{}", tell());

        // Before the first pair, between two and after the last one all readings lie on one side.
        let below: Vec<bool> = self.readings.iter().map(|reading| *reading < wanted).collect();
        let mut from = 0;
        for to in pairs.into_iter().chain([last]) {
            assert!(below[from..=to].iter().all(|side| *side == below[from]), "{}", tell());
            from = to + 1;
        }
        assert_eq!(count % 2 == 1, below[0] != below[last], "{}", tell());

        seen.asked += 1;
        seen.pairs += count;
        seen.counts[count.min(3)] += 1;
        seen.most = seen.most.max(count);
    }
}

/// How many answers were compared; how many had no pair, one, two and more; all pairs, and the most in one answer.
#[derive(Default)]
struct Seen {
    asked: usize,
    counts: [usize; 4],
    pairs: usize,
    most: usize,
}

impl Seen {
    fn print(&self) {
        let Seen { asked, counts: [none, one, two, more], pairs, most } = self;
        println!("{asked} answers: {none} without a pair, {one} with one, {two} with two, {more} with more");
        println!("{pairs} pairs, at most {most} in an answer");
    }
}

/// Every row and column of drawn maps, sides of 1 among them.
#[test]
fn answers_are_what_the_readings_say() {
    let seed = draw::seed("answers_are_what_the_readings_say");
    let (mut seen, mut thin) = (Seen::default(), 0);
    let met = |seen: &Seen, thin| draw::quick() || seen.counts.iter().all(|count| *count > 0) && thin > 0;
    for number in 0.. {
        if !draw::another(number, draw::count() / 20, || met(&seen, thin)) {
            break;
        }
        let mut random = Random(seed ^ number << 32);
        let (largest, tries) = (random.pick(&[1, 3, 8, 12, 16]), random.below(16));
        let mut map = draw::map(&mut random, largest, tries);
        if random.chance(30) {
            // The ends of the range, so that these are readings too.
            map.values.iter_mut().for_each(|value| *value = random.pick(&[0, 1, MOST as u16]));
        }
        let lent = Lent::file(&map.write());
        thin += (map.w == 1 || map.h == 1) as usize;
        for points in Points::all(&map, &lent) {
            for wanted in points.flows(&mut random) {
                points.check(wanted, |call| answer(call, &lent), &mut seen);
            }
        }
    }
    seen.print();
    println!("{thin} maps with a side of 1");
    assert!(met(&seen, thin), "some count never came, or no side of 1");
}

/// Values so low that every flow can be wanted: each step between two neighbouring readings parts as many flows as it is
/// high, so the counts of all flows add up to the steps.
#[test]
fn counts_add_up_to_the_steps() {
    const HIGHEST: usize = 9;
    let seed = draw::seed("counts_add_up_to_the_steps");
    let mut seen = Seen::default();
    for number in 0..draw::count() / 40 {
        let mut random = Random(seed ^ number << 32);
        let tries = random.below(16);
        let mut map = draw::map(&mut random, 9, tries);
        map.values.iter_mut().for_each(|value| *value = random.below(HIGHEST + 1) as u16);
        let lent = Lent::file(&map.write());
        for points in Points::all(&map, &lent) {
            let before = seen.pairs;
            for wanted in 1..=HIGHEST + 1 {
                points.check(wanted, |call| answer(call, &lent), &mut seen);
            }
            let steps = points.readings.windows(2).map(|pair| pair[0].abs_diff(pair[1]));
            assert_eq!(seen.pairs - before, steps.sum(), "{map:?}: {:?}", points.readings);
        }
    }
    seen.print();
}

/// The maps that are the worst in some way, on sides of 128: some rows and columns, by the model's own map.
#[test]
fn the_largest_maps() {
    let mut random = Random(draw::seed("the_largest_maps"));
    let mut seen = Seen::default();
    for splits in [maps::grid(), maps::fan()] {
        let mut map = Map::fresh(128, 128).unwrap();
        for [direction, position, from, to] in splits {
            map.exact_split(direction, position, from, to).unwrap();
        }
        map.values.iter_mut().for_each(|value| *value = random.draw() as u16);
        let (table, lent) = (map.table(), Lent::file(&map.write()));
        let read = |u, v| reading(&table, &map.values, u as i64, v as i64) as usize;
        let answer = |call: &Call| {
            let outcome = match call {
                Call::Row(v, wanted) => map.row(*v, *wanted),
                Call::Column(u, wanted) => map.column(*u, *wanted),
                _ => unreachable!(),
            };
            let want = outcome.map_or_else(|number| (number, [0, 0]), |(count, first)| (0, [count, first]));
            for subject in subjects() {
                let got = perform(subject, call, &lent);
                assert_eq!((got.number, got.numbers), want, "{} at {call:?}", subject.name());
            }
            want
        };
        for at in [0, 1, 49, 100, 127, 128] {
            for points in [Points::row(at, 128, read), Points::column(at, 128, read)] {
                for wanted in points.flows(&mut random) {
                    points.check(wanted, answer, &mut seen);
                }
            }
        }
    }
    seen.print();
    assert!(seen.most > 10);
}

/// A map of these sides, with these uprights all the way and these values.
fn map(w: usize, h: usize, uprights: impl IntoIterator<Item = usize>, values: &[u16]) -> Map {
    let mut map = Map::fresh(w, h).unwrap();
    for position in uprights {
        map.exact_split(0, position, 0, h).unwrap();
    }
    assert_eq!(map.values.len(), values.len());
    map.values = values.to_vec();
    map
}

/// Answers worked out by hand.
#[test]
fn by_hand() {
    let asked = |map: &Map, call: Call| answer(&call, &Lent::file(&map.write()));
    let none = (13, [0, 0]);

    // Readings 0, 3, 7 and 10 in both rows.
    let ramp = map(3, 1, [], &[0, 0, 10, 10]);
    for v in [0, 1] {
        for (wanted, u) in [(1, 0), (3, 0), (4, 1), (7, 1), (8, 2), (10, 2)] {
            assert_eq!(asked(&ramp, Call::Row(v, wanted)), (0, [1, u]));
        }
        for wanted in [0, 11, MOST, MOST + 1, MOST + 4, usize::MAX] {
            assert_eq!(asked(&ramp, Call::Row(v, wanted)), none);
        }
    }
    for u in 0..=3 {
        for wanted in [0, 1, 3, 10, MOST] {
            assert_eq!(asked(&ramp, Call::Column(u, wanted)), none);
        }
    }

    // Up and down again: readings 0, 25, 50, 75, 100, 75, 50, 25 and 0 in row 0, and 0 in row 1.
    let roof = map(8, 1, [4], &[0, 0, 100, 0, 0, 0]);
    for (wanted, u) in [(1, 0), (25, 0), (26, 1), (60, 2), (75, 2), (76, 3), (100, 3)] {
        assert_eq!(asked(&roof, Call::Row(0, wanted)), (0, [2, u]));
        assert_eq!(asked(&roof, Call::Row(1, wanted)), none);
    }
    assert_eq!(asked(&roof, Call::Row(0, 101)), none);
    assert_eq!(asked(&roof, Call::Column(4, 100)), (0, [1, 0]));
    assert_eq!(asked(&roof, Call::Column(3, 76)), none);

    // The ends of the range on sides of 1: 65,534 at (0, 1) and 65,535 at (1, 0), else 0.
    let square = map(1, 1, [], &[0, 65_534, 65_535, 0]);
    for (call, at, highest) in [
        (Call::Row as fn(_, _) -> _, 0, 65_535),
        (Call::Row, 1, 65_534),
        (Call::Column, 0, 65_534),
        (Call::Column, 1, 65_535),
    ] {
        for wanted in [1, highest] {
            assert_eq!(asked(&square, call(at, wanted)), (0, [1, 0]));
        }
        for wanted in [0, highest + 1] {
            assert_eq!(asked(&square, call(at, wanted)), none);
        }
    }

    // A pair at every step: 0 and MOST in turns.
    let values: Vec<u16> = (0..62).flat_map(|column| [if column % 2 == 0 { 0 } else { MOST as u16 }; 2]).collect();
    let saw = map(61, 1, 1..=60, &values);
    for wanted in [1, 30_000, MOST] {
        assert_eq!(asked(&saw, Call::Row(1, wanted)), (0, [61, 0]));
    }
}

/// 11 comes before 10, and 10 before 13.
#[test]
fn refusals_in_order() {
    let mut random = Random(draw::seed("refusals_in_order"));
    let mut refused = 0;
    for _ in 0..40 {
        let map = draw::map(&mut random, 6, 6);
        let file = map.write();
        let (good, bad) = (Lent::file(&file), Lent::file(&file[..file.len() - 1]));
        for (call, side) in [(Call::Row as fn(_, _) -> _, map.h as usize), (Call::Column, map.w as usize)] {
            let outside = [side + 1, side + (1 << 16), side + (1 << 32), usize::MAX - 1, usize::MAX];
            for wanted in [0, 1, random.between(1, MOST), MOST, MOST + 1, usize::MAX] {
                for at in outside {
                    assert_eq!(answer(&call(at, wanted), &good), (10, [0, 0]));
                }
                for at in [0, side, random.pick(&outside)] {
                    assert_eq!(answer(&call(at, wanted), &bad), (11, [0, 0]));
                }
                for at in [0, side] {
                    let (number, _) = answer(&call(at, wanted), &good);
                    assert!(number == 13 || number == 0 && (1..=MOST).contains(&wanted));
                }
                refused += outside.len() + 3;
            }
        }
    }
    println!("{refused} refusals");
}
