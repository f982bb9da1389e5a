//! What must hold of every history, looked at directly: on the model's blends and readings, and on the files of two
//! histories whose lines cover the same points.

use pump_tests::calls::{compare, perform, Call, Lent};
use pump_tests::draw::{self, Random};
use pump_tests::model::{first_four, live, reading, sum, table, Blend, Lines, Map, Split, LEVEL, UPRIGHT};
use pump_tests::subjects;
use std::collections::BTreeSet;

/// How many maps are looked at, fewer than histories.
fn rounds() -> u64 {
    draw::count() / 6
}

/// Maps to look at, as many as are wanted.
fn maps(test: &str) -> impl Iterator<Item = (Random, Map)> {
    let seed = draw::seed(test);
    (0..).map(move |number| {
        let mut random = Random(seed ^ number << 32);
        let (largest, tries) = (random.pick(&[4, 8, 12]), random.below(16));
        let map = draw::map(&mut random, largest, tries);
        (random, map)
    })
}

/// The weights add up to exactly one at every point of the domain whose coordinates are whole numbers over d, and inside
/// each unit square the same four blends are positive.
#[test]
fn weights_add_up() {
    let mut points = 0;
    for (mut random, map) in maps("weights_add_up").take(rounds() as usize) {
        let table = map.table();
        let d = random.pick(&[1, 2, 3, 5, 7]);
        for x in 0..=map.w * d {
            for y in 0..=map.h * d {
                assert_eq!(sum(table.iter().map(|blend| blend.weight(x, y, d))), (1, 1), "{map:?} at {x}/{d} {y}/{d}");
                points += 1;
                if x % d != 0 && y % d != 0 {
                    let positive = |blend: &&Blend| blend.weight(x, y, d).0 > 0;
                    let over = |blend: &&Blend| blend.over(x / d, y / d);
                    let four: Vec<_> = table.iter().filter(positive).collect();
                    assert_eq!(four.len(), 4);
                    assert_eq!(four, table.iter().filter(over).collect::<Vec<_>>());
                }
            }
        }
    }
    println!("{points} points");
}

/// The whole points of a map with the model's readings there, after every subject has been found to give the same.
fn readings(map: &Map) -> Vec<((i64, i64), i64)> {
    let (table, lent) = (map.table(), Lent::file(&map.write()));
    let points = (0..=map.w).flat_map(|u| (0..=map.h).map(move |v| (u, v)));
    let read = |(u, v)| {
        let want = reading(&table, &map.values, u, v);
        for subject in subjects() {
            let got = perform(subject, &Call::Reading(u as usize, v as usize), &lent);
            assert_eq!((got.number, got.numbers[0] as i64), (0, want), "{}: {map:?} at {u} {v}", subject.name());
        }
        ((u, v), want)
    };
    points.map(read).collect()
}

/// A reading lies within half a litre of the exact sum, and where two whole numbers do it is the higher one.
#[test]
fn readings_are_the_nearest() {
    let (mut up, mut down, mut halves) = (0, 0, 0);
    let met = |up, down, halves| draw::quick() || halves > 0 && up > halves && down > 0;
    for (round, (_, map)) in (0..).zip(maps("readings_are_the_nearest")) {
        if !draw::another(round, rounds(), || met(up, down, halves)) {
            break;
        }
        let table = map.table();
        for ((u, v), litres) in readings(&map) {
            let (numerator, denominator) = sum(table.iter().zip(&map.values).map(|(blend, value)| {
                let (numerator, denominator) = blend.weight(u, v, 1);
                (*value as i128 * numerator, denominator)
            }));
            // By how much the reading is above the sum, twice, over the denominator.
            let above = 2 * (litres as i128 * denominator - numerator);
            assert!(-denominator < above && above <= denominator, "{map:?} at {u} {v}: {litres}");
            up += (above > 0) as usize;
            down += (above < 0) as usize;
            halves += (above == denominator) as usize;
        }
    }
    println!("{up} readings rounded up, {halves} of them halves, {down} down");
    assert!(met(up, down, halves), "too few of some");
}

/// Readings lie between the lowest and the highest value, at the end of the range too.
#[test]
fn readings_stay_in_range() {
    const MOST: u16 = 65_535;
    let mut between = [0, 0];
    let met = |between: [usize; 2]| draw::quick() || between.iter().all(|count| *count > 0);
    for (round, (mut random, mut map)) in (0..).zip(maps("readings_stay_in_range")) {
        if !draw::another(round, rounds(), || met(between)) {
            break;
        }
        map.values.fill(MOST);
        assert!(readings(&map).iter().all(|(_, litres)| *litres == MOST as i64), "{map:?}");
        map.values.iter_mut().for_each(|value| *value = random.pick(&[MOST - 1, MOST]));
        let anchors: BTreeSet<_> = map.table().iter().map(Blend::anchor).collect();
        for (point, litres) in readings(&map) {
            assert!((MOST as i64 - 1..=MOST as i64).contains(&litres), "{map:?} at {point:?}: {litres}");
            between[(litres == MOST as i64) as usize] += !anchors.contains(&point) as usize;
        }
    }
    println!("between anchors {} readings of {}, {} of {MOST}", between[0], MOST - 1, between[1]);
    assert!(met(between), "one of the two never came");
}

/// Across a split, a reading at an old anchor stays, and one at any other whole point moves by at most one, up or down.
#[test]
fn splits_keep_readings() {
    let (mut kept, mut raised, mut lowered) = (0, 0, 0);
    let met = |raised, lowered| draw::quick() || raised > 0 && lowered > 0;
    for (round, (mut random, mut map)) in (0..).zip(maps("splits_keep_readings")) {
        if !draw::another(round, rounds(), || met(raised, lowered)) {
            break;
        }
        for _ in 0..6 {
            let before = map.clone();
            let [direction, position, from, to] = draw::split(&mut random, &map, &map.lines());
            if map.split(direction, position, from, to, draw::allowance(&mut random)).is_err() {
                assert_eq!(map, before);
                continue;
            }
            let (old, new) = (before.table(), map.table());
            let anchors: BTreeSet<_> = old.iter().map(Blend::anchor).collect();
            for u in 0..=map.w {
                for v in 0..=map.h {
                    let rise = reading(&new, &map.values, u, v) - reading(&old, &before.values, u, v);
                    let allowed = if anchors.contains(&(u, v)) { 0..=0 } else { -1..=1 };
                    assert!(allowed.contains(&rise), "{before:?} to {map:?}: {rise} at {u} {v}");
                    match rise {
                        0 => kept += 1,
                        1 => raised += 1,
                        _ => lowered += 1,
                    }
                }
            }
        }
    }
    println!("{kept} readings kept, {raised} raised, {lowered} lowered");
    assert!(met(raised, lowered), "no reading was raised, or none lowered");
}

/// The stretches of the lines inside the domain, each as one split: the fewest that cover the same points.
fn stretches(map: &Map) -> Vec<Split> {
    let lines = map.lines();
    let mut stretches = vec![];
    for (direction, across, along) in [(UPRIGHT, map.w, map.h), (LEVEL, map.h, map.w)] {
        for position in 1..across {
            let has = |low: i64| 0 <= low && low < along && lines.has(direction, position, low);
            let starts = (0..along).filter(|low| has(*low) && !has(low - 1));
            let to = |from| (from..).find(|low| !has(*low)).unwrap();
            stretches.extend(starts.map(|from| Split { direction, position, from, to: to(from) }));
        }
    }
    stretches
}

/// The map of these splits, taken in an order in which all are accepted, if one is found.
fn in_some_order(map: &Map, splits: &[Split]) -> Option<Map> {
    let mut other = Map::fresh(map.w as usize, map.h as usize).unwrap();
    let mut left = splits.to_vec();
    while !left.is_empty() {
        let numbers = |split: &Split| [split.position, split.from, split.to].map(|number| number as usize);
        let next = left.iter().position(|split| {
            let [position, from, to] = numbers(split);
            other.exact_split(split.direction, position, from, to).is_ok()
        })?;
        left.remove(next);
    }
    Some(other)
}

/// Two histories whose lines cover the same points end with the same blends: the same splits in another order, and the
/// joined stretches of the lines. The subjects build up their tables split by split, so they may not see the order.
#[test]
fn lines_alone_count() {
    let (mut shuffled, mut joined) = (0, 0);
    for (mut random, mut map) in maps("lines_alone_count").take(rounds() as usize) {
        let mut splits = map.splits.clone();
        random.shuffle(&mut splits);
        let mut whole = stretches(&map);
        random.shuffle(&mut whole);
        for (list, count) in [(splits, &mut shuffled), (whole, &mut joined)] {
            let Some(mut other) = in_some_order(&map, &list) else {
                continue;
            };
            let changed = other.splits != map.splits;
            *count += changed as usize;
            assert_eq!(other.table(), map.table());
            map.values.iter_mut().for_each(|value| *value = random.draw() as u16);
            other.values = map.values.clone();
            let lent = Lent::file(&map.write());
            let text = compare(&Call::Table, &lent, &String::new);
            let same = compare(&Call::Same(other.write(), random.chance(50)), &lent, &String::new);
            assert_eq!((same.number, same.numbers[0]), (0, 1));
            // Sameness does not look at marks, but the table shows them.
            other.marks = map.marks.clone();
            let lent = Lent::file(&other.write());
            assert_eq!(compare(&Call::Table, &lent, &String::new).out(), text.out());
            let place = random.below(map.values.len());
            other.values[place] ^= 1 << random.below(16);
            let same = compare(&Call::Same(map.write(), true), &Lent::file(&other.write()), &String::new);
            assert_eq!((same.number, same.numbers[0]), (0, 0));
        }
    }
    println!("{shuffled} in another order, {joined} joined");
}

/// The live blends of any lines, sound or not, do not depend on which cut is made first.
#[test]
fn order_of_cutting_does_not_matter() {
    let mut random = Random(draw::seed("order_of_cutting"));
    for _ in 0..draw::count() {
        let (w, h) = (random.between(1, 8), random.between(1, 8));
        let mut lines = Lines::fresh(w as i64, h as i64);
        for _ in 0..random.below(12) {
            let direction = random.below(2);
            let (across, along) = if direction == UPRIGHT { (w, h) } else { (h, w) };
            if across > 1 {
                let position = random.between(1, across - 1) as i64;
                let from = random.below(along);
                let to = random.between(from + 1, along);
                lines.draw(Split { direction, position, from: from as i64, to: to as i64 });
            }
        }
        let mut blends: Vec<Blend> = first_four(w as i64, h as i64).into_iter().collect();
        let mut done = BTreeSet::new();
        while !blends.is_empty() {
            let blend = blends.swap_remove(random.below(blends.len()));
            let cuts: Vec<[Blend; 2]> = blend.cuts(&lines).collect();
            if cuts.is_empty() {
                done.insert(blend);
            } else {
                blends.extend(random.pick(&cuts).into_iter().filter(|half| !done.contains(half)));
                blends.sort();
                blends.dedup();
            }
        }
        assert_eq!(table(done), table(live(&lines)));
    }
}
