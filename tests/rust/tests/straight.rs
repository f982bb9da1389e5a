//! Document 02, L1: a pump whose flow is A + B u + C v + D u v at the anchors reads so everywhere, however the map is
//! split.

use pump_tests::calls::{compare, perform, Call, Lent};
use pump_tests::draw::{self, Random};
use pump_tests::maps;
use pump_tests::model::{reading, sum, Blend, Map};
use pump_tests::subjects;

const MOST: i64 = 65_535;

/// The four whole numbers, of either sign.
#[derive(Clone, Copy, Debug)]
struct Straight([i64; 4]);

impl Straight {
    fn at(&self, u: i64, v: i64) -> i64 {
        let [a, b, c, d] = self.0;
        a + b * u + c * v + d * u * v
    }

    /// Twice multiplied by `over`, at the point (x / over, y / over).
    fn at_fraction(&self, x: i64, y: i64, over: i64) -> i128 {
        let [a, b, c, d] = self.0;
        (a * over * over + b * x * over + c * y * over + d * x * y) as i128
    }

    /// A pump that stays in range on these sides. One corner is drawn, often at an end of the range; from there each
    /// slope goes as far as it likes, and which corner it is comes last.
    fn draw(random: &mut Random, w: i64, h: i64) -> Straight {
        let mut corner = || match random.below(4) {
            0 => 0,
            1 => MOST,
            _ => random.below(MOST as usize + 1) as i64,
        };
        let (a, b, c) = (corner(), corner(), corner());
        let (b, c) = ((b - a) / w, (c - a) / h);
        let across = a + b * w + c * h;
        let (least, most) = (-across.div_euclid(w * h), (MOST - across).div_euclid(w * h));
        let d = match random.below(4) {
            0 => least,
            1 => most,
            _ => least + random.below((most - least + 1) as usize) as i64,
        };
        let mut four = [a, b, c, d];
        if random.chance(50) {
            let [a, b, c, d] = four;
            four = [a + b * w, -b, c + d * w, -d];
        }
        if random.chance(50) {
            let [a, b, c, d] = four;
            four = [a + c * h, b + d * h, -c, -d];
        }
        let straight = Straight(four);
        for (u, v) in [(0, 0), (w, 0), (0, h), (w, h)] {
            assert!((0..=MOST).contains(&straight.at(u, v)), "{straight:?} on {w} by {h}");
        }
        straight
    }

    /// Its value at every anchor.
    fn values(&self, table: &[Blend]) -> Vec<u16> {
        let value = |blend: &Blend| self.at(blend.anchor().0, blend.anchor().1) as u16;
        table.iter().map(value).collect()
    }
}

/// What was seen: signs of B, C and D (A is the value at a corner, so from 0), values at the ends of the range, how
/// many readings.
#[derive(Default)]
struct Seen {
    signs: [[usize; 2]; 3],
    ends: [usize; 2],
    blends: usize,
    readings: usize,
}

impl Seen {
    fn note(&mut self, straight: &Straight, map: &Map) {
        for (number, signs) in straight.0.into_iter().skip(1).zip(&mut self.signs) {
            if number != 0 {
                signs[(number < 0) as usize] += 1;
            }
        }
        for (end, count) in [0, MOST as u16].into_iter().zip(&mut self.ends) {
            *count += map.values.iter().filter(|value| **value == end).count();
        }
        self.blends = self.blends.max(map.values.len());
    }
}

/// The model reads the flow at every whole point of the domain, and so does every subject at those that are asked.
fn reads_straight(straight: &Straight, map: &Map, asked: &mut dyn FnMut() -> bool, seen: &mut Seen) {
    seen.note(straight, map);
    let (table, lent) = (map.table(), Lent::file(&map.write()));
    for u in 0..=map.w {
        for v in 0..=map.h {
            let want = straight.at(u, v);
            assert_eq!(reading(&table, &map.values, u, v), want, "{straight:?} on {map:?} at {u} {v}");
            seen.readings += 1;
            if asked() {
                for subject in subjects() {
                    let got = perform(subject, &Call::Reading(u as usize, v as usize), &lent);
                    let name = subject.name();
                    assert_eq!(
                        (got.number, got.numbers[0] as i64),
                        (0, want),
                        "{name}: {straight:?} on {map:?} at {u} {v}"
                    );
                }
            }
        }
    }
}

/// Values of the flow on maps that were split before; and the sums of value times weight at fractional points.
#[test]
fn straight_values_read_straight() {
    let seed = draw::seed("straight_values_read_straight");
    let mut seen = Seen::default();
    let met = |seen: &Seen| {
        let all = seen.signs.iter().flatten().chain(&seen.ends).all(|count| *count > 0);
        draw::quick() || all && seen.blends > 30
    };
    for number in 0.. {
        if !draw::another(number, draw::count() / 6, || met(&seen)) {
            break;
        }
        let mut random = Random(seed ^ number << 32);
        let (largest, tries) = (random.pick(&[4, 8, 12, 30]), random.below(30));
        let mut map = draw::map(&mut random, largest, tries);
        let straight = Straight::draw(&mut random, map.w, map.h);
        let table = map.table();
        map.values = straight.values(&table);
        reads_straight(&straight, &map, &mut || true, &mut seen);
        let over = random.pick(&[2, 3, 5, 7]);
        for _ in 0..40 {
            let (x, y) =
                (random.below((map.w * over) as usize + 1) as i64, random.below((map.h * over) as usize + 1) as i64);
            let parts = table.iter().zip(&map.values).map(|(blend, value)| {
                let (numerator, denominator) = blend.weight(x, y, over);
                (numerator * *value as i128, denominator)
            });
            let (numerator, denominator) = sum(parts);
            let squared = (over * over) as i128;
            assert_eq!(
                numerator * squared,
                straight.at_fraction(x, y, over) * denominator,
                "{straight:?} on {map:?} at {x} {y} over {over}"
            );
        }
    }
    println!(
        "{} readings, signs {:?}, ends {:?}, at most {} blends",
        seen.readings, seen.signs, seen.ends, seen.blends
    );
    assert!(met(&seen), "a sign or an end never came, or only small maps");
}

/// Four measured corners, then splits alone: every accepted one leaves the flow, at the new anchors too.
#[test]
fn splits_leave_a_straight_pump_straight() {
    let seed = draw::seed("splits_leave_a_straight_pump_straight");
    let (mut seen, mut splits) = (Seen::default(), 0);
    for number in 0.. {
        if !draw::another(number, draw::count() / 20, || draw::quick() || splits > 0) {
            break;
        }
        let mut random = Random(seed ^ number << 32);
        let largest = random.pick(&[4, 8, 12, 30]);
        let mut map = Map::fresh(random.between(1, largest), random.between(1, largest)).unwrap();
        let straight = Straight::draw(&mut random, map.w, map.h);
        map.values = straight.values(&map.table());
        for _ in 0..random.below(20) {
            let call = Call::Split(draw::split(&mut random, &map, &map.lines()), draw::allowance(&mut random));
            let file = map.write();
            let outcome =
                compare(&call, &Lent::buffer(&file, file.len() + 900), &|| format!("{straight:?} on {map:?}"));
            if outcome.number == 0 {
                splits += 1;
                map = Map::read(&outcome.bytes()[..outcome.used]).unwrap();
                assert_eq!(map.values, straight.values(&map.table()), "{straight:?} on {map:?}");
            }
        }
        reads_straight(&straight, &map, &mut || true, &mut seen);
    }
    println!("{splits} splits, {} readings, at most {} blends", seen.readings, seen.blends);
    assert!(draw::quick() || splits > 0);
}

/// The maps that are the worst in some way, on sides of 128: every point by the model, some by the subjects.
#[test]
fn the_largest_maps_read_straight() {
    let mut random = Random(draw::seed("the_largest_maps_read_straight"));
    let mut seen = Seen::default();
    for splits in [maps::grid(), maps::fan()] {
        let mut map = Map::fresh(128, 128).unwrap();
        let straight = Straight::draw(&mut random, 128, 128);
        for [direction, position, from, to] in splits {
            map.exact_split(direction, position, from, to).unwrap();
        }
        map.values = straight.values(&map.table());
        reads_straight(&straight, &map, &mut || random.chance(5), &mut seen);
    }
    println!("{} readings, at most {} blends", seen.readings, seen.blends);
    assert_eq!(seen.blends, 1024);
}
