//! Random calls, drawn so that most kinds of answers come up.

use crate::calls::Call;
use crate::files::old;
use crate::model::{reading, Lines, Map, LEVEL, MEASURED, MOST_ALLOWANCE, UPRIGHT};

/// Splitmix64.
pub struct Random(pub u64);

impl Random {
    pub fn draw(&mut self) -> u64 {
        self.0 = self.0.wrapping_add(0x9e37_79b9_7f4a_7c15);
        let mut z = self.0;
        z = (z ^ (z >> 30)).wrapping_mul(0xbf58_476d_1ce4_e5b9);
        z = (z ^ (z >> 27)).wrapping_mul(0x94d0_49bb_1331_11eb);
        z ^ (z >> 31)
    }

    /// A number below the limit.
    pub fn below(&mut self, limit: usize) -> usize {
        (self.draw() % limit as u64) as usize
    }

    pub fn between(&mut self, low: usize, high: usize) -> usize {
        low + self.below(high - low + 1)
    }

    /// True this many times in a hundred.
    pub fn chance(&mut self, percent: usize) -> bool {
        self.below(100) < percent
    }

    pub fn pick<T: Copy>(&mut self, from: &[T]) -> T {
        from[self.below(from.len())]
    }

    pub fn shuffle<T>(&mut self, list: &mut [T]) {
        for at in (1..list.len()).rev() {
            list.swap(at, self.below(at + 1));
        }
    }
}

/// A number of the environment, or what stands for it.
fn setting(name: &str, otherwise: u64) -> u64 {
    match std::env::var(name) {
        Ok(text) => text.parse().unwrap_or_else(|_| panic!("{name} is no number: {text}")),
        Err(_) => otherwise,
    }
}

/// The run's seed: PUMP_SEED, or a fixed one; tests/rust.sh sets it. It is printed, so that a failed run can be had again.
pub fn seed(test: &str) -> u64 {
    let seed = setting("PUMP_SEED", 2026);
    println!("{test}: PUMP_SEED={seed}");
    seed
}

/// The number of histories, and of damaged files.
pub fn count() -> u64 {
    setting("PUMP_COUNT", 2000)
}

/// Whether the run is too short to ask that the draws met all that they should.
pub fn quick() -> bool {
    count() < 1000
}

/// Whether another round is drawn: as many as the test is asked for, then on until they have met all that they should, so
/// that this depends on no seed. A test gives up after twenty times as many.
pub fn another(round: u64, rounds: u64, met: impl FnOnce() -> bool) -> bool {
    round < rounds || round < 20 * rounds && !met()
}

/// Sides: small ones mostly, so that lines meet; sometimes to 128.
pub fn sides(random: &mut Random) -> (usize, usize) {
    let largest = match random.below(100) {
        0..=2 => 128,
        3..=8 => 30,
        9..=30 => 5,
        _ => 12,
    };
    (random.between(1, largest), random.between(1, largest))
}

/// A number that is often out of range, and often one that is in range when cut to fewer bits.
pub fn extreme(random: &mut Random, near: usize) -> usize {
    match random.below(10) {
        0 => usize::MAX,
        1 => usize::MAX - random.below(3),
        2 => near.wrapping_sub(1),
        3 => near.wrapping_add(1),
        4 => near.wrapping_add(1 << 16),
        5 => near.wrapping_add(1 << 32),
        6 => near.wrapping_add(1 << 63),
        7 => near.wrapping_neg(),
        8 => random.pick(&[0, 1, 2, 127, 128, 129, 130, 255, 256, 32_767, 32_768, 65_535, 65_536]),
        _ => random.draw() as usize,
    }
}

/// A split that is mostly free: of several draws the first that shares no step with a line at its position.
pub fn split(random: &mut Random, map: &Map, lines: &Lines) -> [usize; 4] {
    let mut drawn = any_split(random, map, lines);
    for _ in 0..4 {
        let [direction, position, from, to] = drawn;
        let (across, along) = sides_of(map, direction);
        let inside = 0 < position && position < across && from < to && to <= along;
        let shared = |low| lines.has(direction, position as i64, low as i64);
        if inside && !(from..to).any(shared) || random.chance(15) {
            break;
        }
        drawn = any_split(random, map, lines);
    }
    if random.chance(3) {
        let field = random.below(4);
        drawn[field] = extreme(random, drawn[field]);
    }
    drawn
}

/// The sides that lines of this direction cross and run along.
fn sides_of(map: &Map, direction: usize) -> (usize, usize) {
    let (w, h) = (map.w as usize, map.h as usize);
    if direction == UPRIGHT {
        (w, h)
    } else {
        (h, w)
    }
}

/// A split at a new or an old position, with ends mostly on crossing lines.
fn any_split(random: &mut Random, map: &Map, lines: &Lines) -> [usize; 4] {
    let direction = random.pick(&[UPRIGHT, LEVEL]);
    let (across, along) = sides_of(map, direction);
    let olds = map.splits.iter().filter(|old| old.direction == direction);
    let olds: Vec<i64> = olds.map(|old| old.position).collect();
    let mut position = random.below(across + 1);
    if across > 1 && random.chance(95) {
        position = random.between(1, across - 1);
    }
    if !olds.is_empty() && random.chance(30) {
        position = (random.pick(&olds) + random.pick(&[-1, 0, 0, 0, 1])) as usize;
    }
    let (mut from, mut to) = (random.below(along + 1), random.below(along + 1));
    if from > to && random.chance(95) {
        (from, to) = (to, from);
    }
    if random.chance(85) {
        let on_a_line = |end: &usize| lines.crossed_at(direction, position as i64, *end as i64);
        let ends: Vec<usize> = (0..=along).filter(on_a_line).collect();
        let first = random.below(ends.len() - 1);
        let second = if random.chance(50) { first + 1 } else { random.between(first + 1, ends.len() - 1) };
        (from, to) = (ends[first], ends[second]);
    }
    if random.chance(10) {
        (from, to) = (0, along);
    }
    [direction, position, from, to]
}

/// An allowance: mostly none, all that there is, or a few steps; sometimes next to the end of the range, or out of it.
pub fn allowance(random: &mut Random) -> usize {
    match random.below(100) {
        0..=34 => 0,
        35..=59 => MOST_ALLOWANCE,
        60..=87 => random.between(1, 8),
        88..=93 => random.between(9, MOST_ALLOWANCE),
        94..=96 => random.pick(&[MOST_ALLOWANCE - 1, MOST_ALLOWANCE + 1]),
        _ => {
            let near = random.pick(&[0, 1, MOST_ALLOWANCE]);
            extreme(random, near)
        }
    }
}

/// A coordinate: in the domain, often on the far side, sometimes outside.
fn coordinate(random: &mut Random, side: usize) -> usize {
    match random.below(20) {
        0..=3 => side,
        4 => extreme(random, side),
        _ => random.below(side + 1),
    }
}

/// A point: in the domain, often on a far side, sometimes outside.
fn point(random: &mut Random, map: &Map) -> (usize, usize) {
    (coordinate(random, map.w as usize), coordinate(random, map.h as usize))
}

/// A wanted flow: mostly the reading at a point of the row or column asked about, or a value of the map, or one above or
/// below these; sometimes at an end of the range, or out of it.
fn wanted(random: &mut Random, map: &Map, (u, v): (usize, usize)) -> usize {
    let inside = u <= map.w as usize && v <= map.h as usize;
    let near = match inside && random.chance(75) {
        true => reading(&map.table(), &map.values, u as i64, v as i64) as usize,
        false => random.pick(&map.values) as usize,
    };
    match random.below(20) {
        0 => random.pick(&[0, 1, 65_535, 65_536]),
        1 => extreme(random, near),
        2 => random.draw() as u16 as usize,
        _ => random.pick(&[near.saturating_sub(1), near, near, near + 1]),
    }
}

/// Any call on a map. `others` are files that it may be compared with.
pub fn call(random: &mut Random, map: &Map, others: &[Vec<u8>]) -> Call {
    let lines = map.lines();
    match random.below(112) {
        0..=49 => Call::Split(split(random, map, &lines), allowance(random)),
        50..=67 => {
            let (mut m, mut n) = point(random, map);
            let mut value = random.below(65_536) >> random.below(16);
            if random.chance(80) {
                let (blend, held, _) = map.place(random.below(map.values.len())).unwrap();
                (m, n) = (blend.m as usize, blend.n as usize);
                // What the map says is sometimes what is measured.
                if random.chance(20) {
                    value = held as usize;
                }
            }
            if random.chance(5) {
                m = extreme(random, m);
            }
            if random.chance(5) {
                n = extreme(random, n);
            }
            if random.chance(5) {
                value = match random.chance(50) {
                    true => random.pick(&[65_535, 65_536, 70_000, u32::MAX as usize, usize::MAX]),
                    false => extreme(random, value),
                };
            }
            Call::Set(m, n, value)
        }
        68..=73 => {
            let place = random.below(map.values.len() + 2);
            Call::Place(if random.chance(10) { extreme(random, place) } else { place })
        }
        74..=81 => {
            let (u, v) = point(random, map);
            Call::Reading(u, v)
        }
        82..=89 => {
            let (u, v) = point(random, map);
            Call::Weights(u, v)
        }
        90..=92 => Call::Same(others[random.below(others.len())].clone(), random.chance(50)),
        93 => Call::Check,
        94..=97 => {
            let place = random.below(12 + 12 * (map.splits.len() + map.values.len()) + 2);
            Call::Payload(if random.chance(10) { extreme(random, place) } else { place })
        }
        98..=99 => Call::Table,
        100..=105 => {
            let (u, v) = (random.below(map.w as usize + 1), coordinate(random, map.h as usize));
            Call::Row(v, wanted(random, map, (u, v)))
        }
        _ => {
            let (u, v) = (coordinate(random, map.w as usize), random.below(map.h as usize + 1));
            Call::Column(u, wanted(random, map, (u, v)))
        }
    }
}

/// The file of a map, sometimes in the old form.
pub fn file(random: &mut Random, map: &Map) -> Vec<u8> {
    let file = map.write();
    if random.chance(30) {
        old(&file)
    } else {
        file
    }
}

/// A random map, grown by splits and sets on small sides.
pub fn map(random: &mut Random, largest: usize, tries: usize) -> Map {
    let (w, h) = (random.between(1, largest), random.between(1, largest));
    let mut map = Map::fresh(w, h).unwrap();
    for _ in 0..tries {
        let [direction, position, from, to] = split(random, &map, &map.lines());
        let _ = map.split(direction, position, from, to, allowance(random));
        if random.chance(70) {
            let place = random.below(map.values.len());
            (map.values[place], map.marks[place]) = (random.draw() as u16, MEASURED);
        }
    }
    map
}
