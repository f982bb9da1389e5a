//! Report 001 counts the configurations that four blends over a cell can form: 385, up to the order of the knots,
//! reflections and rotations (section 4, table 1). Maps drawn with the library must show all of these and no other. The
//! knots of the four blends count, run-out ones as any; a line that is no knot of theirs does not.
#![cfg(feature = "library")]

use pump_tests::draw::{self, Random};
use pump_tests::ffi::Library;
use pump_tests::model::{Lines, Split};
use pump_tests::{Pump, LARGEST_FILE};
use std::collections::{BTreeMap, BTreeSet, HashMap};

/// Maps that are drawn at least, and at most while configurations are missing. After the last new one, as many again are
/// drawn, to look for one more.
const MAPS: usize = 60_000;
const MOST_MAPS: usize = 300_000;

/// The report's table: how many configurations have q knots in one direction and r in the other, from r = q on.
const REPORT: [(usize, &[usize]); 3] = [(4, &[1, 3, 15, 18, 12]), (5, &[11, 56, 72, 36]), (6, &[50, 72, 39])];

const ALL: usize = 385;

/// The triples of a blend, across and up.
type Blend = [[i16; 3]; 2];

/// Four blends in a standard order, with odd numbers for knots and the cell between -1 and 1.
type Configuration = [Blend; 4];

/// A map with its lines, which tell where a split may end.
#[derive(Clone)]
struct Drawn {
    sides: [usize; 2],
    splits: Vec<[usize; 4]>,
    lines: Lines,
    file: Vec<u8>,
}

impl Drawn {
    fn fresh(sides: [usize; 2]) -> Drawn {
        let [w, h] = sides;
        let (mut file, mut used) = (vec![0; 60], 0);
        assert_eq!((Library.fresh(w, h, &mut file, &mut used), used), (0, file.len()));
        Drawn { sides, splits: vec![], lines: Lines::fresh(w as i64, h as i64), file }
    }

    /// The map after a split, if the library accepts it.
    fn split(&self, split: [usize; 4], allowance: usize) -> Option<Drawn> {
        let (mut file, mut used) = (self.file.clone(), self.file.len());
        file.resize(LARGEST_FILE, 0);
        if Library.split(&mut file, &mut used, split, allowance) != 0 {
            return None;
        }
        file.truncate(used);
        // The new record stands after those of the splits before; its ends are the library's.
        let record = &file[8 + 12 * self.splits.len()..][..12];
        let [direction, position, from, to] = [4, 6, 8, 10].map(|at| record[at] as usize);
        let mut next = Drawn { file, ..self.clone() };
        next.splits.push([direction, position, from, to]);
        let [position, from, to] = [position, from, to].map(|number| number as i64);
        next.lines.draw(Split { direction, position, from, to });
        Some(next)
    }

    /// The map after a split at random, with ends on crossing lines; none if too many are refused.
    fn any_split(&self, random: &mut Random) -> Option<Drawn> {
        (0..60).find_map(|_| {
            let direction = random.below(2);
            let position = random.between(1, self.sides[direction] - 1);
            let crossed = |end: &usize| self.lines.crossed_at(direction, position as i64, *end as i64);
            let ends: Vec<usize> = (0..=self.sides[1 - direction]).filter(crossed).collect();
            let first = random.below(ends.len() - 1);
            let second = if random.chance(50) { first + 1 } else { random.between(first + 1, ends.len() - 1) };
            self.split([direction, position, ends[first], ends[second]], random.pick(&[0, 128]))
        })
    }

    /// The same lines two steps apart, so that there is room for one more line between any two.
    fn spread(&self) -> Drawn {
        let places = [0, 1].map(|direction| {
            let positions = self.splits.iter().filter(|split| split[0] == direction).map(|split| split[1]);
            let places: BTreeSet<usize> = positions.chain([0, self.sides[direction]]).collect();
            places.into_iter().collect::<Vec<_>>()
        });
        let place = |direction: usize, at| 2 * places[direction].binary_search(&at).unwrap();
        let sides = [0, 1].map(|direction| place(direction, self.sides[direction]));
        self.splits.iter().fold(Drawn::fresh(sides), |map, &[direction, position, from, to]| {
            let along = 1 - direction;
            let split = [direction, place(direction, position), place(along, from), place(along, to)];
            map.split(split, 0).expect("only the order of lines counts")
        })
    }

    /// The blends, as the library prints them.
    fn table(&self, out: &mut [u8]) -> Vec<Blend> {
        let mut count = 0;
        assert_eq!(Library.table(&self.file, out, &mut count), 0);
        let text = std::str::from_utf8(&out[..count]).unwrap();
        let blends = text.lines().skip(1).map(|line| {
            let mut numbers = line.split(' ').map(|number| number.parse().unwrap());
            [[(); 3]; 2].map(|triple| triple.map(|()| numbers.next().unwrap()))
        });
        blends.collect()
    }
}

/// The knots of some blends in one direction.
fn knots(blends: &[Blend], direction: usize) -> Vec<i16> {
    let mut knots: Vec<i16> = blends.iter().flat_map(|blend| blend[direction]).collect();
    knots.sort_unstable();
    knots.dedup();
    knots
}

/// The four blends over the cell at a low corner, with each knot replaced by its rank as seen from the cell.
fn ranked(four: &[Blend], corner: [i16; 2]) -> Configuration {
    let mut ranked: Configuration = four.try_into().expect("a cell lies in four supports");
    for direction in 0..2 {
        let knots = knots(four, direction);
        let below = knots.partition_point(|knot| *knot <= corner[direction]) as i16;
        for knot in ranked.iter_mut().flat_map(|blend| &mut blend[direction]) {
            let rank = knots.binary_search(knot).unwrap() as i16;
            *knot = 2 * (rank - below) + 1;
        }
    }
    ranked
}

/// The least of the eight images under reflections and rotations.
fn standard(configuration: &Configuration) -> Configuration {
    let images = (0..8).map(|image| {
        let mut blends = configuration.map(|blend| {
            let mut triples = blend;
            for direction in 0..2 {
                if image >> direction & 1 == 1 {
                    triples[direction] = blend[direction].map(|knot| -knot);
                    triples[direction].reverse();
                }
            }
            if image & 4 != 0 {
                triples.swap(0, 1);
            }
            triples
        });
        blends.sort_unstable();
        blends
    });
    images.min().unwrap()
}

/// The configurations over all cells of a map. Between neighbouring knots of the whole map the four blends stay the same,
/// so one corner is looked at for all the unit squares there.
fn configurations(table: &[Blend], [w, h]: [usize; 2]) -> Vec<Configuration> {
    let corners = |direction, side: usize| {
        let inside = |knot: &i16| (0..side as i16).contains(knot);
        knots(table, direction).into_iter().filter(inside).collect::<Vec<_>>()
    };
    let up = corners(1, h);
    let corners = corners(0, w).into_iter().flat_map(|x| up.iter().map(move |y| [x, *y]));
    let over = |blend: &Blend, corner: [i16; 2]| {
        (0..2).all(|direction| blend[direction][0] <= corner[direction] && corner[direction] < blend[direction][2])
    };
    let found = corners.map(|corner| {
        let four: Vec<Blend> = table.iter().filter(|blend| over(blend, corner)).copied().collect();
        standard(&ranked(&four, corner))
    });
    found.collect()
}

/// The numbers of configurations by their knots in the two directions, the fewer first.
fn counts<'a>(configurations: impl Iterator<Item = &'a Configuration>) -> BTreeMap<(usize, usize), usize> {
    let mut counts = BTreeMap::new();
    for configuration in configurations {
        let [one, other] = [0, 1].map(|direction| knots(configuration, direction).len());
        *counts.entry((one.min(other), one.max(other))).or_default() += 1;
    }
    counts
}

#[test]
fn configurations_of_the_report() {
    let mut random = Random(draw::seed("configurations"));
    let mut out = vec![0; 65_536];
    // For each configuration a map with few splits that showed it. Walks start from these, as they lead to others.
    let mut shown: HashMap<Configuration, usize> = HashMap::new();
    let mut pool: Vec<Drawn> = vec![];
    let (mut maps, mut last) = (0, 0);
    while maps < MAPS.max(2 * last) || shown.len() < ALL && maps < MOST_MAPS {
        let mut map = if pool.is_empty() { Drawn::fresh([2, 2]) } else { pool[random.below(pool.len())].clone() };
        for _ in 0..random.between(1, 3) {
            let Some(next) = map.any_split(&mut random) else {
                break;
            };
            map = next;
            maps += 1;
            for configuration in configurations(&map.table(&mut out), map.sides) {
                let place = *shown.entry(configuration).or_insert(pool.len());
                if place == pool.len() {
                    pool.push(map.spread());
                    last = maps;
                } else if map.splits.len() < pool[place].splits.len() + random.chance(5) as usize {
                    // Now and then by one with as many splits, so that no walk is tried from the same map for ever.
                    pool[place] = map.spread();
                }
            }
        }
    }

    let found = counts(shown.keys());
    println!("{maps} maps show {} configurations, the last new one in map {last}", shown.len());
    println!("knots in one direction; found and reported from as many in the other on");
    let mut reported = BTreeMap::new();
    for (q, row) in REPORT {
        let entries = (q..).zip(row).map(|(r, count)| ((q, r), *count));
        reported.extend(entries);
        let found: Vec<usize> = (q..=8).map(|r| found.get(&(q, r)).copied().unwrap_or(0)).collect();
        println!("{q}: {found:?} {row:?}");
    }
    let newest = &pool.last().unwrap().splits;
    assert_eq!(found, reported, "the last new configuration came with the splits {newest:?}");
    assert_eq!(shown.len(), ALL);
}
