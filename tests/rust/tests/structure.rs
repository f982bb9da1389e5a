//! What the lines of a map have to do with its blends, on the maps that random lists of splits reach: the anchors are the
//! crossings of the lines, the blends tell the lines, and whether a line is sound shows at its ends.

use pump_tests::draw::{self, Random};
use pump_tests::model::{Blend, Lines, Map, LEVEL, UPRIGHT};
use std::collections::btree_map::{BTreeMap, Entry};
use std::collections::BTreeSet;

/// The maps that a list of splits reaches, the fresh one first. Values have no part in it, so none are set. Now and then
/// the list goes on from the map's file.
fn reached(random: &mut Random, (w, h): (usize, usize), length: usize) -> Vec<Map> {
    let mut map = Map::fresh(w, h).unwrap();
    let mut maps = vec![map.clone()];
    for _ in 0..length {
        if random.chance(10) {
            map = Map::read(&map.write()).unwrap();
        }
        let [direction, position, from, to] = draw::split(random, &map, &map.lines());
        if map.split(direction, position, from, to, draw::allowance(random)).is_ok() {
            maps.push(map.clone());
        }
    }
    maps
}

/// The maps of as many lists as are wanted, each with its list's number; the sides and the length of each are drawn.
fn maps(test: &str, sizes: fn(&mut Random) -> ((usize, usize), usize)) -> impl Iterator<Item = (u64, Map)> {
    let seed = draw::seed(test);
    (0..).flat_map(move |number| {
        let mut random = Random(seed ^ number << 32);
        let (sides, length) = sizes(&mut random);
        reached(&mut random, sides, length).into_iter().map(move |map| (number, map))
    })
}

fn any_sizes(random: &mut Random) -> ((usize, usize), usize) {
    (draw::sides(random), random.below(30))
}

/// What a test must have seen, and how many times for each list, or it has tried too little.
type Wanted = [(&'static str, f64)];

fn enough(wanted: &Wanted, seen: &[usize], lists: u64) -> bool {
    let often = |((_, each), seen): (&(_, f64), &usize)| *seen as f64 >= each * lists as f64;
    draw::quick() || wanted.iter().zip(seen).all(often)
}

fn assert_enough(wanted: &Wanted, seen: &[usize], lists: u64) {
    wanted.iter().zip(seen).for_each(|((what, _), seen)| println!("{seen} {what}"));
    assert!(enough(wanted, seen, lists), "too few of some in {lists} lists");
}

/// The sides that lines of this direction cross and run along.
fn sides(map: &Map, direction: usize) -> (i64, i64) {
    match direction {
        UPRIGHT => (map.w, map.h),
        _ => (map.h, map.w),
    }
}

/// The triples of a blend: the one that lines of this direction cross, and the one that they run along.
fn triples(blend: &Blend, direction: usize) -> [[i64; 3]; 2] {
    let (across, up) = ([blend.l, blend.m, blend.r], [blend.b, blend.n, blend.t]);
    match direction {
        UPRIGHT => [across, up],
        _ => [up, across],
    }
}

// ---------------------------------------------------------------------------------------------- Anchors are crossings

/// Whether a line has a step on either side of a point. Run-out counts, so a line passes where it leaves the domain.
fn passes(lines: &Lines, direction: usize, position: i64, at: i64) -> bool {
    lines.has(direction, position, at - 1) && lines.has(direction, position, at)
}

/// There is one blend with its anchor at a point where an upright and a level both pass, and none anywhere else: a line
/// that ends on another makes no anchor.
#[test]
fn anchors_are_crossings() {
    let wanted = [("other crossings on the border", 15.0), ("crossings inside", 6.0), ("ends of lines on others", 4.0)];
    let lists = draw::count() / 2;
    let (mut met, mut ends) = ([0; 3], 0);
    for (list, map) in maps("anchors_are_crossings", any_sizes) {
        if !draw::another(list, lists, || enough(&wanted, &[met[1], met[2], ends], lists)) {
            break;
        }
        let lines = map.lines();
        let mut crossings = vec![];
        for u in 0..=map.w {
            for v in 0..=map.h {
                if passes(&lines, UPRIGHT, u, v) && passes(&lines, LEVEL, v, u) {
                    crossings.push((u, v));
                    met[(0 < u && u < map.w) as usize + (0 < v && v < map.h) as usize] += 1;
                } else if lines.crossed_at(UPRIGHT, u, v) && lines.crossed_at(LEVEL, v, u) {
                    ends += 1;
                }
            }
        }
        let anchors: Vec<_> = map.table().iter().map(Blend::anchor).collect();
        assert_eq!(anchors, crossings, "{map:?}");
    }
    let [corners, border, inside] = met;
    println!("{corners} corners");
    assert_enough(&wanted, &[border, inside, ends], lists);
}

// ---------------------------------------------------------------------------------------------- Blends tell the lines

/// The unit steps of all grids, each by direction, position and low end. The grid of a blend is uprights at l, m and r
/// from b to t, and levels at b, n and t from l to r.
fn grids(table: &[Blend]) -> BTreeSet<(usize, i64, i64)> {
    let mut steps = BTreeSet::new();
    for blend in table {
        for direction in [UPRIGHT, LEVEL] {
            let [across, [start, _, end]] = triples(blend, direction);
            for position in across {
                steps.extend((start..end).map(|low| (direction, position, low)));
            }
        }
    }
    steps
}

/// The grids of the blends lie on lines, and inside the domain every step of a line lies on a grid.
#[test]
fn lines_are_the_grids() {
    let wanted = [("inner steps on no line", 200.0), ("inner steps on a line", 50.0)];
    let lists = draw::count() / 2;
    let mut inner = [0, 0];
    for (list, map) in maps("lines_are_the_grids", any_sizes) {
        if !draw::another(list, lists, || enough(&wanted, &inner, lists)) {
            break;
        }
        let (lines, grids) = (map.lines(), grids(&map.table()));
        for step @ (direction, position, low) in &grids {
            assert!(lines.has(*direction, *position, *low), "{map:?}: {step:?} is on a grid and on no line");
        }
        for direction in [UPRIGHT, LEVEL] {
            let (across, along) = sides(&map, direction);
            for position in 0..=across {
                for low in 0..along {
                    let (step, drawn) = ((direction, position, low), lines.has(direction, position, low));
                    assert_eq!(drawn, grids.contains(&step), "{map:?}: is {step:?} on a line, and on a grid");
                    inner[drawn as usize] += (0 < position && position < across) as usize;
                }
            }
        }
    }
    assert_enough(&wanted, &inner, lists);
}

/// Maps of the same sides with the same blends have lines that cover the same points, whatever splits made them. (With
/// the same anchors they may not.) Short lists on small sides often come to the same blends.
#[test]
fn same_blends_same_lines() {
    let wanted = [("times the same table by other splits", 0.4)];
    let lists = draw::count() * 2;
    let mut met = BTreeMap::new();
    let mut again = 0;
    let small = |random: &mut Random| ((random.between(3, 5), random.between(3, 5)), random.below(20));
    for (list, map) in maps("same_blends_same_lines", small) {
        if !draw::another(list, lists, || enough(&wanted, &[again], lists)) {
            break;
        }
        match met.entry((map.w, map.h, map.table())) {
            Entry::Vacant(new) => {
                new.insert((map.lines(), BTreeSet::from([map.splits])));
            }
            Entry::Occupied(mut old) => {
                let (lines, makings) = old.get_mut();
                assert!(*lines == map.lines(), "{map:?} has the blends of {makings:?}, but other lines");
                again += makings.insert(map.splits) as usize;
            }
        }
    }
    println!("{} tables", met.len());
    assert_enough(&wanted, &[again], lists);
}

// ---------------------------------------------------------------------------------------------------------- Good ends

/// What was tried: gaps, sound lines, pairs of them of which one lies in the other, their ends inside a gap, lines that
/// are not sound, and the bad ends of these, by the number of sides on which an anchor lies beside the end; and splits by
/// the number of ends at which their line is longer than given.
#[derive(Default)]
struct Seen {
    gaps: usize,
    sound: usize,
    pairs: usize,
    inside: usize,
    unsound: usize,
    bad: [usize; 3],
    longer: [usize; 3],
}

impl Seen {
    const WANTED: [(&'static str, f64); 9] = [
        ("gaps", 10.0),
        ("sound lines", 25.0),
        ("pairs of them, one in the other", 5.0),
        ("of their ends inside a gap", 15.0),
        ("lines that are not sound", 3.0),
        ("bad ends with an anchor on one side", 2.0),
        ("bad ends with anchors on both sides", 0.5),
        ("lines longer at one end", 2.0),
        ("lines longer at both ends", 0.1),
    ];

    fn counts(&self) -> [usize; 9] {
        let Seen { gaps, sound, pairs, inside, unsound, bad: [_, one, both], longer: [_, at_one, at_both] } = *self;
        [gaps, sound, pairs, inside, unsound, one, both, at_one, at_both]
    }

    fn enough(&self, lists: u64) -> bool {
        enough(&Seen::WANTED, &self.counts(), lists)
    }
}

/// A position of a map at which lines are tried. Its words are those of uprights; for levels, left is below.
struct Place<'a> {
    map: &'a Map,
    lines: &'a Lines,
    table: &'a [Blend],
    direction: usize,
    position: i64,
    along: i64,
}

impl Place<'_> {
    fn has(&self, low: i64) -> bool {
        self.lines.has(self.direction, self.position, low)
    }

    /// A gap between the lines at the position starts and ends at a line or at a side of the domain.
    fn gap_starts(&self, at: i64) -> bool {
        at == 0 || self.has(at - 1)
    }

    fn gap_ends(&self, at: i64) -> bool {
        at == self.along || self.has(at)
    }

    /// The blends that reach over the position and have their anchors beside this point of it, to the left and to the
    /// right: their triples upward.
    fn beside(&self, at: i64) -> [Vec<[i64; 3]>; 2] {
        let (z, mut beside) = (self.position, [vec![], vec![]]);
        for blend in self.table {
            let [[l, m, r], along] = triples(blend, self.direction);
            if l < z && z < r && z != m && along[1] == at {
                beside[(z < m) as usize].push(along);
            }
        }
        beside
    }

    /// A line may start where its gap does, or between two anchors whose blends end together.
    fn good_from(&self, at: i64) -> bool {
        let [left, right] = self.beside(at);
        self.gap_starts(at) || left.iter().any(|one| right.iter().any(|other| one[2] == other[2]))
    }

    /// It may end where its gap does, or between two anchors whose blends start together.
    fn good_to(&self, at: i64) -> bool {
        let [left, right] = self.beside(at);
        self.gap_ends(at) || left.iter().any(|one| right.iter().any(|other| one[0] == other[0]))
    }

    /// Splits a copy of the map: the line as it then stands in the record and how many live blends it added, or the
    /// refusal.
    fn split(&self, (from, to): (i64, i64), allowance: usize) -> Result<((i64, i64), usize), usize> {
        let mut map = self.map.clone();
        let [position, from, to] = [self.position, from, to].map(|number| number as usize);
        map.split(self.direction, position, from, to, allowance)?;
        let last = map.splits.last().unwrap();
        Ok(((last.from, last.to), map.table().len() - self.table.len()))
    }

    /// Tries every line at the position, as given and with allowances.
    fn check(&self, seen: &mut Seen) {
        let tell = || format!("{:?}, direction {}, position {}", self.map, self.direction, self.position);

        // A line that passes 3 to 7 is sound exactly when both its ends are good.
        let (mut passed, mut sound, mut adds) = (vec![], vec![], BTreeMap::new());
        for (from, to) in (0..self.along).flat_map(|from| (from + 1..=self.along).map(move |to| (from, to))) {
            let split = self.split((from, to), 0);
            adds.extend(split);
            let outcome = split.map(|(line, _)| line);
            if matches!(outcome, Err(3..=7)) {
                continue;
            }
            passed.push((from, to));
            let good = [self.good_from(from), self.good_to(to)];
            let want = if good == [true, true] { Ok((from, to)) } else { Err(8) };
            assert_eq!(outcome, want, "{}: are the ends of {from} to {to} good: {good:?}", tell());
            if outcome.is_ok() {
                sound.push((from, to));
                seen.inside += !self.gap_starts(from) as usize + !self.gap_ends(to) as usize;
            }
            for (at, _) in [from, to].into_iter().zip(good).filter(|(_, good)| !good) {
                seen.bad[self.beside(at).iter().filter(|anchors| !anchors.is_empty()).count()] += 1;
            }
        }
        seen.sound += sound.len();
        seen.unsound += passed.len() - sound.len();

        // A line that fills a gap is accepted, whatever lies around it.
        for from in (0..self.along).filter(|at| self.gap_starts(*at) && !self.has(*at)) {
            let to = (from + 1..).find(|at| self.gap_ends(*at)).unwrap();
            assert!(sound.contains(&(from, to)), "{}: the gap {from} to {to}", tell());
            seen.gaps += 1;
        }

        // The sound lines that contain a given one have any good from and any good to of its gap. So the one between the
        // nearest good ends lies in all the others, and a split takes it as soon as its allowance reaches so far.
        for (from, to) in passed {
            let start = (0..=from).rev().find(|at| self.gap_starts(*at)).unwrap();
            let end = (to..).find(|at| self.gap_ends(*at)).unwrap();
            let froms: Vec<i64> = (start..=from).filter(|at| self.good_from(*at)).collect();
            let tos: Vec<i64> = (to..=end).filter(|at| self.good_to(*at)).collect();
            let pairs: Vec<_> = froms.iter().flat_map(|from| tos.iter().map(move |to| (*from, *to))).collect();
            let around: Vec<_> = sound.iter().copied().filter(|line| line.0 <= from && to <= line.1).collect();
            assert_eq!(around, pairs, "{}: the sound lines that contain {from} to {to}", tell());
            let nearest = (froms[froms.len() - 1], tos[0]);
            let needed = (nearest.1 - nearest.0 - (to - from)) as usize;
            for allowance in [needed.saturating_sub(1), needed, needed + 1, 128] {
                let want = if allowance < needed { Err(8) } else { Ok((nearest, adds[&nearest])) };
                let taken = self.split((from, to), allowance);
                assert_eq!(taken, want, "{}: {from} to {to} with {allowance} for {needed}", tell());
            }
            seen.longer[(nearest.0 < from) as usize + (to < nearest.1) as usize] += 1;
            assert!(around.iter().all(|line| line.0 <= nearest.0 && nearest.1 <= line.1));
        }

        // A sound line that lies in another adds fewer blends. So the nearest good ends are also the fewest new anchors.
        for (short, few) in &adds {
            for (long, many) in adds.iter().filter(|(long, _)| long.0 <= short.0 && short.1 <= long.1 && *long != short)
            {
                assert!(few < many, "{}: {short:?} adds {few}, {long:?} {many}", tell());
                seen.pairs += 1;
            }
        }
    }
}

/// Without allowance, a split that passes 3 to 7 says 8 exactly where one of its ends is not good. With one it goes to the
/// nearest good ends, which add the fewest blends, and says 8 exactly where these are too far; with 128 it never does,
/// since the ends of its gap are good.
#[test]
fn sound_lines_have_good_ends() {
    let lists = draw::count() / 4;
    let mut seen = Seen::default();
    let small = |random: &mut Random| ((random.between(1, 8), random.between(1, 8)), random.below(20));
    for (list, map) in maps("sound_lines_have_good_ends", small) {
        if !draw::another(list, lists, || seen.enough(lists)) {
            break;
        }
        let (lines, table) = (&map.lines(), &map.table()[..]);
        for direction in [UPRIGHT, LEVEL] {
            let (across, along) = sides(&map, direction);
            for position in 1..across {
                Place { map: &map, lines, table, direction, position, along }.check(&mut seen);
            }
        }
    }
    // The line that an end lies on has an anchor there, on one side at least.
    assert_eq!(seen.bad[0], 0);
    assert_enough(&Seen::WANTED, &seen.counts(), lists);
}
