//! The plain machine of document 01, with the calls that document 02 adds: nothing is kept but the record of a map, and
//! its live blends are cut anew from the first four for every call. It is written to be compared with the papers, not to
//! be fast.

use crate::Pump;
use std::collections::BTreeSet;
use std::ops::Range;

/// A refusal, one of thirteen: by its number in "When a call says no", or 13 of document 02, L2.
pub type No = usize;

pub const LARGEST_SIDE: usize = 128;
pub const MOST_SPLITS: usize = 60;
pub const MOST_ALLOWANCE: usize = 128;
pub const UPRIGHT: usize = 0;
pub const LEVEL: usize = 1;
pub const WORKED_OUT: u16 = 0;
pub const MEASURED: u16 = 1;

// ---------------------------------------------------------------------------------------------------- Sides and lines

/// A split as it was given, before run-out ("Sides and lines").
#[derive(Clone, Copy, Debug, PartialEq, Eq, PartialOrd, Ord)]
pub struct Split {
    pub direction: usize,
    pub position: i64,
    pub from: i64,
    pub to: i64,
}

/// The lines of a map as the set of their unit steps: lines that overlap or touch are so one line by themselves
/// ("Sides and lines"). A step is known by its direction, its line's position and its low end.
#[derive(Clone, PartialEq, Eq)]
pub struct Lines {
    w: i64,
    h: i64,
    steps: [Vec<bool>; 2],
}

impl Lines {
    /// The lines of a fresh map: uprights at −1, 0, W, W+1 and levels at −1, 0, H, H+1, all run out ("Sides and lines").
    pub fn fresh(w: i64, h: i64) -> Lines {
        let nothing = || vec![false; ((w + 3) * (h + 3)) as usize];
        let mut lines = Lines { w, h, steps: [nothing(), nothing()] };
        for u in [-1, 0, w, w + 1] {
            lines.add(UPRIGHT, u, -1, h + 1);
        }
        for v in [-1, 0, h, h + 1] {
            lines.add(LEVEL, v, -1, w + 1);
        }
        lines
    }

    /// The side that lines of this direction run along.
    fn along(&self, direction: usize) -> i64 {
        if direction == UPRIGHT {
            self.h
        } else {
            self.w
        }
    }

    fn place(&self, direction: usize, position: i64, low: i64) -> usize {
        ((position + 1) * (self.along(direction) + 3) + low + 1) as usize
    }

    fn add(&mut self, direction: usize, position: i64, from: i64, to: i64) {
        for low in from..to {
            let place = self.place(direction, position, low);
            self.steps[direction][place] = true;
        }
    }

    /// Draws a split: an end at 0 runs out to −1, one at the far side by one step ("Sides and lines").
    pub fn draw(&mut self, split: Split) {
        let side = self.along(split.direction);
        let from = if split.from == 0 { -1 } else { split.from };
        let to = if split.to == side { side + 1 } else { split.to };
        self.add(split.direction, split.position, from, to);
    }

    pub fn with(&self, split: Split) -> Lines {
        let mut lines = self.clone();
        lines.draw(split);
        lines
    }

    /// Whether a line at this position has this unit step.
    pub fn has(&self, direction: usize, position: i64, low: i64) -> bool {
        -1 <= low && low <= self.along(direction) && self.steps[direction][self.place(direction, position, low)]
    }

    /// Whether the line at this position covers all from `from` to `to`.
    pub fn cover(&self, direction: usize, position: i64, from: i64, to: i64) -> bool {
        (from..to).all(|low| self.has(direction, position, low))
    }

    /// Whether an end of a split lies on a crossing line, whose own ends count (refusal 6).
    pub fn crossed_at(&self, direction: usize, position: i64, end: i64) -> bool {
        self.has(1 - direction, end, position - 1) || self.has(1 - direction, end, position)
    }

    /// Whether a split shares more than a point with a line at its position (refusal 5).
    fn shares(&self, split: Split) -> bool {
        (split.from..split.to).any(|low| self.has(split.direction, split.position, low))
    }
}

// ------------------------------------------------------------------------------------------------------------- Blends

/// A blend, (l, m, r) across by (b, n, t) up ("Blends").
#[derive(Clone, Copy, Debug, PartialEq, Eq, PartialOrd, Ord)]
pub struct Blend {
    pub l: i64,
    pub m: i64,
    pub r: i64,
    pub b: i64,
    pub n: i64,
    pub t: i64,
}

/// The hat of (l, m, r) at x / d, as numerator and denominator ("Blends").
fn hat(l: i64, m: i64, r: i64, x: i64, d: i64) -> (i128, i128) {
    let (numerator, denominator) = if x <= l * d || x >= r * d {
        (0, 1)
    } else if x <= m * d {
        (x - l * d, (m - l) * d)
    } else {
        (r * d - x, (r - m) * d)
    };
    (numerator as i128, denominator as i128)
}

/// The two triples of the halves of (l, m, r) cut at z ("Blends").
fn halves(l: i64, m: i64, r: i64, z: i64) -> [(i64, i64, i64); 2] {
    if z < m {
        [(l, z, m), (z, m, r)]
    } else {
        [(l, m, z), (m, z, r)]
    }
}

impl Blend {
    pub fn anchor(&self) -> (i64, i64) {
        (self.m, self.n)
    }

    /// The weight at (x / d, y / d), as numerator and denominator ("Blends").
    pub fn weight(&self, x: i64, y: i64, d: i64) -> (i128, i128) {
        let (across, across_over) = hat(self.l, self.m, self.r, x, d);
        let (up, up_over) = hat(self.b, self.n, self.t, y, d);
        (across * up, across_over * up_over)
    }

    /// All the cuts that lines make of this blend, each as its two halves ("Blends").
    pub fn cuts<'a>(&self, lines: &'a Lines) -> impl Iterator<Item = [Blend; 2]> + 'a {
        let blend = *self;
        let Blend { l, m, r, b, n, t } = blend;
        let uprights = (l + 1..r)
            .filter(move |&z| z != m && lines.cover(UPRIGHT, z, b, t))
            .map(move |z| halves(l, m, r, z).map(|(l, m, r)| Blend { l, m, r, ..blend }));
        let levels = (b + 1..t)
            .filter(move |&z| z != n && lines.cover(LEVEL, z, l, r))
            .map(move |z| halves(b, n, t, z).map(|(b, n, t)| Blend { b, n, t, ..blend }));
        uprights.chain(levels)
    }

    /// Whether the unit square with this low corner lies in the support ("Blends").
    pub fn over(&self, x: i64, y: i64) -> bool {
        self.l <= x && x < self.r && self.b <= y && y < self.t
    }

    /// Whether a point lies strictly inside the support ("Blends").
    fn around(&self, (u, v): (i64, i64)) -> bool {
        self.l < u && u < self.r && self.b < v && v < self.t
    }
}

/// The first four blends ("Blends").
pub fn first_four(w: i64, h: i64) -> BTreeSet<Blend> {
    let mut four = BTreeSet::new();
    for (l, m, r) in [(-1, 0, w), (0, w, w + 1)] {
        for (b, n, t) in [(-1, 0, h), (0, h, h + 1)] {
            four.insert(Blend { l, m, r, b, n, t });
        }
    }
    four
}

/// The live blends: every cut blend is replaced by its halves, equal ones kept once, until no line cuts ("Blends").
pub fn live(lines: &Lines) -> BTreeSet<Blend> {
    let mut met = first_four(lines.w, lines.h);
    let mut left: Vec<Blend> = met.iter().copied().collect();
    let mut live = BTreeSet::new();
    while let Some(blend) = left.pop() {
        match blend.cuts(lines).next() {
            Some(halves) => left.extend(halves.into_iter().filter(|half| met.insert(*half))),
            None => {
                live.insert(blend);
            }
        }
    }
    live
}

/// Whether every unit square lies in exactly four supports and no anchor strictly inside another's support ("Blends").
pub fn sound(w: i64, h: i64, live: &BTreeSet<Blend>) -> bool {
    let mut supports = vec![0; (w * h) as usize];
    for blend in live {
        for x in blend.l.max(0)..blend.r.min(w) {
            for y in blend.b.max(0)..blend.t.min(h) {
                supports[(x * h + y) as usize] += 1;
            }
        }
    }
    let live: Vec<&Blend> = live.iter().collect();
    let inside = |one: &Blend| live.iter().any(|other| one != *other && other.around(one.anchor()));
    supports.iter().all(|&count| count == 4) && !live.iter().any(|one| inside(one))
}

// --------------------------------------------------------------------------------------------------------------- Maps

/// The sum of fractions, in lowest terms: whole numbers alone, so it is exact.
pub fn sum(fractions: impl Iterator<Item = (i128, i128)>) -> (i128, i128) {
    let mut total = (0, 1);
    for (numerator, denominator) in fractions.filter(|fraction| fraction.0 != 0) {
        let top = total.0 * denominator + numerator * total.1;
        let bottom = total.1 * denominator;
        let shared = greatest_divisor(top, bottom);
        total = (top / shared, bottom / shared);
    }
    total
}

fn greatest_divisor(a: i128, b: i128) -> i128 {
    if b == 0 {
        a
    } else {
        greatest_divisor(b, a % b)
    }
}

/// An entry of the weights answer ("Values, readings, splits").
#[derive(Clone, Copy, Debug, PartialEq, Eq)]
pub struct Weight {
    pub blend: Blend,
    pub numerator: i64,
    pub denominator: i64,
}

/// The record of a map: sides, splits in order, values in table order ("Values, readings, splits"), and the mark of
/// each value (document 02, L5). It is made by `fresh` and `read` and changed by the calls alone, so it is always good
/// and no call says 2.
#[derive(Clone, Debug, PartialEq, Eq)]
pub struct Map {
    pub w: i64,
    pub h: i64,
    pub splits: Vec<Split>,
    pub values: Vec<u16>,
    pub marks: Vec<u16>,
}

impl Map {
    /// A fresh map ("Sides and lines"; values 0 by "Values, readings, splits", marks 0 by document 02, L5).
    pub fn fresh(w: usize, h: usize) -> Result<Map, No> {
        let fits = |side| (1..=LARGEST_SIDE).contains(&side);
        if !fits(w) || !fits(h) {
            return Err(1);
        }
        Ok(Map { w: w as i64, h: h as i64, splits: vec![], values: vec![0; 4], marks: vec![WORKED_OUT; 4] })
    }

    /// The fresh map's lines and those of its splits, run out and joined ("Histories").
    pub fn lines(&self) -> Lines {
        let mut lines = Lines::fresh(self.w, self.h);
        for split in &self.splits {
            lines.draw(*split);
        }
        lines
    }

    /// The table: the live blends by m, then n ("Blends").
    pub fn table(&self) -> Vec<Blend> {
        table(live(&self.lines()))
    }

    /// Whether a whole point lies in the domain ("Sides and lines").
    fn point(&self, u: usize, v: usize) -> Result<(i64, i64), No> {
        if u > self.w as usize || v > self.h as usize {
            return Err(10);
        }
        Ok((u as i64, v as i64))
    }

    /// Sets the value at an anchor ("Values, readings, splits"), which marks it as measured (document 02, L5). A number
    /// that is no 16-bit value is out of range.
    pub fn set(&mut self, m: usize, n: usize, value: usize) -> Result<(), No> {
        let value = u16::try_from(value).map_err(|_| 3usize)?;
        let at = |blend: &Blend| blend.m as usize == m && blend.n as usize == n;
        let place = self.table().iter().position(at).ok_or(9usize)?;
        self.values[place] = value;
        self.marks[place] = MEASURED;
        Ok(())
    }

    /// The blend and value at a table place, from 0, and the value's mark (document 02, L5).
    pub fn place(&self, place: usize) -> Result<(Blend, u16, u16), No> {
        let table = self.table();
        if place >= table.len() {
            return Err(9);
        }
        Ok((table[place], self.values[place], self.marks[place]))
    }

    /// The reading at a whole point ("Values, readings, splits").
    pub fn reading(&self, u: usize, v: usize) -> Result<i64, No> {
        let (u, v) = self.point(u, v)?;
        Ok(reading(&self.table(), &self.values, u, v))
    }

    /// The weights: four entries in table order, for the unit square at the point ("Values, readings, splits").
    pub fn weights(&self, u: usize, v: usize) -> Result<[Weight; 4], No> {
        let (u, v) = self.point(u, v)?;
        let x = if u == self.w { u - 1 } else { u };
        let y = if v == self.h { v - 1 } else { v };
        let over = self.table().into_iter().filter(|blend| blend.over(x, y));
        let entries = over.map(|blend| {
            let Blend { l, m, r, b, n, t } = blend;
            let (across, across_gap) = if x < m { (u - l, m - l) } else { (r - u, r - m) };
            let (up, up_gap) = if y < n { (v - b, n - b) } else { (t - v, t - n) };
            Weight { blend, numerator: across * up, denominator: across_gap * up_gap }
        });
        Ok(entries.collect::<Vec<_>>().try_into().unwrap())
    }

    /// How many pairs of neighbouring points of a row the wanted flow parts, and the u of the first (document 02, L2).
    pub fn row(&self, v: usize, wanted: usize) -> Result<(usize, usize), No> {
        let (_, v) = self.point(0, v)?;
        let table = self.table();
        pairs(self.w, wanted, |u| reading(&table, &self.values, u, v))
    }

    /// The same along a column, with v (document 02, L2).
    pub fn column(&self, u: usize, wanted: usize) -> Result<(usize, usize), No> {
        let (u, _) = self.point(u, 0)?;
        let table = self.table();
        pairs(self.h, wanted, |v| reading(&table, &self.values, u, v))
    }

    /// Refusals 3 to 7, which look at the split as given ("When a call says no").
    fn look(&self, direction: usize, position: usize, from: usize, to: usize) -> Result<Split, No> {
        let (across, along) = match direction {
            UPRIGHT => (self.w as usize, self.h as usize),
            LEVEL => (self.h as usize, self.w as usize),
            _ => return Err(3),
        };
        if !(0 < position && position < across && from < to && to <= along) {
            return Err(3);
        }
        let split = Split { direction, position: position as i64, from: from as i64, to: to as i64 };
        let lines = self.lines();
        if self.splits.len() == MOST_SPLITS {
            return Err(4);
        }
        if lines.shares(split) {
            return Err(5);
        }
        let on_a_line = |end| lines.crossed_at(direction, split.position, end);
        if !on_a_line(split.from) || !on_a_line(split.to) {
            return Err(6);
        }
        let drawn = lines.with(split);
        if !live(&lines).iter().any(|blend| blend.cuts(&drawn).next().is_some()) {
            return Err(7);
        }
        Ok(split)
    }

    fn leaves_sound(&self, split: Split) -> bool {
        sound(self.w, self.h, &live(&self.lines().with(split)))
    }

    /// Takes a split in: old anchors keep their values and marks, each new one takes the old map's reading there, which
    /// is worked out ("Values, readings, splits"; document 02, L5).
    fn take(&mut self, split: Split) {
        let old = self.table();
        let entry = |new: &Blend| match old.iter().position(|old| old.anchor() == new.anchor()) {
            Some(place) => (self.values[place], self.marks[place]),
            None => (reading(&old, &self.values, new.m, new.n) as u16, WORKED_OUT),
        };
        let drawn = self.lines().with(split);
        (self.values, self.marks) = table(live(&drawn)).iter().map(entry).unzip();
        self.splits.push(split);
    }

    /// An exact split draws what is given ("Values, readings, splits"). Records and files are built with it, and it is
    /// the split with allowance 0 (document 02, L7).
    pub fn exact_split(&mut self, direction: usize, position: usize, from: usize, to: usize) -> Result<Split, No> {
        let split = self.look(direction, position, from, to)?;
        if !self.leaves_sound(split) {
            return Err(8);
        }
        self.take(split);
        Ok(split)
    }

    /// All lines that a split may take: they contain the given one, have both ends on crossing lines, overlap nothing at
    /// their position by more than a point and leave a sound map ("Values, readings, splits"), and they are at most as
    /// long as the given one and the allowance (document 02, L7).
    fn candidates(&self, given: Split, allowance: usize) -> Vec<Split> {
        let lines = self.lines();
        let side = lines.along(given.direction);
        let on_a_line = |end| lines.crossed_at(given.direction, given.position, end);
        let longest = given.to - given.from + allowance as i64;
        let containing = (0..=given.from).flat_map(|from| (given.to..=side).map(move |to| Split { from, to, ..given }));
        containing
            .filter(|tried| tried.to - tried.from <= longest)
            .filter(|tried| on_a_line(tried.from) && on_a_line(tried.to))
            .filter(|tried| !lines.shares(*tried) && self.leaves_sound(*tried))
            .collect()
    }

    /// A split: with allowance 0 the exact one, else of all candidates the one that adds the fewest live blends, then the
    /// shortest, then the one that starts lowest (document 02, L7 and L4).
    pub fn split(
        &mut self,
        direction: usize,
        position: usize,
        from: usize,
        to: usize,
        allowance: usize,
    ) -> Result<Split, No> {
        if allowance > MOST_ALLOWANCE {
            return Err(3);
        }
        if allowance == 0 {
            return self.exact_split(direction, position, from, to);
        }
        let given = self.look(direction, position, from, to)?;
        let lines = self.lines();
        let adds = |line: &Split| live(&lines.with(*line)).len() as i64 - live(&lines).len() as i64;
        let candidates = self.candidates(given, allowance);
        let taken = *candidates.iter().min_by_key(|line| (adds(line), line.to - line.from, line.from)).ok_or(8usize)?;
        self.take(taken);
        Ok(taken)
    }

    /// Two maps are the same when sides, live blends and values agree ("Values, readings, splits"), whatever their
    /// marks (document 02, L5).
    pub fn same(&self, other: &Map) -> bool {
        (self.w, self.h) == (other.w, other.h) && self.table() == other.table() && self.values == other.values
    }

    /// The table program's text ("Pits on paper"), with the mark after the value (document 02, L5).
    pub fn text(&self) -> String {
        let mut text = format!("{}\n", self.values.len());
        for ((blend, value), mark) in self.table().iter().zip(&self.values).zip(&self.marks) {
            let Blend { l, m, r, b, n, t } = blend;
            text += &format!("{l} {m} {r} {b} {n} {t} {value} {mark}\n");
        }
        text
    }
}

/// The sum of value times weight, exact, then rounded to the nearest whole number, halves up ("Values, readings,
/// splits"; document 02, L6).
pub fn reading(table: &[Blend], values: &[u16], u: i64, v: i64) -> i64 {
    let (numerator, denominator) = sum(table.iter().zip(values).map(|(blend, value)| {
        let (numerator, denominator) = blend.weight(u, v, 1);
        (*value as i128 * numerator, denominator)
    }));
    let (whole, left) = (numerator / denominator, numerator % denominator);
    let rounded = if 2 * left >= denominator { whole + 1 } else { whole };
    rounded as i64
}

/// Each pair of neighbouring points x and x + 1 where one reading is below the wanted flow and the other isn't: how many
/// pairs there are and the x of the first; 13 where there is none or the flow is out of range (document 02, L2).
fn pairs(side: i64, wanted: usize, reading: impl Fn(i64) -> i64) -> Result<(usize, usize), No> {
    if !(1..=65_535).contains(&wanted) {
        return Err(13);
    }
    let below = |x: i64| reading(x) < wanted as i64;
    let pairs: Vec<i64> = (0..side).filter(|x| below(*x) != below(x + 1)).collect();
    let first = pairs.first().ok_or(13usize)?;
    Ok((pairs.len(), *first as usize))
}

/// The table lists blends by m, then n ("Blends").
pub fn table(live: BTreeSet<Blend>) -> Vec<Blend> {
    let mut table: Vec<Blend> = live.into_iter().collect();
    table.sort_by_key(Blend::anchor);
    table
}

// -------------------------------------------------------------------------------------------------------------- Files

/// One record: its length, its kind and its payload, as little-endian 16-bit numbers ("Map file").
fn put_record(bytes: &mut Vec<u8>, kind: u16, payload: &[u16]) {
    let length = 2 + 2 * payload.len() as u16;
    for number in [&[length, kind], payload].concat() {
        bytes.extend(number.to_le_bytes());
    }
}

/// The part of the bytes that is the payload of the record at a place ("Map file", refusal 11).
pub fn payload(bytes: &[u8], place: usize) -> Result<Range<usize>, No> {
    let after = bytes.get(place..).ok_or(11usize)?;
    if after.len() < 2 {
        return Err(11);
    }
    let length = u16::from_le_bytes([after[0], after[1]]) as usize;
    if length < 2 || 2 + length > after.len() {
        return Err(11);
    }
    Ok(place + 4..place + 2 + length)
}

/// The record at a place, as its kind and its payload of 16-bit numbers, and the place after it.
fn record(bytes: &[u8], place: usize) -> Result<(u16, Vec<u16>, usize), No> {
    let part = payload(bytes, place)?;
    if part.len() % 2 != 0 {
        return Err(11);
    }
    let number = |pair: &[u8]| u16::from_le_bytes([pair[0], pair[1]]);
    let kind = number(&bytes[place + 2..place + 4]);
    let numbers = bytes[part.clone()].chunks(2).map(number).collect();
    Ok((kind, numbers, part.end))
}

impl Map {
    /// The file of a map ("Map file"), its values of kind 5 (document 02, L5).
    pub fn write(&self) -> Vec<u8> {
        let mut bytes = vec![];
        put_record(&mut bytes, 1, &[self.w as u16, self.h as u16]);
        for split in &self.splits {
            let numbers = [split.direction as i64, split.position, split.from, split.to];
            put_record(&mut bytes, 2, &numbers.map(|number| number as u16));
        }
        for ((blend, value), mark) in self.table().iter().zip(&self.values).zip(&self.marks) {
            put_record(&mut bytes, 5, &[blend.m as u16, blend.n as u16, *value, *mark]);
        }
        put_record(&mut bytes, 4, &[]);
        bytes
    }

    /// Reads a file: its splits are taken in order as exact splits from the fresh map, then its values are set
    /// ("Map file", refusal 11). They are all of kind 3, marks 0, or all of kind 5, marks 0 or 1 (document 02, L5).
    pub fn read(bytes: &[u8]) -> Result<Map, No> {
        let (kind, sides, mut place) = record(bytes, 0)?;
        if kind != 1 || sides.len() != 2 {
            return Err(11);
        }
        let mut map = Map::fresh(sides[0] as usize, sides[1] as usize).or(Err(11usize))?;
        loop {
            let (kind, numbers, next) = record(bytes, place)?;
            if kind != 2 {
                break;
            }
            let [direction, position, from, to] = numbers[..] else {
                return Err(11);
            };
            map.exact_split(direction as usize, position as usize, from as usize, to as usize).or(Err(11usize))?;
            place = next;
        }
        let mut kinds = BTreeSet::new();
        for (entry, blend) in map.table().iter().enumerate() {
            let (kind, numbers, next) = record(bytes, place)?;
            let (m, n, value, mark) = match (kind, &numbers[..]) {
                (3, [m, n, value]) => (*m, *n, *value, WORKED_OUT),
                (5, [m, n, value, mark @ (WORKED_OUT | MEASURED)]) => (*m, *n, *value, *mark),
                _ => return Err(11),
            };
            if (m as i64, n as i64) != blend.anchor() {
                return Err(11);
            }
            (map.values[entry], map.marks[entry]) = (value, mark);
            kinds.insert(kind);
            place = next;
        }
        if kinds.len() != 1 {
            return Err(11);
        }
        let (kind, nothing, next) = record(bytes, place)?;
        if kind != 4 || !nothing.is_empty() || next != bytes.len() {
            return Err(11);
        }
        Ok(map)
    }
}

// ---------------------------------------------------------------------------------------------------- Calls over bytes

/// The calls of pump.h: 11 first, then the call's own refusals, then 12. A refusal changes no lent byte and no *used.
pub struct Model;

/// A call's number, of a body that hands its refusal on with `?`.
fn number(outcome: Result<(), No>) -> usize {
    outcome.err().unwrap_or(0)
}

/// The map in the first `used` bytes of a buffer.
fn lent(buffer: &[u8], used: usize) -> Result<Map, No> {
    Map::read(buffer.get(..used).ok_or(11usize)?)
}

/// Puts all the bytes at the start of the buffer, or refuses with 12.
fn put(bytes: &[u8], buffer: &mut [u8]) -> Result<(), No> {
    if buffer.len() < bytes.len() {
        return Err(12);
    }
    buffer[..bytes.len()].copy_from_slice(bytes);
    Ok(())
}

/// Numbers as C lays them out in pump_entry and pump_weight.
fn fields(numbers: &[i64]) -> Vec<u8> {
    numbers.iter().flat_map(|number| (*number as u16).to_ne_bytes()).collect()
}

impl Blend {
    fn numbers(&self) -> [i64; 6] {
        [self.l, self.m, self.r, self.b, self.n, self.t]
    }
}

impl Model {
    /// A call that changes a map in place.
    fn change(buffer: &mut [u8], used: &mut usize, call: impl FnOnce(&mut Map) -> Result<(), No>) -> usize {
        number((|| {
            let mut map = lent(buffer, *used)?;
            call(&mut map)?;
            let file = map.write();
            put(&file, buffer)?;
            *used = file.len();
            Ok(())
        })())
    }
}

impl Pump for Model {
    fn name(&self) -> &'static str {
        "model"
    }

    fn fresh(&self, w: usize, h: usize, buffer: &mut [u8], used: &mut usize) -> usize {
        number((|| {
            let file = Map::fresh(w, h)?.write();
            put(&file, buffer)?;
            *used = file.len();
            Ok(())
        })())
    }

    fn set(&self, buffer: &mut [u8], used: &mut usize, m: usize, n: usize, value: usize) -> usize {
        Model::change(buffer, used, |map| map.set(m, n, value))
    }

    fn split(
        &self,
        buffer: &mut [u8],
        used: &mut usize,
        [direction, position, from, to]: [usize; 4],
        allowance: usize,
    ) -> usize {
        Model::change(buffer, used, |map| map.split(direction, position, from, to, allowance).map(|_| ()))
    }

    fn place(&self, file: &[u8], place: usize, out: &mut [u8]) -> usize {
        number((|| {
            let (blend, value, mark) = Map::read(file)?.place(place)?;
            put(&fields(&[&blend.numbers()[..], &[value as i64, mark as i64]].concat()), out)
        })())
    }

    fn reading(&self, file: &[u8], u: usize, v: usize, litres: &mut usize) -> usize {
        *litres = 0;
        number((|| {
            *litres = Map::read(file)?.reading(u, v)? as usize;
            Ok(())
        })())
    }

    fn weights(&self, file: &[u8], u: usize, v: usize, out: &mut [u8]) -> usize {
        number((|| {
            let entries = Map::read(file)?.weights(u, v)?;
            let entry = |entry: &Weight| [&entry.blend.numbers()[..], &[entry.numerator, entry.denominator]].concat();
            put(&fields(&entries.iter().flat_map(entry).collect::<Vec<_>>()), out)
        })())
    }

    fn row(&self, file: &[u8], v: usize, wanted: usize, count: &mut usize, first: &mut usize) -> usize {
        (*count, *first) = (0, 0);
        number((|| {
            (*count, *first) = Map::read(file)?.row(v, wanted)?;
            Ok(())
        })())
    }

    fn column(&self, file: &[u8], u: usize, wanted: usize, count: &mut usize, first: &mut usize) -> usize {
        (*count, *first) = (0, 0);
        number((|| {
            (*count, *first) = Map::read(file)?.column(u, wanted)?;
            Ok(())
        })())
    }

    fn same(&self, first: &[u8], second: &[u8], yes: &mut usize) -> usize {
        *yes = 0;
        number((|| {
            *yes = Map::read(first)?.same(&Map::read(second)?) as usize;
            Ok(())
        })())
    }

    fn check(&self, file: &[u8]) -> usize {
        number(Map::read(file).map(|_| ()))
    }

    fn payload(&self, bytes: &[u8], place: usize, from: &mut usize, count: &mut usize) -> usize {
        (*from, *count) = (0, 0);
        number((|| {
            let part = payload(bytes, place)?;
            (*from, *count) = (part.start, part.len());
            Ok(())
        })())
    }

    fn table(&self, file: &[u8], out: &mut [u8], count: &mut usize) -> usize {
        *count = 0;
        number((|| {
            let text = Map::read(file)?.text();
            put(text.as_bytes(), out)?;
            *count = text.len();
            Ok(())
        })())
    }
}
