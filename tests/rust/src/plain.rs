//! A plain implementation of the same calls, written for speed: what the library is measured against. It does all the
//! checks that documents 01 and 02 ask for, with the table kept from split to split instead of cut anew.

use crate::Pump;

type No = usize;

const LARGEST_SIDE: usize = 128;
const MOST_SPLITS: usize = 60;
const MOST_ALLOWANCE: usize = 128;
const ENTRY: usize = 16;
const WEIGHTS: usize = 64;
const FOURS: [u8; LARGEST_SIDE * LARGEST_SIDE] = [4; LARGEST_SIDE * LARGEST_SIDE];

type Triple = (i16, i16, i16);

/// The hat of a triple at x, strictly between its ends: numerator and gap.
fn hat((low, mid, high): Triple, x: i16) -> (i16, i16) {
    if x <= mid {
        (x - low, mid - low)
    } else {
        (high - x, high - mid)
    }
}

/// A sum of value times weight, over the product of all their gaps: four blends at most weigh more than 0 at a point, so
/// it fits with room.
#[derive(Clone, Copy)]
struct Sum {
    numerator: u128,
    denominator: u128,
}

impl Sum {
    const NOTHING: Sum = Sum { numerator: 0, denominator: 1 };

    /// Adds a value times the two hats of its blend, in either order.
    fn add(&mut self, value: u16, (one, one_gap): (i16, i16), (other, other_gap): (i16, i16)) {
        let gaps = one_gap as u128 * other_gap as u128;
        let weighed = value as u128 * one as u128 * other as u128;
        self.numerator = self.numerator * gaps + weighed * self.denominator;
        self.denominator *= gaps;
    }

    /// To the nearest whole number, halves up.
    fn rounded(&self) -> u16 {
        ((2 * self.numerator + self.denominator) / (2 * self.denominator)) as u16
    }
}

/// The anchor stands first, so that blends compare in table order.
#[derive(Clone, Copy, PartialEq, Eq, PartialOrd, Ord)]
struct Blend {
    m: i16,
    n: i16,
    l: i16,
    r: i16,
    b: i16,
    t: i16,
}

impl Blend {
    fn new((l, m, r): Triple, (b, n, t): Triple) -> Blend {
        Blend { m, n, l, r, b, t }
    }

    /// The triple that lines of this direction cut.
    fn crossed(&self, direction: usize) -> Triple {
        if direction == 0 {
            (self.l, self.m, self.r)
        } else {
            (self.b, self.n, self.t)
        }
    }

    fn halves(&self, direction: usize, z: i16) -> [Blend; 2] {
        let (low, mid, high) = self.crossed(direction);
        let triples = if z < mid { [(low, z, mid), (z, mid, high)] } else { [(low, mid, z), (mid, z, high)] };
        let other = self.crossed(1 - direction);
        triples.map(|triple| if direction == 0 { Blend::new(triple, other) } else { Blend::new(other, triple) })
    }

    fn around(&self, other: &Blend) -> bool {
        self.l < other.m && other.m < self.r && self.b < other.n && other.n < self.t
    }
}

#[derive(Clone, Copy)]
struct Split {
    direction: usize,
    position: usize,
    from: usize,
    to: usize,
}

#[derive(Clone)]
struct Map {
    /// W and H.
    sides: [usize; 2],
    splits: Vec<Split>,
    /// For each direction and position the unit steps between 0 and the side that its lines cover. The run-out steps go
    /// with the first and the last of them.
    lines: [[u128; LARGEST_SIDE + 1]; 2],
    /// The live blends, in table order, their values and the marks of these.
    table: Vec<Blend>,
    values: Vec<u16>,
    marks: Vec<u16>,
    /// For each unit square the number of supports it lies in.
    supports: Vec<u8>,
}

/// The unit steps from `from` to `to`.
fn steps(from: usize, to: usize) -> u128 {
    u128::MAX >> (128 - (to - from)) << from
}

/// Whether one of the anchors, which are in table order, lies strictly inside another's support.
fn anchor_inside(anchors: &[Blend], supports: &[Blend]) -> bool {
    let (Some(first), Some(last)) = (anchors.first(), anchors.last()) else {
        return false;
    };
    supports.iter().filter(|support| support.l < last.m && first.m < support.r).any(|support| {
        let start = anchors.partition_point(|anchor| anchor.m <= support.l);
        let columns = anchors[start..].iter().take_while(|anchor| anchor.m < support.r);
        columns.into_iter().any(|anchor| support.around(anchor) && anchor != support)
    })
}

impl Map {
    fn fresh(w: usize, h: usize) -> Result<Map, No> {
        if [w, h].iter().any(|side| !(1..=LARGEST_SIDE).contains(side)) {
            return Err(1);
        }
        let sides = [w, h];
        let mut lines = [[0; LARGEST_SIDE + 1]; 2];
        for direction in 0..2 {
            lines[direction][0] = u128::MAX;
            lines[direction][sides[direction]] = u128::MAX;
        }
        let triples = |side: i16| [(-1, 0, side), (0, side, side + 1)];
        let mut table = Vec::with_capacity(256);
        for across in triples(w as i16) {
            for up in triples(h as i16) {
                table.push(Blend::new(across, up));
            }
        }
        Ok(Map {
            sides,
            splits: Vec::with_capacity(MOST_SPLITS),
            lines,
            table,
            values: vec![0; 4],
            marks: vec![0; 4],
            supports: vec![4; w * h],
        })
    }

    /// The steps that a line of this direction must cover to cut the blend.
    fn needed(&self, direction: usize, blend: &Blend) -> u128 {
        let (low, _, high) = blend.crossed(1 - direction);
        steps(low.max(0) as usize, (high as usize).min(self.sides[1 - direction]))
    }

    fn cuts(&self, direction: usize, position: i16, line: u128, blend: &Blend) -> bool {
        let (low, mid, high) = blend.crossed(direction);
        low < position && position < high && position != mid && {
            let needed = self.needed(direction, blend);
            line & needed == needed
        }
    }

    /// The halves of a blend, if any line cuts it: at the cut next to its anchor, so that few halves come up twice.
    fn halves(&self, blend: &Blend) -> Option<[Blend; 2]> {
        (0..2).find_map(|direction| {
            let (low, mid, high) = blend.crossed(direction);
            let needed = self.needed(direction, blend);
            let lines = &self.lines[direction];
            let cuts = |z: &i16| lines[*z as usize] & needed == needed;
            let z = (low + 1..mid).rev().find(cuts).or_else(|| (mid + 1..high).find(cuts))?;
            Some(blend.halves(direction, z))
        })
    }

    fn crossed_at(&self, direction: usize, position: usize, end: usize) -> bool {
        self.lines[1 - direction][end] >> (position - 1) & 3 != 0
    }

    /// Refusals 3 to 7.
    fn look(&self, [direction, position, from, to]: [usize; 4], allowance: usize) -> Result<Split, No> {
        if direction > 1
            || position < 1
            || position >= self.sides[direction]
            || from >= to
            || to > self.sides[1 - direction]
            || allowance > MOST_ALLOWANCE
        {
            return Err(3);
        }
        if self.splits.len() == MOST_SPLITS {
            return Err(4);
        }
        let line = self.lines[direction][position];
        if line & steps(from, to) != 0 {
            return Err(5);
        }
        if !self.crossed_at(direction, position, from) || !self.crossed_at(direction, position, to) {
            return Err(6);
        }
        let joined = line | steps(from, to);
        if !self.table.iter().any(|blend| self.cuts(direction, position as i16, joined, blend)) {
            return Err(7);
        }
        Ok(Split { direction, position, from, to })
    }

    /// Adds to, or takes from, the counts of all unit squares of a support.
    fn count(&mut self, blend: &Blend, change: fn(u8) -> u8) {
        let [w, h] = self.sides;
        let rows = blend.b.max(0) as usize..(blend.t as usize).min(h);
        for x in blend.l.max(0) as usize..(blend.r as usize).min(w) {
            for count in &mut self.supports[x * h..][rows.clone()] {
                *count = change(*count);
            }
        }
    }

    /// Draws a line and says whether the map is still sound; if not, it is of no more use. Only what is new is looked at:
    /// the rest was sound before.
    fn draw(&mut self, split: Split) -> bool {
        let Split { direction, position, from, to } = split;
        self.lines[direction][position] |= steps(from, to);
        self.splits.push(split);
        let line = self.lines[direction][position];

        let mut table = std::mem::take(&mut self.table);
        let mut left = Vec::new();
        table.retain(|blend| {
            let cut = self.cuts(direction, position as i16, line, blend);
            if cut {
                left.push(*blend);
            }
            !cut
        });
        for blend in &left {
            self.count(blend, |count| count - 1);
        }

        let mut added = Vec::new();
        while !left.is_empty() {
            let mut next = Vec::with_capacity(2 * left.len());
            for blend in &left {
                match self.halves(blend) {
                    Some(halves) => next.extend(halves),
                    None => added.push(*blend),
                }
            }
            next.sort_unstable();
            next.dedup();
            left = next;
        }
        added.sort_unstable();
        added.dedup();
        added.retain(|blend| table.binary_search(blend).is_err());
        for blend in &added {
            self.count(blend, |count| count.saturating_add(1));
        }

        // The table and the new blends are each in order, which makes this sort a merge.
        table.extend_from_slice(&added);
        table.sort();
        self.table = table;
        self.supports == FOURS[..self.supports.len()]
            && !anchor_inside(&added, &self.table)
            && !anchor_inside(&self.table, &added)
    }

    fn anchor(&self, m: i16, n: i16) -> Result<usize, No> {
        self.table.binary_search_by_key(&(m, n), |blend| (blend.m, blend.n)).or(Err(9))
    }

    /// Gives the anchors of a map with one more line their values and marks.
    fn hand_over(&self, next: &mut Map) {
        let entry = |blend: &Blend| match self.anchor(blend.m, blend.n) {
            Ok(place) => (self.values[place], self.marks[place]),
            Err(_) => (self.sum(blend.m, blend.n), 0),
        };
        (next.values, next.marks) = next.table.iter().map(entry).unzip();
    }

    /// The shortest sound line through the given one lies in all the others and adds the fewest blends (README.md, "Where a
    /// line may end"), so the first that is found by length is the one to take.
    fn split(&self, split: [usize; 4], allowance: usize) -> Result<Map, No> {
        let given = self.look(split, allowance)?;
        let Split { direction, position, from, to } = given;
        let (side, shortest) = (self.sides[1 - direction], to - from);
        for length in shortest..=side.min(shortest + allowance) {
            for start in to.saturating_sub(length)..=from.min(side - length) {
                let end = start + length;
                if !self.crossed_at(direction, position, start)
                    || !self.crossed_at(direction, position, end)
                    || self.lines[direction][position] & steps(start, end) != 0
                {
                    continue;
                }
                let mut next = self.clone();
                if next.draw(Split { from: start, to: end, ..given }) {
                    self.hand_over(&mut next);
                    return Ok(next);
                }
            }
        }
        Err(8)
    }

    fn point(&self, u: usize, v: usize) -> Result<(i16, i16), No> {
        if u > self.sides[0] || v > self.sides[1] {
            return Err(10);
        }
        Ok((u as i16, v as i16))
    }

    /// The sum of value times weight at a point, rounded.
    fn sum(&self, u: i16, v: i16) -> u16 {
        let mut sum = Sum::NOTHING;
        for (blend, value) in self.table.iter().zip(&self.values) {
            let Blend { m, n, l, r, b, t } = *blend;
            if l < u && u < r && b < v && v < t {
                sum.add(*value, hat((l, m, r), u), hat((b, n, t), v));
            }
        }
        sum.rounded()
    }

    /// The readings at all points of the row `at` (direction 1) or of the column `at` (direction 0), in one walk over the
    /// table: each blend over it is added at the points that it reaches, which all lie in the domain.
    fn readings(&self, direction: usize, at: i16) -> Vec<u16> {
        let mut sums = vec![Sum::NOTHING; self.sides[1 - direction] + 1];
        for (blend, value) in self.table.iter().zip(&self.values) {
            let (low, mid, high) = blend.crossed(direction);
            if low < at && at < high {
                let here = hat((low, mid, high), at);
                let along = blend.crossed(1 - direction);
                for x in along.0 + 1..along.2 {
                    sums[x as usize].add(*value, here, hat(along, x));
                }
            }
        }
        sums.iter().map(Sum::rounded).collect()
    }

    /// How many pairs of neighbouring points the wanted flow parts along a row (direction 1) or a column (direction 0),
    /// and the first of them.
    fn pairs(&self, direction: usize, at: usize, wanted: usize) -> Result<(usize, usize), No> {
        if at > self.sides[direction] {
            return Err(10);
        }
        let wanted = match u16::try_from(wanted) {
            Ok(wanted) if wanted > 0 => wanted,
            _ => return Err(13),
        };
        let readings = self.readings(direction, at as i16);
        let parted = |x: &usize| (readings[*x] < wanted) != (readings[x + 1] < wanted);
        let mut pairs = (0..readings.len() - 1).filter(parted);
        let first = pairs.next().ok_or(13usize)?;
        Ok((1 + pairs.count(), first))
    }

    /// Four times l m r b n t numerator denominator.
    fn weights(&self, u: i16, v: i16) -> [[i16; 8]; 4] {
        let x = u.min(self.sides[0] as i16 - 1);
        let y = v.min(self.sides[1] as i16 - 1);
        let mut entries = [[0; 8]; 4];
        let over = self.table.iter().filter(|blend| blend.l <= x && x < blend.r && blend.b <= y && y < blend.t);
        for (entry, blend) in entries.iter_mut().zip(over) {
            let Blend { m, n, l, r, b, t } = *blend;
            let (across, across_gap) = if x < m { (u - l, m - l) } else { (r - u, r - m) };
            let (up, up_gap) = if y < n { (v - b, n - b) } else { (t - v, t - n) };
            *entry = [l, m, r, b, n, t, across * up, across_gap * up_gap];
        }
        entries
    }

    fn file_length(&self) -> usize {
        12 + 12 * (self.splits.len() + self.table.len())
    }

    fn write(&self, buffer: &mut [u8], used: &mut usize) -> Result<(), No> {
        let length = self.file_length();
        if buffer.len() < length {
            return Err(12);
        }
        let mut at = 0;
        let mut put = |numbers: &[u16]| {
            for number in numbers {
                buffer[at..at + 2].copy_from_slice(&number.to_le_bytes());
                at += 2;
            }
        };
        put(&[6, 1, self.sides[0] as u16, self.sides[1] as u16]);
        for split in &self.splits {
            put(&[10, 2, split.direction as u16, split.position as u16, split.from as u16, split.to as u16]);
        }
        for ((blend, value), mark) in self.table.iter().zip(&self.values).zip(&self.marks) {
            put(&[10, 5, blend.m as u16, blend.n as u16, *value, *mark]);
        }
        put(&[2, 4]);
        *used = length;
        Ok(())
    }

    fn read(bytes: &[u8]) -> Result<Map, No> {
        const NO: No = 11;
        let number = |at: usize| u16::from_le_bytes([bytes[at], bytes[at + 1]]);
        let begins = |at: usize, length, kind| number(at) == length && number(at + 2) == kind;
        if bytes.len() < 12 || !begins(0, 6, 1) {
            return Err(NO);
        }
        let mut map = Map::fresh(number(4) as usize, number(6) as usize).or(Err(NO))?;
        let mut at = 8;
        while at + 12 <= bytes.len() && begins(at, 10, 2) {
            let split = map.look([4, 6, 8, 10].map(|field| number(at + field) as usize), 0).or(Err(NO))?;
            if !map.draw(split) {
                return Err(NO);
            }
            at += 12;
        }
        // The length tells of which kind all the values must be: that of a mix lies between the two.
        let marked = bytes.len() == map.file_length();
        if !marked && bytes.len() != map.file_length() - 2 * map.table.len() {
            return Err(NO);
        }
        let (length, kind) = if marked { (10, 5) } else { (8, 3) };
        map.values.clear();
        map.marks.clear();
        for blend in &map.table {
            let mark = if marked { number(at + 10) } else { 0 };
            if !begins(at, length, kind)
                || number(at + 4) != blend.m as u16
                || number(at + 6) != blend.n as u16
                || mark > 1
            {
                return Err(NO);
            }
            map.values.push(number(at + 8));
            map.marks.push(mark);
            at += 2 + length as usize;
        }
        if !begins(at, 2, 4) {
            return Err(NO);
        }
        Ok(map)
    }
}

/// The map in the first `used` bytes of a buffer.
fn lent(buffer: &[u8], used: usize) -> Result<Map, No> {
    Map::read(buffer.get(..used).ok_or(11usize)?)
}

/// Puts 16-bit numbers into the lent bytes as C lays them out.
fn put(numbers: impl Iterator<Item = i16>, size: usize, out: &mut [u8]) -> Result<(), No> {
    if out.len() < size {
        return Err(12);
    }
    for (place, number) in out.chunks_exact_mut(2).zip(numbers) {
        place.copy_from_slice(&number.to_ne_bytes());
    }
    Ok(())
}

/// Adds a number and what parts it from the next.
fn put_number(text: &mut Vec<u8>, number: i32, parting: u8) {
    let mut digits = [0; 8];
    let mut count = 0;
    let mut rest = number.unsigned_abs();
    loop {
        digits[count] = b'0' + (rest % 10) as u8;
        count += 1;
        rest /= 10;
        if rest == 0 {
            break;
        }
    }
    if number < 0 {
        digits[count] = b'-';
        count += 1;
    }
    digits[..count].reverse();
    text.extend_from_slice(&digits[..count]);
    text.push(parting);
}

fn payload(bytes: &[u8], place: usize) -> Result<(usize, usize), No> {
    let after = bytes.get(place..).ok_or(11usize)?;
    let [low, high, rest @ ..] = after else {
        return Err(11);
    };
    let length = u16::from_le_bytes([*low, *high]) as usize;
    if length < 2 || length > rest.len() {
        return Err(11);
    }
    Ok((place + 4, length - 2))
}

fn number(outcome: Result<(), No>) -> usize {
    outcome.err().unwrap_or(0)
}

pub struct Plain;

impl Pump for Plain {
    fn name(&self) -> &'static str {
        "plain"
    }

    fn fresh(&self, w: usize, h: usize, buffer: &mut [u8], used: &mut usize) -> usize {
        number(Map::fresh(w, h).and_then(|map| map.write(buffer, used)))
    }

    fn set(&self, buffer: &mut [u8], used: &mut usize, m: usize, n: usize, value: usize) -> usize {
        number(lent(buffer, *used).and_then(|mut map| {
            let value = u16::try_from(value).map_err(|_| 3usize)?;
            if m > LARGEST_SIDE || n > LARGEST_SIDE {
                return Err(9);
            }
            let place = map.anchor(m as i16, n as i16)?;
            if *used < map.file_length() {
                // An old file is written anew.
                (map.values[place], map.marks[place]) = (value, 1);
                return map.write(buffer, used);
            }
            let at = 8 + 12 * (map.splits.len() + place) + 8;
            buffer[at..at + 2].copy_from_slice(&value.to_le_bytes());
            buffer[at + 2..at + 4].copy_from_slice(&[1, 0]);
            Ok(())
        }))
    }

    fn split(&self, buffer: &mut [u8], used: &mut usize, split: [usize; 4], allowance: usize) -> usize {
        let next = lent(buffer, *used).and_then(|map| map.split(split, allowance));
        number(next.and_then(|map| map.write(buffer, used)))
    }

    fn place(&self, file: &[u8], place: usize, out: &mut [u8]) -> usize {
        number(Map::read(file).and_then(|map| {
            let Blend { m, n, l, r, b, t } = *map.table.get(place).ok_or(9usize)?;
            put([l, m, r, b, n, t, map.values[place] as i16, map.marks[place] as i16].into_iter(), ENTRY, out)
        }))
    }

    fn reading(&self, file: &[u8], u: usize, v: usize, litres: &mut usize) -> usize {
        *litres = 0;
        number(Map::read(file).and_then(|map| {
            let (u, v) = map.point(u, v)?;
            *litres = map.sum(u, v) as usize;
            Ok(())
        }))
    }

    fn weights(&self, file: &[u8], u: usize, v: usize, out: &mut [u8]) -> usize {
        number(Map::read(file).and_then(|map| {
            let (u, v) = map.point(u, v)?;
            put(map.weights(u, v).into_iter().flatten(), WEIGHTS, out)
        }))
    }

    fn row(&self, file: &[u8], v: usize, wanted: usize, count: &mut usize, first: &mut usize) -> usize {
        (*count, *first) = (0, 0);
        number(Map::read(file).and_then(|map| {
            (*count, *first) = map.pairs(1, v, wanted)?;
            Ok(())
        }))
    }

    fn column(&self, file: &[u8], u: usize, wanted: usize, count: &mut usize, first: &mut usize) -> usize {
        (*count, *first) = (0, 0);
        number(Map::read(file).and_then(|map| {
            (*count, *first) = map.pairs(0, u, wanted)?;
            Ok(())
        }))
    }

    fn same(&self, first: &[u8], second: &[u8], yes: &mut usize) -> usize {
        *yes = 0;
        number(Map::read(first).and_then(|first| {
            let second = Map::read(second)?;
            let same = first.sides == second.sides && first.table == second.table && first.values == second.values;
            *yes = same as usize;
            Ok(())
        }))
    }

    fn check(&self, file: &[u8]) -> usize {
        number(Map::read(file).map(|_| ()))
    }

    fn payload(&self, bytes: &[u8], place: usize, from: &mut usize, count: &mut usize) -> usize {
        (*from, *count) = (0, 0);
        number(payload(bytes, place).map(|part| (*from, *count) = part))
    }

    fn table(&self, file: &[u8], out: &mut [u8], count: &mut usize) -> usize {
        *count = 0;
        number(Map::read(file).and_then(|map| {
            let mut text = Vec::with_capacity(32 * (1 + map.table.len()));
            put_number(&mut text, map.table.len() as i32, b'\n');
            for ((blend, value), mark) in map.table.iter().zip(&map.values).zip(&map.marks) {
                let Blend { m, n, l, r, b, t } = *blend;
                for number in [l, m, r, b, n, t] {
                    put_number(&mut text, number as i32, b' ');
                }
                put_number(&mut text, *value as i32, b' ');
                put_number(&mut text, *mark as i32, b'\n');
            }
            out.get_mut(..text.len()).ok_or(12usize)?.copy_from_slice(&text);
            *count = text.len();
            Ok(())
        }))
    }
}
