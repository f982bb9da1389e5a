//! Map files taken apart and put together as bytes, without a map.

use crate::model::payload;
use std::collections::BTreeMap;
use std::ops::Range;

/// The 16-bit number at a place.
pub fn number(file: &[u8], at: usize) -> u16 {
    u16::from_le_bytes([file[at], file[at + 1]])
}

/// Puts a 16-bit number at a place.
pub fn put(file: &mut [u8], at: usize, number: u16) {
    file[at..at + 2].copy_from_slice(&number.to_le_bytes());
}

/// The records of a file, as far as they are whole.
pub fn records(file: &[u8]) -> Vec<Range<usize>> {
    let mut records = vec![];
    let mut place = 0;
    while let Ok(part) = payload(file, place) {
        records.push(place..part.end);
        place = part.end;
    }
    records
}

/// The records of these kinds.
pub fn of_kinds(file: &[u8], kinds: &[u16]) -> Vec<Range<usize>> {
    records(file).into_iter().filter(|record| kinds.contains(&number(file, record.start + 2))).collect()
}

/// The part of a file that tells the sides and the splits.
pub fn lines(file: &[u8]) -> &[u8] {
    &file[..8 + 12 * of_kinds(file, &[2]).len()]
}

/// The anchors of a file with their values and marks, in order.
pub fn anchors(file: &[u8]) -> BTreeMap<(u16, u16), (u16, u16)> {
    let numbers = |record: Range<usize>| record.step_by(2).map(|at| number(file, at)).collect::<Vec<_>>();
    let anchor = |numbers: Vec<u16>| match numbers[1..] {
        [3, m, n, value] => Some(((m, n), (value, 0))),
        [5, m, n, value, mark] => Some(((m, n), (value, mark))),
        _ => None,
    };
    records(file).into_iter().map(numbers).filter_map(anchor).collect()
}

/// The record of a value in the other kind: one of kind 5 loses its mark, one of kind 3 gets this one.
pub fn other_kind(record: &[u8], mark: u16) -> Vec<u8> {
    match number(record, 2) {
        5 => [&[8, 0, 3, 0], &record[4..10]].concat(),
        _ => [&[10, 0, 5, 0], &record[4..10], &mark.to_le_bytes()].concat(),
    }
}

/// The file in the old form: its values of kind 3, without their marks.
pub fn old(file: &[u8]) -> Vec<u8> {
    let record = |record: Range<usize>| match number(file, record.start + 2) {
        5 => other_kind(&file[record], 0),
        _ => file[record].to_vec(),
    };
    records(file).into_iter().flat_map(record).collect()
}
