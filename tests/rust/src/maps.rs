//! Maps that are the worst in some way, as the splits that make them on sides of 128.

use crate::files::{of_kinds, put};

/// Direction, position, from, to.
pub type Split = [usize; 4];

/// The most blends: 30 levels and 30 uprights all the way, 1,024 blends.
pub fn grid() -> Vec<Split> {
    (1..=30).flat_map(|line| [[1, 4 * line, 0, 128], [0, 4 * line, 0, 128]]).collect()
}

/// The longest search: 58 uprights end at the one level. A level below that one is unsound until it runs all the way, and
/// it may end at any of the uprights on either side. The last split is what `FAN_GIVEN` is lengthened to, as the last of
/// 870 lines that are tried.
pub fn fan() -> Vec<Split> {
    let uprights = (1..=58).map(|line| [0, 2 * line, 0, 100]);
    [[1, 100, 0, 128]].into_iter().chain(uprights).chain([[1, 50, 0, 128]]).collect()
}

pub const FAN_GIVEN: Split = [1, 50, 56, 60];

/// The same file with values that go up and down, over the whole range, and some of them measured.
pub fn with_values(mut file: Vec<u8>) -> Vec<u8> {
    for (at, record) in of_kinds(&file, &[5]).into_iter().enumerate() {
        put(&mut file, record.start + 8, (at * 40_503 % 65_536) as u16);
        put(&mut file, record.start + 10, (at % 3 == 0) as u16);
    }
    file
}
