//! One call with everything that it is lent, and everything that can be seen after it.

use crate::model::Model;
use crate::{subjects, Pump};

#[derive(Clone, Debug)]
pub enum Call {
    Fresh(usize, usize),
    Set(usize, usize, usize),
    /// Direction, position, from and to, and the allowance.
    Split([usize; 4], usize),
    Place(usize),
    Reading(usize, usize),
    Weights(usize, usize),
    /// The row, and the wanted flow.
    Row(usize, usize),
    /// The column, and the wanted flow.
    Column(usize, usize),
    /// The other map's file, and whether it is handed in first.
    Same(Vec<u8>, bool),
    Check,
    Payload(usize),
    Table,
}

impl Call {
    /// The call's name. Splits have several: which numbers they give depends on the allowance.
    pub fn name(&self) -> &'static str {
        match self {
            Call::Fresh(..) => "fresh",
            Call::Set(..) => "set",
            Call::Split(_, 0) => "split by 0",
            Call::Split(_, 1..=127) => "split by some",
            Call::Split(_, 128) => "split by 128",
            Call::Split(..) => "split by more",
            Call::Place(..) => "place",
            Call::Reading(..) => "reading",
            Call::Weights(..) => "weights",
            Call::Row(..) => "row",
            Call::Column(..) => "column",
            Call::Same(..) => "same",
            Call::Check => "check",
            Call::Payload(..) => "payload",
            Call::Table => "table",
        }
    }

    /// Whether the call works in place, on a buffer that may be larger than the file.
    pub fn changes(&self) -> bool {
        matches!(self, Call::Fresh(..) | Call::Set(..) | Call::Split(..))
    }
}

/// The bytes lent to a call: `used` of them are the map's file (or what stands for it), and `out` is the size of the
/// bytes that the answer is put into.
#[derive(Clone, Debug)]
pub struct Lent {
    pub bytes: Vec<u8>,
    pub used: usize,
    pub out: usize,
}

impl Lent {
    /// The file with no more bytes than it has, and room for every answer.
    pub fn file(file: &[u8]) -> Lent {
        Lent { bytes: file.to_vec(), used: file.len(), out: 65_536 }
    }

    /// The file in a buffer of this size, with some other bytes after it.
    pub fn buffer(file: &[u8], size: usize) -> Lent {
        let byte = |at: usize| file.get(at).copied().unwrap_or(at as u8 ^ 0x5a);
        Lent { bytes: (0..size).map(byte).collect(), used: file.len(), out: 0 }
    }
}

/// All that a call leaves: its number, the lent bytes, *used, the numbers and bytes handed back, guards included.
#[derive(Clone, Debug, PartialEq, Eq)]
pub struct Outcome {
    pub number: usize,
    pub used: usize,
    pub numbers: [usize; 2],
    lent: Guarded,
    out: Guarded,
}

impl Outcome {
    pub fn bytes(&self) -> &[u8] {
        self.lent.part()
    }

    pub fn out(&self) -> &[u8] {
        self.out.part()
    }
}

/// Bytes with guard bytes on both sides: a call may not touch those.
#[derive(Clone, Debug, PartialEq, Eq)]
struct Guarded(Vec<u8>);

/// Odd, so that the bytes between them start at odd addresses.
const GUARD: usize = 17;

impl Guarded {
    fn new(part: &[u8]) -> Guarded {
        Guarded([&[0xa5; GUARD], part, &[0xa5; GUARD]].concat())
    }

    fn part(&self) -> &[u8] {
        &self.0[GUARD..self.0.len() - GUARD]
    }

    fn part_mut(&mut self) -> &mut [u8] {
        let end = self.0.len() - GUARD;
        &mut self.0[GUARD..end]
    }
}

pub fn perform(pump: &dyn Pump, call: &Call, lent: &Lent) -> Outcome {
    let out = match call {
        Call::Place(_) | Call::Weights(..) | Call::Table => lent.out,
        _ => 0,
    };
    // Numbers that must come back as 0 after a refusal start as something else.
    let mut outcome = Outcome {
        number: 0,
        used: lent.used,
        numbers: [77, 78],
        lent: Guarded::new(&lent.bytes),
        out: Guarded::new(&vec![0x3c; out]),
    };
    let Outcome { used, numbers: [first, second], lent: guarded, out, .. } = &mut outcome;
    let (buffer, out) = (guarded.part_mut(), out.part_mut());
    let number = if call.changes() {
        match call {
            Call::Fresh(w, h) => pump.fresh(*w, *h, buffer, used),
            Call::Set(m, n, value) => pump.set(buffer, used, *m, *n, *value),
            Call::Split(split, allowance) => pump.split(buffer, used, *split, *allowance),
            _ => unreachable!(),
        }
    } else {
        let file = &buffer[..lent.used];
        match call {
            Call::Place(place) => pump.place(file, *place, out),
            Call::Reading(u, v) => pump.reading(file, *u, *v, first),
            Call::Weights(u, v) => pump.weights(file, *u, *v, out),
            Call::Row(v, wanted) => pump.row(file, *v, *wanted, first, second),
            Call::Column(u, wanted) => pump.column(file, *u, *wanted, first, second),
            Call::Same(other, true) => pump.same(other, file, first),
            Call::Same(other, false) => pump.same(file, other, first),
            Call::Check => pump.check(file),
            Call::Payload(place) => pump.payload(file, *place, first, second),
            Call::Table => pump.table(file, out, first),
            _ => unreachable!(),
        }
    };
    outcome.number = number;
    outcome
}

/// The model's outcome, after every subject has been found to give the same.
pub fn compare(call: &Call, lent: &Lent, story: &dyn Fn() -> String) -> Outcome {
    let want = perform(&Model, call, lent);
    for subject in subjects() {
        let got = perform(subject, call, lent);
        if got != want {
            panic!(
                "{} differs from the model at {call:?}\nnumber {}, want {}; used {}, want {}; numbers {:?}, want {:?}\n\
                 lent bytes {}, bytes put out {}\nlent: {} of {:?}\n{}",
                subject.name(),
                got.number,
                want.number,
                got.used,
                want.used,
                got.numbers,
                want.numbers,
                if got.lent == want.lent { "agree" } else { "differ" },
                if got.out == want.out { "agree" } else { "differ" },
                lent.used,
                lent.bytes,
                story()
            );
        }
    }
    want
}
