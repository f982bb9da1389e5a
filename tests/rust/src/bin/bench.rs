//! How long each call of pump.h takes: the library beside the plain implementation, in turns, as a markdown table.

use pump_tests::calls::Call;
use pump_tests::draw::{self, Random};
use pump_tests::ffi::Library;
use pump_tests::maps::{self, Split};
use pump_tests::model::Map;
use pump_tests::plain::Plain;
use pump_tests::{Pump, LARGEST_FILE};
use std::hint::black_box;
use std::time::{Duration, Instant};

/// A map to measure on: its file, and the file before its last split.
struct Case {
    name: &'static str,
    before: Vec<u8>,
    /// What a split with an allowance is given to find the last one, or another.
    given: Split,
    last: Split,
    file: Vec<u8>,
}

/// What the calls are lent.
struct Desk {
    buffer: Vec<u8>,
    out: Vec<u8>,
    used: usize,
    numbers: [usize; 2],
}

impl Desk {
    fn run(&mut self, pump: &dyn Pump, call: &Call, file: &[u8]) -> usize {
        if call.changes() {
            self.buffer[..file.len()].copy_from_slice(file);
            self.used = file.len();
        }
        let Desk { buffer, out, used, numbers: [first, second] } = self;
        match call {
            Call::Fresh(w, h) => pump.fresh(*w, *h, buffer, used),
            Call::Set(m, n, value) => pump.set(buffer, used, *m, *n, *value),
            Call::Split(split, allowance) => pump.split(buffer, used, *split, *allowance),
            Call::Place(place) => pump.place(file, *place, out),
            Call::Reading(u, v) => pump.reading(file, *u, *v, first),
            Call::Weights(u, v) => pump.weights(file, *u, *v, out),
            Call::Row(v, wanted) => pump.row(file, *v, *wanted, first, second),
            Call::Column(u, wanted) => pump.column(file, *u, *wanted, first, second),
            Call::Same(other, _) => pump.same(file, other, first),
            Call::Check => pump.check(file),
            Call::Payload(place) => pump.payload(file, *place, first, second),
            Call::Table => pump.table(file, out, first),
        }
    }

    /// The time of one call, from this many.
    fn time(&mut self, pump: &dyn Pump, call: &Call, file: &[u8], times: u32) -> Duration {
        let start = Instant::now();
        for _ in 0..times {
            black_box(self.run(pump, black_box(call), black_box(file)));
        }
        start.elapsed() / times
    }
}

fn fresh(w: usize, h: usize) -> Vec<u8> {
    let (mut file, mut used) = (vec![0; 60], 0);
    assert_eq!(Plain.fresh(w, h, &mut file, &mut used), 0);
    file
}

/// The file after a split, if it is accepted.
fn split(file: &[u8], split: Split) -> Option<Vec<u8>> {
    let mut buffer = file.to_vec();
    buffer.resize(LARGEST_FILE, 0);
    let mut used = file.len();
    let number = Plain.split(&mut buffer, &mut used, split, 0);
    buffer.truncate(used);
    (number == 0).then_some(buffer)
}

fn case(name: &'static str, w: usize, h: usize, splits: &[Split], given: Split) -> Case {
    let (last, first) = splits.split_last().unwrap();
    let draw = |file: Vec<u8>, line: &Split| split(&file, *line).unwrap();
    let before = first.iter().fold(fresh(w, h), draw);
    let file = split(&before, *last).unwrap();
    Case { name, before, given, last: *last, file }
}

/// Splits drawn at random on square sides; none but the first four is longer than `longest`.
fn drawn(side: usize, count: usize, longest: usize) -> Vec<Split> {
    let mut random = Random(7);
    let mut map = Map::fresh(side, side).unwrap();
    let mut file = fresh(side, side);
    let mut splits = vec![];
    while splits.len() < count {
        let line = draw::split(&mut random, &map, &map.lines());
        let [direction, position, from, to] = line;
        let short = splits.len() < 4 || to.saturating_sub(from) <= longest;
        let Some(next) = split(&file, line).filter(|_| short) else {
            continue;
        };
        file = next;
        let [position, from, to] = [position, from, to].map(|number| number as i64);
        map.splits.push(pump_tests::model::Split { direction, position, from, to });
        splits.push(line);
    }
    splits
}

/// A flow that the row or column meets: half way between its lowest and its highest reading.
fn met(file: &[u8], side: usize, point: impl Fn(usize) -> (usize, usize)) -> usize {
    let readings = (0..=side).map(|along| {
        let ((u, v), mut litres) = (point(along), 0);
        assert_eq!(Plain.reading(file, u, v, &mut litres), 0);
        litres
    });
    let (lowest, highest) = readings.fold((usize::MAX, 0), |(low, high), litres| (low.min(litres), high.max(litres)));
    assert!(lowest < highest);
    (lowest + highest).div_ceil(2)
}

fn cases() -> Vec<Case> {
    let small = [[0, 4, 0, 8], [1, 4, 0, 8], [0, 2, 0, 4], [1, 2, 0, 8]];

    let middling = drawn(64, 20, 64);
    let short = drawn(128, 60, 32);
    vec![
        case("8 by 8, 4 splits", 8, 8, &small, [1, 2, 0, 2]),
        case("64 by 64, 20 splits", 64, 64, &middling, *middling.last().unwrap()),
        case("60 short splits", 128, 128, &short, *short.last().unwrap()),
        case(LARGEST, 128, 128, &maps::grid(), [0, 120, 0, 8]),
        case("long lengthening", 128, 128, &maps::fan(), maps::FAN_GIVEN),
    ]
}

/// The map of the most blends.
const LARGEST: &str = "30 + 30 full splits";

/// A call's name in the table. Splits go by their allowance.
fn title(call: &Call) -> String {
    match call {
        Call::Split(_, allowance) => format!("split by {allowance}"),
        call => call.name().into(),
    }
}

fn micros(time: Duration) -> String {
    format!("{:.2}", time.as_secs_f64() * 1e6)
}

/// The times of calls, sorted. They are made in turns, so that all of them have the machine alike.
fn in_turns(turns: &[(&dyn Pump, &Call)], file: &[u8], rounds: usize, desk: &mut Desk) -> Vec<Vec<Duration>> {
    // Enough calls in a round to be seen by the clock, and fewer rounds where one is long.
    let one: Vec<Duration> = turns.iter().map(|(pump, call)| desk.time(*pump, call, file, 1)).collect();
    let rounds = if one[0] > Duration::from_millis(300) { 3 } else { rounds };
    let mut found = vec![vec![]; turns.len()];
    for round in 0..=rounds {
        for (at, (pump, call)) in turns.iter().enumerate() {
            let times = (2_000_000 / one[at].as_nanos().max(1)).clamp(1, 20_000) as u32;
            let time = desk.time(*pump, call, file, times);
            // The first round warms up.
            if round > 0 {
                found[at].push(time);
            }
        }
    }
    found.iter_mut().for_each(|times| times.sort());
    found
}

/// Measures a call and prints a line of the table.
fn measure(name: &str, call: &Call, file: &[u8], desk: &mut Desk) {
    let pumps: [&dyn Pump; 2] = [&Library, &Plain];
    let mut left = vec![];
    for pump in pumps {
        desk.numbers = [0, 0];
        desk.used = 0;
        let number = desk.run(pump, call, file);
        left.push((number, desk.used, desk.buffer[..desk.used].to_vec(), desk.numbers));
    }
    assert_eq!(left[0], left[1], "{name}, {call:?}: the answers differ");

    let found = in_turns(&pumps.map(|pump| (pump, call)), file, 9, desk);
    let [library, plain] = [&found[0], &found[1]].map(|times| (times[0], times[times.len() / 2]));
    println!(
        "| {name} | {} | {} | {} | {} | {} | {} | {:.1} |",
        title(call),
        left[0].0,
        micros(library.0),
        micros(library.1),
        micros(plain.0),
        micros(plain.1),
        library.0.as_secs_f64() / plain.0.as_secs_f64()
    );
}

/// Prints what the calls take beside a check, which does nothing but open the map. The difference is small, so there are
/// many rounds.
fn beside_a_check(calls: &[Call], file: &[u8], desk: &mut Desk) {
    for pump in [&Library as &dyn Pump, &Plain] {
        let turns: Vec<_> = [&Call::Check].into_iter().chain(calls).map(|call| (pump, call)).collect();
        let best: Vec<f64> =
            in_turns(&turns, file, 199, desk).iter().map(|times| times[0].as_secs_f64() * 1e6).collect();
        for (call, time) in calls.iter().zip(&best[1..]) {
            let (name, check) = (call.name(), best[0]);
            println!(
                "- {}: {name} {time:.2}, check {check:.2}, {:.2} more, ratio {:.3}",
                pump.name(),
                time - check,
                time / check
            );
        }
    }
}

fn main() {
    let start = Instant::now();
    let mut desk = Desk { buffer: vec![0; LARGEST_FILE], out: vec![0; 65_536], used: 0, numbers: [0, 0] };
    println!("Microseconds a call; the ratio is of the best times.\n");
    println!("| map | call | number | library, best | library, median | plain, best | plain, median | ratio |");
    println!("|---|---|---|---|---|---|---|---|");
    measure("none", &Call::Fresh(128, 128), &[], &mut desk);
    let mut largest = None;
    for case in cases() {
        let Case { name, before, given, last, file } = case;
        let side = file[4] as usize;
        // No line of the largest map lies there, so the blends of two lines lie over each point.
        let (valued, middle) = (maps::with_values(file.clone()), side / 2 + 1);
        let row = Call::Row(middle, met(&valued, side, |u| (u, middle)));
        let column = Call::Column(middle, met(&valued, side, |v| (middle, v)));
        if name == LARGEST {
            largest = Some(([row.clone(), column.clone()], valued.clone()));
        }
        for (call, file) in [
            (Call::Check, &file),
            (Call::Set(0, side, 4000), &file),
            (Call::Place(3), &file),
            (Call::Reading(side / 2 + 1, side / 3), &file),
            (Call::Weights(side / 2 + 1, side / 3), &file),
            (row, &valued),
            (column, &valued),
            (Call::Same(file.clone(), false), &file),
            (Call::Payload(8), &file),
            (Call::Table, &file),
            (Call::Split(last, 0), &before),
            (Call::Split(given, 8), &before),
            (Call::Split(given, 128), &before),
        ] {
            measure(name, &call, file, &mut desk);
        }
    }
    let (calls, file) = largest.unwrap();
    println!("\nA row and a column of 129 points beside a check, on {LARGEST}; best times in microseconds:");
    beside_a_check(&calls, &file, &mut desk);
    println!("\nThe whole took {:.1} s.", start.elapsed().as_secs_f64());
}
