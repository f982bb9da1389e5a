//! Replays the outside vectors: the lists of calls, by document 02 as far as L7, and the files of the table program.

use pump_tests::model::{Blend, Map, No};
use pump_tests::{subjects, Pump, LARGEST_FILE};
use std::fmt::Write;
use std::path::PathBuf;

fn vectors() -> PathBuf {
    PathBuf::from(env!("CARGO_MANIFEST_DIR")).join("../vectors")
}

fn hex(bytes: &[u8]) -> String {
    bytes.iter().map(|byte| format!("{byte:02x}")).collect()
}

fn from_hex(text: &str) -> Vec<u8> {
    let digits = |at| u8::from_str_radix(&text[at..at + 2], 16).unwrap();
    (0..text.len()).step_by(2).map(digits).collect()
}

fn numbers(blend: &Blend) -> String {
    let Blend { l, m, r, b, n, t } = blend;
    format!("{l} {m} {r} {b} {n} {t}")
}

/// A call's answer as the vectors write it.
fn answer(map: &mut Map, words: &[&str]) -> Result<String, No> {
    let n = |at: usize| words[at].parse::<usize>().unwrap();
    match words[0] {
        "set" => map.set(n(1), n(2), n(3)).map(|_| "0".into()),
        "place" => {
            let (blend, value, mark) = map.place(n(1))?;
            Ok(format!("0 {} {value} {mark}", numbers(&blend)))
        }
        "reading" => Ok(format!("0 {}", map.reading(n(1), n(2))?)),
        "weights" => {
            let entries = map.weights(n(1), n(2))?;
            let entries = entries.map(|e| format!("{} {} {}", numbers(&e.blend), e.numerator, e.denominator));
            Ok(format!("0 {}", entries.join(" ; ")))
        }
        "row" => map.row(n(1), n(2)).map(|(count, first)| format!("0 {count} {first}")),
        "column" => map.column(n(1), n(2)).map(|(count, first)| format!("0 {count} {first}")),
        "split" => {
            let taken = map.split(n(1), n(2), n(3), n(4), n(5))?;
            Ok(format!("0 {} {} {}", taken.from, taken.to, map.values.len()))
        }
        "same" => {
            let other = Map::read(&from_hex(words[1]))?;
            Ok(if map.same(&other) { "0 yes" } else { "0 no" }.into())
        }
        "file" => Ok(hex(&map.write())),
        other => panic!("no call {other}"),
    }
}

/// The same answer from a subject, over the bytes of the map's file.
fn answer_over_bytes(pump: &dyn Pump, file: &mut Vec<u8>, words: &[&str]) -> Result<String, No> {
    let n = |at: usize| words[at].parse::<usize>().unwrap();
    let yes = |number: usize| if number == 0 { Ok(()) } else { Err(number) };
    let ([mut first, mut second], mut out) = ([0; 2], vec![0; 64]);
    let fields = |out: &[u8]| -> Vec<String> {
        out.chunks(2).map(|pair| i16::from_ne_bytes([pair[0], pair[1]]).to_string()).collect()
    };
    let mut used = file.len();
    file.resize(LARGEST_FILE, 0);
    let outcome = match words[0] {
        "set" => pump.set(file, &mut used, n(1), n(2), n(3)),
        "split" => pump.split(file, &mut used, [n(1), n(2), n(3), n(4)], n(5)),
        _ => 0,
    };
    file.truncate(used);
    yes(outcome)?;
    match words[0] {
        "set" => Ok("0".into()),
        "place" => {
            yes(pump.place(file, n(1), &mut out))?;
            let [value, mark] = [12, 14].map(|at| u16::from_ne_bytes([out[at], out[at + 1]]));
            Ok(format!("0 {} {value} {mark}", fields(&out[..12]).join(" ")))
        }
        "reading" => {
            yes(pump.reading(file, n(1), n(2), &mut first))?;
            Ok(format!("0 {first}"))
        }
        "weights" => {
            yes(pump.weights(file, n(1), n(2), &mut out))?;
            let entries: Vec<String> = out.chunks(16).map(|entry| fields(entry).join(" ")).collect();
            Ok(format!("0 {}", entries.join(" ; ")))
        }
        "row" => {
            yes(pump.row(file, n(1), n(2), &mut first, &mut second))?;
            Ok(format!("0 {first} {second}"))
        }
        "column" => {
            yes(pump.column(file, n(1), n(2), &mut first, &mut second))?;
            Ok(format!("0 {first} {second}"))
        }
        "same" => {
            yes(pump.same(file, &from_hex(words[1]), &mut first))?;
            Ok(["0 no", "0 yes"][first].into())
        }
        "file" => Ok(hex(file)),
        _ => {
            let splits = (8..).step_by(12).take_while(|at| file[at + 2] == 2).count();
            let last = 12 * splits - 4;
            let blends = (file.len() - 12) / 12 - splits;
            Ok(format!("0 {} {} {blends}", file[last + 8], file[last + 10]))
        }
    }
}

/// How many calls the lists have.
const CALLS: usize = 2_475;

/// Goes through the lists of calls; `fresh` starts one, `answer` gives an answer.
fn lists_of_calls<M>(fresh: impl Fn(usize, usize) -> M, answer: impl Fn(&mut M, &[&str]) -> Result<String, No>) {
    let text = std::fs::read_to_string(vectors().join("L7.txt")).unwrap();
    let (mut calls, mut wrong) = (0, String::new());
    for list in text.split("history ").skip(1) {
        let mut lines = list.lines();
        let sides: Vec<usize> = lines.next().unwrap().split(' ').map(|side| side.parse().unwrap()).collect();
        let mut map = fresh(sides[0], sides[1]);
        for line in lines {
            let (call, want) = line.split_once('=').unwrap();
            let call: Vec<&str> = call.split_whitespace().collect();
            let got = answer(&mut map, &call).unwrap_or_else(|no| no.to_string());
            calls += 1;
            if got.split_whitespace().ne(want.split_whitespace()) {
                writeln!(wrong, "{sides:?}: {line}\n  got {got}").unwrap();
            }
        }
    }
    assert!(wrong.is_empty(), "{wrong}");
    assert_eq!(calls, CALLS);
}

/// Goes through the map files of the table program; `text` prints the table or refuses. The tables of `files` are written
/// without marks, which are all 0.
fn tables(text: impl Fn(&[u8]) -> Result<String, No>) {
    for (folder, count) in [("files", 80), ("files5", 100)] {
        let mut files = 0;
        for entry in std::fs::read_dir(vectors().join(folder)).unwrap() {
            let path = entry.unwrap().path();
            if path.extension().unwrap() == "map" {
                let got = text(&std::fs::read(&path).unwrap()).unwrap_or_else(|no| format!("refused {no}\n"));
                let mut want = std::fs::read_to_string(path.with_extension("out")).unwrap();
                if folder == "files" {
                    let (first, blends) = want.split_once('\n').unwrap();
                    want = format!("{first}\n{}", blends.replace('\n', " 0\n"));
                }
                assert_eq!(got, want, "{path:?}");
                files += 1;
            }
        }
        assert_eq!(files, count);
    }
}

#[test]
fn model_answers_the_lists_of_calls() {
    lists_of_calls(|w, h| Map::fresh(w, h).unwrap(), answer);
}

#[test]
fn model_prints_the_tables() {
    tables(|file| Map::read(file).map(|map| map.text()));
}

#[test]
fn subjects_answer_the_lists_of_calls() {
    for pump in subjects() {
        let fresh = |w, h| {
            let (mut file, mut used) = (vec![0; 60], 0);
            assert_eq!(pump.fresh(w, h, &mut file, &mut used), 0);
            file
        };
        lists_of_calls(fresh, |file, words| answer_over_bytes(pump, file, words));
    }
}

#[test]
fn subjects_print_the_tables() {
    for pump in subjects() {
        tables(|file| {
            let (mut out, mut count) = (vec![0; 65_536], 0);
            match pump.table(file, &mut out, &mut count) {
                0 => Ok(String::from_utf8(out[..count].to_vec()).unwrap()),
                no => Err(no),
            }
        });
    }
}
