//! The outside vectors through both judges: what agrees, what is left out and why.

use judge::Guarded;
use plain::Model;
use plain::program::Lines;
use plain::rules::{E10, Rules};
use runs::arguments::Arguments;
use runs::library::{Call, Make};
use runs::{Json, Side, hex};
use std::collections::BTreeMap;
use std::fs::read_to_string;
use std::path::Path;
use std::process::exit;

const USAGE: &str = "vectors FOLDER (with program.jsonl and library.jsonl)";

/// The refusals that the Rust cannot give in a program run: limits of 01 that it does not have.
const LIMITS: [&str; 3] = ["refused 26", "refused 27", "refused 28"];

fn main() {
    let arguments = Arguments::read(USAGE, &[], &[]);
    let Some(folder) = arguments.word(0) else {
        arguments.fail();
    };
    let folder = Path::new(folder);
    let program = read_lines(&folder.join("program.jsonl"));
    let library = read_lines(&folder.join("library.jsonl"));
    let mut wrong = program_by_plain(&program);
    wrong += program_by_rust(&program);
    wrong += library_runs(&library, "the plain model", |sheet, esi| {
        let rules = Rules {
            esi,
            ..Rules::default()
        };
        Box::new(Model::with(sheet, rules))
    });
    wrong += library_runs(&library, "the Rust", |sheet, esi| {
        Box::new(Guarded::new(sheet, esi))
    });
    exit(i32::from(wrong > 0));
}

fn read_lines(path: &Path) -> Vec<Json> {
    let text = read_to_string(path).unwrap_or_else(|e| panic!("{}: {e}", path.display()));
    text.lines()
        .filter(|line| !line.is_empty())
        .map(|line| Json::read(line).expect("a line of the vectors"))
        .collect()
}

struct Vector {
    family: String,
    note: String,
    input: Vec<u8>,
    output: String,
}

impl Vector {
    fn read(case: &Json) -> Self {
        let text = |name| case.field(name).and_then(Json::text).expect("a text field");
        Self {
            family: text("family").to_owned(),
            note: text("note").to_owned(),
            input: hex::read(text("in")).expect("hexadecimal"),
            output: text("out").to_owned(),
        }
    }
}

fn program_by_plain(cases: &[Json]) -> usize {
    let mut wrong = 0;
    for case in cases {
        let vector = Vector::read(case);
        let found = Side::Plain.answer(&vector.input, Lines::Program);
        if found != vector.output {
            wrong += 1;
            let Vector { family, note, .. } = vector;
            println!("DIFFERS from the plain model: {family}, {note}");
        }
    }
    let all = cases.len();
    println!(
        "program.jsonl, the plain model: {} of {all} cases agree",
        all - wrong
    );
    wrong
}

/// How many cases of each family.
#[derive(Default)]
struct Tally(BTreeMap<String, usize>);

impl Tally {
    fn add(&mut self, family: &str) {
        *self.0.entry(family.to_owned()).or_default() += 1;
    }

    fn show(&self, words: &str) {
        let families: String = self.0.iter().map(|(f, n)| format!(" {f} {n}")).collect();
        println!("  {:>3} {words}:{families}", self.0.values().sum::<usize>());
    }
}

fn program_by_rust(cases: &[Json]) -> usize {
    let [mut alone, mut guarded, mut e10, mut bad_sheets] = [(); 4].map(|()| Tally::default());
    let mut wrong = 0;
    for case in cases {
        let Vector {
            family,
            note,
            input,
            output,
        } = Vector::read(case);
        if output.starts_with("sheet refused") {
            bad_sheets.add(&family);
            continue;
        }
        let meets_limit = output.lines().any(|line| LIMITS.contains(&line));
        let (side, agree) = if meets_limit {
            (Side::Guarded, &mut guarded)
        } else {
            (Side::Rust, &mut alone)
        };
        let found = side.answer(&input, Lines::Program);
        if found == output {
            agree.add(&family);
        } else if let Some(words) = by_e10(&input, &found) {
            e10.add(&family);
            println!("E10, {words}: {family}, {note}");
        } else {
            wrong += 1;
            println!("DIFFERS from the Rust: {family}, {note}");
        }
    }
    println!(
        "program.jsonl, the Rust: {wrong} of {} cases differ beyond E10",
        cases.len()
    );
    alone.show("agree");
    guarded.show("agree, refusals 26 to 28 given by the plain model");
    e10.show("differ by E10, as stated");
    bad_sheets.show("left out, because a bad sheet never reaches the Rust");
    wrong
}

/// Which part of E10 explains what the Rust wrote.
fn by_e10(input: &[u8], found: &str) -> Option<&'static str> {
    let parts = [
        (true, false, "nth"),
        (false, true, "names"),
        (true, true, "nth and names"),
    ];
    let explains = |&(nth, names, _): &(bool, bool, _)| {
        let side = Side::LikeRust(E10 { nth, names });
        side.answer(input, Lines::Program) == found
    };
    parts.into_iter().find(explains).map(|(_, _, words)| words)
}

/// Replays the library runs.
fn library_runs(runs: &[Json], name: &str, make: Make) -> usize {
    let (mut calls, mut wrong) = (0, 0);
    for (at, run) in runs.iter().enumerate() {
        let mut machine = None;
        for line in run.list().expect("a list of calls") {
            let call = Call::read(line).expect("a call");
            let found = call.answer(&mut machine, make);
            calls += 1;
            if found.as_ref() != line.field("answer") {
                wrong += 1;
                println!("DIFFERS from {name}: run {at}, {line}");
            }
        }
    }
    println!(
        "library.jsonl, {name}: {} of {calls} calls in {} runs agree",
        calls - wrong,
        runs.len()
    );
    wrong
}
