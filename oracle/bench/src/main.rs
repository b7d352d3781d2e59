//! `bench [RUNS]`: the proved machine and the Rust over the same tags, by turns, each kind of sheet; nanoseconds a start tag, and the ratio
//! within a run. `bench one SHEET proved|rust RUNS` runs one of them alone, for a profiler.
mod load;

use judge::{Judge, Prepared};
use load::{Event, KINDS, Load};
use plain::{Answer, Machine as _, Outlined, Sheet};
use selectors_vm::{Machine, Namespace, Outline};
use std::env;
use std::fs;
use std::hint::black_box;

/// What a run comes to: equal for both machines where all answers are.
#[derive(Clone, Copy, Debug, Default, Eq, PartialEq)]
struct Sum {
    ids: u128,
    waits: u64,
    contents: u64,
    popped: u64,
}

impl Sum {
    /// Each set of ids counts by where it stands.
    fn add(&mut self, ids: u128) {
        self.ids = self.ids.rotate_left(1).wrapping_add(ids);
    }
}

/// The attributes in the form that each machine takes: both are made before the clock runs.
struct Given {
    input: Vec<u8>,
    outlines: Vec<Outline>,
    prepared: Prepared,
}

fn given(load: &Load) -> Vec<Given> {
    let each = load.attributes.iter();
    each.map(|(input, numbers)| Given {
        input: input.clone(),
        outlines: numbers
            .chunks_exact(4)
            .map(|four| Outline {
                name_start: four[0] as u32,
                name_end: four[1] as u32,
                value_start: four[2] as u32,
                value_end: four[3] as u32,
            })
            .collect(),
        prepared: Prepared::new(Outlined {
            input,
            outlines: numbers,
        }),
    })
    .collect()
}

fn set(ids: selectors_vm::Ids) -> u128 {
    let [low, high] = ids.words();
    u128::from(high) << 64 | u128::from(low)
}

fn proved(machine: &mut Machine, load: &Load, given: &[Given]) -> Sum {
    let mut sum = Sum::default();
    for event in &load.events {
        let answer = match *event {
            Event::Start(name) => machine.start(Namespace::Html, load.name(name)),
            Event::Attributes(at) => {
                sum.waits += 1;
                machine.attributes(false, &given[at].input, &given[at].outlines)
            }
            Event::End(name) => {
                let popped = machine.end(load.name(name)).expect("no end tag is refused");
                popped.for_each(|ids| {
                    sum.popped += 1;
                    sum.add(set(ids));
                });
                continue;
            }
        };
        if let selectors_vm::Answer::Match { ids, content } = answer.expect("no tag is refused") {
            sum.contents += u64::from(content);
            sum.add(set(ids));
        }
    }
    sum
}

fn rust(judge: &mut Judge, load: &Load, given: &[Given]) -> Sum {
    let mut sum = Sum::default();
    for event in &load.events {
        let answer = match *event {
            Event::Start(name) => judge.start(0, load.name(name)),
            Event::Attributes(at) => {
                sum.waits += 1;
                judge.give(false, &given[at].prepared)
            }
            Event::End(name) => {
                judge.close(load.name(name), |ids| {
                    sum.popped += 1;
                    sum.add(ids);
                });
                continue;
            }
        };
        if let Answer::Match { ids, content } = answer {
            sum.contents += u64::from(content);
            sum.add(ids);
        }
    }
    sum
}

/// Nanoseconds that this thread has been on a processor: what other programs take of a shared machine is not in it.
fn on_processor() -> f64 {
    let text = fs::read_to_string("/proc/thread-self/schedstat").expect("Linux");
    text.split(' ')
        .next()
        .and_then(|first| first.parse().ok())
        .expect("a number")
}

/// Nanoseconds a start tag, and what the run came to. Making the machine is not timed.
fn time_proved(sheet: &[u8], load: &Load, given: &[Given]) -> (f64, Sum) {
    let mut machine = Machine::new(sheet, false).expect("a good sheet");
    let before = on_processor();
    let sum = black_box(proved(black_box(&mut machine), load, given));
    ((on_processor() - before) / load.starts as f64, sum)
}

fn time_rust(sheet: &Sheet, load: &Load, given: &[Given]) -> (f64, Sum) {
    let mut judge = Judge::new(sheet, false);
    let before = on_processor();
    let sum = black_box(rust(black_box(&mut judge), load, given));
    ((on_processor() - before) / load.starts as f64, sum)
}

/// The least and the middle of some numbers.
fn least_and_median(mut numbers: Vec<f64>) -> (f64, f64) {
    numbers.sort_by(f64::total_cmp);
    (numbers[0], numbers[numbers.len() / 2])
}

fn compare(kind: &load::Kind, runs: usize) {
    let load = Load::new(kind);
    let given = given(&load);
    let bytes = load.sheet.write();
    let (mut ours, mut theirs, mut ratios) = (vec![], vec![], vec![]);
    let mut waits = 0;
    for _ in 0..runs {
        let (a, sum) = time_proved(&bytes, &load, &given);
        let (b, wanted) = time_rust(&load.sheet, &load, &given);
        assert_eq!(sum, wanted, "both answer alike");
        waits = sum.waits;
        ours.push(a);
        theirs.push(b);
        ratios.push(a / b);
    }
    let (a, b, r) = (
        least_and_median(ours),
        least_and_median(theirs),
        least_and_median(ratios),
    );
    println!(
        "{:<22} {} nodes, {} roots, {} start tags, {} wait: proved {:.0} (median {:.0}) ns a tag, Rust {:.0} ({:.0}), ratio {:.2} ({:.2})",
        kind.name,
        load.sheet.node_count(),
        load.sheet.roots.len(),
        load.starts,
        waits,
        a.0,
        a.1,
        b.0,
        b.1,
        r.0,
        r.1
    );
}

fn one(sheet: &str, which: &str, runs: usize) {
    let kind = KINDS
        .iter()
        .find(|kind| kind.name == sheet)
        .expect("a kind of sheet");
    let load = Load::new(kind);
    let given = given(&load);
    for _ in 0..runs {
        match which {
            "proved" => drop(time_proved(&load.sheet.write(), &load, &given)),
            _ => drop(time_rust(&load.sheet, &load, &given)),
        }
    }
}

fn main() {
    let words: Vec<String> = env::args().skip(1).collect();
    let words: Vec<&str> = words.iter().map(String::as_str).collect();
    match words[..] {
        ["one", sheet, which, runs] => one(sheet, which, runs.parse().expect("a number")),
        [] => KINDS.iter().for_each(|kind| compare(kind, 15)),
        [runs] => KINDS
            .iter()
            .for_each(|kind| compare(kind, runs.parse().expect("a number"))),
        _ => panic!("bench [RUNS] | bench one SHEET proved|rust RUNS"),
    }
}
