//! Random cases through a judge and through another; stops at the first difference and makes it small.

use plain::damage::damaged;
use plain::generator::{Case, Family};
use plain::program::Lines;
use plain::shrink::shrink;
use runs::arguments::Arguments;
use runs::{Figures, Side, hex};
use std::path::PathBuf;
use std::process::exit;
use std::time::{Duration, Instant};

const USAGE: &str = "compare CASES [--program PATH] [--judge rust|guarded|plain] \
    [--family good|e10-nth|e10-names|limits|damaged] [--from NUMBER] [--ids]";

/// Questions that a difference may cost while it is made small.
const TRIES: usize = 4_000;

/// Who is compared on what.
struct Comparison {
    judge: Side,
    other: Side,
    family: Family,
    lines: Lines,
}

fn main() {
    let arguments = Arguments::read(
        USAGE,
        &["--program", "--judge", "--family", "--from"],
        &["--ids"],
    );
    let Some(count) = arguments.word(0) else {
        arguments.fail();
    };
    let count = arguments.number(Some(count), 0);
    let from = arguments.number(arguments.option("--from"), 1);
    let comparison = Comparison::read(&arguments);
    if !comparison.run(from, count) {
        exit(1);
    }
}

impl Comparison {
    fn read(arguments: &Arguments) -> Self {
        let family = arguments.family();
        let judge = match arguments.option("--judge") {
            None if family == Family::Limits => Side::Guarded,
            None if family == Family::Damaged => Side::Plain,
            None | Some("rust") => Side::Rust,
            Some("guarded") => Side::Guarded,
            Some("plain") => Side::Plain,
            Some(_) => arguments.fail(),
        };
        let other = match arguments.option("--program") {
            Some(path) => Side::Program(PathBuf::from(path)),
            // Damaged inputs are judged by the plain model alone: without a program there is nothing to compare.
            None if family == Family::Damaged => arguments.fail(),
            None => Side::Plain,
        };
        let lines = match (arguments.option("--ids"), &other) {
            (None, _) => Lines::Program,
            (Some(_), Side::Program(_)) => arguments.fail(),
            (Some(_), _) => Lines::WithIdSets,
        };
        Self {
            judge,
            other,
            family,
            lines,
        }
    }

    /// Whether all these cases agree.
    fn run(&self, from: u64, count: u64) -> bool {
        let mut figures = Figures::default();
        let mut times = [Duration::ZERO; 2];
        for number in from..from + count {
            let input = match self.family {
                Family::Damaged => damaged(number),
                family => Case::random(number, family).bytes(),
            };
            let [expected, found] = self.answers(&input, &mut times);
            figures.add(&expected);
            if expected != found {
                println!("{figures}\ncase {number} differs");
                self.show_difference(number, input);
                return false;
            }
        }
        let [judge, other] = times.map(|time| time.as_secs_f64());
        let names = [self.judge.name(), self.other.name()];
        println!("{figures}");
        println!(
            "no difference; {} took {judge:.1} seconds, {} {other:.1}",
            names[0], names[1]
        );
        true
    }

    fn answers(&self, input: &[u8], times: &mut [Duration; 2]) -> [String; 2] {
        let mut times = times.iter_mut();
        [&self.judge, &self.other].map(|side| {
            let begin = Instant::now();
            let output = side.answer(input, self.lines);
            *times.next().expect("one for each side") += begin.elapsed();
            output
        })
    }

    /// Shows both outputs, of a smaller case where the family has cases to make small.
    fn show_difference(&self, number: u64, input: Vec<u8>) {
        let input = match self.family {
            Family::Damaged => input,
            family => self.made_small(Case::random(number, family)).bytes(),
        };
        let hex = hex::write(&input);
        println!("sheet and trace, {} bytes: {hex}", input.len());
        for side in [&self.judge, &self.other] {
            print!("{}:\n{}", side.name(), side.answer(&input, self.lines));
        }
    }

    /// A small case that still differs; a good case does not become one of E10 on the way.
    fn made_small(&self, case: Case) -> Case {
        let small = shrink(case, TRIES, |case| {
            let [expected, found] = self.answers(&case.bytes(), &mut [Duration::ZERO; 2]);
            (self.family != Family::Good || !case.is_e10()) && expected != found
        });
        print!("made small:\n{small}");
        small
    }
}
