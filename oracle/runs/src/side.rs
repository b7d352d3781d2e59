//! Who answers a case: the Rust, the plain model, a wrong model, or a program.

use judge::{Guarded, Judge};
use plain::program::{Lines, run};
use plain::rules::{E10, Rules};
use plain::{Fault, Model};
use std::io::Write;
use std::path::PathBuf;
use std::process::{Command, Stdio};

#[derive(Clone, Debug)]
pub enum Side {
    Rust,
    /// The Rust, called only where the plain model does not refuse.
    Guarded,
    Plain,
    Wrong(Fault),
    /// The plain model with some of E10 as in the Rust.
    LikeRust(E10),
    /// A program of section 8; it knows nothing of id sets.
    Program(PathBuf),
}

impl Side {
    pub fn name(&self) -> String {
        match self {
            Self::Rust => "the Rust".to_owned(),
            Self::Guarded => "the Rust behind the plain model's refusals".to_owned(),
            Self::Plain => "the plain model".to_owned(),
            Self::Wrong(fault) => format!("a model in which {}", fault.words()),
            Self::LikeRust(e10) => format!("the plain model with {e10:?}"),
            Self::Program(path) => path.display().to_string(),
        }
    }

    /// All that this side writes for the input.
    pub fn answer(&self, input: &[u8], lines: Lines) -> String {
        match self {
            Self::Rust => run(input, lines, |sheet| Judge::new(sheet, false)),
            Self::Guarded => run(input, lines, |sheet| Guarded::new(sheet, false)),
            Self::Plain => run(input, lines, Model::new),
            Self::Wrong(fault) => run(input, lines, |sheet| Model::with_fault(sheet, *fault)),
            Self::LikeRust(e10) => {
                let rules = Rules {
                    e10: *e10,
                    ..Rules::default()
                };
                run(input, lines, |sheet| Model::with(sheet, rules))
            }
            Self::Program(path) => run_program(path, input),
        }
    }
}

/// What the program writes; how it ended is added when that was not well.
fn run_program(path: &PathBuf, input: &[u8]) -> String {
    let mut child = Command::new(path)
        .stdin(Stdio::piped())
        .stdout(Stdio::piped())
        .spawn()
        .unwrap_or_else(|e| panic!("{} does not start: {e}", path.display()));
    let mut stdin = child.stdin.take().expect("piped");
    let output = std::thread::scope(|scope| {
        // A program may stop before it has read all: that is no error of ours.
        scope.spawn(move || drop(stdin.write_all(input)));
        child.wait_with_output().expect("the program's output")
    });
    let mut text = String::from_utf8_lossy(&output.stdout).into_owned();
    if !output.status.success() {
        text += &format!("ended with {}\n", output.status);
    }
    text
}
