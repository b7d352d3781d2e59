//! Section 8: the program, over any machine.

use crate::machine::{Answer, Ids, Machine, Outlined, listed};
use crate::sheet::{MAX_BYTES, Refusal, Sheet};
use crate::trace::Record;
use std::io::{Read, Write, stdin, stdout};

/// Room for the popped ids of every element that can be open, and more.
const ROOM: usize = 1 << 24;

/// What is written: the lines of section 8, or these and the id sets behind them.
#[derive(Clone, Copy, Debug, Eq, PartialEq)]
pub enum Lines {
    Program,
    /// Also, indented: each popped element's ids in opening order, and the top element's after every call.
    WithIdSets,
}

/// Splits standard input into the sheet's bytes and the trace's.
pub fn split(input: &[u8]) -> (&[u8], &[u8]) {
    let said = match input {
        [_, a, b, c, d, ..] => u32::from_be_bytes([*a, *b, *c, *d]) as usize,
        _ => input.len(),
    };
    input.split_at(said.min(MAX_BYTES).min(input.len()))
}

fn list(ids: Ids) -> String {
    listed(ids).map(|id| format!(" {id}")).collect()
}

fn line(answer: &Answer) -> String {
    match answer {
        Answer::Match { ids, content } => {
            let flag = if *content { "content" } else { "void" };
            format!("match{} {flag}\n", list(*ids))
        }
        Answer::Attributes => "attrs\n".to_owned(),
        Answer::Popped(popped) => format!("pop {}\n", popped.len()),
        Answer::Refused(number) => format!("refused {number}\n"),
    }
}

/// Calls the machine as the record says.
pub fn call(machine: &mut dyn Machine, record: &Record) -> Answer {
    match record {
        Record::Start { namespace, name } => machine.start(*namespace, name),
        Record::Attributes {
            self_closing,
            attributes,
        } => {
            let mut input = Vec::new();
            let mut outlines = Vec::new();
            for piece in attributes.iter().flat_map(|(name, value)| [name, value]) {
                outlines.push(input.len());
                input.extend(piece);
                outlines.push(input.len());
            }
            let attributes = Outlined {
                input: &input,
                outlines: &outlines,
            };
            machine.attributes(*self_closing, attributes)
        }
        Record::End { name } => machine.end(name, ROOM),
    }
}

/// All that the program writes for this input, with a machine made from a good sheet by `make`.
pub fn run<M: Machine>(input: &[u8], lines: Lines, make: impl FnOnce(&Sheet) -> M) -> String {
    let (sheet, trace) = split(input);
    match Sheet::read(sheet) {
        Ok(sheet) => run_trace(trace, lines, &mut make(&sheet)),
        Err(Refusal { number, place }) => format!("sheet refused {number} at {place}\n"),
    }
}

fn run_trace(trace: &[u8], lines: Lines, machine: &mut dyn Machine) -> String {
    let mut out = String::new();
    let Some((1, mut rest)) = trace.split_first() else {
        return "bad trace at 0\n".to_owned();
    };
    while !rest.is_empty() {
        let place = trace.len() - rest.len();
        let Some(record) = Record::read(&mut rest) else {
            out += &format!("bad trace at {place}\n");
            return out;
        };
        let answer = call(machine, &record);
        out += &line(&answer);
        if lines == Lines::WithIdSets {
            if let Answer::Popped(popped) = answer {
                for ids in popped {
                    out += &format!("  popped{}\n", list(ids));
                }
            }
            out += &match machine.top() {
                Some(ids) => format!("  top{}\n", list(ids)),
                None => "  nothing open\n".to_owned(),
            };
        }
    }
    out
}

/// The whole program on standard input and output; `--ids` asks for the id sets.
pub fn main<M: Machine>(make: impl FnOnce(&Sheet) -> M) {
    let lines = match std::env::args().nth(1).as_deref() {
        None => Lines::Program,
        Some("--ids") => Lines::WithIdSets,
        Some(other) => {
            eprintln!("unknown argument {other}; the one argument is --ids");
            std::process::exit(2);
        }
    };
    let mut input = Vec::new();
    stdin().read_to_end(&mut input).expect("standard input");
    stdout()
        .write_all(run(&input, lines, make).as_bytes())
        .expect("standard output");
}
