//! The steps of data/steps: every refusal, each limit at and past its bound, each answer as it was wanted.
//!
//! A line is a letter, then numbers and at most one name. `n` an empty sheet; `b` so many bytes behind it, the other
//! numbers again and again; `h` its header with nodes and roots; `k` its length; `y` one byte of it; `r` a word of the rows;
//! `o` one of the outlines; `m` how much of each store is lent; `f s a e i` the calls; `w` and `.` do nothing here. The numbers of a
//! call: the answer wanted, how often, flag or namespace, bytes of input, words of outlines.
mod common;

use common::{number_of, Call, Counts, Host, Inputs, Stores};

const STEPS: &[u8] = include_bytes!("data/steps");

/// What a line says.
struct Line<'a> {
    kind: u8,
    numbers: Vec<u32>,
    name: Option<&'a [u8]>,
}

fn line(text: &[u8]) -> Line<'_> {
    let mut numbers = Vec::new();
    let mut name = None;
    for word in text[1..]
        .split(|&byte| byte == b' ')
        .filter(|word| !word.is_empty())
    {
        match std::str::from_utf8(word)
            .ok()
            .and_then(|word| word.parse().ok())
        {
            Some(number) => numbers.push(number),
            None => assert!(name.replace(word).is_none(), "one name a line"),
        }
    }
    Line {
        kind: text[0],
        numbers,
        name,
    }
}

/// The input that attributes are cut from is the file itself, with letters behind it.
fn first() -> Host {
    let mut input = STEPS.to_vec();
    input.resize(65537, b'a');
    let stores = Stores {
        program: vec![0; 16384],
        rows: vec![0; 16384],
        names: vec![b'a'; 65537],
        ids: vec![0; 1200],
        nodes: vec![0; 6200],
        popped: vec![0; 1200],
    };
    let inputs = Inputs {
        sheet: vec![b'a'; 65537],
        input,
        outlines: vec![0; 16384],
    };
    Host::new(stores, inputs)
}

fn header(sheet: &mut [u8], length: usize, nodes: u32, roots: u32) {
    sheet[0] = 1;
    sheet[1..5].copy_from_slice(&(length as u32).to_be_bytes());
    sheet[5..7].copy_from_slice(&(nodes as u16).to_be_bytes());
    sheet[7..9].copy_from_slice(&(roots as u16).to_be_bytes());
}

fn lend(host: &mut Host, numbers: &[u32]) {
    let [program, rows, names, ids, nodes, popped] = numbers else {
        panic!("six stores");
    };
    host.lent.program = *program as usize;
    host.lent.rows = *rows as usize;
    host.lent.names = *names as usize;
    host.lent.ids = *ids as usize;
    host.lent.nodes = *nodes as usize;
    host.lent.popped = *popped as usize;
}

fn set_up(host: &mut Host, line: &Line<'_>) {
    let numbers = &line.numbers;
    let length = host.lent.sheet;
    match line.kind {
        b'n' => host.lent.sheet = 9,
        b'b' => {
            let count = numbers[0] as usize;
            for i in 0..count {
                host.inputs.sheet[length + i] = numbers[1 + i % (numbers.len() - 1)] as u8;
            }
            host.lent.sheet += count;
        }
        b'h' => header(&mut host.inputs.sheet, length, numbers[0], numbers[1]),
        b'k' => host.lent.sheet = numbers[0] as usize,
        b'y' => host.inputs.sheet[numbers[0] as usize] = numbers[1] as u8,
        b'r' => host.stores.rows[numbers[0] as usize] = numbers[1],
        b'o' => host.inputs.outlines[numbers[0] as usize] = numbers[1],
        b'm' => lend(host, numbers),
        b'#' | b'w' | b'.' => {}
        kind => panic!("no such line: {}", char::from(kind)),
    }
    host.inputs_changed();
    host.stores_changed();
}

/// The call of a line; a line without a name takes one of two letters for each call.
fn call<'a>(kind: u8, word: u32, name: &'a [u8]) -> Call<'a> {
    match kind {
        b'f' => Call::Fresh { esi: word },
        b's' => Call::Start {
            namespace: word,
            name,
        },
        b'a' => Call::Attributes { self_closing: word },
        b'e' => Call::End { name },
        _ => Call::IdSet,
    }
}

#[test]
fn every_answer_is_the_one_wanted() {
    let mut host = first();
    let mut counts = Counts::none();
    for (at, text) in STEPS.split(|&byte| byte == b'\n').enumerate() {
        if text.is_empty() {
            continue;
        }
        let line = if text[0] == b'#' {
            Line {
                kind: b'#',
                numbers: Vec::new(),
                name: None,
            }
        } else {
            line(text)
        };
        if !b"fsaei".contains(&line.kind) {
            set_up(&mut host, &line);
            continue;
        }
        let [wanted, times, word, input, outlines] = line.numbers[..] else {
            panic!("line {}: five numbers", at + 1);
        };
        host.lent.input = input as usize;
        host.lent.outlines = outlines as usize;
        for _ in 0..times {
            let label = counts.total();
            let letters = [b'a' + (label % 26) as u8, b'a' + (label / 26 % 26) as u8];
            let name = line.name.unwrap_or(&letters);
            let number = number_of(host.call(call(line.kind, word, name)));
            assert_eq!(
                number,
                wanted,
                "line {}: {}",
                at + 1,
                String::from_utf8_lossy(text)
            );
            counts.add(number);
        }
    }
    assert_eq!(
        counts.refusals_missing(),
        [0; 0],
        "refusals that no step shows"
    );
    // Calls for each answer: a step that is lost shows.
    let mut wanted = Counts::none();
    for (number, count) in [
        (13, 2),
        (20, 2),
        (22, 2),
        (23, 2),
        (24, 10),
        (25, 2),
        (26, 6),
        (27, 5),
    ] {
        wanted.0[number] = count;
    }
    for (number, count) in [
        (28, 4),
        (29, 1),
        (30, 43),
        (31, 20),
        (40, 1027),
        (41, 687),
        (42, 1029),
    ] {
        wanted.0[number] = count;
    }
    for (number, count) in [
        (43, 2),
        (44, 10),
        (45, 13),
        (46, 1),
        (47, 14),
        (15, 1),
        (21, 1),
    ] {
        wanted.0[number] = count;
    }
    wanted.0[1..=12].fill(1);
    assert_eq!(counts, wanted);
}
