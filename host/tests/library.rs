//! The outside vectors of library calls (data/library, written by tools/library_lines): each answer, and that a refused call
//! changes nothing.
mod common;

use common::{Call, Host, Inputs, Stores};
use selectors_vm::calls::{self, Told};
use selectors_vm::Ids;

const RUNS: &str = include_str!("data/library");

fn bytes(hexadecimal: &str) -> Vec<u8> {
    let digits = if hexadecimal == "-" { "" } else { hexadecimal };
    let pairs = digits.as_bytes().chunks(2);
    let byte = |pair| u8::from_str_radix(std::str::from_utf8(pair).unwrap(), 16).unwrap();
    pairs.map(byte).collect()
}

fn number(word: &str) -> u32 {
    word.parse().unwrap()
}

fn joined(ids: Ids) -> String {
    let list: Vec<_> = ids.iter().map(|id| id.to_string()).collect();
    if list.is_empty() {
        return "-".into();
    }
    list.join(",")
}

fn first() -> Host {
    let stores = Stores {
        program: vec![7; 9000],
        rows: vec![7; calls::ROWS + 9],
        names: vec![7; calls::NAMES + 9],
        ids: vec![7; calls::IDS + 9],
        nodes: vec![7; calls::NODES + 9],
        popped: vec![7; 1200],
    };
    let inputs = Inputs {
        sheet: vec![0; 65537],
        input: vec![0; 65537],
        outlines: vec![0; 2000],
    };
    Host::new(stores, inputs)
}

/// The answer in the words of a line.
fn said(host: &Host, told: Told, making: bool) -> String {
    let ids = Ids::from_words([told.low, told.high]);
    match told.kind {
        0 if making => format!("refused {} {}", told.refusal, told.value),
        0 => format!("refused {}", told.refusal),
        1 => "made".into(),
        2 => {
            let content = if told.value == 0 { "void" } else { "content" };
            format!("match {content} {}", joined(ids))
        }
        3 => "waits".into(),
        4 => {
            let words = host.stores.popped[..2 * told.value as usize].chunks(2);
            let sets = words.map(|two| joined(Ids::from_words([two[0], two[1]])));
            ["pop".into()]
                .into_iter()
                .chain(sets)
                .collect::<Vec<_>>()
                .join(" ")
        }
        5 => format!("ids {}", joined(ids)),
        _ => "nothing".into(),
    }
}

fn lend_sheet(host: &mut Host, places: &str, sheet: &str) {
    let sheet = bytes(sheet);
    host.inputs.sheet[..sheet.len()].copy_from_slice(&sheet);
    host.lent.sheet = sheet.len();
    host.lent.program = calls::PLACE * number(places) as usize;
}

fn lend_attributes(host: &mut Host, input: &str, outlines: &str) {
    let input = bytes(input);
    host.inputs.input[..input.len()].copy_from_slice(&input);
    host.lent.input = input.len();
    let numbers = outlines.split(',').filter(|word| *word != "-").map(number);
    host.lent.outlines = 0;
    for number in numbers {
        host.inputs.outlines[host.lent.outlines] = number;
        host.lent.outlines += 1;
    }
}

fn answered(host: &mut Host, call: &str) -> String {
    let words: Vec<_> = call.split(' ').collect();
    let name = bytes(words.get(2).filter(|_| words[0] != "make").unwrap_or(&"-"));
    let call = match words[..] {
        ["make", esi, places, sheet] => {
            lend_sheet(host, places, sheet);
            Call::Fresh { esi: number(esi) }
        }
        ["start", namespace, _] => Call::Start {
            namespace: number(namespace),
            name: &name,
        },
        ["attributes", self_closing, input, outlines] => {
            lend_attributes(host, input, outlines);
            Call::Attributes {
                self_closing: number(self_closing),
            }
        }
        ["end", room, _] => {
            host.lent.popped = number(room) as usize;
            Call::End { name: &name }
        }
        _ => Call::IdSet,
    };
    host.inputs_changed();
    let told = host.call(call);
    said(host, told, words[0] == "make")
}

#[test]
fn every_answer_is_that_of_the_vectors() {
    let mut host = first();
    let mut calls = 0;
    for (at, line) in RUNS
        .lines()
        .enumerate()
        .filter(|(_, line)| !line.is_empty())
    {
        let (call, answer) = line.split_once(" : ").expect("a call and its answer");
        assert_eq!(answered(&mut host, call), answer, "line {}", at + 1);
        calls += 1;
    }
    assert_eq!(calls, 409, "a call that is lost shows");
}
