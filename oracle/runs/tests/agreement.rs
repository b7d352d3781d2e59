//! The Rust and the plain model on random cases, and the two programs on section 8's example.

use judge::{Instruction, compiled};
use plain::program::Lines;
use plain::rules::E10;
use plain::sheet::{Node, Sheet, TagTest, Test};
use plain::{Case, Family};
use runs::{Side, hex};
use std::path::PathBuf;

fn agree(sides: [Side; 2], family: Family, cases: u64) {
    for number in 1..=cases {
        let input = Case::random(number, family).bytes();
        let [a, b] = sides
            .each_ref()
            .map(|s| s.answer(&input, Lines::WithIdSets));
        assert_eq!(a, b, "case {number}");
    }
}

#[test]
fn good_cases() {
    agree([Side::Rust, Side::Plain], Family::Good, 300);
}

#[test]
fn limits_with_the_models_refusals() {
    agree([Side::Guarded, Side::Plain], Family::Limits, 20);
}

#[test]
fn e10_is_exactly_as_stated() {
    for (family, nth, names) in [
        (Family::E10Nth, true, false),
        (Family::E10Names, false, true),
    ] {
        let like_rust = Side::LikeRust(E10 { nth, names });
        agree([Side::Rust, like_rust], family, 200);
        let differ = (1..=200).any(|number| {
            let input = Case::random(number, family).bytes();
            let [rust, plain] = [Side::Rust, Side::Plain].map(|s| s.answer(&input, Lines::Program));
            rust != plain
        });
        assert!(differ);
    }
}

#[test]
fn p4_is_where_the_rust_differs() {
    let input = "010000001f0001000100140100010000000000000a04000000000180000000010003010061";
    let input = hex::read(input).unwrap();
    assert_eq!(Side::Rust.answer(&input, Lines::Program), "match content\n");
    assert_eq!(
        Side::Plain.answer(&input, Lines::Program),
        "match 0 content\n"
    );
}

#[test]
fn p10_addresses() {
    let node = |id, children, descendants| Node {
        ids: vec![id],
        tag_tests: vec![Test {
            negated: false,
            kind: TagTest::Any,
        }],
        attribute_tests: vec![],
        children,
        descendants,
    };
    let [a, b, c, f, g] = [0, 1, 2, 3, 4];
    let c = node(c, vec![], vec![node(f, vec![], vec![])]);
    let a = node(a, vec![c], vec![node(g, vec![], vec![])]);
    let sheet = Sheet {
        roots: vec![a, node(b, vec![], vec![])],
    };
    let expected = [
        (Some(2..3), Some(4..5)),
        (None, None),
        (None, Some(3..4)),
        (None, None),
        (None, None),
    ];
    let expected = expected.into_iter().enumerate();
    let expected: Vec<Instruction> = expected
        .map(|(address, (children, descendants))| Instruction {
            ids: 1 << address,
            children,
            descendants,
        })
        .collect();
    assert_eq!(compiled(&sheet), expected);
}

#[test]
fn both_programs_write_the_example() {
    let input = "010000001800010001000d01030100000000000003030070\
        0100050100646976000301007000040364697600020370";
    let input = hex::read(input).unwrap();
    for path in [env!("CARGO_BIN_EXE_rust"), env!("CARGO_BIN_EXE_plain")] {
        let side = Side::Program(PathBuf::from(path));
        let expected = "match content\nmatch 3 content\npop 2\npop 0\n";
        assert_eq!(side.answer(&input, Lines::Program), expected);
        assert_eq!(side.answer(b"", Lines::Program), "sheet refused 1 at 0\n");
    }
}

#[test]
fn a_program_that_fails_is_told_from_one_that_writes_nothing() {
    let side = Side::Program(PathBuf::from("/bin/false"));
    assert!(side.answer(b"", Lines::Program).starts_with("ended with"));
}
