//! The longest calls that were found (docs/SHAPE.md, "Bound on the work of one call"): the attributes of one tag, on good sheets and on
//! a damaged instruction store. Prints the processor's seconds of each call.
//!
//!     cargo run --release --offline --example worst_case [ROWS]
//!
//! ROWS is how many rows of the damaged stores name the dearest record (1,024 unless given). The tests that one call goes over take no
//! more bytes than the sheet has, so these stores cost no more than a good sheet.
use selectors_vm::calls::{self, Told};
use std::fs;

const ROWS: usize = 1024;
const MARK: u32 = 1_383_429_737;
const TAG: [u8; 63] = [b'a'; 63];

fn sized(body: &[u8]) -> Vec<u8> {
    let length = (body.len() as u16).to_be_bytes();
    [&length, body].concat()
}

/// A negated test that scans all of `v`'s value and finds nothing, so that the next test is read too.
fn substring(operand: &[u8]) -> Vec<u8> {
    sized(&[&[25, 1, 2, 1, b'v'], operand].concat())
}

/// A negated test of a name that differs in its last byte.
fn other_name() -> Vec<u8> {
    let mut name = TAG;
    name[62] = b'b';
    sized(&[&[3, 1], &name[..]].concat())
}

/// A node without ids or trees.
fn node(tag_tests: &[Vec<u8>], attribute_tests: &[Vec<u8>]) -> Vec<u8> {
    let counts = [
        0,
        tag_tests.len() as u8,
        attribute_tests.len() as u8,
        0,
        0,
        0,
        0,
    ];
    sized(&[&counts, &tag_tests.concat()[..], &attribute_tests.concat()].concat())
}

/// So many nodes and roots announced, whatever stands behind.
fn sheet(count: usize, records: &[u8]) -> Vec<u8> {
    let count = (count as u16).to_be_bytes();
    let length = (9 + records.len() as u32).to_be_bytes();
    [&[1], &length[..], &count, &count, records].concat()
}

struct Stores {
    program: Vec<u32>,
    rows: Vec<u32>,
    names: Vec<u8>,
    ids: Vec<u64>,
    nodes: Vec<u16>,
}

impl Stores {
    fn new() -> Self {
        Self {
            program: vec![0; calls::PLACE * ROWS],
            rows: vec![0; calls::ROWS],
            names: vec![0; calls::NAMES],
            ids: vec![0; calls::IDS],
            nodes: vec![0; calls::NODES],
        }
    }

    /// A machine of a good sheet.
    fn made(sheet: &[u8]) -> Self {
        let mut s = Self::new();
        let told = calls::fresh(
            sheet,
            &mut s.program,
            &mut s.rows,
            &s.names,
            &s.ids,
            &s.nodes,
            0,
        );
        assert_eq!(told.kind, 1, "a good sheet: {told:?}");
        s
    }

    /// A header that passes the shape rules, and rows that all name the sheet's first record.
    fn damaged(sheet: &[u8], tag_tests: u32, attribute_tests: u32) -> Self {
        let mut s = Self::new();
        s.rows[12] = MARK;
        s.rows[13] = sheet.len() as u32;
        for row in s.program.chunks_mut(calls::PLACE) {
            // Its record's place, its first test's place, its numbers of tests.
            row[..3].copy_from_slice(&[9, 18, 256 * tag_tests + attribute_tests]);
        }
        s
    }

    fn start(&mut self, sheet: &[u8]) -> Told {
        let (names, ids, nodes) = (&mut self.names, &mut self.ids, &mut self.nodes);
        calls::start(
            sheet,
            &self.program,
            &mut self.rows,
            names,
            ids,
            nodes,
            0,
            &TAG,
        )
    }

    fn attributes(&mut self, sheet: &[u8], input: &[u8], outlines: &[u32]) -> Told {
        let (names, ids, nodes) = (&mut self.names, &mut self.ids, &mut self.nodes);
        calls::attributes(
            sheet,
            &self.program,
            &mut self.rows,
            names,
            ids,
            nodes,
            0,
            input,
            outlines,
        )
    }
}

/// 255 attributes `w` without a value, then `v` with a value of 65,000 letters.
fn attributes() -> (Vec<u8>, Vec<u32>) {
    let mut input = b"wv".to_vec();
    input.resize(65_002, b'a');
    let mut outlines = [0, 1, 0, 0].repeat(255);
    outlines.extend([1, 2, 2, 65_002]);
    (input, outlines)
}

/// Seconds that this thread has been on a processor.
fn seconds() -> f64 {
    let text = fs::read_to_string("/proc/thread-self/schedstat").expect("Linux");
    let first = text.split(' ').next().expect("a number");
    first.parse::<f64>().expect("a number") / 1e9
}

fn run(what: &str, sheet: &[u8], mut stores: Stores) {
    let (input, outlines) = attributes();
    let told = stores.start(sheet);
    assert_eq!(told.kind, 3, "it waits: {told:?}");
    let before = seconds();
    let told = stores.attributes(sheet, &input, &outlines);
    println!(
        "{what}: {:.2} s (kind {}, refusal {})",
        seconds() - before,
        told.kind,
        told.refusal
    );
}

fn main() {
    let rows = std::env::args()
        .nth(1)
        .map_or(ROWS, |rows| rows.parse().expect("a number"));
    let six = node(&[], &vec![substring(b"aab"); 6]);
    let count = (65_536 - 9) / six.len();
    let good = sheet(count, &six.repeat(count));
    run(
        &format!("good sheet, {count} nodes of 6 short operands"),
        &good,
        Stores::made(&good),
    );

    let long = node(
        &[],
        &vec![substring(&[&[b'a'; 32_000][..], b"b"].concat()); 2],
    );
    let good = sheet(1, &long);
    run(
        "good sheet, 1 node of 2 operands of 32,001 bytes",
        &good,
        Stores::made(&good),
    );

    let most = node(&vec![other_name(); 255], &vec![substring(b"aab"); 255]);
    let damaged = sheet(rows, &most);
    let stores = Stores::damaged(&damaged, 255, 255);
    run(
        &format!("damaged, {rows} rows of 255 + 255 tests with short operands"),
        &damaged,
        stores,
    );

    let damaged = sheet(rows, &long);
    let stores = Stores::damaged(&damaged, 0, 2);
    run(
        &format!("damaged, {rows} rows of 2 operands of 32,001 bytes"),
        &damaged,
        stores,
    );
}
