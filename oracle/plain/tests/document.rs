//! The marked examples and the refusals of document 01, on the plain model.

use plain::machine::{Answer, Machine, Outlined};
use plain::program::{Lines, run};
use plain::rules::Rules;
use plain::sheet::{AttributeTest, Comparison, Node, Nth, Operator, Refusal, Sheet, TagTest, Test};
use plain::{Model, Record};

const EXAMPLE: &[u8] = b"\x01\x00\x00\x00\x18\x00\x01\x00\x01\x00\x0d\x01\x03\x01\x00\x00\x00\x00\x00\x00\x03\x03\x00p\
    \x01\x00\x05\x01\x00div\x00\x03\x01\x00p\x00\x04\x03div\x00\x02\x03p";

fn program(input: &[u8]) -> String {
    run(input, Lines::Program, Model::new)
}

fn tag(kind: TagTest) -> Node {
    let negated = false;
    Node {
        ids: vec![0],
        tag_tests: vec![Test { negated, kind }],
        ..Node::default()
    }
}

fn nth_holds(step: i32, offset: i32, index: i64) -> bool {
    Rules::default().nth_holds(Nth { step, offset }, index)
}

fn compares(operator: Operator, case: u8, operand: &str, namespace: u8, value: &str) -> bool {
    let test = AttributeTest::Comparison(Comparison {
        operator,
        case,
        name: b"V".to_vec(),
        value: operand.as_bytes().to_vec(),
    });
    let input = [b"v", value.as_bytes()].concat();
    let tag = Outlined {
        input: &input,
        outlines: &[0, 1, 1, input.len()],
    };
    Rules::default().attribute_holds(&test, namespace, tag)
}

fn refusal(bytes: &[u8]) -> (u8, usize) {
    let Refusal { number, place } = Sheet::read(bytes).expect_err("a bad sheet");
    (number, place)
}

/// A sheet of one root whose record body is given, its length fields right.
fn sheet_of(record: &[u8]) -> Vec<u8> {
    let length = 11 + record.len() as u8;
    let mut bytes = vec![1, 0, 0, 0, length, 0, 1, 0, 1, 0, record.len() as u8];
    bytes.extend(record);
    bytes
}

#[test]
fn the_whole_example_of_section_8() {
    assert_eq!(
        program(EXAMPLE),
        "match content\nmatch 3 content\npop 2\npop 0\n"
    );
    let with_ids = run(EXAMPLE, Lines::WithIdSets, Model::new);
    assert!(with_ids.contains("pop 2\n  popped\n  popped 3\n  nothing open\n"));
}

#[test]
fn p1_to_p4_nth() {
    assert_eq!(
        [1, 2, 3, 4, 5].map(|i| nth_holds(2, 1, i)),
        [true, false, true, false, true]
    );
    assert_eq!([1, 3, 4].map(|i| nth_holds(-1, 3, i)), [true, true, false]);
    assert!(!nth_holds(0, 0, 1));
    assert!(nth_holds(1, i32::MIN, 1));
}

#[test]
fn p5_to_p9_attributes() {
    use Operator::*;
    assert!(compares(Prefix, 0, "", 0, "a") && !compares(Prefix, 0, "", 0, ""));
    assert!(compares(Includes, 0, "", 0, "a  b") && compares(Includes, 0, "", 0, ""));
    assert!(!compares(Includes, 0, "", 0, "a b"));
    assert!(compares(Dash, 0, "en", 0, "en") && compares(Dash, 0, "en", 0, "en-US"));
    assert!(!compares(Dash, 0, "en", 0, "english"));
    assert!(!compares(Substring, 0, "", 0, "a"));
    assert!(compares(Suffix, 2, ".HTML", 0, "x.html"));
    assert!(!compares(Suffix, 0, ".HTML", 0, "x.html"));
    assert!(compares(Equal, 3, "A", 0, "a") && !compares(Equal, 3, "A", 1, "a"));
}

#[test]
fn p11_and_p12_the_stack() {
    let mut div = tag(TagTest::LocalName(b"div".to_vec()));
    let mut p = tag(TagTest::LocalName(b"p".to_vec()));
    p.ids = vec![1];
    div.children.push(p);
    let mut model = Model::new(&Sheet { roots: vec![div] });
    let matched = |ids| Answer::Match { ids, content: true };
    assert_eq!(model.start(0, b"DIV"), matched(1));
    assert_eq!(model.start(0, b"p"), matched(2));
    assert_eq!(model.end(b"p", 2), Answer::Popped(vec![2]));
    assert_eq!(model.start(0, b"span"), matched(0));
    assert_eq!(model.end(b"p", 0), Answer::Popped(vec![]));
    assert_eq!(model.start(0, b"p"), matched(0));
    assert_eq!(model.end(b"div", 5), Answer::Refused(29));
    assert_eq!(model.end(b"div", 6), Answer::Popped(vec![1, 0, 0]));
    assert_eq!(model.top(), None);
}

#[test]
fn the_limits_of_names_and_of_open_elements() {
    let mut model = Model::new(&Sheet::default());
    assert_eq!(model.start(0, &[b'a'; 64]), Answer::Refused(20));
    for _ in 0..256 {
        assert!(matches!(model.start(0, &[b'a'; 63]), Answer::Match { .. }));
    }
    assert_eq!(model.start(0, b"a"), Answer::Refused(27));
    assert!(matches!(model.start(0, b"br"), Answer::Match { .. }));
    assert_eq!(model.start(3, b"a"), Answer::Refused(21));
}

#[test]
fn waiting_shuts_the_other_calls_out() {
    let none = Outlined {
        input: b"",
        outlines: &[],
    };
    let mut model = Model::new(&Sheet::default());
    assert_eq!(model.attributes(false, none), Answer::Refused(23));
    assert_eq!(model.start(1, b"svg"), Answer::Attributes);
    assert_eq!(model.start(0, b""), Answer::Refused(22));
    assert_eq!(model.end(b"", 0), Answer::Refused(22));
    for outlines in [&[0, 0, 0][..], &[1, 0, 0, 0], &[0, 0, 0, 1]] {
        let bad = Outlined {
            input: b"",
            outlines,
        };
        assert_eq!(model.attributes(false, bad), Answer::Refused(24));
    }
    let content = false;
    let ids = 0;
    assert_eq!(model.attributes(true, none), Answer::Match { ids, content });
}

#[test]
fn each_sheet_refusal_at_its_place() {
    let good = &EXAMPLE[..24];
    assert!(Sheet::read(good).is_ok());
    assert!(Sheet::read(b"\x01\x00\x00\x00\x09\x00\x00\x00\x00").is_ok());
    let changed = |at: usize, byte: u8| {
        let mut bytes = good.to_vec();
        bytes[at] = byte;
        refusal(&bytes)
    };
    assert_eq!(refusal(&good[..8]), (1, 0));
    assert_eq!(refusal(&vec![1; 65_537]), (2, 0));
    assert_eq!(changed(0, 2), (3, 0));
    assert_eq!(changed(4, 0x19), (4, 0));
    assert_eq!(changed(5, 5), (5, 0));
    assert_eq!(changed(6, 0), (7, 9));
    assert_eq!(changed(10, 0x0e), (8, 9));
    assert_eq!(changed(12, 128), (9, 9));
    assert_eq!(changed(13, 0), (10, 9));
    assert_eq!(changed(21, 16), (11, 19));
    assert_eq!(changed(22, 2), (12, 19));
    assert_eq!(changed(6, 2), (13, 24));
    assert_eq!(refusal(&sheet_of(&[0, 0, 0])), (10, 9));
    assert_eq!(refusal(&sheet_of(&[2, 5, 5, 1, 0, 0, 0, 0, 0])), (9, 9));
    assert_eq!(
        refusal(&sheet_of(&[0, 1, 0, 0, 0, 0, 0, 0, 1, 3])),
        (12, 18)
    );
    assert_eq!(
        refusal(&sheet_of(&[0, 1, 0, 0, 0, 0, 0, 0, 2, 1, 0, 9])),
        (8, 9)
    );
}

#[test]
fn a_node_deeper_than_32_is_refused_at_its_record() {
    let mut node = tag(TagTest::Any);
    for _ in 0..32 {
        let mut parent = tag(TagTest::Any);
        parent.children.push(node);
        node = parent;
    }
    let roots = vec![node];
    let bytes = Sheet { roots }.write();
    let record = (bytes.len() - 9) / 33;
    assert_eq!(refusal(&bytes), (6, 9 + 32 * record));
}

#[test]
fn traces_good_and_faulty() {
    let sheet = b"\x01\x00\x00\x00\x09\x00\x00\x00\x00";
    let out = |trace: &[u8]| program(&[sheet, trace].concat());
    assert_eq!(program(b""), "sheet refused 1 at 0\n");
    assert_eq!(out(b""), "bad trace at 0\n");
    assert_eq!(out(b"\x02"), "bad trace at 0\n");
    assert_eq!(out(b"\x01"), "");
    assert_eq!(
        out(b"\x01\x00\x03\x01\x00a\x00"),
        "match content\nbad trace at 6\n"
    );
    assert_eq!(out(b"\x01\x00\x01\x03"), "refused 20\n");
    for faulty in [
        &b"\x00\x00"[..],
        b"\x00\x01\x01",
        b"\x00\x01\x04",
        b"\x00\x02\x03",
        b"\x00\x03\x02\x02\x00",
        b"\x00\x04\x02\x00\x00\x00",
        b"\x00\x07\x02\x00\x01\x00\x00\x01",
    ] {
        let trace = [b"\x01", faulty].concat();
        assert_eq!(out(&trace), "bad trace at 1\n", "{faulty:?}");
    }
}

#[test]
fn records_come_back() {
    let records = [
        Record::Start {
            namespace: 2,
            name: b"mi".to_vec(),
        },
        Record::Attributes {
            self_closing: true,
            attributes: vec![(b"a".to_vec(), vec![7; 300]), (vec![], vec![])],
        },
        Record::End { name: vec![] },
    ];
    for record in records {
        let mut bytes = Vec::new();
        record.write(&mut bytes);
        assert_eq!(Record::read(&mut &bytes[..]), Some(record));
        assert_eq!(Record::read(&mut &bytes[..bytes.len() - 1]), None);
    }
}
