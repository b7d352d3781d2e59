//! Where the Rust and 01 differ: each difference at its smallest input, and that there is no other.

use judge::{nth_holds, same_name};
use plain::generator::{Case, Family};
use plain::program::Lines;
use plain::random::Random;
use plain::rules::{E10, Rules};
use plain::sheet::{AttributeTest, Node, Nth, Sheet, TagTest, Test};
use plain::trace::Record;
use runs::arguments::Arguments;
use runs::{Side, hex};
use std::process::exit;

const USAGE: &str = "differences [CASES of each random family]";
const CASES: u64 = 20_000;

const LIKE_RUST: Rules = Rules {
    esi: false,
    fault: None,
    e10: E10 {
        nth: true,
        names: true,
    },
};

fn main() {
    let arguments = Arguments::read(USAGE, &[], &[]);
    let cases = arguments.number(arguments.word(0), CASES);
    let unexplained = nth_triples() + name_pairs() + random_families(cases);
    let same = smallest_inputs();
    exit(i32::from(unexplained + same > 0));
}

/// Every step, offset and index near the ends and near 0.
fn nth_triples() -> usize {
    let near =
        |middle: i32, reach: i32| (-reach..=reach).filter_map(move |by| middle.checked_add(by));
    let numbers: Vec<i32> = near(i32::MIN, 5)
        .chain(near(i32::MIN / 2, 1))
        .chain(near(0, 4))
        .chain(near(i32::MAX / 2, 1))
        .chain(near(i32::MAX, 5))
        .collect();
    let (mut triples, mut differ, mut unexplained) = (0, 0, 0);
    for &step in &numbers {
        for &offset in &numbers {
            for &index in numbers.iter().filter(|&&index| index > 0) {
                let nth = Nth { step, offset };
                let rust = nth_holds(nth, index);
                let exact = Rules::default().nth_holds(nth, i64::from(index));
                triples += 1;
                differ += usize::from(rust != exact);
                unexplained += usize::from(rust != LIKE_RUST.nth_holds(nth, i64::from(index)));
            }
        }
    }
    println!("nth: {triples} triples, {differ} differ, {unexplained} of them not as stated");
    unexplained
}

/// Every pair out of short names and names about as long as the Rust's hash.
fn name_pairs() -> usize {
    let mut random = Random::new(10);
    let mut names: Vec<Vec<u8>> = Vec::new();
    for length in [1, 1, 2, 2, 3, 12, 13, 14] {
        for _ in 0..50 {
            let name = (0..length).map(|_| *random.pick(b"111aAjJz26-0"));
            names.push(name.collect());
        }
    }
    for ones in 0..3 {
        for name in ["", "br", "jzzzzzzzzzzzz", "kzzzzzzzzzzzz", "abcdefghijklm"] {
            let name = "1".repeat(ones) + name;
            names.push(name.to_ascii_uppercase().into_bytes());
            names.push(name.into_bytes());
        }
    }
    names.retain(|name| !name.is_empty());
    let (mut differ, mut unexplained) = (0, 0);
    for a in &names {
        for b in &names {
            let rust = same_name(a, b);
            differ += usize::from(rust != Rules::default().same_name(a, b));
            unexplained += usize::from(rust != LIKE_RUST.same_name(a, b));
        }
    }
    let pairs = names.len() * names.len();
    println!("names: {pairs} pairs, {differ} differ, {unexplained} of them not as stated");
    unexplained
}

fn random_families(cases: u64) -> usize {
    let families = [
        ("e10-nth", Family::E10Nth, (true, false)),
        ("e10-names", Family::E10Names, (false, true)),
    ];
    let mut all = 0;
    for (words, family, (nth, names)) in families {
        let (mut lines, mut differ, mut unexplained) = (0, 0, 0);
        for number in 1..=cases {
            let input = Case::random(number, family).bytes();
            let answer = |side: Side| side.answer(&input, Lines::WithIdSets);
            let rust = answer(Side::Rust);
            lines += rust.lines().filter(|line| !line.starts_with(' ')).count();
            differ += usize::from(rust != answer(Side::Plain));
            unexplained += usize::from(rust != answer(Side::LikeRust(E10 { nth, names })));
        }
        println!(
            "family {words}: {cases} cases, {lines} answer lines, {differ} cases differ, \
             {unexplained} of them not as stated"
        );
        all += unexplained;
    }
    all
}

fn node(ids: &[u8], tag_tests: Vec<TagTest>, attribute_tests: Vec<AttributeTest>) -> Node {
    fn plain<Kind>(kind: Kind) -> Test<Kind> {
        let negated = false;
        Test { negated, kind }
    }
    Node {
        ids: ids.to_vec(),
        tag_tests: tag_tests.into_iter().map(plain).collect(),
        attribute_tests: attribute_tests.into_iter().map(plain).collect(),
        ..Node::default()
    }
}

fn start(name: &str) -> Record {
    Record::Start {
        namespace: 0,
        name: name.as_bytes().to_vec(),
    }
}

fn end(name: &str) -> Record {
    Record::End {
        name: name.as_bytes().to_vec(),
    }
}

fn nth(step: i32) -> TagTest {
    TagTest::NthChild(Nth {
        step,
        offset: i32::MIN,
    })
}

fn named(name: &str) -> TagTest {
    TagTest::LocalName(name.as_bytes().to_vec())
}

/// A difference: what it is, the nodes of the sheet (all roots) and the trace.
type Difference = (&'static str, Vec<Node>, Vec<Record>);

fn e10() -> Vec<Difference> {
    let second_of_type = TagTest::NthOfType(Nth { step: 0, offset: 2 });
    let exists = || vec![AttributeTest::Exists(Vec::new())];
    vec![
        (
            "nth, step above 0 (P4)",
            vec![node(&[0], vec![nth(1)], vec![])],
            vec![start("a")],
        ),
        (
            "nth, step below 0",
            vec![node(&[0], vec![nth(-1)], vec![])],
            vec![start("a")],
        ),
        (
            "nth decides whether a tag waits",
            vec![node(&[], vec![nth(1)], exists())],
            vec![start("a")],
        ),
        ("a void name", vec![], vec![start("1br")]),
        ("an end tag", vec![], vec![start("a"), end("1a")]),
        (
            "a local-name test",
            vec![node(&[0], vec![named("a")], vec![])],
            vec![start("1a")],
        ),
        (
            "a name decides whether a tag waits",
            vec![node(&[], vec![named("a")], exists())],
            vec![start("1a")],
        ),
        (
            "types are counted together",
            vec![node(&[0], vec![second_of_type], vec![])],
            vec![start("a"), end("a"), start("1a")],
        ),
    ]
}

/// The limits of 01, each at the first tag past it.
fn limits() -> Vec<Difference> {
    let open = |count| vec![start("a"); count];
    let of_type = TagTest::NthOfType(Nth { step: 0, offset: 1 });
    let mut pairs: Vec<Record> = (0..513)
        .map(|number| format!("a{number}"))
        .flat_map(|name| [start(&name), end(&name)])
        .collect();
    pairs.pop();
    let mut parent = node(&[0], vec![TagTest::Any], vec![]);
    parent.children.push(node(&[], vec![TagTest::Any], vec![]));
    vec![
        (
            "limit 26: a 513th pair of name and level",
            vec![node(&[0], vec![of_type], vec![])],
            pairs,
        ),
        ("limit 27: a 257th open element", vec![], open(257)),
        (
            "limit 28: 4,097 matched nodes with child trees",
            vec![parent; 17],
            open(241),
        ),
    ]
}

/// How many of the listed inputs do not differ after all.
fn smallest_inputs() -> usize {
    let mut same = 0;
    for ((words, roots, records), whole) in e10()
        .into_iter()
        .map(|difference| (difference, true))
        .chain(limits().into_iter().map(|difference| (difference, false)))
    {
        let case = Case {
            sheet: Sheet { roots },
            records,
        };
        let input = case.bytes();
        let answers = [Side::Rust, Side::Plain].map(|side| side.answer(&input, Lines::Program));
        same += usize::from(answers[0] == answers[1]);
        println!("\n{words}, {} bytes", input.len());
        if whole {
            println!("  input: {}", hex::write(&input));
        }
        let [rust, document] = answers.map(|answer| {
            let lines: Vec<&str> = answer.lines().collect();
            let shown = if whole {
                &lines[..]
            } else {
                &lines[lines.len() - 1..]
            };
            shown.join(", ")
        });
        println!("  the Rust: {rust}");
        println!("  01: {document}");
    }
    same
}
