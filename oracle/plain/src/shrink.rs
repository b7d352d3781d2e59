//! Makes a case small while something stays true of it.

use crate::generator::Case;
use crate::sheet::{AttributeTest, Node, Nth, Sheet, TagTest};
use crate::trace::Record;

/// A smaller case of which `holds` is still true, after at most `tries` questions.
pub fn shrink(case: Case, tries: usize, mut holds: impl FnMut(&Case) -> bool) -> Case {
    let mut small = case;
    let mut left = tries;
    let mut chunk = small.records.len().max(1);
    loop {
        let mut smaller = None;
        for candidate in candidates(&small, chunk) {
            if left == 0 {
                return small;
            }
            left -= 1;
            if holds(&candidate) {
                smaller = Some(candidate);
                break;
            }
        }
        match smaller {
            Some(candidate) => small = candidate,
            None if chunk == 1 => return small,
            None => chunk /= 2,
        }
    }
}

/// Cases a little smaller: without some records in a row, and at the end with less in a record or in the sheet.
fn candidates(case: &Case, chunk: usize) -> Vec<Case> {
    let mut found = Vec::new();
    for at in (0..case.records.len()).step_by(chunk) {
        let mut records = case.records.clone();
        records.drain(at..(at + chunk).min(case.records.len()));
        found.push(Case {
            sheet: case.sheet.clone(),
            records,
        });
    }
    if chunk > 4 {
        return found;
    }
    found.extend(sheets(&case.sheet).into_iter().map(|sheet| Case {
        sheet,
        records: case.records.clone(),
    }));
    if chunk > 1 {
        return found;
    }
    for at in 0..case.records.len() {
        for record in smaller_records(&case.records[at]) {
            let mut records = case.records.clone();
            records[at] = record;
            found.push(Case {
                sheet: case.sheet.clone(),
                records,
            });
        }
    }
    found
}

/// One byte fewer at either end.
fn smaller_bytes(bytes: &[u8]) -> Vec<Vec<u8>> {
    let mut found = Vec::new();
    if !bytes.is_empty() {
        found.push(bytes[1..].to_vec());
        found.push(bytes[..bytes.len() - 1].to_vec());
    }
    found
}

/// Shorter names that are still names.
fn smaller_names(name: &[u8]) -> impl Iterator<Item = Vec<u8>> {
    let found = smaller_bytes(name).into_iter();
    found.filter(|name| !name.is_empty())
}

fn smaller_records(record: &Record) -> Vec<Record> {
    match record {
        Record::Start { namespace, name } => {
            let start = |namespace: u8, name: Vec<u8>| Record::Start { namespace, name };
            let shorter = smaller_names(name).map(|name| start(*namespace, name));
            let in_html = (*namespace > 0).then(|| start(0, name.clone()));
            shorter.chain(in_html).collect()
        }
        Record::End { name } => smaller_names(name)
            .map(|name| Record::End { name })
            .collect(),
        Record::Attributes {
            self_closing,
            attributes,
        } => {
            let record = |self_closing: bool, attributes| Record::Attributes {
                self_closing,
                attributes,
            };
            let smaller = smaller_attributes(attributes).into_iter();
            let smaller = smaller.map(|attributes| record(*self_closing, attributes));
            let open = self_closing.then(|| record(false, attributes.clone()));
            smaller.chain(open).collect()
        }
    }
}

type Attributes = Vec<(Vec<u8>, Vec<u8>)>;

/// One attribute fewer, or one name or value shorter.
fn smaller_attributes(attributes: &Attributes) -> Vec<Attributes> {
    let mut found = Vec::new();
    for at in 0..attributes.len() {
        let mut keep = |change: &dyn Fn(&mut Attributes)| {
            let mut changed = attributes.clone();
            change(&mut changed);
            found.push(changed);
        };
        keep(&|all| {
            all.remove(at);
        });
        for value in smaller_bytes(&attributes[at].1) {
            keep(&|all| all[at].1 = value.clone());
        }
        for name in smaller_bytes(&attributes[at].0) {
            keep(&|all| all[at].0 = name.clone());
        }
    }
    found
}

fn sheets(sheet: &Sheet) -> Vec<Sheet> {
    forests(&sheet.roots)
        .into_iter()
        .map(|roots| Sheet { roots })
        .collect()
}

/// Forests with one tree fewer, one tree replaced by those below it, or one tree smaller.
fn forests(trees: &[Node]) -> Vec<Vec<Node>> {
    let mut found = Vec::new();
    for at in 0..trees.len() {
        let mut fewer = trees.to_vec();
        let removed = fewer.remove(at);
        found.push(fewer.clone());
        let below: Vec<Node> = [removed.children, removed.descendants].concat();
        if !below.is_empty() {
            fewer.splice(at..at, below);
            found.push(fewer);
        }
        for tree in smaller_nodes(&trees[at]) {
            let mut changed = trees.to_vec();
            changed[at] = tree;
            found.push(changed);
        }
    }
    found
}

fn smaller_nodes(node: &Node) -> Vec<Node> {
    let mut found = Vec::new();
    let mut keep = |change: &dyn Fn(&mut Node)| {
        let mut changed = node.clone();
        change(&mut changed);
        found.push(changed);
    };
    for children in forests(&node.children) {
        keep(&|n| n.children = children.clone());
    }
    for descendants in forests(&node.descendants) {
        keep(&|n| n.descendants = descendants.clone());
    }
    for at in 0..node.ids.len() {
        keep(&|n| {
            n.ids.remove(at);
        });
    }
    let has_two = node.tag_tests.len() + node.attribute_tests.len() > 1;
    for at in 0..node.tag_tests.len() {
        if has_two {
            keep(&|n| {
                n.tag_tests.remove(at);
            });
        }
        for kind in smaller_tag_tests(&node.tag_tests[at].kind) {
            keep(&|n| n.tag_tests[at].kind = kind.clone());
        }
        if node.tag_tests[at].negated {
            keep(&|n| n.tag_tests[at].negated = false);
        }
    }
    for at in 0..node.attribute_tests.len() {
        if has_two {
            keep(&|n| {
                n.attribute_tests.remove(at);
            });
        }
        for kind in smaller_attribute_tests(&node.attribute_tests[at].kind) {
            keep(&|n| n.attribute_tests[at].kind = kind.clone());
        }
        if node.attribute_tests[at].negated {
            keep(&|n| n.attribute_tests[at].negated = false);
        }
    }
    found
}

fn smaller_tag_tests(test: &TagTest) -> Vec<TagTest> {
    match test {
        TagTest::LocalName(name) => smaller_names(name).map(TagTest::LocalName).collect(),
        TagTest::NthOfType(nth) => {
            let mut found = vec![TagTest::NthChild(*nth)];
            found.extend(simpler_nth(*nth).map(TagTest::NthOfType));
            found
        }
        TagTest::NthChild(nth) => simpler_nth(*nth).map(TagTest::NthChild).collect(),
        TagTest::Any | TagTest::Unmatchable => Vec::new(),
    }
}

/// Steps towards 1 and -1, offsets towards 1 and the low end.
fn simpler_nth(nth: Nth) -> impl Iterator<Item = Nth> {
    let step = nth.step.signum();
    let offset = if nth.offset < i32::MIN / 2 {
        i32::MIN
    } else {
        1
    };
    [Nth { step, ..nth }, Nth { offset, ..nth }]
        .into_iter()
        .filter(move |simpler| *simpler != nth)
}

fn smaller_attribute_tests(test: &AttributeTest) -> Vec<AttributeTest> {
    match test {
        AttributeTest::Id(value) => smaller_bytes(value)
            .into_iter()
            .map(AttributeTest::Id)
            .collect(),
        AttributeTest::Class(value) => smaller_bytes(value)
            .into_iter()
            .map(AttributeTest::Class)
            .collect(),
        AttributeTest::Exists(name) => smaller_bytes(name)
            .into_iter()
            .map(AttributeTest::Exists)
            .collect(),
        AttributeTest::Unencodable => Vec::new(),
        AttributeTest::Comparison(comparison) => smaller_bytes(&comparison.value)
            .into_iter()
            .map(|value| {
                let mut shorter = comparison.clone();
                shorter.value = value;
                AttributeTest::Comparison(shorter)
            })
            .collect(),
    }
}
