//! Random good sheets and traces. The same number gives the same case on every machine.

use crate::machine::Answer;
use crate::model::Model;
use crate::program::call;
use crate::random::Random;
use crate::sheet::{AttributeTest, Comparison, Node, Nth, Operator, Sheet, TagTest, Test};
use crate::trace::Record;

/// What a case is aimed at.
#[derive(Clone, Copy, Debug, Eq, PartialEq)]
pub enum Family {
    /// Everything that the Rust can judge: E10's inputs and the limits are left out.
    Good,
    /// Nth tests where index less offset leaves i32.
    E10Nth,
    /// Names with a leading digit 1.
    E10Names,
    /// Refusals 26 to 28, which the Rust does not have.
    Limits,
    /// Small cases, to be damaged: refusals of sheets and faulty traces, which never reach the Rust.
    Damaged,
}

impl Family {
    pub const ALL: [(&'static str, Self); 5] = [
        ("good", Self::Good),
        ("e10-nth", Self::E10Nth),
        ("e10-names", Self::E10Names),
        ("limits", Self::Limits),
        ("damaged", Self::Damaged),
    ];

    pub fn named(name: &str) -> Option<Self> {
        let found = Self::ALL.iter().find(|(known, _)| *known == name);
        found.map(|(_, family)| *family)
    }
}

#[derive(Clone, Debug, Eq, PartialEq)]
pub struct Case {
    pub sheet: Sheet,
    pub records: Vec<Record>,
}

impl Case {
    /// The program's standard input.
    pub fn bytes(&self) -> Vec<u8> {
        let mut out = self.sheet.write();
        out.push(1);
        for record in &self.records {
            record.write(&mut out);
        }
        out
    }

    pub fn random(number: u64, family: Family) -> Self {
        Generator::new(number, family).case()
    }

    /// Some input of E10 stands in the case: a name with a leading digit 1, or an nth offset near the low end of i32.
    pub fn is_e10(&self) -> bool {
        let in_trace = self.records.iter().any(|record| match record {
            Record::Start { name, .. } | Record::End { name } => name.starts_with(b"1"),
            Record::Attributes { .. } => false,
        });
        in_trace || self.sheet.roots.iter().any(is_e10)
    }
}

const NAMES: [&[u8]; 26] = [
    b"a",
    b"b",
    b"p",
    b"div",
    b"span",
    b"li",
    b"h1",
    b"h6",
    b"svg",
    b"g",
    b"math",
    b"mi",
    b"x-y",
    b"h0",
    b"h7",
    b"6a",
    b"aa",
    b"a1",
    b"foreignObject",
    b"abcdefghijkl",
    b"zbcdefghijkl",
    b"jzzzzzzzzzzzz",
    b"kzzzzzzzzzzzz",
    b"annotation-xml",
    b"\xc3\xa9",
    b"\x00",
];
const VOID: [&[u8]; 17] = [
    b"area",
    b"base",
    b"basefont",
    b"bgsound",
    b"br",
    b"col",
    b"embed",
    b"hr",
    b"img",
    b"input",
    b"keygen",
    b"link",
    b"meta",
    b"param",
    b"source",
    b"track",
    b"wbr",
];
const ONES: [&[u8]; 12] = [
    b"a",
    b"1a",
    b"11A",
    b"1",
    b"11",
    b"br",
    b"1br",
    b"h1",
    b"1h1",
    b"1abcdefghijkl",
    b"abcdefghijkl",
    b"1-a",
];
const ATTRIBUTES: [&[u8]; 9] = [
    b"id", b"class", b"a", b"b", b"href", b"data-x", b"lang", b"", b"\xff",
];
const VALUES: [&[u8]; 22] = [
    b"", b"a", b"b", b"A", b"ab", b"aB", b"ba", b"aab", b"a-b", b"-a", b"a-", b"a b", b"a  b",
    b" a", b"b\ta", b"a\nb", b"b\x0ca", b"\r", b"en", b"en-US", b"x.HTML", b"\xe9a",
];
const SPACES: [&[u8]; 6] = [b" ", b"\t", b"\n", b"\r", b"\x0c", b"  "];
const STEPS: [i32; 13] = [0, 0, 1, 1, 2, 2, 3, -1, -1, -2, -3, i32::MAX, i32::MIN];
const OFFSETS: [i32; 12] = [
    0,
    1,
    1,
    2,
    2,
    3,
    4,
    -1,
    -2,
    5,
    i32::MAX,
    LOWEST_PLAIN_OFFSET,
];

/// Offsets from here on stay clear of E10: no index of a random case is higher.
const LOWEST_PLAIN_OFFSET: i32 = i32::MIN + 4_000;

fn is_e10(node: &Node) -> bool {
    let in_tests = node.tag_tests.iter().any(|test| match &test.kind {
        TagTest::LocalName(name) => name.starts_with(b"1"),
        TagTest::NthChild(nth) | TagTest::NthOfType(nth) => nth.offset < LOWEST_PLAIN_OFFSET,
        TagTest::Any | TagTest::Unmatchable => false,
    });
    in_tests || node.children.iter().chain(&node.descendants).any(is_e10)
}

/// How one case differs from another.
struct Style {
    names: Vec<Vec<u8>>,
    attributes: Vec<Vec<u8>>,
    values: Vec<Vec<u8>>,
    nodes: usize,
    branching: usize,
    records: usize,
    depth: usize,
    foreign: usize,
    void: usize,
    attribute_tests: usize,
    negated: usize,
    nth: usize,
}

struct Generator {
    random: Random,
    family: Family,
    style: Style,
    next_id: usize,
}

fn swap_case(bytes: &mut [u8]) {
    for byte in bytes {
        if byte.is_ascii_alphabetic() {
            *byte ^= 0x20;
        }
    }
}

fn some(random: &mut Random, count: usize, choices: &[&[u8]]) -> Vec<Vec<u8>> {
    (0..count).map(|_| random.pick(choices).to_vec()).collect()
}

impl Style {
    fn random(random: &mut Random, family: Family) -> Self {
        let mut style = Self::good(random);
        match family {
            Family::Good => {}
            // As in the Rust, other elements are open: both must stay clear of the limits.
            Family::E10Nth => style.depth = style.depth.min(40),
            Family::E10Names => {
                style.depth = style.depth.min(40);
                style.names = some(random, 5, &ONES);
            }
            Family::Limits => style.reach_limits(random),
            Family::Damaged => {
                style.nodes = random.below(5);
                style.depth = 2;
                style.records = random.below(8);
            }
        }
        style
    }

    fn good(random: &mut Random) -> Self {
        let mut names = some(random, 3, &NAMES);
        names.extend(some(random, 1, &VOID));
        if random.chance(5) {
            names.push(vec![b'n'; 63]);
        }
        let (value_count, attribute_count) = (2 + random.below(4), 1 + random.below(3));
        let mut values = some(random, value_count, &VALUES);
        values.push(b"a".to_vec());
        if random.chance(30) {
            values.push(Vec::new());
        }
        Self {
            names,
            attributes: some(random, attribute_count, &ATTRIBUTES),
            values,
            nodes: *random.pick(&[0, 1, 2, 3, 4, 6, 8, 12, 20, 20, 40, 120]),
            branching: *random.pick(&[30, 50, 80]),
            records: 20 + random.below(60),
            depth: *random.pick(&[2, 3, 4, 6, 6, 12, 12, 40, 40, 240]),
            foreign: *random.pick(&[0, 5, 20, 50, 90]),
            void: 4,
            attribute_tests: *random.pick(&[0, 20, 50, 80]),
            negated: 20,
            nth: *random.pick(&[0, 10, 40]),
        }
    }

    /// Many names for 26, few end tags for 27, tests that hold on nodes with child trees for 28.
    fn reach_limits(&mut self, random: &mut Random) {
        self.names
            .extend((0..20).map(|number| format!("n{number}").into_bytes()));
        self.nodes = *random.pick(&[2, 12, 60, 120]);
        self.records = 400;
        self.depth = 300;
        self.foreign = *random.pick(&[0, 0, 5]);
        self.void = *random.pick(&[4, 60]);
        self.attribute_tests = *random.pick(&[0, 0, 20]);
        self.negated = 3;
        self.nth = *random.pick(&[3, 40]);
    }
}

impl Generator {
    fn new(number: u64, family: Family) -> Self {
        let salt = family as u64 + 1;
        let mut random = Random::new(number.wrapping_mul(0x2545_F491_4F6C_DD1D) ^ salt << 56);
        let style = Style::random(&mut random, family);
        Self {
            random,
            family,
            style,
            next_id: 0,
        }
    }

    fn case(mut self) -> Case {
        let sheet = self.sheet();
        let records = self.trace(&sheet);
        Case { sheet, records }
    }

    // Sheets.

    fn sheet(&mut self) -> Sheet {
        let mut left = self.style.nodes;
        let mut roots = Vec::new();
        while left > 0 {
            roots.push(self.tree(&mut left, 1));
        }
        Sheet { roots }
    }

    fn tree(&mut self, left: &mut usize, depth: usize) -> Node {
        *left -= 1;
        let mut node = self.node();
        while *left > 0 && depth < 32 && self.random.chance(self.style.branching) {
            let tree = self.tree(left, depth + 1);
            if self.random.chance(50) {
                node.children.push(tree);
            } else {
                node.descendants.push(tree);
            }
        }
        node
    }

    fn node(&mut self) -> Node {
        let mut node = Node::default();
        let wanted = *self.random.pick(&[1, 1, 1, 2, 2, 3]);
        for _ in 0..wanted {
            let negated = self.random.chance(self.style.negated);
            if self.random.chance(self.style.attribute_tests) {
                let kind = self.attribute_test();
                node.attribute_tests.push(Test { negated, kind });
            } else {
                let kind = self.tag_test();
                node.tag_tests.push(Test { negated, kind });
            }
        }
        node.ids = self.ids();
        node
    }

    /// Ids of their own while they last, so that a line tells which nodes matched.
    fn ids(&mut self) -> Vec<u8> {
        let mut ids = Vec::new();
        if !self.random.chance(10) {
            ids.push((self.next_id * 37 % 128) as u8);
            self.next_id += 1;
        }
        if self.random.chance(10) {
            ids.push(self.random.below(128) as u8);
        }
        ids.sort_unstable();
        ids.dedup();
        ids
    }

    fn tag_test(&mut self) -> TagTest {
        if self.random.chance(self.style.nth) {
            let nth = self.nth();
            if self.random.chance(50) {
                return TagTest::NthChild(nth);
            }
            return TagTest::NthOfType(nth);
        }
        match self.random.below(20) {
            0..4 => TagTest::Any,
            _ if self.family == Family::Limits => TagTest::Any,
            4 => TagTest::Unmatchable,
            _ => TagTest::LocalName(self.name()),
        }
    }

    fn nth(&mut self) -> Nth {
        let step = *self.random.pick(&STEPS);
        let offset = *self.random.pick(&OFFSETS);
        if self.family == Family::E10Nth && self.random.chance(70) {
            let offset = i32::MIN + self.random.below(8) as i32;
            return Nth { step, offset };
        }
        Nth { step, offset }
    }

    fn attribute_test(&mut self) -> AttributeTest {
        match self.random.below(20) {
            0..2 => AttributeTest::Id(self.value()),
            2..4 => AttributeTest::Class(self.value()),
            4..6 => AttributeTest::Exists(self.attribute_name()),
            6..8 => AttributeTest::Unencodable,
            _ => AttributeTest::Comparison(Comparison {
                operator: *self.random.pick(&Operator::ALL),
                case: self.random.below(4) as u8,
                name: self.attribute_name(),
                value: self.value(),
            }),
        }
    }

    // Words, out of the few that this case uses.

    fn with_swaps(&mut self, mut word: Vec<u8>, percent: usize) -> Vec<u8> {
        if !word.is_empty() && self.random.chance(percent) {
            let at = self.random.below(word.len());
            let all = self.random.chance(50);
            swap_case(if all { &mut word } else { &mut word[at..=at] });
        }
        word
    }

    fn name(&mut self) -> Vec<u8> {
        let name = self.random.pick(&self.style.names).clone();
        self.with_swaps(name, 20)
    }

    fn attribute_name(&mut self) -> Vec<u8> {
        let name = self.random.pick(&self.style.attributes).clone();
        self.with_swaps(name, 15)
    }

    fn value(&mut self) -> Vec<u8> {
        let value = self.random.pick(&self.style.values).clone();
        self.with_swaps(value, 20)
    }

    // Traces.

    fn trace(&mut self, sheet: &Sheet) -> Vec<Record> {
        let mut asked = Vec::new();
        for root in &sheet.roots {
            gather(root, &mut asked);
        }
        let mut model = Model::new(sheet);
        let mut records = Vec::new();
        for _ in 0..self.style.records + 2 * self.style.depth {
            let record = self.record(&model, &asked);
            let refused_at_limit = match call(&mut model, &record) {
                Answer::Refused(number) => (25..=28).contains(&number),
                _ => false,
            };
            if !refused_at_limit || self.family == Family::Limits {
                records.push(record);
            } else if model.is_waiting() {
                // A tag that waits at a limit waits for ever: the trace ends here, without the tag.
                records.pop();
                break;
            }
        }
        records
    }

    fn record(&mut self, model: &Model, asked: &[(Vec<u8>, Vec<u8>)]) -> Record {
        let depth = model.open_names().len();
        let common = if model.is_waiting() { 94 } else { 3 };
        if self.random.chance(common) {
            return self.attributes(asked);
        }
        let start = match depth {
            0 => 90,
            _ if self.family == Family::Limits => 97,
            _ if depth >= self.style.depth => 35,
            _ if self.style.depth >= 40 => 88,
            _ => 65,
        };
        if self.random.chance(start) {
            self.start()
        } else {
            self.end(model)
        }
    }

    fn start(&mut self) -> Record {
        let foreign = self.random.chance(self.style.foreign);
        let namespace = match self.random.below(100) {
            0 => 3 + self.random.below(253) as u8,
            _ if foreign => 1 + self.random.below(2) as u8,
            _ => 0,
        };
        let void = self.random.chance(self.style.void);
        let name = match self.random.below(100) {
            0 => Vec::new(),
            1 => vec![b'n'; 64 + self.random.below(3)],
            2 => b"esi:include".to_vec(),
            _ if void => self.random.pick(&VOID).to_vec(),
            _ => self.name(),
        };
        Record::Start { namespace, name }
    }

    fn end(&mut self, model: &Model) -> Record {
        let open = model.open_names().len();
        let name = match self.random.below(100) {
            0 => Vec::new(),
            1 => vec![b'n'; 64],
            2..14 => self.name(),
            _ if open == 0 => self.name(),
            _ => {
                let back = self.random.below(open.min(4));
                let name = model.open_names().nth_back(back).unwrap_or_default();
                let name = name.to_vec();
                self.with_swaps(name, 25)
            }
        };
        Record::End { name }
    }

    fn attributes(&mut self, asked: &[(Vec<u8>, Vec<u8>)]) -> Record {
        let self_closing = self.random.chance(25);
        let count = self.random.below(4);
        let mut attributes: Vec<(Vec<u8>, Vec<u8>)> = Vec::new();
        for _ in 0..count {
            let mut attribute = self.attribute(asked);
            if !attributes.is_empty() && self.random.chance(25) {
                attribute.0 = self.random.pick(&attributes).0.clone();
                attribute.0 = self.with_swaps(attribute.0, 30);
            }
            attributes.push(attribute);
        }
        Record::Attributes {
            self_closing,
            attributes,
        }
    }

    /// An attribute that some test of the sheet asks about, or nearly.
    fn attribute(&mut self, asked: &[(Vec<u8>, Vec<u8>)]) -> (Vec<u8>, Vec<u8>) {
        let (name, operand) = if asked.is_empty() || self.random.chance(15) {
            (self.attribute_name(), self.value())
        } else {
            self.random.pick(asked).clone()
        };
        let value = self.value_near(operand);
        (self.with_swaps(name, 20), value)
    }

    /// The operand itself, or with something before or behind it, or something else.
    fn value_near(&mut self, operand: Vec<u8>) -> Vec<u8> {
        let mut operand = self.with_swaps(operand, 35);
        let space = self.random.pick(&SPACES).to_vec();
        match self.random.below(12) {
            _ if self.random.chance(1) => [self.value().repeat(200), operand].concat(),
            0..4 => operand,
            4 => [operand, b"-x".to_vec()].concat(),
            5 => [operand, self.value()].concat(),
            6 => [self.value(), operand].concat(),
            7 => [self.value(), space, operand].concat(),
            8 => [operand, space, self.value()].concat(),
            9 => [self.value(), operand, self.value()].concat(),
            10 => {
                operand.pop();
                operand
            }
            _ => Vec::new(),
        }
    }
}

/// The attribute names that a tree asks about, each with an operand.
fn gather(node: &Node, asked: &mut Vec<(Vec<u8>, Vec<u8>)>) {
    for test in &node.attribute_tests {
        match &test.kind {
            AttributeTest::Id(value) => asked.push((b"id".to_vec(), value.clone())),
            AttributeTest::Class(value) => asked.push((b"class".to_vec(), value.clone())),
            AttributeTest::Exists(name) => asked.push((name.clone(), Vec::new())),
            AttributeTest::Unencodable => {}
            AttributeTest::Comparison(c) => asked.push((c.name.clone(), c.value.clone())),
        }
    }
    for tree in node.children.iter().chain(&node.descendants) {
        gather(tree, asked);
    }
}
