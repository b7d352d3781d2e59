//! The sheets and the tags. Everything is thrown by a generator that always throws the same.
use plain::sheet::{AttributeTest, Comparison, Node, Nth, Operator, Sheet, TagTest, Test};

pub struct Kind {
    pub name: &'static str,
    /// All nodes are roots, else about 40 are and the others hang below them.
    flat: bool,
    /// Some tests are nth-of-type, else nth-child.
    types: bool,
}

pub const KINDS: [Kind; 4] = [
    Kind {
        name: "nested",
        flat: false,
        types: false,
    },
    Kind {
        name: "nested-types",
        flat: false,
        types: true,
    },
    Kind {
        name: "flat",
        flat: true,
        types: false,
    },
    Kind {
        name: "flat-types",
        flat: true,
        types: true,
    },
];

/// Tags of the second half of the names never wait.
const NAMES: [&str; 32] = [
    "div", "a", "img", "li", "input", "section", "button", "form", "link", "script", "nav",
    "article", "video", "h2", "figure", "iframe", "span", "p", "ul", "td", "tr", "b", "i", "em",
    "strong", "table", "tbody", "h1", "h3", "footer", "header", "main",
];

const NODES: usize = 300;
const STARTS: usize = 100_000;
const DEEPEST: usize = 12;

#[derive(Clone, Copy)]
pub enum Event {
    Start(usize),
    Attributes(usize),
    End(usize),
}

pub struct Load {
    pub sheet: Sheet,
    pub events: Vec<Event>,
    pub starts: usize,
    /// Each a tag's bytes and its outlines.
    pub attributes: Vec<(Vec<u8>, Vec<usize>)>,
}

/// SplitMix64.
struct Dice(u64);

impl Dice {
    fn below(&mut self, n: usize) -> usize {
        self.0 = self.0.wrapping_add(0x9e37_79b9_7f4a_7c15);
        let z = (self.0 ^ (self.0 >> 30)).wrapping_mul(0xbf58_476d_1ce4_e5b9);
        let z = (z ^ (z >> 27)).wrapping_mul(0x94d0_49bb_1331_11eb);
        ((z ^ (z >> 31)) % n as u64) as usize
    }
}

const fn plainly<K>(kind: K) -> Test<K> {
    Test {
        negated: false,
        kind,
    }
}

/// A name, for one in eight nodes a position too; where the name may wait, for one in three nodes an attribute test.
fn node(dice: &mut Dice, name: usize, kind: &Kind) -> Node {
    let mut node = Node {
        ids: vec![dice.below(128) as u8],
        tag_tests: vec![plainly(TagTest::LocalName(NAMES[name].into()))],
        ..Node::default()
    };
    if dice.below(8) == 0 {
        let nth = Nth {
            step: 2,
            offset: dice.below(3) as i32,
        };
        let test = if kind.types {
            TagTest::NthOfType(nth)
        } else {
            TagTest::NthChild(nth)
        };
        node.tag_tests.push(plainly(test));
    }
    if name < NAMES.len() / 2 && dice.below(3) == 0 {
        node.attribute_tests.push(plainly(attribute_test(dice)));
    }
    node
}

fn attribute_test(dice: &mut Dice) -> AttributeTest {
    let value = |dice: &mut Dice| format!("v{}", dice.below(12)).into_bytes();
    match dice.below(6) {
        0 => AttributeTest::Id(value(dice)),
        1 | 2 => AttributeTest::Class(value(dice)),
        3 => AttributeTest::Exists(b"data-x".to_vec()),
        at => AttributeTest::Comparison(Comparison {
            operator: [Operator::Equal, Operator::Prefix][at - 4],
            case: 0,
            name: b"href".to_vec(),
            value: value(dice),
        }),
    }
}

/// Roots of every name come first, so that half of the tags wait whatever is open.
fn sheet(dice: &mut Dice, kind: &Kind) -> Sheet {
    let mut next = 0;
    let mut named = |dice: &mut Dice| {
        next += 1;
        node(dice, (next - 1) % NAMES.len(), kind)
    };
    if kind.flat {
        let roots = (0..NODES).map(|_| named(dice)).collect();
        return waiting(Sheet { roots });
    }
    let mut roots: Vec<Node> = (0..NAMES.len() + 8).map(|_| named(dice)).collect();
    let mut left = NODES - roots.len();
    while left > 0 {
        let at = dice.below(roots.len());
        let mut under = &mut roots[at];
        while dice.below(2) == 0 && !under.children.is_empty() && !under.descendants.is_empty() {
            let below = if dice.below(2) == 0 {
                &mut under.children
            } else {
                &mut under.descendants
            };
            let at = dice.below(below.len());
            under = &mut below[at];
        }
        let grown = named(dice);
        if dice.below(2) == 0 {
            under.children.push(grown)
        } else {
            under.descendants.push(grown)
        }
        left -= 1;
    }
    waiting(Sheet { roots })
}

/// The first root of each name of the first half has an attribute test and no other condition than its name.
fn waiting(mut sheet: Sheet) -> Sheet {
    for root in &mut sheet.roots[..NAMES.len() / 2] {
        root.tag_tests.truncate(1);
        root.attribute_tests = vec![plainly(AttributeTest::Class(b"v1".to_vec()))];
    }
    sheet
}

/// `class`, `id`, `href` and one more, with values as the tests have them.
fn attributes(dice: &mut Dice) -> (Vec<u8>, Vec<usize>) {
    let (mut input, mut outlines) = (b"<tag".to_vec(), vec![]);
    let class = format!("v{} item v{}", dice.below(12), dice.below(12));
    let href = format!("v{}/page", dice.below(12));
    let id = format!("v{}", dice.below(12));
    let last = ["data-x", "title"][dice.below(2)];
    for (name, value) in [
        ("class", class),
        ("id", id),
        ("href", href),
        (last, "1".into()),
    ] {
        input.push(b' ');
        let start = input.len();
        input.extend(name.bytes());
        input.extend(*b"=\"");
        let value_start = input.len();
        input.extend(value.bytes());
        outlines.extend([start, start + name.len(), value_start, input.len()]);
        input.push(b'"');
    }
    input.push(b'>');
    (input, outlines)
}

impl Load {
    pub fn new(kind: &Kind) -> Self {
        let mut dice = Dice(14);
        let sheet = sheet(&mut dice, kind);
        let attributes: Vec<_> = (0..64).map(|_| attributes(&mut dice)).collect();
        let (mut events, mut open, mut starts) = (vec![], vec![], 0);
        while starts < STARTS {
            if open.len() == DEEPEST || (!open.is_empty() && dice.below(100) < 45) {
                // An end tag closes the innermost element, now and then more.
                let at = open.len() - 1 - dice.below(open.len().min(2));
                events.push(Event::End(open[at]));
                open.truncate(
                    open.iter()
                        .rposition(|name| *name == open[at])
                        .unwrap_or(at),
                );
                continue;
            }
            let name = dice.below(NAMES.len());
            events.push(Event::Start(name));
            if name < NAMES.len() / 2 {
                events.push(Event::Attributes(dice.below(attributes.len())));
            }
            if !["img", "input", "link"].contains(&NAMES[name]) {
                open.push(name);
            }
            starts += 1;
        }
        Self {
            sheet,
            events,
            starts,
            attributes,
        }
    }

    pub fn name(&self, at: usize) -> &'static [u8] {
        NAMES[at].as_bytes()
    }
}
