//! Turns a sheet into lol_html's `Ast`, calls into lol_html's `SelectorMatchingVm`, and what comes back into answers.

use crate::base::{Bytes, Range};
use crate::html::{LocalName, LocalNameHash, Namespace};
use crate::memory::SharedMemoryLimiter;
use crate::parser::{AttributeBuffer, AttributeOutline};
use crate::selectors_vm::{
    Ast, AstNode, AttributeComparisonExpr, AuxStartTagInfoRequest, Compiler, DenseHashSet,
    ElementData, Expr, MatchInfo, NthChild, OnAttributesExpr, OnTagNameExpr, Predicate,
    SelectorMatchingVm, VmError,
};
use crate::transform_stream::AuxStartTagInfo;
use encoding_rs::X_USER_DEFINED;
use plain::machine::Ids;
use plain::sheet::{AttributeTest, Comparison, Node, Nth, Operator, Sheet, TagTest};
use plain::{Answer, Machine, Outlined};
use selectors::attr::{AttrSelectorOperator, ParsedCaseSensitivity};
use std::cell::Cell;

/// The longest tag name of document 01; the Rust has no such limit.
const MAX_NAME: usize = 63;

thread_local! {
    /// How many elements lol_html has begun: each carries its number, so that one sees which was pushed.
    static BEGUN: Cell<u64> = const { Cell::new(0) };
}

/// What lol_html keeps for us with each open element.
struct Element {
    number: u64,
    ids: DenseHashSet,
}

impl ElementData for Element {
    fn matched_ids_mut(&mut self) -> &mut DenseHashSet {
        &mut self.ids
    }

    fn new() -> Self {
        BEGUN.set(BEGUN.get() + 1);
        Self {
            number: BEGUN.get(),
            ids: DenseHashSet::new(),
        }
    }
}

/// What lol_html reports about one tag.
#[derive(Default)]
struct Reported {
    ids: Ids,
    with_content: Option<bool>,
}

impl Reported {
    fn add(&mut self, info: MatchInfo) {
        assert_eq!(self.ids >> info.match_id, 0, "ids are reported rising");
        self.ids |= 1 << info.match_id;
        self.with_content = Some(info.with_content);
    }
}

/// lol_html's machine, made from a sheet.
pub struct Judge {
    vm: SelectorMatchingVm<Element>,
    /// The request of a tag that waits, and the tag's number.
    waiting: Option<(u64, AuxStartTagInfoRequest<Element>)>,
}

impl Judge {
    pub fn new(sheet: &Sheet, esi: bool) -> Self {
        let limiter = SharedMemoryLimiter::new(usize::MAX);
        Self {
            vm: SelectorMatchingVm::new(ast(sheet), X_USER_DEFINED, limiter, esi),
            waiting: None,
        }
    }

    /// The answer for a tag that matched: it has content when it was pushed.
    fn matched(&mut self, number: u64, reported: Reported) -> Answer {
        let top = self.vm.current_element_data_mut();
        let content = top.is_some_and(|top| top.number == number);
        let said = reported.with_content;
        assert!(said.is_none_or(|said| said == content), "the flags agree");
        let ids = reported.ids;
        Answer::Match { ids, content }
    }
}

/// A tag's attributes as lol_html's tokenizer hands them over: prepared, so that a run that is timed has only the machine in it.
pub struct Prepared {
    input: Vec<u8>,
    outlines: AttributeBuffer,
}

impl Prepared {
    pub fn new(attributes: Outlined<'_>) -> Self {
        let fours = attributes.outlines.chunks_exact(4);
        Self {
            input: attributes.input.to_vec(),
            outlines: fours
                .map(|four| AttributeOutline {
                    name: range(four[0], four[1]),
                    value: range(four[2], four[3]),
                })
                .collect(),
        }
    }
}

impl Judge {
    /// Attributes that were prepared, of the tag that waits.
    pub fn give(&mut self, self_closing: bool, attributes: &Prepared) -> Answer {
        let Some((number, request)) = self.waiting.take() else {
            return Answer::Refused(23);
        };
        let info = AuxStartTagInfo {
            input: &Bytes::new(&attributes.input),
            attr_buffer: &attributes.outlines,
            self_closing,
        };
        let mut reported = Reported::default();
        request(&mut self.vm, info, &mut |info| reported.add(info)).expect("no limit was set");
        self.matched(number, reported)
    }

    /// An end tag where no tag waits: each popped element's ids are handed to `popped`, in opening order.
    pub fn close(&mut self, name: &[u8], mut popped: impl FnMut(Ids)) {
        self.vm
            .exec_for_end_tag(local_name(name), |element| popped(set(&element.ids)));
    }
}

impl Machine for Judge {
    fn start(&mut self, namespace: u8, name: &[u8]) -> Answer {
        if self.waiting.is_some() {
            return Answer::Refused(22);
        }
        if name.is_empty() || name.len() > MAX_NAME {
            return Answer::Refused(20);
        }
        let namespace = match namespace {
            0 => Namespace::Html,
            1 => Namespace::Svg,
            2 => Namespace::MathML,
            _ => return Answer::Refused(21),
        };
        let mut reported = Reported::default();
        let result = self
            .vm
            .exec_for_start_tag(local_name(name), namespace, &mut |info| reported.add(info));
        let number = BEGUN.get();
        match result {
            Ok(()) => self.matched(number, reported),
            Err(VmError::InfoRequest(request)) => {
                assert_eq!(reported.ids, 0, "a tag that waits reports no id");
                self.waiting = Some((number, request));
                Answer::Attributes
            }
            Err(VmError::MemoryLimitExceeded(_)) => unreachable!("no limit was set"),
        }
    }

    fn attributes(&mut self, self_closing: bool, attributes: Outlined<'_>) -> Answer {
        self.give(self_closing, &Prepared::new(attributes))
    }

    fn end(&mut self, name: &[u8], _room: usize) -> Answer {
        if self.waiting.is_some() {
            return Answer::Refused(22);
        }
        if name.is_empty() || name.len() > MAX_NAME {
            return Answer::Refused(20);
        }
        let mut popped = Vec::new();
        self.close(name, |ids| popped.push(ids));
        Answer::Popped(popped)
    }

    fn top(&mut self) -> Option<Ids> {
        let top = self.vm.current_element_data_mut();
        top.map(|element| set(&element.ids))
    }
}

/// An instruction as lol_html's compiler places it: its ids, and the addresses of its child and descendant blocks.
#[derive(Clone, Debug, Eq, PartialEq)]
pub struct Instruction {
    pub ids: Ids,
    pub children: Option<Block>,
    pub descendants: Option<Block>,
}

/// Addresses from one up to another, which is not among them.
pub type Block = std::ops::Range<usize>;

/// The sheet compiled by lol_html, in the order of addresses.
pub fn compiled(sheet: &Sheet) -> Vec<Instruction> {
    let program = Compiler::new(X_USER_DEFINED).compile(ast(sheet));
    let branches = program.instructions.iter().map(|i| &i.associated_branch);
    branches
        .map(|branch| Instruction {
            ids: set(&branch.matched_ids),
            children: branch.jumps.clone(),
            descendants: branch.hereditary_jumps.clone(),
        })
        .collect()
}

/// lol_html's answer to one nth test.
pub fn nth_holds(nth: Nth, index: i32) -> bool {
    NthChild::new(nth.step, nth.offset).has_index(index)
}

/// lol_html's answer to whether two tag names are the same.
pub fn same_name(a: &[u8], b: &[u8]) -> bool {
    local_name(a) == local_name(b)
}

fn set(ids: &DenseHashSet) -> Ids {
    ids.iter().fold(0, |set, id| set | 1 << id)
}

const fn range(start: usize, end: usize) -> Range {
    Range { start, end }
}

/// A tag's name as lol_html's tokenizer makes it: hashed byte by byte.
fn local_name(name: &[u8]) -> LocalName<'_> {
    let mut hash = LocalNameHash::new();
    for &byte in name {
        hash.update(byte);
    }
    LocalName::new(Bytes::new(name), range(0, name.len()), hash)
}

/// Any bytes as text: x-user-defined has a character for each byte, and compiling turns it back.
fn text(bytes: &[u8]) -> Box<str> {
    let decoded = X_USER_DEFINED.decode_without_bom_handling(bytes).0;
    decoded.into_owned().into_boxed_str()
}

/// Text that has no bytes in x-user-defined.
fn unencodable() -> Box<str> {
    "\u{e9}".into()
}

fn ast(sheet: &Sheet) -> Ast {
    Ast {
        root: sheet.roots.iter().map(node).collect(),
        cumulative_node_count: sheet.node_count(),
    }
}

fn node(node: &Node) -> AstNode {
    let mut match_ids = DenseHashSet::new();
    for &id in &node.ids {
        match_ids.insert(u32::from(id));
    }
    let on_tag_name_exprs = node.tag_tests.iter().map(|test| Expr {
        simple_expr: tag_test(&test.kind),
        negation: test.negated,
    });
    let on_attr_exprs = node.attribute_tests.iter().map(|test| Expr {
        simple_expr: attribute_test(&test.kind),
        negation: test.negated,
    });
    AstNode {
        predicate: Predicate {
            on_tag_name_exprs: on_tag_name_exprs.collect(),
            on_attr_exprs: on_attr_exprs.collect(),
        },
        children: node.children.iter().map(self::node).collect(),
        descendants: node.descendants.iter().map(self::node).collect(),
        match_ids,
    }
}

fn tag_test(test: &TagTest) -> OnTagNameExpr {
    match test {
        TagTest::Any => OnTagNameExpr::ExplicitAny,
        TagTest::Unmatchable => OnTagNameExpr::Unmatchable,
        TagTest::LocalName(name) => OnTagNameExpr::LocalName(text(name)),
        TagTest::NthChild(nth) => OnTagNameExpr::NthChild(NthChild::new(nth.step, nth.offset)),
        TagTest::NthOfType(nth) => OnTagNameExpr::NthOfType(NthChild::new(nth.step, nth.offset)),
    }
}

fn attribute_test(test: &AttributeTest) -> OnAttributesExpr {
    match test {
        AttributeTest::Id(id) => OnAttributesExpr::Id(text(id)),
        AttributeTest::Class(class) => OnAttributesExpr::Class(text(class)),
        AttributeTest::Exists(name) => OnAttributesExpr::AttributeExists(text(name)),
        AttributeTest::Unencodable => OnAttributesExpr::Id(unencodable()),
        AttributeTest::Comparison(c) => OnAttributesExpr::AttributeComparisonExpr(comparison(c)),
    }
}

fn comparison(comparison: &Comparison) -> AttributeComparisonExpr {
    let case = match comparison.case {
        0 => ParsedCaseSensitivity::CaseSensitive,
        1 => ParsedCaseSensitivity::ExplicitCaseSensitive,
        2 => ParsedCaseSensitivity::AsciiCaseInsensitive,
        _ => ParsedCaseSensitivity::AsciiCaseInsensitiveIfInHtmlElementInHtmlDocument,
    };
    let operator = match comparison.operator {
        Operator::Equal => AttrSelectorOperator::Equal,
        Operator::Includes => AttrSelectorOperator::Includes,
        Operator::Dash => AttrSelectorOperator::DashMatch,
        Operator::Prefix => AttrSelectorOperator::Prefix,
        Operator::Suffix => AttrSelectorOperator::Suffix,
        Operator::Substring => AttrSelectorOperator::Substring,
    };
    AttributeComparisonExpr::new(
        text(&comparison.name),
        text(&comparison.value),
        case,
        operator,
    )
}
