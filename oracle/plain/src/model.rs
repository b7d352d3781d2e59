//! Section 4: the machine by its definition, over the open elements as they are kept.

use crate::fault::Fault;
use crate::machine::{Answer, Ids, Machine, Outlined};
use crate::rules::{HTML, Rules};
use crate::sheet::{AttributeTest, Node, Sheet, TagTest, Test};

const MAX_NAME: usize = 63;
const MAX_NAMESPACE: u8 = 2;
const MAX_OUTLINES: usize = 256;
const MAX_INPUT: usize = 65_536;
const MAX_CHILDREN: i64 = 2_147_483_647;
const MAX_PAIRS: usize = 512;
const MAX_OPEN: usize = 256;
const MAX_CHILD_TREES: usize = 4_096;
const WORDS_PER_SET: usize = 2;

/// How a node hangs in the sheet; the number is its parent's.
#[derive(Clone, Copy)]
enum Hangs {
    Root,
    Child(usize),
    Descendant(usize),
}

/// A node of the sheet, numbered in the sheet's order.
struct Entry {
    hangs: Hangs,
    ids: Ids,
    tag_tests: Vec<Test<TagTest>>,
    attribute_tests: Vec<Test<AttributeTest>>,
    has_children: bool,
}

/// What is counted below an open element, or below the root.
#[derive(Clone, Default)]
struct Level {
    children: i64,
    /// Names seen at this level and how often, kept only when nth-of-type is in use.
    types: Vec<(Vec<u8>, i64)>,
}

struct Open {
    name: Vec<u8>,
    ids: Ids,
    /// By node number: this element matches it.
    matched: Vec<bool>,
    /// By node number: its descendant trees hang from this element. Always as `matched`, faults aside.
    gives: Vec<bool>,
    level: Level,
}

/// A start tag with the counts it would have.
#[derive(Clone)]
struct Tag {
    namespace: u8,
    name: Vec<u8>,
    index: i64,
    type_name: Vec<u8>,
    type_index: i64,
}

pub struct Model {
    rules: Rules,
    entries: Vec<Entry>,
    counts_types: bool,
    root: Level,
    open: Vec<Open>,
    waiting: Option<Tag>,
    /// By depth: counts of an element that was popped there, for the faults that let them live on.
    popped_levels: Vec<Level>,
}

/// Numbers these nodes and all below them, in the sheet's order.
fn number(nodes: &[Node], hangs: Hangs, entries: &mut Vec<Entry>) {
    for node in nodes {
        let this = entries.len();
        entries.push(Entry {
            hangs,
            ids: node.ids.iter().fold(0, |ids, id| ids | 1 << id),
            tag_tests: node.tag_tests.clone(),
            attribute_tests: node.attribute_tests.clone(),
            has_children: !node.children.is_empty(),
        });
        number(&node.children, Hangs::Child(this), entries);
        number(&node.descendants, Hangs::Descendant(this), entries);
    }
}

impl Model {
    pub fn new(sheet: &Sheet) -> Self {
        Self::with(sheet, Rules::default())
    }

    pub fn with_fault(sheet: &Sheet, fault: Fault) -> Self {
        let rules = Rules {
            fault: Some(fault),
            ..Rules::default()
        };
        Self::with(sheet, rules)
    }

    pub fn with(sheet: &Sheet, rules: Rules) -> Self {
        let mut entries = Vec::new();
        number(&sheet.roots, Hangs::Root, &mut entries);
        let mut tag_tests = entries.iter().flat_map(|entry| &entry.tag_tests);
        let counts_types = tag_tests.any(|test| matches!(test.kind, TagTest::NthOfType(_)));
        Self {
            rules,
            entries,
            counts_types,
            root: Level::default(),
            open: Vec::new(),
            waiting: None,
            popped_levels: Vec::new(),
        }
    }

    pub fn is_waiting(&self) -> bool {
        self.waiting.is_some()
    }

    /// The names of the open elements, outermost first.
    pub fn open_names(&self) -> impl DoubleEndedIterator<Item = &[u8]> + ExactSizeIterator {
        self.open.iter().map(|element| element.name.as_slice())
    }

    fn level(&mut self) -> &mut Level {
        match self.open.last_mut() {
            Some(top) => &mut top.level,
            None => &mut self.root,
        }
    }

    /// The tag as a child of the top element or of the root, with the counts it would have.
    fn tag(&mut self, namespace: u8, name: &[u8]) -> Tag {
        let rules = self.rules;
        let mut type_name = name.to_vec();
        if rules.has(Fault::TypeCountWithNamespace) {
            type_name.push(namespace);
        }
        let of_type = |level: &Level| {
            let counted = level.types.iter();
            let same = counted.filter(|(name, _)| rules.same_name(name, &type_name));
            same.map(|(_, count)| count).sum::<i64>()
        };
        let outer: i64 = if rules.has(Fault::TypeCountsOfOuterLevels) {
            let mut levels = std::iter::once(&self.root)
                .chain(self.open.iter().map(|element| &element.level))
                .rev();
            levels.next();
            levels.map(of_type).sum()
        } else {
            0
        };
        let first = i64::from(!rules.has(Fault::ZeroBasedIndex));
        let level = self.level();
        let index = level.children + first;
        let type_index = outer + of_type(level) + first;
        Tag {
            namespace,
            name: name.to_vec(),
            index,
            type_name,
            type_index,
        }
    }

    /// Hangs where it can match now: a root, below a node that matches the parent, or one that matches an ancestor.
    fn is_live(&self, entry: &Entry) -> bool {
        match entry.hangs {
            Hangs::Root => self.open.is_empty() || !self.rules.has(Fault::RootsOnlyAtRoot),
            Hangs::Child(node) if self.rules.has(Fault::ChildFromAnyAncestor) => {
                self.open.iter().any(|element| element.matched[node])
            }
            Hangs::Child(node) => self.open.last().is_some_and(|parent| parent.matched[node]),
            Hangs::Descendant(node) if self.rules.has(Fault::DescendantFromParentOnly) => {
                self.open.last().is_some_and(|parent| parent.gives[node])
            }
            Hangs::Descendant(node) => self.open.iter().any(|element| element.gives[node]),
        }
    }

    fn tag_tests_hold(&self, entry: &Entry, tag: &Tag) -> bool {
        let rules = self.rules;
        entry.tag_tests.iter().all(|test| {
            let holds = match &test.kind {
                TagTest::Any => true,
                TagTest::Unmatchable if rules.has(Fault::NegationIgnored) => return false,
                TagTest::Unmatchable => false,
                TagTest::LocalName(name) => rules.same_name(name, &tag.name),
                TagTest::NthChild(nth) => rules.nth_holds(*nth, tag.index),
                TagTest::NthOfType(nth) => rules.nth_holds(*nth, tag.type_index),
            };
            holds != test.negated
        })
    }

    fn attribute_tests_hold(&self, entry: &Entry, tag: &Tag, attributes: Outlined<'_>) -> bool {
        let rules = self.rules;
        entry.attribute_tests.iter().all(|test| {
            let fails = match test.kind {
                AttributeTest::Unencodable => rules.has(Fault::NegationIgnored),
                _ => {
                    rules.has(Fault::MissingFailsNegation)
                        && !rules.attribute_is_there(&test.kind, attributes)
                }
            };
            let holds = rules.attribute_holds(&test.kind, tag.namespace, attributes);
            !fails && holds != test.negated
        })
    }

    /// A live node that passes all its tag tests and has an attribute test makes the tag wait.
    fn makes_wait(&self, entry: &Entry, tag: &Tag) -> bool {
        let has_attribute_test = if self.rules.has(Fault::UnencodableDoesNotWait) {
            let tests = &mut entry.attribute_tests.iter();
            tests.any(|test| test.kind != AttributeTest::Unencodable)
        } else {
            !entry.attribute_tests.is_empty()
        };
        has_attribute_test
            && self.is_live(entry)
            && (self.tag_tests_hold(entry, tag) || self.rules.has(Fault::WaitsWithoutTagTests))
    }

    fn waits(&self, tag: &Tag) -> bool {
        tag.namespace != HTML
            || self.rules.has(Fault::WaitsAtEveryTag)
            || self.entries.iter().any(|entry| self.makes_wait(entry, tag))
    }

    /// By node number: all its tests hold, and it hangs where it can match.
    fn matches(&self, tag: &Tag, attributes: Outlined<'_>) -> Vec<bool> {
        let mut matched: Vec<bool> = self
            .entries
            .iter()
            .map(|entry| {
                self.is_live(entry)
                    && self.tag_tests_hold(entry, tag)
                    && self.attribute_tests_hold(entry, tag, attributes)
            })
            .collect();
        if self.rules.has(Fault::ResumeOneLate)
            && let Some(skipped) = self.node_after_wait(tag)
        {
            matched[skipped] = false;
        }
        matched
    }

    /// The live node after the one that made an HTML tag wait, roots first, then children, then descendants.
    fn node_after_wait(&self, tag: &Tag) -> Option<usize> {
        if tag.namespace != HTML {
            return None;
        }
        let group = |node: &usize| match self.entries[*node].hangs {
            Hangs::Root => 0,
            Hangs::Child(_) => 1,
            Hangs::Descendant(_) => 2,
        };
        let mut live: Vec<usize> = (0..self.entries.len())
            .filter(|&node| self.is_live(&self.entries[node]))
            .collect();
        live.sort_by_key(group);
        let wait = live
            .iter()
            .position(|&node| self.makes_wait(&self.entries[node], tag))?;
        live.get(wait + 1).copied()
    }

    fn is_new_pair(&mut self, tag: &Tag) -> bool {
        let rules = self.rules;
        !self
            .level()
            .types
            .iter()
            .any(|(name, _)| rules.same_name(name, &tag.type_name))
    }

    fn pairs(&self) -> usize {
        let open: usize = self.open.iter().map(|e| e.level.types.len()).sum();
        self.root.types.len() + open
    }

    fn child_trees(&self, matched: &[bool]) -> usize {
        let nodes = matched.iter().zip(&self.entries);
        nodes
            .filter(|(hit, node)| **hit && node.has_children)
            .count()
    }

    fn is_void(&self, tag: &Tag) -> bool {
        (tag.namespace == HTML || self.rules.has(Fault::VoidInEveryNamespace))
            && self.rules.is_void(&tag.name)
    }

    /// Matches, counts and pushes the tag, or refuses it and does nothing.
    fn finish(&mut self, tag: Tag, content: bool, attributes: Outlined<'_>) -> Answer {
        let matched = self.matches(&tag, attributes);
        if content && self.open.len() == MAX_OPEN {
            return Answer::Refused(27);
        }
        let open: usize = self.open.iter().map(|e| self.child_trees(&e.matched)).sum();
        if content && open + self.child_trees(&matched) > MAX_CHILD_TREES {
            return Answer::Refused(28);
        }
        let hits = matched.iter().zip(&self.entries);
        let ids = hits
            .filter(|(hit, _)| **hit)
            .fold(0, |ids, (_, entry)| ids | entry.ids);
        if !(self.rules.has(Fault::VoidIsNotCounted) && self.is_void(&tag)) {
            self.count(&tag);
        }
        if content {
            self.push(tag.name, ids, matched);
        }
        Answer::Match { ids, content }
    }

    fn count(&mut self, tag: &Tag) {
        let rules = self.rules;
        let counts_types = self.counts_types;
        let level = self.level();
        level.children = tag.index + i64::from(rules.has(Fault::ZeroBasedIndex));
        if counts_types {
            let mut types = level.types.iter_mut();
            match types.find(|(name, _)| rules.same_name(name, &tag.type_name)) {
                Some((_, count)) => *count += 1,
                None => level.types.push((tag.type_name.clone(), 1)),
            }
        }
    }

    fn push(&mut self, name: Vec<u8>, ids: Ids, matched: Vec<bool>) {
        if self.rules.has(Fault::DeepestDescendantRangeWins) {
            for element in &mut self.open {
                for (gives, hit) in element.gives.iter_mut().zip(&matched) {
                    *gives &= !hit;
                }
            }
        }
        let mut level = Level::default();
        if let Some(popped) = self.popped_levels.get(self.open.len()) {
            if self.rules.has(Fault::ChildCountSurvivesPop) {
                level.children = popped.children;
            }
            if self.rules.has(Fault::TypeCountSurvivesPop) {
                level.types = popped.types.clone();
            }
        }
        self.open.push(Open {
            name,
            ids,
            gives: matched.clone(),
            matched,
            level,
        });
    }

    /// How many open elements an end tag of this name leaves.
    fn kept_by_end(&self, name: &[u8]) -> usize {
        let closes = |element: &Open| self.rules.same_name(&element.name, name);
        let found = if self.rules.has(Fault::OutermostPop) {
            self.open.iter().position(closes)
        } else {
            self.open.iter().rposition(closes)
        };
        match found {
            Some(_) if self.rules.has(Fault::PopTopOnly) => self.open.len() - 1,
            Some(kept) => kept,
            None if self.rules.has(Fault::StrayEndPopsTop) => self.open.len().saturating_sub(1),
            None => self.open.len(),
        }
    }
}

impl Machine for Model {
    fn start(&mut self, namespace: u8, name: &[u8]) -> Answer {
        if self.waiting.is_some() {
            return Answer::Refused(22);
        }
        if name.is_empty() || name.len() > MAX_NAME {
            return Answer::Refused(20);
        }
        if namespace > MAX_NAMESPACE {
            return Answer::Refused(21);
        }
        if self.level().children == MAX_CHILDREN {
            return Answer::Refused(25);
        }
        let tag = self.tag(namespace, name);
        if self.counts_types && self.is_new_pair(&tag) && self.pairs() == MAX_PAIRS {
            return Answer::Refused(26);
        }
        if self.waits(&tag) {
            self.waiting = Some(tag);
            return Answer::Attributes;
        }
        let content = !self.is_void(&tag);
        let none = Outlined {
            input: &[],
            outlines: &[],
        };
        self.finish(tag, content, none)
    }

    fn attributes(&mut self, self_closing: bool, attributes: Outlined<'_>) -> Answer {
        let Some(mut tag) = self.waiting.clone() else {
            return Answer::Refused(23);
        };
        let length = attributes.input.len();
        let fours = attributes.outlines.chunks_exact(4);
        if !attributes.outlines.len().is_multiple_of(4)
            || fours.len() > MAX_OUTLINES
            || length > MAX_INPUT
            || fours
                .flat_map(|four| [(four[0], four[1]), (four[2], four[3])])
                .any(|(start, end)| start > end || end > length)
        {
            return Answer::Refused(24);
        }
        if self.rules.has(Fault::RecountOnResume) {
            tag.index += 1;
        }
        let obeys_mark = tag.namespace != HTML || self.rules.has(Fault::HtmlSelfClosingObeyed);
        let is_closed = obeys_mark && self_closing;
        let content = !self.is_void(&tag) && !is_closed;
        let answer = self.finish(tag, content, attributes);
        if !matches!(answer, Answer::Refused(_)) {
            self.waiting = None;
        }
        answer
    }

    fn end(&mut self, name: &[u8], room: usize) -> Answer {
        if self.waiting.is_some() {
            return Answer::Refused(22);
        }
        if name.is_empty() || name.len() > MAX_NAME {
            return Answer::Refused(20);
        }
        let kept = self.kept_by_end(name);
        if room < WORDS_PER_SET * (self.open.len() - kept) {
            return Answer::Refused(29);
        }
        let popped = self.open.split_off(kept);
        self.popped_levels.truncate(kept);
        self.popped_levels.resize_with(kept, Level::default);
        self.popped_levels
            .extend(popped.iter().map(|element| element.level.clone()));
        let mut ids: Vec<Ids> = popped.iter().map(|element| element.ids).collect();
        if self.rules.has(Fault::PopInnermostFirst) {
            ids.reverse();
        }
        Answer::Popped(ids)
    }

    fn top(&mut self) -> Option<Ids> {
        self.open.last().map(|top| top.ids)
    }
}
