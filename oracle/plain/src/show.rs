//! A case in words, for the reader of a difference.

use crate::generator::Case;
use crate::sheet::{AttributeTest, Node, Nth, TagTest, Test};
use crate::trace::Record;
use std::fmt::{self, Display, Formatter};

/// Bytes in quotes, those that are not ASCII escaped.
struct Quoted<'b>(&'b [u8]);

impl Display for Quoted<'_> {
    fn fmt(&self, f: &mut Formatter<'_>) -> fmt::Result {
        write!(f, "\"{}\"", self.0.escape_ascii())
    }
}

impl Display for Case {
    fn fmt(&self, f: &mut Formatter<'_>) -> fmt::Result {
        for root in &self.sheet.roots {
            show_tree(f, root, "root", 0)?;
        }
        self.records
            .iter()
            .try_for_each(|record| writeln!(f, "{record}"))
    }
}

fn show_tree(f: &mut Formatter<'_>, node: &Node, hangs: &str, depth: usize) -> fmt::Result {
    write!(f, "{:1$}{hangs}, ids {2:?}:", "", 2 * depth, node.ids)?;
    for test in &node.tag_tests {
        write!(f, "{test}")?;
    }
    for test in &node.attribute_tests {
        write!(f, "{test}")?;
    }
    writeln!(f)?;
    for child in &node.children {
        show_tree(f, child, "child", depth + 1)?;
    }
    for descendant in &node.descendants {
        show_tree(f, descendant, "descendant", depth + 1)?;
    }
    Ok(())
}

impl<Kind: Display> Display for Test<Kind> {
    fn fmt(&self, f: &mut Formatter<'_>) -> fmt::Result {
        let not = if self.negated { "not " } else { "" };
        write!(f, " [{not}{}]", self.kind)
    }
}

impl Display for Nth {
    fn fmt(&self, f: &mut Formatter<'_>) -> fmt::Result {
        write!(f, "step {} offset {}", self.step, self.offset)
    }
}

impl Display for TagTest {
    fn fmt(&self, f: &mut Formatter<'_>) -> fmt::Result {
        match self {
            Self::Any => write!(f, "any"),
            Self::Unmatchable => write!(f, "unmatchable"),
            Self::LocalName(name) => write!(f, "local name {}", Quoted(name)),
            Self::NthChild(nth) => write!(f, "nth-child {nth}"),
            Self::NthOfType(nth) => write!(f, "nth-of-type {nth}"),
        }
    }
}

impl Display for AttributeTest {
    fn fmt(&self, f: &mut Formatter<'_>) -> fmt::Result {
        match self {
            Self::Id(id) => write!(f, "id {}", Quoted(id)),
            Self::Class(class) => write!(f, "class {}", Quoted(class)),
            Self::Exists(name) => write!(f, "exists {}", Quoted(name)),
            Self::Unencodable => write!(f, "unencodable"),
            Self::Comparison(c) => {
                let (name, value) = (Quoted(&c.name), Quoted(&c.value));
                write!(f, "{name} {:?} {value} case {}", c.operator, c.case)
            }
        }
    }
}

impl Display for Record {
    fn fmt(&self, f: &mut Formatter<'_>) -> fmt::Result {
        match self {
            Self::Start { namespace, name } => {
                write!(f, "start {} in namespace {namespace}", Quoted(name))
            }
            Self::Attributes {
                self_closing,
                attributes,
            } => {
                write!(f, "attributes")?;
                for (name, value) in attributes {
                    write!(f, " {} = {}", Quoted(name), Quoted(value))?;
                }
                write!(f, "{}", if *self_closing { ", self-closing" } else { "" })
            }
            Self::End { name } => write!(f, "end {}", Quoted(name)),
        }
    }
}

#[cfg(test)]
mod tests {
    use crate::{Case, Family};

    #[test]
    fn every_node_and_record_has_its_line() {
        for number in 1..20 {
            let case = Case::random(number, Family::Good);
            let lines = case.sheet.node_count() + case.records.len();
            assert_eq!(case.to_string().lines().count(), lines);
        }
    }
}
