//! Section 3: names, nth and the attribute rules, each as the document says it.

use crate::fault::Fault;
use crate::machine::Outlined;
use crate::sheet::{AttributeTest, Comparison, Nth, Operator};

pub const HTML: u8 = 0;

const VOID_NAMES: [&str; 17] = [
    "area", "base", "basefont", "bgsound", "br", "col", "embed", "hr", "img", "input", "keygen",
    "link", "meta", "param", "source", "track", "wbr",
];
const ESI_NAMES: [&str; 2] = ["esi:include", "esi:comment"];

/// The rules in force: the right ones, or these with a fault or as the Rust has them.
#[derive(Clone, Copy, Debug, Default)]
pub struct Rules {
    pub esi: bool,
    pub fault: Option<Fault>,
    pub e10: E10,
}

/// Where the Rust does not do what 01 says: each set means as in the Rust.
#[derive(Clone, Copy, Debug, Default, Eq, PartialEq)]
pub struct E10 {
    /// Index less offset is taken modulo 2^32 into i32.
    pub nth: bool,
    /// Leading digits 1 of a name that fits the hash are not seen.
    pub names: bool,
}

impl Rules {
    pub fn has(self, fault: Fault) -> bool {
        self.fault == Some(fault)
    }

    /// Names are equal when equal after ASCII lower-casing.
    pub fn same_name(self, a: &[u8], b: &[u8]) -> bool {
        if self.has(Fault::NameCaseKept) {
            return a == b;
        }
        if self.e10.names && fits_hash(a) && fits_hash(b) {
            return without_ones(a).eq_ignore_ascii_case(without_ones(b));
        }
        a.eq_ignore_ascii_case(b)
    }

    /// Void by name, for a tag in namespace HTML.
    pub fn is_void(self, name: &[u8]) -> bool {
        VOID_NAMES
            .iter()
            .any(|void| self.same_name(void.as_bytes(), name))
            || self.esi && ESI_NAMES.iter().any(|esi| esi.as_bytes() == name)
    }

    /// A whole n >= 0 has step * n + offset = index.
    pub fn nth_holds(self, nth: Nth, index: i64) -> bool {
        let (step, offset) = (i64::from(nth.step), i64::from(nth.offset));
        let difference = index - offset;
        if step == 0 {
            return difference == 0 || self.has(Fault::NthStepZeroAlways) && difference > 0;
        }
        let divides = |difference: i64| difference % step == 0;
        if self.e10.nth && difference >= 1 << 31 {
            return step < 0 && divides(difference - (1 << 32));
        }
        divides(difference) && (difference / step >= 0 || self.has(Fault::NthSign))
    }

    /// Whether the attribute test holds, before any negation.
    pub fn attribute_holds(self, test: &AttributeTest, namespace: u8, tag: Outlined<'_>) -> bool {
        match test {
            AttributeTest::Id(id) => self
                .value_of(b"id", tag)
                .is_some_and(|value| equal(value, id, self.has(Fault::IdIgnoresCase))),
            AttributeTest::Class(class) => self.value_of(b"class", tag).is_some_and(|value| {
                self.some_part_equals(value, class, self.has(Fault::ClassIgnoresCase))
            }),
            AttributeTest::Exists(name) => {
                let lowered = name.to_ascii_lowercase();
                let wanted = if self.has(Fault::ExistsNameLowered) {
                    &lowered
                } else {
                    name
                };
                self.value_of(wanted, tag).is_some()
            }
            AttributeTest::Unencodable => false,
            AttributeTest::Comparison(comparison) => self.compares(comparison, namespace, tag),
        }
    }

    /// Whether the attribute that the test asks about is there at all.
    pub fn attribute_is_there(self, test: &AttributeTest, tag: Outlined<'_>) -> bool {
        let name = match test {
            AttributeTest::Id(_) => b"id".to_vec(),
            AttributeTest::Class(_) => b"class".to_vec(),
            AttributeTest::Exists(name) => name.clone(),
            AttributeTest::Unencodable => return false,
            AttributeTest::Comparison(comparison) => comparison.name.to_ascii_lowercase(),
        };
        self.value_of(&name, tag).is_some()
    }

    /// The value of the first outline whose lower-cased name equals the wanted name.
    fn value_of<'i>(self, wanted: &[u8], tag: Outlined<'i>) -> Option<&'i [u8]> {
        let is_wanted = |outline: &&[usize]| {
            let name = &tag.input[outline[0]..outline[1]];
            if self.has(Fault::AttributeNameCaseKept) {
                name == wanted
            } else {
                name.to_ascii_lowercase() == wanted
            }
        };
        let mut outlines = tag.outlines.chunks(4);
        let found = if self.has(Fault::LastDuplicateAttribute) {
            outlines.rev().find(is_wanted)
        } else {
            outlines.find(is_wanted)
        };
        found.map(|outline| &tag.input[outline[2]..outline[3]])
    }

    fn some_part_equals(self, value: &[u8], wanted: &[u8], ignoring_case: bool) -> bool {
        value
            .split(|&byte| match byte {
                b' ' | b'\n' | b'\r' | b'\t' => true,
                b'\x0c' => !self.has(Fault::FormFeedIsNoSpace),
                _ => false,
            })
            .filter(|part| !part.is_empty() || !self.has(Fault::EmptyPartIsNoPart))
            .any(|part| equal(part, wanted, ignoring_case))
    }

    fn compares(self, test: &Comparison, namespace: u8, tag: Outlined<'_>) -> bool {
        let name = if self.has(Fault::ComparisonNameNotLowered) {
            test.name.clone()
        } else {
            test.name.to_ascii_lowercase()
        };
        let Some(value) = self.value_of(&name, tag) else {
            return false;
        };
        let ignoring_case = match test.case {
            2 => true,
            3 if self.has(Fault::CaseThreeNever) => false,
            3 => namespace == HTML || self.has(Fault::CaseThreeEverywhere),
            _ => false,
        };
        self.compares_value(test.operator, &test.value, value, ignoring_case)
    }

    fn compares_value(
        self,
        operator: Operator,
        operand: &[u8],
        value: &[u8],
        ignoring_case: bool,
    ) -> bool {
        let same = |part: &[u8]| equal(part, operand, ignoring_case);
        let begins = value.get(..operand.len()).is_some_and(same);
        let never = operand.is_empty() && self.has(Fault::EmptyPrefixNever);
        match operator {
            Operator::Equal => same(value),
            Operator::Includes => self.some_part_equals(value, operand, ignoring_case),
            Operator::Dash => {
                same(value)
                    || begins
                        && (value.get(operand.len()) == Some(&b'-')
                            || self.has(Fault::DashIsPrefix))
            }
            Operator::Prefix => !value.is_empty() && begins && !never,
            Operator::Suffix => {
                let ends = value.len().checked_sub(operand.len());
                !value.is_empty() && ends.is_some_and(|at| same(&value[at..])) && !never
            }
            Operator::Substring if operand.is_empty() => self.has(Fault::EmptySubstringHolds),
            Operator::Substring => {
                let first = |window: &&[u8]| equal(&window[..1], &operand[..1], ignoring_case);
                let mut windows = value.windows(operand.len());
                if self.has(Fault::SubstringFirstOnly) {
                    windows.find(first).is_some_and(same)
                } else {
                    windows.any(same)
                }
            }
        }
    }
}

fn equal(a: &[u8], b: &[u8], ignoring_case: bool) -> bool {
    if ignoring_case {
        a.eq_ignore_ascii_case(b)
    } else {
        a == b
    }
}

/// A name without its leading digits 1, which the Rust's hash of names does not see.
fn without_ones(name: &[u8]) -> &[u8] {
    let ones = name.iter().take_while(|&&byte| byte == b'1').count();
    &name[ones..]
}

/// The Rust's hash takes letters and digits 1 to 6, five bits each and 64 in all; all 64 bits set means no hash.
pub fn fits_hash(name: &[u8]) -> bool {
    let mut hash: u128 = 0;
    for byte in name {
        let code = match byte.to_ascii_lowercase() {
            letter @ b'a'..=b'z' => letter - b'a' + 6,
            digit @ b'1'..=b'6' => digit - b'1',
            _ => return false,
        };
        hash = hash << 5 | u128::from(code);
        if hash >= u128::from(u64::MAX) {
            return false;
        }
    }
    true
}
