//! The calls of a machine and their answers, the same for every judge.

/// A set of ids: id i is bit i.
pub type Ids = u128;

#[derive(Clone, Debug, Eq, PartialEq)]
pub enum Answer {
    Match {
        ids: Ids,
        content: bool,
    },
    Attributes,
    /// The id sets of the popped elements, in opening order.
    Popped(Vec<Ids>),
    Refused(u8),
}

/// A tag's bytes, and in them fours of name start, name end, value start, value end.
#[derive(Clone, Copy)]
pub struct Outlined<'i> {
    pub input: &'i [u8],
    pub outlines: &'i [usize],
}

pub trait Machine {
    fn start(&mut self, namespace: u8, name: &[u8]) -> Answer;
    fn attributes(&mut self, self_closing: bool, attributes: Outlined<'_>) -> Answer;
    /// `room` is the length of the popped-id buffer in u64 words.
    fn end(&mut self, name: &[u8], room: usize) -> Answer;
    /// The id set of the top open element.
    fn top(&mut self) -> Option<Ids>;
}

/// The ids of a set, rising.
pub fn listed(ids: Ids) -> impl Iterator<Item = u32> {
    (0..Ids::BITS).filter(move |&id| ids >> id & 1 == 1)
}
