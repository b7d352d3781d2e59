//! Selectors matched over a stream of tags, by a machine whose every function is proved.
//!
//! A [`Machine`] is made of a *sheet*: compiled selectors as bytes, in the form of document 01, section 1. It is then told
//! each start tag and each end tag in the order in which they come, and answers which ids match.
//!
//! ```
//! use selectors_vm::{Answer, Machine, Namespace};
//!
//! // One root node: id 3, local name `p`.
//! let sheet = [1, 0, 0, 0, 24, 0, 1, 0, 1, 0, 13, 1, 3, 1, 0, 0, 0, 0, 0, 0, 3, 3, 0, b'p'];
//! let mut machine = Machine::new(&sheet, false)?;
//! machine.start(Namespace::Html, b"div")?;
//! let Answer::Match { ids, content } = machine.start(Namespace::Html, b"p")? else {
//!     panic!("this sheet has no attribute test, so no HTML tag waits");
//! };
//! assert_eq!(ids.iter().collect::<Vec<_>>(), [3]);
//! assert!(content);
//! let popped: Vec<_> = machine.end(b"div")?.collect();
//! assert_eq!(popped.len(), 2);
//! # Ok::<(), Box<dyn std::error::Error>>(())
//! ```
//!
//! # Tags that wait
//! Where a selector has an attribute test that may decide, and for every SVG and MathML tag, [`Machine::start`] answers
//! [`Answer::Attributes`]. The tag then *waits*: no id is handed out, and start and end tags are refused
//! ([`Refusal::TagWaits`]) until [`Machine::attributes`] is accepted. A host that knows the attributes only later can so go on
//! reading them only where they matter.
//!
//! ```
//! use selectors_vm::{Answer, Machine, Namespace, Outline, Refusal};
//!
//! // One root node: id 0, the attribute `x` exists.
//! let sheet = [1, 0, 0, 0, 24, 0, 1, 0, 1, 0, 13, 1, 0, 0, 1, 0, 0, 0, 0, 0, 3, 18, 0, b'x'];
//! let mut machine = Machine::new(&sheet, false)?;
//! assert_eq!(machine.start(Namespace::Html, b"p"), Ok(Answer::Attributes));
//! assert_eq!(machine.start(Namespace::Html, b"p"), Err(Refusal::TagWaits));
//! let tag = b"<p x=1>";
//! let outline = Outline { name_start: 3, name_end: 4, value_start: 5, value_end: 6 };
//! let Answer::Match { ids, .. } = machine.attributes(false, tag, &[outline])? else {
//!     panic!("with its attributes a tag never waits");
//! };
//! assert!(ids.contains(0));
//! # Ok::<(), Box<dyn std::error::Error>>(())
//! ```
//!
//! # What a host must know
//! - A refused call changes nothing: the caller may go on, or try the same tag again.
//! - **A tag that waits at a limit.** If a tag waits while 256 elements are open and would be pushed, its attributes are
//!   refused with [`Refusal::TooManyOpen`] for ever, and end tags with [`Refusal::TagWaits`]; the same holds for
//!   [`Refusal::TooManyMatched`] unless other attributes are given. Only [`Machine::restart`] helps; the document is then lost.
//! - **The same sheet must be lent to every call of a machine.** [`Machine`] owns a copy and sees to it. Callers of [`calls`]
//!   must do so themselves: another length is refused (30), another sheet of the same length is answered, in bounded work,
//!   by rules that make no sense.
//! - Namespaces are the host's business: the machine takes what it is told. End tags are told by name alone.
//! - HTML void names (`br`, ..) are never pushed, and a self-closing mark on other HTML is ignored; SVG and MathML tags that are
//!   self-closing are not pushed.
//! - Names are any bytes, 1 to 63 of them; ASCII case does not matter.
//! - A [`Machine`] is `Send` and `Sync`: there is no state outside its stores. It takes about 80 KiB and 32 bytes for each node.
#![deny(unsafe_code, missing_docs)]

pub mod calls;
mod ids;
mod refusal;

pub use ids::{IdIter, Ids};
pub use refusal::{Refusal, SheetRefusal};

use calls::Told;

/// The namespace of a start tag.
#[derive(Clone, Copy, Debug, PartialEq, Eq)]
#[repr(u8)]
pub enum Namespace {
    /// HTML.
    Html = 0,
    /// SVG.
    Svg = 1,
    /// MathML.
    MathMl = 2,
}

/// What a start tag, or its attributes, are answered.
#[derive(Clone, Copy, Debug, PartialEq, Eq)]
pub enum Answer {
    /// The tag is accepted.
    Match {
        /// The ids that match it.
        ids: Ids,
        /// Whether it is open now: an end tag will close it.
        content: bool,
    },
    /// The tag waits for its attributes.
    Attributes,
}

/// Where an attribute's name and value stand in the tag's bytes.
#[derive(Clone, Copy, Debug, Default, PartialEq, Eq)]
#[repr(C)]
pub struct Outline {
    /// Where the name begins.
    pub name_start: u32,
    /// Where it has ended.
    pub name_end: u32,
    /// Where the value begins.
    pub value_start: u32,
    /// Where it has ended.
    pub value_end: u32,
}

/// A machine with its sheet and its stores.
#[derive(Clone, Debug, PartialEq, Eq)]
pub struct Machine {
    sheet: Box<[u8]>,
    esi: bool,
    program: Box<[u32]>,
    rows: Box<[u32]>,
    names: Box<[u8]>,
    ids: Box<[u64]>,
    nodes: Box<[u16]>,
    popped: Box<[u64]>,
}

/// The most elements that can be open, so the most that one end tag pops.
const OPEN: usize = 256;

/// Nodes that the header of a sheet announces, as far as a sheet may have them.
fn announced(sheet: &[u8]) -> usize {
    match sheet.get(5..7) {
        Some(two) => usize::from(u16::from_be_bytes([two[0], two[1]])).min(1024),
        None => 0,
    }
}

/// The library gives no number but 01's.
fn refusal(told: Told) -> Refusal {
    Refusal::from_number(told.refusal).expect("a refusal's number")
}

fn ids_of(told: Told) -> Ids {
    Ids::from_words([told.low, told.high])
}

fn answer(told: Told) -> Result<Answer, Refusal> {
    match told.kind {
        2 => Ok(Answer::Match {
            ids: ids_of(told),
            content: told.value != 0,
        }),
        3 => Ok(Answer::Attributes),
        _ => Err(refusal(told)),
    }
}

impl Machine {
    /// Makes a machine of a sheet; `esi` adds `esi:include` and `esi:comment` to the void names.
    pub fn new(sheet: &[u8], esi: bool) -> Result<Self, SheetRefusal> {
        let mut machine = Self {
            sheet: sheet.into(),
            esi,
            program: vec![0; calls::PLACE * announced(sheet)].into(),
            rows: vec![0; calls::ROWS].into(),
            names: vec![0; calls::NAMES].into(),
            ids: vec![0; calls::IDS].into(),
            nodes: vec![0; calls::NODES].into(),
            popped: vec![0; 2 * OPEN].into(),
        };
        let told = machine.fresh();
        match told.kind {
            1 => Ok(machine),
            _ => Err(SheetRefusal {
                refusal: refusal(told),
                place: told.value as usize,
            }),
        }
    }

    fn fresh(&mut self) -> Told {
        calls::fresh(
            &self.sheet,
            &mut self.program,
            &mut self.rows,
            &self.names,
            &self.ids,
            &self.nodes,
            u32::from(self.esi),
        )
    }

    /// Makes it anew, for another document: nothing is open and no tag waits.
    pub fn restart(&mut self) {
        let told = self.fresh();
        debug_assert_eq!(told.kind, 1, "its sheet was taken before");
    }

    /// A start tag. Refused with 20, 22, 25, 26, and 27 or 28 unless it waits.
    pub fn start(&mut self, namespace: Namespace, name: &[u8]) -> Result<Answer, Refusal> {
        answer(calls::start(
            &self.sheet,
            &self.program,
            &mut self.rows,
            &mut self.names,
            &mut self.ids,
            &mut self.nodes,
            namespace as u32,
            name,
        ))
    }

    /// The attributes of the tag that waits, as outlines of `input`. Refused with 23, 24, 27, 28; the tag waits on then.
    pub fn attributes(
        &mut self,
        self_closing: bool,
        input: &[u8],
        outlines: &[Outline],
    ) -> Result<Answer, Refusal> {
        answer(calls::attributes(
            &self.sheet,
            &self.program,
            &mut self.rows,
            &mut self.names,
            &mut self.ids,
            &mut self.nodes,
            u32::from(self_closing),
            input,
            calls::numbers(outlines),
        ))
    }

    /// An end tag: the ids of each element that it closes, the one of its name first, then what stood open in it.
    /// None is closed where no open element has the name. Refused with 20 and 22.
    pub fn end(&mut self, name: &[u8]) -> Result<impl ExactSizeIterator<Item = Ids> + '_, Refusal> {
        let told = calls::end(
            &self.sheet,
            &self.program,
            &mut self.rows,
            &self.names,
            &self.ids,
            &self.nodes,
            name,
            &mut self.popped,
        );
        if told.kind != 4 {
            return Err(refusal(told));
        }
        let words = &self.popped[..2 * told.value as usize];
        Ok(words
            .chunks_exact(2)
            .map(|two| Ids::from_words([two[0], two[1]])))
    }

    /// The ids of the innermost open element, never of the waiting tag; `None` where nothing is open.
    pub fn top(&self) -> Option<Ids> {
        let told = calls::id_set(
            &self.sheet,
            &self.program,
            &self.rows,
            &self.names,
            &self.ids,
            &self.nodes,
        );
        debug_assert_ne!(told.kind, 0, "a machine's own stores are never refused");
        (told.kind == 5).then(|| ids_of(told))
    }
}
