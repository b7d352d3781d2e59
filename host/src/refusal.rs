//! Why a call was refused: the numbers of document 01, section 2.
use std::error::Error;
use std::fmt;

macro_rules! refusals {
    ($($name:ident = $number:literal, $words:literal;)*) => {
        /// A refusal, by its number in document 01. A refused call has changed nothing.
        #[derive(Clone, Copy, Debug, PartialEq, Eq, Hash, PartialOrd, Ord)]
        #[repr(u8)]
        pub enum Refusal {
            $(#[doc = $words] $name = $number,)*
        }

        impl Refusal {
            /// Every refusal, by number.
            pub const ALL: &'static [Refusal] = &[$(Refusal::$name,)*];

            /// The refusal of this number, if it is one.
            pub const fn from_number(number: u32) -> Option<Refusal> {
                match number {
                    $($number => Some(Refusal::$name),)*
                    _ => None,
                }
            }

            /// What the refusal says, in words.
            pub const fn words(self) -> &'static str {
                match self {
                    $(Refusal::$name => $words,)*
                }
            }
        }
    };
}

refusals! {
    SheetTooShort = 1, "the sheet has fewer than 9 bytes";
    SheetTooLong = 2, "the sheet has more than 65,536 bytes";
    WrongVersion = 3, "the sheet's version is not 1";
    WrongLength = 4, "the sheet's length field differs from its length";
    TooManyNodes = 5, "the sheet has more than 1,024 nodes";
    TooDeep = 6, "a node stands deeper than 32";
    MoreNodesThanSaid = 7, "the sheet has more nodes than its header says";
    RecordOverrun = 8, "a record or a piece runs past its holder, or bytes stay over in a record";
    BadIds = 9, "ids are not strictly rising, or above 127";
    NoTest = 10, "a node has no test at all";
    UnknownKind = 11, "a test's kind is unknown, or belongs to the other group";
    BadTest = 12, "a test is faulty: its length, negation or body";
    LeftOver = 13, "bytes are left over, or there are fewer nodes than the header says";
    ProgramTooShort = 15, "the instruction store has too few places for the sheet's nodes";
    BadName = 20, "a tag's name has no byte, or more than 63";
    BadNamespace = 21, "the namespace is not HTML, SVG or MathML";
    TagWaits = 22, "a tag waits for its attributes";
    NoTagWaits = 23, "attributes were given and no tag waits for them";
    BadOutlines = 24, "outlines are not in fours, over 256, or not within an input of at most 65,536 bytes";
    ChildCountFull = 25, "the parent has 2,147,483,647 children";
    TooManyTypes = 26, "nth-of-type is in use and 512 pairs of name and level are live";
    TooManyOpen = 27, "256 elements are open";
    TooManyMatched = 28, "over 4,096 matched nodes with child trees would be held by open elements";
    BufferTooShort = 29, "the popped-id buffer is too short";
    BadShape = 30, "the stored state, the instructions or the sheet lent with them break a shape rule";
    StoreTooShort = 31, "a state store is shorter than its size";
}

impl Refusal {
    /// The number of document 01.
    pub const fn number(self) -> u32 {
        self as u32
    }
}

impl fmt::Display for Refusal {
    fn fmt(&self, f: &mut fmt::Formatter<'_>) -> fmt::Result {
        write!(f, "refused {}: {}", self.number(), self.words())
    }
}

impl Error for Refusal {}

/// A sheet that was refused, and where in it the fault stands.
#[derive(Clone, Copy, Debug, PartialEq, Eq)]
pub struct SheetRefusal {
    /// Why.
    pub refusal: Refusal,
    /// The place that document 01 names for it: the offset of a record or a test, else 0.
    pub place: usize,
}

impl fmt::Display for SheetRefusal {
    fn fmt(&self, f: &mut fmt::Formatter<'_>) -> fmt::Result {
        write!(f, "{} (at byte {})", self.refusal, self.place)
    }
}

impl Error for SheetRefusal {}
