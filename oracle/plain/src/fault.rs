//! Wrong machines, each a small switch of the plain model. A generator is worth what it finds out about these.

macro_rules! faults {
    ($($name:ident: $words:literal,)+) => {
        #[derive(Clone, Copy, Debug, Eq, PartialEq)]
        pub enum Fault {
            $($name,)+
        }

        impl Fault {
            pub const ALL: &[Self] = &[$(Self::$name,)+];

            /// What this machine does wrong.
            pub const fn words(self) -> &'static str {
                match self {
                    $(Self::$name => $words,)+
                }
            }
        }
    };
}

faults! {
    LastDuplicateAttribute: "the last of two attributes of one name is taken",
    RecountOnResume: "the child count is raised again when attributes come",
    ResumeOneLate: "after a wait the next live node is passed over",
    HtmlSelfClosingObeyed: "a self-closing mark keeps an HTML element from being pushed",
    OutermostPop: "an end tag pops through the outermost element of its name",
    DeepestDescendantRangeWins: "a pop drops descendant trees that a shallower element gave too",
    TypeCountWithNamespace: "nth-of-type tells equal names of two namespaces apart",
    CaseThreeEverywhere: "case 3 ignores case in SVG and MathML too",
    ExistsNameLowered: "the name of an exists test is lower-cased",
    NthSign: "nth takes a whole n below 0 too",
    PopTopOnly: "an end tag pops the top element only",
    PopInnermostFirst: "id sets of the popped go out innermost first",
    StrayEndPopsTop: "an end tag that closes nothing pops the top element",
    WaitsAtEveryTag: "every tag waits for attributes",
    WaitsWithoutTagTests: "a live attribute test makes a tag wait although its tag tests fail",
    UnencodableDoesNotWait: "an unencodable test does not make a tag wait",
    RootsOnlyAtRoot: "root nodes match at the root level only",
    ChildFromAnyAncestor: "a child tree hangs from any open ancestor",
    DescendantFromParentOnly: "a descendant tree hangs from the parent only",
    VoidInEveryNamespace: "void names are void in SVG and MathML too",
    VoidIsNotCounted: "a void tag is not counted as a child",
    ChildCountSurvivesPop: "a popped element's child count goes on at that depth",
    TypeCountSurvivesPop: "a popped element's type counts go on at that depth",
    TypeCountsOfOuterLevels: "a name is counted over all open levels",
    ZeroBasedIndex: "children are counted from 0",
    NthStepZeroAlways: "step 0 holds from the offset on",
    NameCaseKept: "tag names are compared with their case",
    AttributeNameCaseKept: "names of attributes are compared with their case",
    ComparisonNameNotLowered: "the name of a comparison is not lower-cased",
    CaseThreeNever: "case 3 is exact in HTML too",
    ClassIgnoresCase: "class ignores case",
    IdIgnoresCase: "id ignores case",
    MissingFailsNegation: "a negated test fails on a missing attribute",
    EmptySubstringHolds: "an empty substring is in every value",
    EmptyPrefixNever: "an empty prefix or suffix never holds",
    EmptyPartIsNoPart: "parts of a split value that are empty are passed over",
    FormFeedIsNoSpace: "form feed does not split a value",
    DashIsPrefix: "dash holds for every value that begins so",
    SubstringFirstOnly: "substring tries the first place where its first byte stands only",
    NegationIgnored: "a negated unmatchable or unencodable test stays false",
}
