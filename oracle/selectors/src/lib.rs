//! Stand-in for the crate `selectors`: only what the unchanged files of lol_html name.
//! The one thing here that decides an answer is [`attr::CaseSensitivity::eq`].

pub mod attr {
    /// Whether two byte strings are compared with or without ASCII case.
    #[derive(Clone, Copy, Debug, Eq, PartialEq)]
    pub enum CaseSensitivity {
        CaseSensitive,
        AsciiCaseInsensitive,
    }

    impl CaseSensitivity {
        #[inline]
        pub fn eq(self, a: &[u8], b: &[u8]) -> bool {
            match self {
                Self::CaseSensitive => a == b,
                Self::AsciiCaseInsensitive => a.eq_ignore_ascii_case(b),
            }
        }
    }

    /// The case flag as it stands in a selector.
    #[derive(Clone, Copy, Debug, Eq, PartialEq)]
    pub enum ParsedCaseSensitivity {
        ExplicitCaseSensitive,
        AsciiCaseInsensitive,
        CaseSensitive,
        AsciiCaseInsensitiveIfInHtmlElementInHtmlDocument,
    }

    #[derive(Clone, Copy, Debug, Eq, PartialEq)]
    pub enum AttrSelectorOperator {
        Equal,
        Includes,
        DashMatch,
        Prefix,
        Substring,
        Suffix,
    }

    #[derive(Clone, Debug, Eq, PartialEq)]
    pub enum ParsedAttrSelectorOperation<Value> {
        Exists,
        WithValue {
            operator: AttrSelectorOperator,
            case_sensitivity: ParsedCaseSensitivity,
            value: Value,
        },
    }
}

/// The parsed selector as `ast.rs` takes it apart. Nothing here is ever made: sheets take its place.
pub mod parser {
    use crate::attr::{AttrSelectorOperator, ParsedAttrSelectorOperation, ParsedCaseSensitivity};
    use std::fmt::Debug;

    pub trait SelectorImpl {
        type Text: Debug;
    }

    #[derive(Clone, Copy, Debug, Eq, PartialEq)]
    pub enum Combinator {
        Child,
        Descendant,
    }

    #[derive(Clone, Copy, Debug, Eq, PartialEq)]
    pub enum NthType {
        Child,
        OfType,
    }

    #[derive(Debug)]
    pub struct NthSelectorData {
        pub ty: NthType,
        pub an_plus_b: (i32, i32),
    }

    #[derive(Debug)]
    pub struct LocalName<Text> {
        pub name: Text,
    }

    #[derive(Debug)]
    pub struct AttrSelectorWithOptionalNamespace<Text> {
        pub namespace: Option<()>,
        pub local_name_lower: Text,
        pub operation: ParsedAttrSelectorOperation<Text>,
    }

    #[derive(Debug)]
    pub enum Component<I: SelectorImpl> {
        LocalName(LocalName<I::Text>),
        ExplicitUniversalType,
        ExplicitAnyNamespace,
        ExplicitNoNamespace,
        ID(I::Text),
        Class(I::Text),
        AttributeInNoNamespaceExists {
            local_name_lower: I::Text,
        },
        AttributeInNoNamespace {
            local_name: I::Text,
            value: I::Text,
            operator: AttrSelectorOperator,
            case_sensitivity: ParsedCaseSensitivity,
        },
        AttributeOther(Box<AttrSelectorWithOptionalNamespace<I::Text>>),
        Nth(NthSelectorData),
        Negation(SelectorList<I>),
        Combinator(Combinator),
    }

    #[derive(Debug)]
    pub struct SelectorList<I: SelectorImpl>(pub Vec<Selector<I>>);

    impl<I: SelectorImpl> SelectorList<I> {
        pub fn slice(&self) -> &[Selector<I>] {
            &self.0
        }
    }

    #[derive(Debug)]
    pub struct Selector<I: SelectorImpl>(pub Vec<Component<I>>);

    impl<I: SelectorImpl> Selector<I> {
        pub fn iter(&self) -> impl Iterator<Item = &Component<I>> {
            self.0.iter()
        }

        pub fn iter_raw_parse_order_from(
            &self,
            offset: usize,
        ) -> impl Iterator<Item = &Component<I>> {
            self.0.iter().skip(offset)
        }
    }
}
