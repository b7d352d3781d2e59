//! Good sheets, written by hand in the form of document 01, section 1.
#![allow(dead_code)] // each test program uses its own part of this

#[derive(Clone, Default)]
pub struct Node {
    pub ids: Vec<u8>,
    pub tag_tests: Vec<Vec<u8>>,
    pub attribute_tests: Vec<Vec<u8>>,
    pub children: Vec<Node>,
    pub descendants: Vec<Node>,
}

/// A piece with its length in two bytes in front.
fn sized(body: &[u8]) -> Vec<u8> {
    let mut piece = (body.len() as u16).to_be_bytes().to_vec();
    piece.extend_from_slice(body);
    piece
}

/// A test, by its kind and body.
pub fn test(kind: u8, negated: bool, body: &[u8]) -> Vec<u8> {
    let mut test = vec![kind, u8::from(negated)];
    test.extend_from_slice(body);
    test
}

pub fn local_name(name: &str) -> Vec<u8> {
    test(3, false, name.as_bytes())
}

/// nth-child (4) or nth-of-type (5).
pub fn nth(kind: u8, step: i32, offset: i32) -> Vec<u8> {
    test(
        kind,
        false,
        &[step.to_be_bytes(), offset.to_be_bytes()].concat(),
    )
}

/// A comparison: equal 20, includes 21, dash 22, prefix 23, suffix 24, substring 25.
pub fn comparison(kind: u8, negated: bool, case: u8, name: &[u8], value: &[u8]) -> Vec<u8> {
    let body = [&[case, name.len() as u8], name, value].concat();
    test(kind, negated, &body)
}

impl Node {
    fn write(&self, sheet: &mut Vec<u8>) {
        let mut body = vec![self.ids.len() as u8];
        body.extend_from_slice(&self.ids);
        body.extend([self.tag_tests.len() as u8, self.attribute_tests.len() as u8]);
        body.extend((self.children.len() as u16).to_be_bytes());
        body.extend((self.descendants.len() as u16).to_be_bytes());
        for test in self.tag_tests.iter().chain(&self.attribute_tests) {
            body.extend(sized(test));
        }
        sheet.extend(sized(&body));
        for node in self.children.iter().chain(&self.descendants) {
            node.write(sheet);
        }
    }

    fn count(&self) -> usize {
        1 + count(&self.children) + count(&self.descendants)
    }
}

fn count(nodes: &[Node]) -> usize {
    nodes.iter().map(Node::count).sum()
}

pub fn sheet(roots: &[Node]) -> Vec<u8> {
    let mut sheet = vec![1, 0, 0, 0, 0];
    sheet.extend((count(roots) as u16).to_be_bytes());
    sheet.extend((roots.len() as u16).to_be_bytes());
    roots.iter().for_each(|node| node.write(&mut sheet));
    let length = sheet.len() as u32;
    sheet[1..5].copy_from_slice(&length.to_be_bytes());
    sheet
}

/// A node for each name: child and descendant trees, nth, and attribute tests of every kind below.
pub fn mixed() -> Vec<u8> {
    let named = |name: &str, id: u8| Node {
        ids: vec![id],
        tag_tests: vec![local_name(name)],
        ..Node::default()
    };
    let mut a = named("a", 1);
    let mut b = named("b", 64);
    b.children = vec![named("c", 65), named("a", 2)];
    a.children = vec![b.clone(), named("ab", 3)];
    a.descendants = vec![b, named("ba", 127)];
    let counted = Node {
        ids: vec![5],
        tag_tests: vec![nth(4, 2, 1), nth(5, -1, 3)],
        children: vec![named("c", 6)],
        ..Node::default()
    };
    let tests = [
        test(16, false, b"a"),
        test(17, true, b"b"),
        test(18, false, b"c"),
        test(19, true, b""),
        comparison(20, false, 2, b"a", b"B"),
        comparison(21, true, 3, b"b", b"a"),
        comparison(22, false, 0, b"c", b"a"),
        comparison(23, true, 1, b"a", b""),
        comparison(24, false, 2, b"b", b"c"),
        comparison(25, true, 3, b"c", b"ab"),
    ];
    let asking = tests.iter().enumerate().map(|(at, test)| Node {
        ids: vec![10 + at as u8, 80],
        tag_tests: if at % 2 == 0 {
            vec![local_name("c")]
        } else {
            vec![]
        },
        attribute_tests: vec![test.clone()],
        children: vec![named("a", 90)],
        descendants: vec![named("b", 100)],
    });
    let mut roots = vec![a, counted];
    roots.extend(asking);
    sheet(&roots)
}

/// Nodes that match every tag, each with a child tree of its own.
pub fn broad(roots: usize) -> Vec<u8> {
    let leaf = Node {
        tag_tests: vec![test(2, true, b"")],
        ..Node::default()
    };
    let root = Node {
        ids: vec![7],
        tag_tests: vec![test(1, false, b"")],
        children: vec![leaf],
        ..Node::default()
    };
    sheet(&vec![root; roots])
}

/// A chain of 32 nodes, each the child of the last.
pub fn chain() -> Vec<u8> {
    let node = |children| Node {
        tag_tests: vec![test(1, false, b"")],
        children,
        ..Node::default()
    };
    sheet(&(0..32).fold(vec![], |below, _| vec![node(below)]))
}
