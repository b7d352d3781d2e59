//! Sections 1 and 2: the sheet read from its bytes, or its refusal, and written back.

/// Sheets are at most this long.
pub const MAX_BYTES: usize = 65_536;
const MAX_NODES: usize = 1_024;
const MAX_DEPTH: usize = 32;
const MAX_ID: u8 = 127;
const MAX_LOCAL_NAME: usize = 63;
const HEADER: usize = 9;

#[derive(Clone, Debug, Default, Eq, PartialEq)]
pub struct Sheet {
    pub roots: Vec<Node>,
}

#[derive(Clone, Debug, Default, Eq, PartialEq)]
pub struct Node {
    pub ids: Vec<u8>,
    pub tag_tests: Vec<Test<TagTest>>,
    pub attribute_tests: Vec<Test<AttributeTest>>,
    pub children: Vec<Node>,
    pub descendants: Vec<Node>,
}

#[derive(Clone, Debug, Eq, PartialEq)]
pub struct Test<Kind> {
    pub negated: bool,
    pub kind: Kind,
}

#[derive(Clone, Debug, Eq, PartialEq)]
pub enum TagTest {
    Any,
    Unmatchable,
    LocalName(Vec<u8>),
    NthChild(Nth),
    NthOfType(Nth),
}

#[derive(Clone, Copy, Debug, Eq, PartialEq)]
pub struct Nth {
    pub step: i32,
    pub offset: i32,
}

#[derive(Clone, Debug, Eq, PartialEq)]
pub enum AttributeTest {
    Id(Vec<u8>),
    Class(Vec<u8>),
    Exists(Vec<u8>),
    Unencodable,
    Comparison(Comparison),
}

#[derive(Clone, Debug, Eq, PartialEq)]
pub struct Comparison {
    pub operator: Operator,
    /// The case byte, 0 to 3.
    pub case: u8,
    pub name: Vec<u8>,
    pub value: Vec<u8>,
}

#[derive(Clone, Copy, Debug, Eq, PartialEq)]
pub enum Operator {
    Equal,
    Includes,
    Dash,
    Prefix,
    Suffix,
    Substring,
}

impl Operator {
    /// In the order of their kinds, 20 to 25.
    pub const ALL: [Self; 6] = [
        Self::Equal,
        Self::Includes,
        Self::Dash,
        Self::Prefix,
        Self::Suffix,
        Self::Substring,
    ];
}

/// A sheet refusal: its number and its place.
#[derive(Clone, Copy, Debug, Eq, PartialEq)]
pub struct Refusal {
    pub number: u8,
    pub place: usize,
}

fn refuse<T>(number: u8, place: usize) -> Result<T, Refusal> {
    Err(Refusal { number, place })
}

/// Bytes from `at` on, all inside a holder that ends before `end`.
struct Reader<'b> {
    bytes: &'b [u8],
    at: usize,
    end: usize,
}

impl<'b> Reader<'b> {
    fn take(&mut self, count: usize) -> Option<&'b [u8]> {
        let piece = self.bytes[..self.end].get(self.at..self.at.checked_add(count)?)?;
        self.at += count;
        Some(piece)
    }

    fn u8(&mut self) -> Option<u8> {
        self.take(1).map(|piece| piece[0])
    }

    fn u16(&mut self) -> Option<usize> {
        self.take(2)
            .map(|piece| usize::from(u16::from_be_bytes([piece[0], piece[1]])))
    }

    fn i32(&mut self) -> Option<i32> {
        self.take(4)
            .map(|p| i32::from_be_bytes([p[0], p[1], p[2], p[3]]))
    }

    fn rest(&mut self) -> &'b [u8] {
        let piece = &self.bytes[self.at..self.end];
        self.at = self.end;
        piece
    }

    fn is_done(&self) -> bool {
        self.at == self.end
    }
}

/// The trees of a sheet, read left to right.
struct Trees<'b> {
    bytes: &'b [u8],
    at: usize,
    nodes: usize,
    announced: usize,
}

impl Sheet {
    /// The sheet that these bytes spell, or the first fault in them.
    pub fn read(bytes: &[u8]) -> Result<Self, Refusal> {
        if bytes.len() < HEADER {
            return refuse(1, 0);
        }
        if bytes.len() > MAX_BYTES {
            return refuse(2, 0);
        }
        if bytes[0] != 1 {
            return refuse(3, 0);
        }
        if u32::from_be_bytes([bytes[1], bytes[2], bytes[3], bytes[4]]) as usize != bytes.len() {
            return refuse(4, 0);
        }
        let announced = usize::from(u16::from_be_bytes([bytes[5], bytes[6]]));
        let roots = usize::from(u16::from_be_bytes([bytes[7], bytes[8]]));
        if announced > MAX_NODES {
            return refuse(5, 0);
        }
        let mut trees = Trees {
            bytes,
            at: HEADER,
            nodes: 0,
            announced,
        };
        let roots = trees.read(roots, 1)?;
        if trees.at != bytes.len() || trees.nodes < announced {
            return refuse(13, trees.at);
        }
        Ok(Self { roots })
    }

    /// The bytes of a sheet within the limits.
    pub fn write(&self) -> Vec<u8> {
        let mut out = vec![1, 0, 0, 0, 0];
        out.extend((self.node_count() as u16).to_be_bytes());
        out.extend((self.roots.len() as u16).to_be_bytes());
        for root in &self.roots {
            root.write(&mut out);
        }
        let length = out.len() as u32;
        out[1..5].copy_from_slice(&length.to_be_bytes());
        out
    }

    pub fn node_count(&self) -> usize {
        self.roots.iter().map(Node::count).sum()
    }
}

impl Trees<'_> {
    fn read(&mut self, count: usize, depth: usize) -> Result<Vec<Node>, Refusal> {
        let mut nodes = Vec::new();
        for _ in 0..count {
            nodes.push(self.tree(depth)?);
        }
        Ok(nodes)
    }

    fn tree(&mut self, depth: usize) -> Result<Node, Refusal> {
        let place = self.at;
        if depth > MAX_DEPTH {
            return refuse(6, place);
        }
        if self.nodes == self.announced {
            return refuse(7, place);
        }
        self.nodes += 1;
        let (mut node, children, descendants) = self.record(place)?;
        node.children = self.read(children, depth + 1)?;
        node.descendants = self.read(descendants, depth + 1)?;
        Ok(node)
    }

    /// A node without its trees, and how many of each kind follow.
    fn record(&mut self, place: usize) -> Result<(Node, usize, usize), Refusal> {
        let past = Refusal { number: 8, place };
        let mut sheet = Reader {
            bytes: self.bytes,
            at: place,
            end: self.bytes.len(),
        };
        let length = sheet.u16().ok_or(past)?;
        sheet.take(length).ok_or(past)?;
        self.at = sheet.at;
        let mut record = Reader {
            bytes: self.bytes,
            at: place + 2,
            end: sheet.at,
        };
        let id_count = record.u8().ok_or(past)?;
        let ids = record.take(usize::from(id_count)).ok_or(past)?.to_vec();
        if ids.windows(2).any(|pair| pair[0] >= pair[1]) || ids.iter().any(|&id| id > MAX_ID) {
            return refuse(9, place);
        }
        let tag_tests = record.u8().ok_or(past)?;
        let attribute_tests = record.u8().ok_or(past)?;
        if tag_tests == 0 && attribute_tests == 0 {
            return refuse(10, place);
        }
        let children = record.u16().ok_or(past)?;
        let descendants = record.u16().ok_or(past)?;
        let mut node = Node {
            ids,
            ..Node::default()
        };
        for _ in 0..tag_tests {
            node.tag_tests.push(test(&mut record, place, tag_test)?);
        }
        for _ in 0..attribute_tests {
            node.attribute_tests
                .push(test(&mut record, place, attribute_test)?);
        }
        if !record.is_done() {
            return Err(past);
        }
        Ok((node, children, descendants))
    }
}

/// What a body of some kind spells: a test, a fault in the body, or no kind of this group.
enum Body<Kind> {
    Good(Kind),
    Fault,
    Unknown,
}

impl<Kind> Body<Kind> {
    fn good_if(condition: bool, kind: Kind) -> Self {
        if condition {
            Self::Good(kind)
        } else {
            Self::Fault
        }
    }
}

fn test<Kind>(
    record: &mut Reader<'_>,
    record_place: usize,
    body: fn(u8, &mut Reader<'_>) -> Body<Kind>,
) -> Result<Test<Kind>, Refusal> {
    let past = Refusal {
        number: 8,
        place: record_place,
    };
    let place = record.at;
    let length = record.u16().ok_or(past)?;
    let piece = record.take(length).ok_or(past)?;
    if length < 2 {
        return refuse(12, place);
    }
    let mut body_reader = Reader {
        bytes: piece,
        at: 2,
        end: piece.len(),
    };
    let kind = body(piece[0], &mut body_reader);
    if matches!(kind, Body::Unknown) {
        return refuse(11, place);
    }
    match kind {
        Body::Good(kind) if piece[1] <= 1 => Ok(Test {
            negated: piece[1] == 1,
            kind,
        }),
        _ => refuse(12, place),
    }
}

fn tag_test(kind: u8, body: &mut Reader<'_>) -> Body<TagTest> {
    match kind {
        1 => Body::good_if(body.is_done(), TagTest::Any),
        2 => Body::good_if(body.is_done(), TagTest::Unmatchable),
        3 => {
            let name = body.rest().to_vec();
            Body::good_if(
                (1..=MAX_LOCAL_NAME).contains(&name.len()),
                TagTest::LocalName(name),
            )
        }
        4 => nth(body).map_or(Body::Fault, |nth| Body::Good(TagTest::NthChild(nth))),
        5 => nth(body).map_or(Body::Fault, |nth| Body::Good(TagTest::NthOfType(nth))),
        _ => Body::Unknown,
    }
}

fn nth(body: &mut Reader<'_>) -> Option<Nth> {
    let nth = Nth {
        step: body.i32()?,
        offset: body.i32()?,
    };
    body.is_done().then_some(nth)
}

fn attribute_test(kind: u8, body: &mut Reader<'_>) -> Body<AttributeTest> {
    match kind {
        16 => Body::Good(AttributeTest::Id(body.rest().to_vec())),
        17 => Body::Good(AttributeTest::Class(body.rest().to_vec())),
        18 => Body::Good(AttributeTest::Exists(body.rest().to_vec())),
        19 => Body::good_if(body.is_done(), AttributeTest::Unencodable),
        20..=25 => comparison(Operator::ALL[usize::from(kind - 20)], body)
            .map_or(Body::Fault, |c| Body::Good(AttributeTest::Comparison(c))),
        _ => Body::Unknown,
    }
}

fn comparison(operator: Operator, body: &mut Reader<'_>) -> Option<Comparison> {
    let case = body.u8().filter(|&case| case <= 3)?;
    let name_length = usize::from(body.u8()?);
    Some(Comparison {
        operator,
        case,
        name: body.take(name_length)?.to_vec(),
        value: body.rest().to_vec(),
    })
}

impl Node {
    pub fn count(&self) -> usize {
        let below: usize = self
            .children
            .iter()
            .chain(&self.descendants)
            .map(Self::count)
            .sum();
        1 + below
    }

    fn write(&self, out: &mut Vec<u8>) {
        let mut record = vec![self.ids.len() as u8];
        record.extend(&self.ids);
        record.push(self.tag_tests.len() as u8);
        record.push(self.attribute_tests.len() as u8);
        record.extend((self.children.len() as u16).to_be_bytes());
        record.extend((self.descendants.len() as u16).to_be_bytes());
        for test in &self.tag_tests {
            let (kind, body) = test.kind.write();
            write_test(&mut record, kind, test.negated, &body);
        }
        for test in &self.attribute_tests {
            let (kind, body) = test.kind.write();
            write_test(&mut record, kind, test.negated, &body);
        }
        out.extend((record.len() as u16).to_be_bytes());
        out.extend(record);
        for tree in self.children.iter().chain(&self.descendants) {
            tree.write(out);
        }
    }
}

fn write_test(record: &mut Vec<u8>, kind: u8, negated: bool, body: &[u8]) {
    record.extend((body.len() as u16 + 2).to_be_bytes());
    record.extend([kind, u8::from(negated)]);
    record.extend(body);
}

impl TagTest {
    fn write(&self) -> (u8, Vec<u8>) {
        match self {
            Self::Any => (1, Vec::new()),
            Self::Unmatchable => (2, Vec::new()),
            Self::LocalName(name) => (3, name.clone()),
            Self::NthChild(nth) => (4, nth.write()),
            Self::NthOfType(nth) => (5, nth.write()),
        }
    }
}

impl Nth {
    fn write(self) -> Vec<u8> {
        [self.step.to_be_bytes(), self.offset.to_be_bytes()].concat()
    }
}

impl AttributeTest {
    fn write(&self) -> (u8, Vec<u8>) {
        match self {
            Self::Id(value) => (16, value.clone()),
            Self::Class(value) => (17, value.clone()),
            Self::Exists(name) => (18, name.clone()),
            Self::Unencodable => (19, Vec::new()),
            Self::Comparison(c) => {
                let mut body = vec![c.case, c.name.len() as u8];
                body.extend(&c.name);
                body.extend(&c.value);
                (20 + c.operator as u8, body)
            }
        }
    }
}
