//! Section 8: the records of a trace, read from its bytes and written back.

#[derive(Clone, Debug, Eq, PartialEq)]
pub enum Record {
    Start {
        namespace: u8,
        name: Vec<u8>,
    },
    Attributes {
        self_closing: bool,
        attributes: Vec<(Vec<u8>, Vec<u8>)>,
    },
    End {
        name: Vec<u8>,
    },
}

/// Takes `count` bytes off the front.
fn take<'b>(bytes: &mut &'b [u8], count: usize) -> Option<&'b [u8]> {
    let (piece, rest) = bytes.split_at_checked(count)?;
    *bytes = rest;
    Some(piece)
}

fn take_u16(bytes: &mut &[u8]) -> Option<usize> {
    take(bytes, 2).map(|p| usize::from(u16::from_be_bytes([p[0], p[1]])))
}

impl Record {
    /// The record at the front of the bytes, which then stand after it; nothing when it is faulty.
    pub fn read(bytes: &mut &[u8]) -> Option<Self> {
        let length = take_u16(bytes)?;
        let record = take(bytes, length)?;
        let (&kind, mut body) = record.split_first()?;
        match kind {
            1 => {
                let (&namespace, name) = body.split_first()?;
                Some(Self::Start {
                    namespace,
                    name: name.to_vec(),
                })
            }
            2 => Self::read_attributes(&mut body),
            3 => Some(Self::End {
                name: body.to_vec(),
            }),
            _ => None,
        }
    }

    fn read_attributes(body: &mut &[u8]) -> Option<Self> {
        let head = take(body, 2)?;
        let (self_closing, count) = (head[0], head[1]);
        let mut attributes = Vec::new();
        for _ in 0..count {
            let name_length = usize::from(take(body, 1)?[0]);
            let name = take(body, name_length)?.to_vec();
            let value_length = take_u16(body)?;
            attributes.push((name, take(body, value_length)?.to_vec()));
        }
        (self_closing <= 1 && body.is_empty()).then_some(Self::Attributes {
            self_closing: self_closing == 1,
            attributes,
        })
    }

    pub fn write(&self, out: &mut Vec<u8>) {
        let mut record = Vec::new();
        match self {
            Self::Start { namespace, name } => {
                record.extend([1, *namespace]);
                record.extend(name);
            }
            Self::Attributes {
                self_closing,
                attributes,
            } => {
                record.extend([2, u8::from(*self_closing), attributes.len() as u8]);
                for (name, value) in attributes {
                    record.push(name.len() as u8);
                    record.extend(name);
                    record.extend((value.len() as u16).to_be_bytes());
                    record.extend(value);
                }
            }
            Self::End { name } => {
                record.push(3);
                record.extend(name);
            }
        }
        out.extend((record.len() as u16).to_be_bytes());
        out.extend(record);
    }
}
