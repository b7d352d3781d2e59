//! Runs of library calls with their answers, as the outside vectors write them, and random ones.

use crate::{Json, hex};
use plain::generator::{Case, Family};
use plain::machine::listed;
use plain::random::Random;
use plain::{Answer, Machine, Outlined, Record, Refusal, Sheet};

#[derive(Clone, Debug)]
pub enum Call {
    Make {
        sheet: Vec<u8>,
        esi: bool,
        store: usize,
    },
    Start {
        namespace: u8,
        name: Vec<u8>,
    },
    Attributes {
        self_closing: bool,
        input: Vec<u8>,
        outlines: Vec<usize>,
    },
    End {
        name: Vec<u8>,
        room: usize,
    },
    Ids,
}

/// A machine made from a good sheet, ESI on or off.
pub type Make = fn(&Sheet, bool) -> Box<dyn Machine>;

fn number(of: usize) -> Json {
    Json::Number(of as i64)
}

fn word(of: &str) -> Json {
    Json::Text(of.to_owned())
}

fn id_list(ids: u128) -> Json {
    Json::List(listed(ids).map(|id| Json::Number(i64::from(id))).collect())
}

fn spelled(answer: Answer) -> Json {
    Json::List(match answer {
        Answer::Match { ids, content } => vec![word("match"), id_list(ids), Json::Flag(content)],
        Answer::Attributes => vec![word("attrs")],
        Answer::Popped(popped) => {
            let sets = popped.into_iter().map(id_list).collect();
            vec![word("pop"), Json::List(sets)]
        }
        Answer::Refused(refusal) => vec![word("refused"), number(usize::from(refusal))],
    })
}

impl Call {
    pub fn read(call: &Json) -> Option<Self> {
        let bytes = |name| hex::read(call.field(name)?.text()?);
        let size = |name| usize::try_from(call.field(name)?.number()?).ok();
        Some(match call.field("call")?.text()? {
            "make" => Self::Make {
                sheet: bytes("sheet")?,
                esi: size("esi")? != 0,
                store: size("store")?,
            },
            "start" => Self::Start {
                namespace: u8::try_from(size("ns")?).ok()?,
                name: bytes("name")?,
            },
            "attributes" => {
                let outlines = call.field("outlines")?.list()?.iter();
                let outlines = outlines.map(|place| usize::try_from(place.number()?).ok());
                Self::Attributes {
                    self_closing: size("self_closing")? != 0,
                    input: bytes("input")?,
                    outlines: outlines.collect::<Option<_>>()?,
                }
            }
            "end" => Self::End {
                name: bytes("name")?,
                room: size("room")?,
            },
            "ids" => Self::Ids,
            _ => return None,
        })
    }

    /// The call with its answer.
    pub fn write(&self, answer: Json) -> Json {
        let bytes = |bytes: &[u8]| Json::Text(hex::write(bytes));
        let flag = |flag: bool| Json::Number(i64::from(flag));
        let (kind, fields) = match self {
            Self::Make { sheet, esi, store } => (
                "make",
                vec![
                    ("sheet", bytes(sheet)),
                    ("esi", flag(*esi)),
                    ("store", number(*store)),
                ],
            ),
            Self::Start { namespace, name } => {
                let namespace = number(usize::from(*namespace));
                ("start", vec![("ns", namespace), ("name", bytes(name))])
            }
            Self::Attributes {
                self_closing,
                input,
                outlines,
            } => {
                let outlines = outlines.iter().map(|&place| number(place)).collect();
                (
                    "attributes",
                    vec![
                        ("self_closing", flag(*self_closing)),
                        ("input", bytes(input)),
                        ("outlines", Json::List(outlines)),
                    ],
                )
            }
            Self::End { name, room } => {
                ("end", vec![("name", bytes(name)), ("room", number(*room))])
            }
            Self::Ids => ("ids", vec![]),
        };
        let mut all = vec![("call", word(kind))];
        all.extend(fields);
        all.push(("answer", answer));
        let all = all
            .into_iter()
            .map(|(name, value)| (name.to_owned(), value));
        Json::Fields(all.collect())
    }

    /// Makes the call; a machine that was not made takes none.
    pub fn answer(&self, machine: &mut Option<Box<dyn Machine>>, make: Make) -> Option<Json> {
        if let Self::Make { sheet, esi, store } = self {
            let refused = |Refusal { number: n, place }| {
                vec![word("refused"), number(usize::from(n)), number(place)]
            };
            return Some(Json::List(match Sheet::read(sheet) {
                Err(refusal) => refused(refusal),
                Ok(sheet) if *store < sheet.node_count() => refused(Refusal {
                    number: 15,
                    place: 0,
                }),
                Ok(sheet) => {
                    *machine = Some(make(&sheet, *esi));
                    vec![word("ok")]
                }
            }));
        }
        let machine = machine.as_mut()?;
        Some(match self {
            Self::Make { .. } => return None,
            Self::Start { namespace, name } => spelled(machine.start(*namespace, name)),
            Self::Attributes {
                self_closing,
                input,
                outlines,
            } => spelled(machine.attributes(*self_closing, Outlined { input, outlines })),
            Self::End { name, room } => spelled(machine.end(name, *room)),
            Self::Ids => Json::List(match machine.top() {
                Some(ids) => vec![word("ids"), id_list(ids)],
                None => vec![word("nothing open")],
            }),
        })
    }
}

/// A random run: a case with ESI names, outlines that share bytes, small rooms, and the id set asked for.
pub fn random_run(case_number: u64) -> Vec<Call> {
    let case = Case::random(case_number, Family::Good);
    let mut random = Random::new(case_number);
    let mut calls = vec![Call::Make {
        sheet: case.sheet.write(),
        esi: random.chance(70),
        store: case.sheet.node_count() + random.below(2),
    }];
    for record in case.records {
        random_calls(&mut random, record, &mut calls);
        if random.chance(30) {
            calls.push(Call::Ids);
        }
    }
    calls
}

/// The record as a call, at times after a call that is refused: outlines not in fours, or too little room.
fn random_calls(random: &mut Random, record: Record, calls: &mut Vec<Call>) {
    match record {
        Record::Start { namespace, name } => {
            let esi = *random.pick(&["esi:include", "ESI:include", "esi:comment"]);
            let name = if random.chance(10) { esi.into() } else { name };
            calls.push(Call::Start { namespace, name });
        }
        Record::Attributes {
            self_closing,
            attributes,
        } => {
            let (input, outlines) = shared(random, &attributes);
            let call = |outlines| Call::Attributes {
                self_closing,
                input: input.clone(),
                outlines,
            };
            if random.chance(5) {
                calls.push(call([&outlines[..], &[0]].concat()));
            }
            calls.push(call(outlines));
        }
        Record::End { name } => {
            let call = |room| Call::End {
                name: name.clone(),
                room,
            };
            if random.chance(50) {
                calls.push(call(random.below(12)));
            }
            calls.push(call(512));
        }
    }
}

/// The attributes laid out in one input; a piece that stands there already is used again.
fn shared(random: &mut Random, attributes: &[(Vec<u8>, Vec<u8>)]) -> (Vec<u8>, Vec<usize>) {
    let mut input = b"<".to_vec();
    let mut outlines = Vec::new();
    for piece in attributes.iter().flat_map(|(name, value)| [name, value]) {
        let found = (0..=input.len()).find(|&at| input[at..].starts_with(piece));
        let start = match found {
            Some(at) if random.chance(80) => at,
            _ => {
                input.extend(piece);
                input.len() - piece.len()
            }
        };
        outlines.extend([start, start + piece.len()]);
    }
    (input, outlines)
}
