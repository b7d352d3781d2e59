//! Calls on damaged stores: what is damaged, what is lent and which call comes is thrown by two generators, side by side, that
//! always throw the same. Each call is answered or refused, a refused one changes nothing and hands out no id, and every refusal
//! comes up.
//!
//! `DAMAGED_CALLS=20000 DAMAGED_EXACT=1` makes so many calls, each on copies that end where the lent part ends: for valgrind.
mod common;

use common::{number_of, sheets, Call, Counts, Host, Inputs, Stores};
use selectors_vm::calls;
use std::{env, thread};

const CALLS: u64 = 1_100_000;

/// SplitMix64: each number is a mix of a counter.
struct Dice(u64);

impl Dice {
    fn next(&mut self) -> u64 {
        self.0 = self.0.wrapping_add(0x9e37_79b9_7f4a_7c15);
        let mut z = self.0;
        z = (z ^ (z >> 30)).wrapping_mul(0xbf58_476d_1ce4_e5b9);
        z = (z ^ (z >> 27)).wrapping_mul(0x94d0_49bb_1331_11eb);
        z ^ (z >> 31)
    }

    /// From 0 up to `n`, which is not among them.
    fn below(&mut self, n: usize) -> usize {
        (self.next() % n as u64) as usize
    }

    fn one_in(&mut self, n: usize) -> bool {
        self.below(n) == 0
    }

    fn of<T: Copy>(&mut self, list: &[T]) -> T {
        list[self.below(list.len())]
    }

    /// A number that stands at some edge, or a small one, or any.
    fn cell(&mut self) -> u32 {
        const EDGES: [u32; 18] = [
            0,
            1,
            2,
            63,
            64,
            255,
            256,
            257,
            511,
            512,
            1023,
            1024,
            4095,
            4096,
            65535,
            0x7fff_fffe,
            0x7fff_ffff,
            u32::MAX,
        ];
        match self.below(4) {
            0 => self.of(&EDGES),
            1 => self.below(12) as u32,
            2 => self.below(1200) as u32,
            _ => self.next() as u32,
        }
    }
}

fn first() -> Host {
    let stores = Stores {
        program: vec![0; calls::PLACE * 1024 + 3],
        rows: vec![0; calls::ROWS + 3],
        names: vec![0; calls::NAMES + 3],
        ids: vec![0; calls::IDS + 3],
        nodes: vec![0; calls::NODES + 3],
        popped: vec![0; 515],
    };
    let inputs = Inputs {
        sheet: vec![0; 65537],
        input: vec![b'a'; 65537],
        outlines: vec![0; 1032],
    };
    Host::new(stores, inputs)
}

/// A good sheet is put down and a machine made of it, all lent in full.
fn good(host: &mut Host, dice: &mut Dice, sheets: &[Vec<u8>]) {
    let sheet = &sheets[dice.below(sheets.len())];
    host.inputs.sheet[..sheet.len()].copy_from_slice(sheet);
    host.lent.sheet = sheet.len();
    lend_all(host);
    host.inputs_changed();
    let told = host.call(Call::Fresh {
        esi: dice.cell() % 2,
    });
    assert_eq!(
        told.kind, 1,
        "a good sheet is taken, whatever the stores held"
    );
}

fn lend_all(host: &mut Host) {
    let lent = &mut host.lent;
    (lent.program, lent.rows, lent.names) = (calls::PLACE * 1024, calls::ROWS, calls::NAMES);
    (lent.ids, lent.nodes, lent.popped) = (calls::IDS, calls::NODES, 512);
}

/// One store is lent one short, not at all, or longer; now and then the sheet.
fn lend_oddly(host: &mut Host, dice: &mut Dice) {
    let by = dice.below(4);
    let odd = |size: usize| match by {
        0 => size - 1,
        1 => 0,
        _ => size + by,
    };
    let lent = &mut host.lent;
    match dice.below(8) {
        0 => lent.program = odd(calls::PLACE * 1024),
        1 => lent.program = dice.below(200),
        2 => lent.rows = odd(calls::ROWS),
        3 => lent.names = odd(calls::NAMES),
        4 => lent.ids = odd(calls::IDS),
        5 => lent.nodes = odd(calls::NODES),
        6 => lent.popped = dice.below(6),
        _ => lent.sheet = dice.of(&[0, 8, 9, lent.sheet, 65536, 65537]),
    }
}

/// Bytes of the sheet: its header, or any; now and then its length with them.
fn spoil_sheet(host: &mut Host, dice: &mut Dice) {
    let length = host.lent.sheet.clamp(9, 2000);
    let at = if dice.one_in(3) {
        dice.below(9)
    } else {
        dice.below(length)
    };
    let sheet = &mut host.inputs.sheet;
    match dice.below(3) {
        0 => sheet[at] = dice.next() as u8,
        1 => sheet[at] ^= 1 << dice.below(8),
        _ => sheet[at] = dice.below(5) as u8,
    }
    host.inputs_changed();
}

/// A header that passes the shape rules (docs/SHAPE.md), all else in it thrown.
fn force_header(host: &mut Host, dice: &mut Dice) {
    let nodes = u32::from(u16::from_be_bytes([
        host.inputs.sheet[5],
        host.inputs.sheet[6],
    ]));
    let rows = &mut host.stores.rows;
    for (word, most) in [
        (0, 256),
        (1, 4096),
        (2, 1024),
        (3, 512),
        (4, 1),
        (5, 63),
        (6, 7),
        (7, nodes),
        (14, 3),
    ] {
        rows[word] = if dice.one_in(3) {
            most
        } else {
            dice.cell() % (most + 1)
        };
    }
    rows[8] = dice.below(5) as u32;
    for word in &mut rows[9..12] {
        *word = dice.cell();
    }
    rows[12] = 1_383_429_737;
    rows[13] = host.lent.sheet as u32;
}

/// A cell of the rows: of the header, of one of the first rows or the top one, or any.
fn spoil_row(host: &mut Host, dice: &mut Dice) {
    let rows = &mut host.stores.rows;
    let top = rows[0].min(256) as usize;
    let at = match dice.below(4) {
        0 => dice.below(16),
        1 => 16 + 8 * top + dice.below(8),
        2 => 16 + dice.below(40),
        _ => dice.below(calls::ROWS),
    };
    rows[at] = dice.cell();
}

/// Something in the stores is damaged: a cell, a header, or a whole store.
fn spoil_stores(host: &mut Host, dice: &mut Dice) {
    let stores = &mut host.stores;
    match dice.below(400) {
        0 => stores.names.fill_with(|| dice.of(b"abc")),
        1 => stores.nodes.fill_with(|| dice.cell() as u16),
        2 => stores.program.fill_with(|| dice.cell()),
        3 => stores.ids.fill_with(|| dice.next()),
        4 => stores.rows.fill_with(|| dice.cell()),
        5..=159 => force_header(host, dice),
        160..=199 => stores.program[dice.below(800)] = dice.cell(),
        200..=239 => stores.nodes[dice.below(calls::NODES)] = dice.cell() as u16,
        240..=249 => stores.names[dice.below(calls::NAMES)] = dice.next() as u8,
        _ => spoil_row(host, dice),
    }
    host.stores_changed();
}

/// Outlines within a part of the input, or not; the input's bytes are letters and a space.
fn throw_attributes(host: &mut Host, dice: &mut Dice) {
    host.lent.input = if dice.one_in(50) {
        65537
    } else {
        dice.below(60)
    };
    host.lent.outlines = 4 * dice.below(5);
    if dice.one_in(20) {
        host.lent.outlines = dice.of(&[1, 2, 3, 1024, 1028]);
    }
    let room = host.lent.input.min(60) + usize::from(dice.one_in(10));
    for four in host.inputs.outlines[..host.lent.outlines].chunks_mut(4) {
        four.iter_mut()
            .for_each(|place| *place = dice.below(room + 1) as u32);
        if !dice.one_in(20) {
            four.chunks_mut(2).for_each(<[u32]>::sort_unstable);
        }
    }
    let at = dice.below(60);
    host.inputs.input[at] = dice.of(b"abcABC -");
    host.attributes_changed();
}

/// A name of one or two letters that the sheets know, a void or an ESI one, or none, or one at the limit.
fn throw_name(dice: &mut Dice, name: &mut Vec<u8>) {
    name.clear();
    match dice.below(20) {
        0 => name.resize(dice.of(&[0, 63, 64, 300]), b'a'),
        1 => name.extend_from_slice(dice.of(&[b"br", b"BR"])),
        2 => name.extend_from_slice(b"esi:include"),
        3 => name.extend([dice.next() as u8, dice.next() as u8]),
        _ => name.extend((0..1 + dice.below(2)).map(|_| dice.of(b"abcA"))),
    }
}

fn throw_call<'a>(dice: &mut Dice, name: &'a [u8]) -> Call<'a> {
    let flag = dice.of(&[0, 0, 0, 1, 2, u32::MAX]);
    match dice.below(16) {
        0 => Call::Fresh { esi: flag },
        1..=6 => Call::Start {
            namespace: if dice.one_in(20) {
                dice.cell()
            } else {
                flag % 3
            },
            name,
        },
        7..=10 => Call::Attributes { self_closing: flag },
        11..=14 => Call::End { name },
        _ => Call::IdSet,
    }
}

fn setting(name: &str) -> Option<u64> {
    env::var(name)
        .ok()
        .map(|value| value.parse().expect("a number"))
}

/// At least so many calls, with dice of their own; how each was answered.
fn damaged_calls(mut dice: Dice, wanted: u64, exact: bool) -> Counts {
    let sheets = [
        sheets::mixed(),
        sheets::broad(5),
        sheets::broad(500),
        sheets::chain(),
    ];
    let mut host = first();
    host.damaged = true;
    host.exact = exact;
    let mut counts = Counts::none();
    let mut name = Vec::new();
    while counts.total() < wanted {
        good(&mut host, &mut dice, &sheets);
        for _ in 0..dice.below(150) {
            match dice.below(16) {
                0 => lend_oddly(&mut host, &mut dice),
                1..=3 => lend_all(&mut host),
                4 => spoil_sheet(&mut host, &mut dice),
                5..=8 => spoil_stores(&mut host, &mut dice),
                _ => {}
            }
            throw_attributes(&mut host, &mut dice);
            throw_name(&mut dice, &mut name);
            counts.add(number_of(host.call(throw_call(&mut dice, &name))));
        }
    }
    counts
}

#[test]
fn every_call_is_answered_and_a_refused_one_changes_nothing() {
    let wanted = setting("DAMAGED_CALLS").unwrap_or(CALLS);
    let exact = setting("DAMAGED_EXACT").is_some();
    let half = wanted.div_ceil(2);
    let counts = thread::scope(|scope| {
        let other = scope.spawn(|| damaged_calls(Dice(2), half, exact));
        let mut counts = damaged_calls(Dice(1), half, exact);
        counts.add_all(&other.join().expect("the other half ends well"));
        counts
    });
    println!(
        "{} calls on damaged stores, by answer:\n{}",
        counts.total(),
        counts.list()
    );
    if wanted >= CALLS {
        assert_eq!(
            counts.refusals_missing(),
            [0; 0],
            "refusals that never came"
        );
        let answers = &counts.0[40..];
        assert!(
            answers.iter().all(|&count| count > 1000),
            "answers that hardly came"
        );
    }
}
