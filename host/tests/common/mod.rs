//! A host that keeps the stores itself: it lends parts of them, and sees to it that a refused call changes nothing at all.
#![allow(dead_code)] // each test program uses its own part of this

pub mod sheets;

use selectors_vm::calls::{self, Told};
use selectors_vm::Refusal;

/// What the calls may write.
#[derive(Clone, PartialEq)]
pub struct Stores {
    pub program: Vec<u32>,
    pub rows: Vec<u32>,
    pub names: Vec<u8>,
    pub ids: Vec<u64>,
    pub nodes: Vec<u16>,
    pub popped: Vec<u64>,
}

/// What they only read.
#[derive(Clone, PartialEq)]
pub struct Inputs {
    pub sheet: Vec<u8>,
    pub input: Vec<u8>,
    pub outlines: Vec<u32>,
}

/// How many elements of each are lent, from the first on.
#[derive(Clone, Copy, Debug)]
pub struct Lent {
    pub sheet: usize,
    pub program: usize,
    pub rows: usize,
    pub names: usize,
    pub ids: usize,
    pub nodes: usize,
    pub popped: usize,
    pub input: usize,
    pub outlines: usize,
}

#[derive(Clone, Copy, Debug)]
pub enum Call<'a> {
    Fresh { esi: u32 },
    Start { namespace: u32, name: &'a [u8] },
    Attributes { self_closing: u32 },
    End { name: &'a [u8] },
    IdSet,
}

pub struct Host {
    pub stores: Stores,
    pub inputs: Inputs,
    pub lent: Lent,
    /// The stores may be damaged: then a call may write past a store's size, within what is lent (docs/SHAPE.md).
    pub damaged: bool,
    /// Lends copies that end where the lent part ends, so that valgrind sees a read past it.
    pub exact: bool,
    before: Stores,
    inputs_before: Inputs,
}

impl Stores {
    fn copy(&mut self, from: &Stores) {
        self.program.clone_from(&from.program);
        self.rows.clone_from(&from.rows);
        self.names.clone_from(&from.names);
        self.ids.clone_from(&from.ids);
        self.nodes.clone_from(&from.nodes);
        self.popped.clone_from(&from.popped);
    }

    fn call(&mut self, inputs: &Inputs, lent: &Lent, call: Call<'_>) -> Told {
        let sheet = &inputs.sheet[..lent.sheet];
        let program = &mut self.program[..lent.program];
        let rows = &mut self.rows[..lent.rows];
        let names = &mut self.names[..lent.names];
        let ids = &mut self.ids[..lent.ids];
        let nodes = &mut self.nodes[..lent.nodes];
        let popped = &mut self.popped[..lent.popped];
        let input = &inputs.input[..lent.input];
        let outlines = &inputs.outlines[..lent.outlines];
        match call {
            Call::Fresh { esi } => calls::fresh(sheet, program, rows, names, ids, nodes, esi),
            Call::Start { namespace, name } => {
                calls::start(sheet, program, rows, names, ids, nodes, namespace, name)
            }
            Call::Attributes { self_closing } => calls::attributes(
                sheet,
                program,
                rows,
                names,
                ids,
                nodes,
                self_closing,
                input,
                outlines,
            ),
            Call::End { name } => calls::end(sheet, program, rows, names, ids, nodes, name, popped),
            Call::IdSet => calls::id_set(sheet, program, rows, names, ids, nodes),
        }
    }

    /// The parts that are lent, each in a buffer of just its size.
    fn cut(&self, lent: &Lent) -> Stores {
        Stores {
            program: self.program[..lent.program].to_vec(),
            rows: self.rows[..lent.rows].to_vec(),
            names: self.names[..lent.names].to_vec(),
            ids: self.ids[..lent.ids].to_vec(),
            nodes: self.nodes[..lent.nodes].to_vec(),
            popped: self.popped[..lent.popped].to_vec(),
        }
    }

    fn put_back(&mut self, cut: &Stores) {
        self.program[..cut.program.len()].copy_from_slice(&cut.program);
        self.rows[..cut.rows.len()].copy_from_slice(&cut.rows);
        self.names[..cut.names.len()].copy_from_slice(&cut.names);
        self.ids[..cut.ids.len()].copy_from_slice(&cut.ids);
        self.nodes[..cut.nodes.len()].copy_from_slice(&cut.nodes);
        self.popped[..cut.popped.len()].copy_from_slice(&cut.popped);
    }

    /// The stores in which an accepted call wrote what it must leave alone: what is not lent, the instruction store but for a
    /// making, the popped-id buffer but for an end tag, and past each store's size.
    fn overwritten(
        &self,
        before: &Stores,
        lent: &Lent,
        damaged: bool,
        call: Call<'_>,
    ) -> Vec<&'static str> {
        let from = |size: usize, lent: usize| if damaged { lent.max(size) } else { size };
        let program = match call {
            Call::Fresh { .. } => lent.program,
            _ => 0,
        };
        let popped = match call {
            Call::End { .. } => lent.popped,
            _ => 0,
        };
        let rows = from(calls::ROWS, lent.rows);
        let names = from(calls::NAMES, lent.names);
        let ids = from(calls::IDS, lent.ids);
        let nodes = from(calls::NODES, lent.nodes);
        let kept = [
            (
                "program",
                self.program[program..] == before.program[program..],
            ),
            ("rows", self.rows[rows..] == before.rows[rows..]),
            ("names", self.names[names..] == before.names[names..]),
            ("ids", self.ids[ids..] == before.ids[ids..]),
            ("nodes", self.nodes[nodes..] == before.nodes[nodes..]),
            ("popped", self.popped[popped..] == before.popped[popped..]),
        ];
        kept.iter()
            .filter(|(_, kept)| !kept)
            .map(|(store, _)| *store)
            .collect()
    }
}

impl Inputs {
    fn cut(&self, lent: &Lent) -> Inputs {
        Inputs {
            sheet: self.sheet[..lent.sheet].to_vec(),
            input: self.input[..lent.input].to_vec(),
            outlines: self.outlines[..lent.outlines].to_vec(),
        }
    }
}

impl Host {
    pub fn new(stores: Stores, inputs: Inputs) -> Self {
        let lent = Lent {
            sheet: 0,
            program: stores.program.len(),
            rows: stores.rows.len(),
            names: stores.names.len(),
            ids: stores.ids.len(),
            nodes: stores.nodes.len(),
            popped: stores.popped.len(),
            input: 0,
            outlines: 0,
        };
        Self {
            before: stores.clone(),
            inputs_before: inputs.clone(),
            stores,
            inputs,
            lent,
            damaged: false,
            exact: false,
        }
    }

    /// To be called after a change of `inputs`.
    pub fn inputs_changed(&mut self) {
        self.inputs_before.clone_from(&self.inputs);
    }

    /// To be called after a change of the first 64 bytes of the input and of the outlines that are lent.
    pub fn attributes_changed(&mut self) {
        self.inputs_before.input[..64].copy_from_slice(&self.inputs.input[..64]);
        let lent = self.lent.outlines;
        self.inputs_before.outlines[..lent].copy_from_slice(&self.inputs.outlines[..lent]);
    }

    /// To be called after a change of `stores`.
    pub fn stores_changed(&mut self) {
        self.before.copy(&self.stores);
    }

    /// Makes the call. Panics where it is refused and hands out an id, or some byte of anything is not as it was; and where
    /// an accepted call writes what it must not.
    pub fn call(&mut self, call: Call<'_>) -> Told {
        let told = if self.exact {
            let mut stores = self.stores.cut(&self.lent);
            let inputs = self.inputs.cut(&self.lent);
            let told = stores.call(&inputs, &self.lent, call);
            assert!(
                inputs == self.inputs.cut(&self.lent),
                "an input changed: {call:?}"
            );
            self.stores.put_back(&stores);
            told
        } else {
            self.stores.call(&self.inputs, &self.lent, call)
        };
        if told.kind == 0 {
            let number = told.refusal;
            assert!(
                Refusal::from_number(number).is_some(),
                "no refusal: {number}"
            );
            assert_eq!((told.low, told.high), (0, 0), "refused {number} with an id");
            assert!(
                self.stores == self.before,
                "refused {number}, and a store changed: {call:?}"
            );
        } else {
            assert_eq!(told.refusal, 0);
            let over = self
                .stores
                .overwritten(&self.before, &self.lent, self.damaged, call);
            assert_eq!(
                over,
                [""; 0],
                "written where nothing may be: {call:?}, header {:?}",
                &self.before.rows[..16]
            );
            self.before.copy(&self.stores);
        }
        assert!(self.inputs_unchanged(), "an input changed: {call:?}");
        told
    }

    /// Inputs are compared as far as they are lent.
    fn inputs_unchanged(&self) -> bool {
        let (now, then) = (&self.inputs, &self.inputs_before);
        let lent = &self.lent;
        now.sheet[..lent.sheet] == then.sheet[..lent.sheet]
            && now.input[..lent.input] == then.input[..lent.input]
            && now.outlines[..lent.outlines] == then.outlines[..lent.outlines]
    }
}

/// An answer as one number: a refusal's own; 40 waits, 41 a match with content, 42 one without, 43 ids, 44 nothing open,
/// 45 made, 100 and the number popped.
pub fn number_of(told: Told) -> u32 {
    match told.kind {
        0 => told.refusal,
        1 => 45,
        2 => 42 - told.value as u32,
        3 => 40,
        4 => 100 + told.value as u32,
        5 => 43,
        6 => 44,
        kind => panic!("no kind of answer: {kind}"),
    }
}

/// How often each answer was given; all popped elements count as 47, none as 46.
#[derive(Clone, Debug, PartialEq)]
pub struct Counts(pub [u64; 48]);

impl Counts {
    pub fn none() -> Self {
        Counts([0; 48])
    }

    pub fn add(&mut self, number: u32) {
        let slot = match number {
            100 => 46,
            101.. => 47,
            _ => number,
        };
        self.0[slot as usize] += 1;
    }

    pub fn add_all(&mut self, others: &Counts) {
        for (count, other) in self.0.iter_mut().zip(others.0) {
            *count += other;
        }
    }

    pub fn refusals_missing(&self) -> Vec<u32> {
        let numbers = Refusal::ALL.iter().map(|refusal| refusal.number());
        numbers.filter(|&n| self.0[n as usize] == 0).collect()
    }

    pub fn total(&self) -> u64 {
        self.0.iter().sum()
    }

    pub fn list(&self) -> String {
        let given = self.0.iter().enumerate().filter(|(_, &count)| count != 0);
        given
            .map(|(number, count)| format!("{number}: {count}\n"))
            .collect()
    }
}
