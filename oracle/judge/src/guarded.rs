//! lol_html's machine behind the refusals of the plain model: what 01 refuses never reaches the Rust.

use crate::driver::Judge;
use plain::machine::Ids;
use plain::rules::Rules;
use plain::{Answer, Machine, Model, Outlined, Sheet};

pub struct Guarded {
    model: Model,
    judge: Judge,
}

impl Guarded {
    pub fn new(sheet: &Sheet, esi: bool) -> Self {
        let rules = Rules {
            esi,
            ..Rules::default()
        };
        Self {
            model: Model::with(sheet, rules),
            judge: Judge::new(sheet, esi),
        }
    }

    /// The model's refusal, or the Rust's answer.
    fn call(&mut self, call: impl Fn(&mut dyn Machine) -> Answer) -> Answer {
        match call(&mut self.model) {
            refused @ Answer::Refused(_) => refused,
            _ => call(&mut self.judge),
        }
    }
}

impl Machine for Guarded {
    fn start(&mut self, namespace: u8, name: &[u8]) -> Answer {
        self.call(|machine| machine.start(namespace, name))
    }

    fn attributes(&mut self, self_closing: bool, attributes: Outlined<'_>) -> Answer {
        self.call(|machine| machine.attributes(self_closing, attributes))
    }

    fn end(&mut self, name: &[u8], room: usize) -> Answer {
        self.call(|machine| machine.end(name, room))
    }

    fn top(&mut self) -> Option<Ids> {
        self.judge.top()
    }
}
