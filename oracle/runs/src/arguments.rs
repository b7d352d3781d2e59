//! The arguments of a comparison: words, and options with a value.

use plain::Family;
use std::process::exit;

pub struct Arguments {
    words: Vec<String>,
    options: Vec<(String, String)>,
    usage: &'static str,
}

impl Arguments {
    /// Reads the command line; every option in `known` takes a value, those in `flags` none.
    pub fn read(usage: &'static str, known: &[&str], flags: &[&str]) -> Self {
        let mut found = Self {
            words: Vec::new(),
            options: Vec::new(),
            usage,
        };
        let mut arguments = std::env::args().skip(1);
        while let Some(argument) = arguments.next() {
            if known.contains(&argument.as_str()) {
                match arguments.next() {
                    Some(value) => found.options.push((argument, value)),
                    None => found.fail(),
                }
            } else if flags.contains(&argument.as_str()) {
                found.options.push((argument, String::new()));
            } else if argument.starts_with("--") {
                found.fail();
            } else {
                found.words.push(argument);
            }
        }
        found
    }

    pub fn fail(&self) -> ! {
        eprintln!("usage: {}", self.usage);
        exit(2);
    }

    pub fn option(&self, name: &str) -> Option<&str> {
        let found = self.options.iter().find(|(known, _)| known == name);
        found.map(|(_, value)| value.as_str())
    }

    pub fn word(&self, at: usize) -> Option<&str> {
        self.words.get(at).map(String::as_str)
    }

    /// A number, or what stands in for it when none was given.
    pub fn number(&self, given: Option<&str>, otherwise: u64) -> u64 {
        given.map_or(otherwise, |text| {
            text.parse().unwrap_or_else(|_| self.fail())
        })
    }

    pub fn family(&self) -> Family {
        self.option("--family").map_or(Family::Good, |name| {
            Family::named(name).unwrap_or_else(|| self.fail())
        })
    }
}
