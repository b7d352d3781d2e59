//! What a comparison counts in the judge's lines.

use std::fmt;

#[derive(Clone, Debug, Default, Eq, PartialEq)]
pub struct Figures {
    pub cases: usize,
    pub lines: usize,
    pub matches: usize,
    pub ids: usize,
    pub waits: usize,
    pub ends: usize,
    pub popped: usize,
    pub refused: usize,
}

impl Figures {
    /// Counts a case by its lines; indented ones are no answers.
    pub fn add(&mut self, output: &str) {
        self.cases += 1;
        for line in output.lines().filter(|line| !line.starts_with(' ')) {
            self.lines += 1;
            let words: Vec<&str> = line.split(' ').collect();
            match words[0] {
                "match" => {
                    self.matches += 1;
                    self.ids += words.len() - 2;
                }
                "attrs" => self.waits += 1,
                "pop" => {
                    self.ends += 1;
                    self.popped += words[1].parse::<usize>().unwrap_or(0);
                }
                "refused" => self.refused += 1,
                _ => {}
            }
        }
    }
}

impl fmt::Display for Figures {
    fn fmt(&self, f: &mut fmt::Formatter<'_>) -> fmt::Result {
        let Self {
            cases,
            lines,
            matches,
            ids,
            waits,
            ends,
            popped,
            refused,
        } = self;
        write!(
            f,
            "{cases} cases, {lines} answer lines: {matches} matches with {ids} ids, {waits} waits, \
             {ends} end tags that popped {popped} elements, {refused} refusals"
        )
    }
}

#[cfg(test)]
mod tests {
    use super::Figures;

    #[test]
    fn each_kind_of_line_is_counted() {
        let mut figures = Figures::default();
        figures.add("match content\n  top\nattrs\nmatch 3 7 void\npop 2\n  popped\nrefused 22\n");
        let expected = Figures {
            cases: 1,
            lines: 5,
            matches: 2,
            ids: 2,
            waits: 1,
            ends: 1,
            popped: 2,
            refused: 1,
        };
        assert_eq!(figures, expected);
    }
}
