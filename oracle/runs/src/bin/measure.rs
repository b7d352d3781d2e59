//! How many cases the generator needs to tell each wrong model from the right one.

use plain::program::Lines;
use plain::{Case, Family, Fault};
use runs::Side;
use runs::arguments::Arguments;
use std::process::exit;

const USAGE: &str = "measure [CASES]";
const CASES: u64 = 500;

fn main() {
    let arguments = Arguments::read(USAGE, &[], &[]);
    let most = arguments.number(arguments.word(0), CASES);
    let inputs: Vec<Vec<u8>> = (1..=most)
        .map(|number| Case::random(number, Family::Good).bytes())
        .collect();
    let right = |lines| -> Vec<String> {
        let outputs = inputs.iter().map(|input| Side::Plain.answer(input, lines));
        outputs.collect()
    };
    let right = [Lines::Program, Lines::WithIdSets].map(|lines| (lines, right(lines)));
    let mut missed = 0;
    println!(
        "cases until caught and cases that catch it, of {most}: by the program's lines; by these and the id sets"
    );
    for &fault in Fault::ALL {
        let mut row = String::new();
        for (lines, outputs) in &right {
            let wrong = Side::Wrong(fault);
            let caught = (1..=most).zip(inputs.iter().zip(outputs));
            let mut caught = caught
                .filter(|(_, (input, output))| wrong.answer(input, *lines) != **output)
                .map(|(number, _)| number);
            let first = caught.next();
            let count = caught.count() + usize::from(first.is_some());
            let first = first.map_or("-".to_owned(), |number| number.to_string());
            row += &format!("{first:>5} {count:>5}   ");
            missed += usize::from(*lines == Lines::WithIdSets && count == 0);
        }
        println!("{row}{}", fault.words());
    }
    let all = Fault::ALL.len();
    println!(
        "{} of {all} wrong models caught within {most} cases",
        all - missed
    );
    exit(i32::from(missed > 0));
}
