//! A fixed list of the Rust's answers to random cases (the plain model's to damaged ones), in the form of the outside vectors.

use judge::Guarded;
use plain::Case;
use plain::damage::damaged;
use plain::generator::Family;
use plain::program::Lines;
use runs::arguments::Arguments;
use runs::library::random_run;
use runs::{Json, Side, hex};

const USAGE: &str = "list CASES [--family good|limits|damaged] [--from NUMBER] [--library]";

fn main() {
    let arguments = Arguments::read(USAGE, &["--family", "--from"], &["--library"]);
    let Some(count) = arguments.word(0) else {
        arguments.fail();
    };
    let count = arguments.number(Some(count), 0);
    let from = arguments.number(arguments.option("--from"), 1);
    let (words, side) = match arguments.family() {
        Family::Good => ("good", Side::Rust),
        Family::Limits => ("limits", Side::Guarded),
        Family::Damaged => ("damaged", Side::Plain),
        Family::E10Nth | Family::E10Names => arguments.fail(),
    };
    for number in from..from + count {
        if arguments.option("--library").is_some() {
            println!("{}", library_run(number));
        } else {
            let input = match arguments.family() {
                Family::Damaged => damaged(number),
                family => Case::random(number, family).bytes(),
            };
            println!(
                "{}",
                program_case(&format!("{words} {number}"), &side, &input)
            );
        }
    }
}

fn program_case(note: &str, side: &Side, input: &[u8]) -> Json {
    let fields = [
        ("family", "oracle".to_owned()),
        ("note", note.to_owned()),
        ("in", hex::write(input)),
        ("out", side.answer(input, Lines::Program)),
    ];
    let fields = fields.map(|(name, text)| (name.to_owned(), Json::Text(text)));
    Json::Fields(fields.to_vec())
}

fn library_run(number: u64) -> Json {
    let mut machine = None;
    let calls = random_run(number).into_iter().map(|call| {
        let answer = call.answer(&mut machine, |sheet, esi| {
            Box::new(Guarded::new(sheet, esi))
        });
        call.write(answer.expect("the first call makes the machine"))
    });
    Json::List(calls.collect())
}
