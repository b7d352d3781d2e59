//! What the generator promises, and that it finds out about every wrong model.

use plain::damage::damaged;
use plain::program::{Lines, run};
use plain::shrink::shrink;
use plain::{Case, Family, Fault, Model, Sheet};

/// Every wrong model must be caught within so many cases.
const CASES: u64 = 300;

fn right(input: &[u8]) -> String {
    run(input, Lines::WithIdSets, Model::new)
}

fn wrong(input: &[u8], fault: Fault) -> String {
    run(input, Lines::WithIdSets, |sheet| {
        Model::with_fault(sheet, fault)
    })
}

#[test]
fn every_wrong_model_is_caught() {
    let cases: Vec<(Vec<u8>, String)> = (1..=CASES)
        .map(|number| Case::random(number, Family::Good).bytes())
        .map(|input| (input.clone(), right(&input)))
        .collect();
    for &fault in Fault::ALL {
        let caught = cases
            .iter()
            .any(|(input, expected)| wrong(input, fault) != *expected);
        assert!(caught, "not caught: {}", fault.words());
    }
}

#[test]
fn the_same_number_gives_the_same_case() {
    for (_, family) in Family::ALL {
        assert_eq!(Case::random(7, family), Case::random(7, family));
        assert_ne!(Case::random(7, family), Case::random(8, family));
    }
}

#[test]
fn good_cases_have_good_sheets_and_stay_clear_of_e10_and_of_the_limits() {
    for number in 1..=CASES {
        let case = Case::random(number, Family::Good);
        assert!(!case.is_e10(), "case {number}");
        assert_eq!(Sheet::read(&case.sheet.write()), Ok(case.sheet.clone()));
        let output = right(&case.bytes());
        for limit in 24..=29 {
            assert!(!output.contains(&format!("refused {limit}")));
        }
        assert!(!output.contains("bad trace"));
    }
}

#[test]
fn the_families_reach_what_they_are_for() {
    let outputs: String = (1..=60)
        .map(|number| right(&Case::random(number, Family::Limits).bytes()))
        .collect();
    for limit in 26..=28 {
        assert!(outputs.contains(&format!("refused {limit}\n")), "{limit}");
    }
    for family in [Family::E10Nth, Family::E10Names] {
        assert!((1..=20).any(|number| Case::random(number, family).is_e10()));
    }
}

#[test]
fn damaged_inputs_meet_every_sheet_refusal_that_a_program_can_meet() {
    let outputs: String = (1..=6_000).map(|number| right(&damaged(number))).collect();
    for refusal in [1, 3, 4, 5, 6, 7, 8, 9, 10, 11, 12, 13] {
        let line = format!("sheet refused {refusal} at ");
        assert!(outputs.contains(&line), "{line}");
    }
    assert!(outputs.contains("bad trace at 0\n"));
    assert!(outputs.matches("bad trace at").count() > 500);
    assert!(outputs.matches("match").count() > 5_000);
}

#[test]
fn a_difference_is_made_small() {
    let fault = Fault::LastDuplicateAttribute;
    let differs = |case: &Case| right(&case.bytes()) != wrong(&case.bytes(), fault);
    let large = (1..)
        .map(|number| Case::random(number, Family::Good))
        .find(|case| differs(case))
        .expect("a case that differs");
    let small = shrink(large, 10_000, differs);
    assert!(differs(&small));
    assert_eq!(small.sheet.node_count(), 1);
    assert_eq!(small.records.len(), 2);
}
