//! The safe calls.
mod common;

use common::sheets::{self, Node};
use selectors_vm::{Answer, Ids, Machine, Namespace, Outline, Refusal, SheetRefusal};
use std::collections::HashSet;
use std::thread;

/// Id 3 on `p`, 64 on `[x]`.
fn sheet() -> Vec<u8> {
    let p = Node {
        ids: vec![3],
        tag_tests: vec![sheets::local_name("p")],
        ..Node::default()
    };
    let x = Node {
        ids: vec![64],
        attribute_tests: vec![sheets::test(18, false, b"x")],
        ..Node::default()
    };
    sheets::sheet(&[p, x])
}

fn whole(machine: &mut Machine, name: &[u8]) -> Result<Answer, Refusal> {
    match machine.start(Namespace::Html, name)? {
        Answer::Attributes => machine.attributes(false, b"", &[]),
        answer => Ok(answer),
    }
}

const X: Outline = Outline {
    name_start: 0,
    name_end: 1,
    value_start: 1,
    value_end: 1,
};

#[test]
fn a_run() {
    let mut machine = Machine::new(&sheet(), false).expect("a good sheet");
    assert_eq!(machine.top(), None);
    assert_eq!(machine.start(Namespace::Html, b"P"), Ok(Answer::Attributes));
    assert_eq!(machine.end(b"p").err(), Some(Refusal::TagWaits));
    let ids = Ids::from_words([8, 1]);
    let answer = Answer::Match { ids, content: true };
    assert_eq!(machine.attributes(true, b"x", &[X]), Ok(answer));
    assert_eq!(machine.top(), Some(ids));
    assert_eq!(
        machine.attributes(true, b"x", &[X]),
        Err(Refusal::NoTagWaits)
    );
    assert_eq!(
        machine.start(Namespace::Svg, b"path"),
        Ok(Answer::Attributes)
    );
    let answer = Answer::Match {
        ids: Ids::default(),
        content: false,
    };
    assert_eq!(machine.attributes(true, b"", &[]), Ok(answer));
    assert_eq!(machine.end(b"div").map(|popped| popped.len()), Ok(0));
    assert_eq!(machine.end(b"p").map(Iterator::collect), Ok(vec![ids]));
}

#[test]
fn a_refused_call_changes_nothing() {
    let mut machine = Machine::new(&sheet(), false).expect("a good sheet");
    whole(&mut machine, b"p").expect("accepted");
    let before = machine.clone();
    assert_eq!(machine.start(Namespace::Html, b""), Err(Refusal::BadName));
    assert_eq!(
        machine.start(Namespace::Html, &[b'a'; 64]),
        Err(Refusal::BadName)
    );
    assert_eq!(machine.end(b"").err(), Some(Refusal::BadName));
    assert_eq!(
        machine.attributes(false, b"", &[]),
        Err(Refusal::NoTagWaits)
    );
    assert!(machine == before);
}

#[test]
fn a_tag_that_waits_at_the_limit_waits_for_ever() {
    let mut machine = Machine::new(&sheet(), false).expect("a good sheet");
    for _ in 0..256 {
        whole(&mut machine, b"div").expect("256 may be open");
    }
    assert_eq!(
        machine.start(Namespace::Html, b"div"),
        Ok(Answer::Attributes)
    );
    for _ in 0..3 {
        assert_eq!(
            machine.attributes(false, b"", &[]),
            Err(Refusal::TooManyOpen)
        );
        assert_eq!(machine.end(b"div").err(), Some(Refusal::TagWaits));
    }
    machine.restart();
    assert_eq!(machine.top(), None);
    assert_eq!(machine.end(b"div").map(|popped| popped.len()), Ok(0));
}

#[test]
fn a_bad_sheet_is_refused_with_its_place() {
    let mut sheet = sheet();
    sheet[22] = 2;
    let refused = Machine::new(&sheet, false).expect_err("a negation of 2");
    let wanted = SheetRefusal {
        refusal: Refusal::BadTest,
        place: 19,
    };
    assert_eq!(refused, wanted);
    let words = "refused 12: a test is faulty: its length, negation or body (at byte 19)";
    assert_eq!(refused.to_string(), words);
    assert_eq!(
        Machine::new(&[], false).map_err(|r| r.refusal),
        Err(Refusal::SheetTooShort)
    );
}

#[test]
fn esi_names_are_void_where_it_is_on() {
    for esi in [false, true] {
        let mut machine = Machine::new(&sheet(), esi).expect("a good sheet");
        let content = !esi;
        let ids = Ids::default();
        assert_eq!(
            whole(&mut machine, b"esi:include"),
            Ok(Answer::Match { ids, content })
        );
    }
}

#[test]
fn ids_are_listed_rising() {
    let ids = Ids::from_words([1 | 1 << 63, 1 | 1 << 63]);
    assert_eq!(ids.iter().collect::<Vec<_>>(), [0, 63, 64, 127]);
    assert_eq!((ids.len(), ids.iter().len()), (4, 4));
    assert!(ids.contains(127) && !ids.contains(126) && !ids.contains(128));
    assert_eq!(Ids::default().iter().next(), None);
}

#[test]
fn refusals_have_their_numbers_and_words() {
    let numbers: Vec<_> = Refusal::ALL
        .iter()
        .map(|refusal| refusal.number())
        .collect();
    let wanted: Vec<u32> = (1..=13).chain([15]).chain(20..=31).collect();
    assert_eq!(numbers, wanted);
    for &refusal in Refusal::ALL {
        assert_eq!(Refusal::from_number(refusal.number()), Some(refusal));
        assert!(refusal
            .to_string()
            .starts_with(&format!("refused {}: ", refusal.number())));
    }
    let words: HashSet<_> = Refusal::ALL.iter().map(|refusal| refusal.words()).collect();
    assert_eq!(words.len(), numbers.len());
    assert_eq!(Refusal::from_number(14), None);
}

#[test]
fn machines_of_their_own_run_in_threads() {
    let workers = [1, 2, 3, 4].map(|_| {
        let mut machine = Machine::new(&sheet(), false).expect("a good sheet");
        thread::spawn(move || {
            for _ in 0..5_000 {
                whole(&mut machine, b"p").expect("accepted");
                assert_eq!(machine.end(b"p").map(|popped| popped.len()), Ok(1));
            }
        })
    });
    workers
        .into_iter()
        .for_each(|worker| worker.join().expect("no panic"));
}
