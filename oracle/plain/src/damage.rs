//! Damaged inputs for a program of section 8: good cases with something wrong in the sheet or in the trace.

use crate::generator::{Case, Family};
use crate::random::Random;
use crate::sheet::{Node, TagTest, Test};

/// Bytes that stand at some boundary of the formats.
const BOUNDARIES: [u8; 16] = [0, 1, 2, 3, 4, 5, 6, 15, 16, 18, 19, 20, 25, 26, 0x80, 0xff];
const LENGTH: std::ops::Range<usize> = 1..5;
const NODES: usize = 6;
const ROOTS: usize = 8;

/// The program's input with one or two things wrong, or none.
pub fn damaged(number: u64) -> Vec<u8> {
    let mut random = Random::new(!number);
    let mut case = Case::random(number, Family::Damaged);
    if random.chance(5) {
        let depth = 30 + random.below(4);
        deepen(&mut case, depth);
    }
    let mut sheet = case.sheet.write();
    let mut trace = case.bytes().split_off(sheet.len());
    for _ in 0..random.below(3) {
        if random.chance(60) {
            damage_sheet(&mut random, &mut sheet);
        } else {
            damage_bytes(&mut random, &mut trace);
        }
    }
    [sheet, trace].concat()
}

/// Hangs the roots below a chain of nodes.
fn deepen(case: &mut Case, depth: usize) {
    for _ in 0..depth {
        let mut parent = Node::default();
        parent.tag_tests.push(Test {
            negated: false,
            kind: TagTest::Any,
        });
        parent.descendants = std::mem::take(&mut case.sheet.roots);
        case.sheet.roots.push(parent);
    }
}

fn nudge(random: &mut Random, byte: &mut u8) {
    *byte = if random.chance(50) {
        byte.wrapping_add(1)
    } else {
        byte.wrapping_sub(1)
    };
}

/// Mostly the length field is made right again, so that the damage is met where it lies.
fn damage_sheet(random: &mut Random, sheet: &mut Vec<u8>) {
    match random.below(10) {
        0 if sheet.len() > NODES => nudge(random, &mut sheet[NODES]),
        1 if sheet.len() > ROOTS => nudge(random, &mut sheet[ROOTS]),
        _ => damage_bytes(random, sheet),
    }
    if sheet.len() >= LENGTH.end && random.chance(90) {
        let length = sheet.len() as u32;
        sheet[LENGTH].copy_from_slice(&length.to_be_bytes());
    }
}

/// One byte changed, put in or taken out, or the end cut off.
fn damage_bytes(random: &mut Random, bytes: &mut Vec<u8>) {
    if bytes.is_empty() {
        return;
    }
    let at = random.below(bytes.len());
    match random.below(8) {
        0..3 => bytes[at] = *random.pick(&BOUNDARIES),
        3..5 => nudge(random, &mut bytes[at]),
        5 => bytes.insert(at, *random.pick(&BOUNDARIES)),
        6 => drop(bytes.remove(at)),
        _ => bytes.truncate(at),
    }
}
