//! The same of tables with switches, also of those whose dead branches decide.

use super::checked_alike;
use crate::switched;
use finchchaise::{Refusal, SCRATCH_WORDS};
use finchchaise_compare::{damaged, renumber, table, Random};
use finchchaise_samples::Builder;

const TABLES: usize = 20_000;
/// Numbers of questions up to that about leaves.
const NUMBERS: usize = 27;

const CONSTANT: u32 = 0;
const OWN_NUMBER: [u32; 4] = [2, 0, 0, 0];
/// Single like a constant, but not fixed.
const COUNT: [u32; 4] = [3, 0, 0, 0];
const NOTHING: [u32; 4] = [16, 0, 0, 0];
const IF: u32 = 19;
const LEAVE: u32 = 26;
const LEAVING: [u32; 4] = [LEAVE, 0, 0, 0];

/// How often an answer was accepted, at 0, or refused by each number.
type Answers = [usize; NUMBERS];

#[test]
fn switches_are_judged_alike() {
    let mut random = Random::new(4);
    let (mut by_switch, mut by_leave) = ([0; NUMBERS], [0; NUMBERS]);
    for turn in 0..TABLES {
        let table = match turn % 2 {
            0 => with_switches(table(&mut random, turn % 4 == 0), &mut random),
            _ => timed_with_changes(&mut random),
        };
        let answer = both(&table.bytes());
        if answer != both(&replaced(&table, CONSTANT, COUNT).bytes()) {
            count(&mut by_switch, answer);
            let without_leaves = replaced(&table, LEAVE, NOTHING);
            if answer != both(&without_leaves.bytes()) {
                count(&mut by_leave, answer);
            }
        }
        let _ = both(&damaged(&table, &mut random));
    }
    assert!(by_switch[0] >= 1_000, "{by_switch:?}");
    assert!(
        (13..=17).all(|number| by_switch[number] >= 100),
        "{by_switch:?}"
    );
    assert!(by_leave[16] >= 5, "{by_leave:?}");
}

/// What both sides answer.
fn both(table: &[u8]) -> Result<(), Refusal> {
    checked_alike(table, vec![7; SCRATCH_WORDS])
}

fn count(answers: &mut Answers, answer: Result<(), Refusal>) {
    answers[answer.map_or_else(|refusal| refusal.number as usize, |()| 0)] += 1;
}

/// The table with one node in place of all of a kind.
fn replaced(table: &Builder, kind: u32, node: [u32; 4]) -> Builder {
    let mut table = table.clone();
    let nodes = table.nodes.iter_mut().filter(|node| node[0] == kind);
    nodes.for_each(|place| *place = node);
    table
}

/// Most ifs get a condition of constants, if it has no other parts. Elsewhere some expressions
/// become the own number, so that more questions fail.
fn with_switches(mut table: Builder, random: &mut Random) -> Builder {
    let rarely = random.pick(&[4, 16, 64]);
    for node in &mut table.nodes {
        if node[0] <= 3 && random.one_in(rarely) {
            *node = OWN_NUMBER;
        }
    }
    for number in 0..table.nodes.len() {
        let [kind, condition, ..] = table.nodes[number];
        if kind == IF && !random.one_in(4) {
            fix(&mut table.nodes, condition as usize, random);
        }
    }
    table
}

fn fix(nodes: &mut [[u32; 4]], expression: usize, random: &mut Random) {
    match nodes[expression] {
        [1..=3, ..] => {
            let [high, low] = [(); 2].map(|()| random.pick(&[0, 0, 0, 1, 2, 511]));
            nodes[expression] = [CONSTANT, 0, high, low];
        }
        [6..=12, left, right, _] => {
            fix(nodes, left as usize, random);
            fix(nodes, right as usize, random);
        }
        _ => (),
    }
}

/// A table like the timed ones, of any size, in which some nodes without parts and a flag may be
/// others.
fn timed_with_changes(random: &mut Random) -> Builder {
    let procedures = random.pick(&[1, 1, 2, 5, 16]);
    let nodes = random.from(8 * procedures, 256);
    let mut table = switched::failing(nodes, procedures);
    for _ in 0..random.below(12) {
        let node = &mut table.nodes[random.below(nodes)];
        let constant = [CONSTANT, 0, 0, random.pick(&[0, 1, 7, 8])];
        match node[0] {
            0..=3 => *node = random.pick(&[constant, constant, OWN_NUMBER, COUNT]),
            16 | 23 => *node = random.pick(&[NOTHING, LEAVING]),
            _ => (),
        }
    }
    table.procedures[random.below(procedures)].1 ^= random.one_in(4);
    match random.one_in(2) {
        true => renumber(&table, random),
        false => table,
    }
}

/// Otherwise the rows would not say what they cost. A constant that is no longer fixed lets a branch
/// count.
#[test]
fn dead_branches_decide_where_it_is_timed() {
    let failing = numbers_without_each_constant(&switched::failing(256, 16));
    assert!((13..=17).all(|number| failing[number] > 0), "{failing:?}");
    let sound = numbers_without_each_constant(&switched::sound(256, 16));
    assert_eq!(sound[0], sound.iter().sum::<usize>());
}

fn numbers_without_each_constant(table: &Builder) -> Answers {
    assert_eq!(both(&table.bytes()), Ok(()));
    let mut answers = [0; NUMBERS];
    for (number, node) in table.nodes.iter().enumerate() {
        if node[0] == CONSTANT {
            let mut changed = table.clone();
            changed.nodes[number] = COUNT;
            count(&mut answers, both(&changed.bytes()));
        }
    }
    answers
}

/// A loop with a barrier is left under two ifs, one with a switch for its condition.
#[test]
fn a_dead_leave_leaves_no_loop_locally() {
    let own: Condition = Builder::own_number;
    let on: Condition = |table| table.constant(1);
    let off: Condition = |table| table.constant(0);
    for conditions in [[off, own], [own, off]] {
        assert_eq!(both(&leaving_under(conditions).0), Ok(()));
    }
    for conditions in [[on, own], [own, on]] {
        let (table, place) = leaving_under(conditions);
        assert_eq!(both(&table), Err(Refusal { number: 16, place }));
    }
}

/// Adds the condition of an if.
type Condition = fn(&mut Builder) -> u32;

/// With the loop's node.
fn leaving_under(conditions: [Condition; 2]) -> (Vec<u8>, u32) {
    let mut table = Builder::new(1, &[]);
    let mut looked = table.leave();
    for condition in conditions {
        let condition = condition(&mut table);
        let otherwise = table.nothing();
        looked = table.choose(condition, looked, otherwise);
    }
    let barrier = table.barrier();
    let body = table.sequence(barrier, looked);
    let always = table.count();
    let repeated = table.repeat(always, body);
    table.procedure(repeated, true);
    (table.bytes(), repeated)
}
