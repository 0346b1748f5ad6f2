//! The plain Rust answers as the library does, also on tables and states that are not timed.

mod linking;
mod switches;

use crate::refused::{self, Refused};
use crate::work::{self, Work, LIBRARY, NATIVE};
use crate::{inputs, native};
use finchchaise::{Answer, Refusal, Served, DOORS, PROCESS_WORDS, ROLL_WORDS, SCRATCH_WORDS};
use finchchaise_compare::{damaged, leaving, random_bytes, small_table, stack, table};
use finchchaise_compare::{Area, MadeUp, Random, Shown, Tally};
use finchchaise_samples::Builder;

const TABLES: usize = 20_000;

#[test]
fn checks_are_answered_alike() {
    let mut random = Random::new(1);
    let mut tally = Tally::default();
    for turn in 0..TABLES {
        let random = &mut random;
        let bytes = match turn % 4 {
            0 => table(random, turn % 8 == 0).bytes(),
            1 => damaged(&table(random, true), random),
            2 => small_table(random),
            _ => random_bytes(random),
        };
        let words = random.pick(&[
            0,
            SCRATCH_WORDS - 1,
            SCRATCH_WORDS,
            SCRATCH_WORDS,
            SCRATCH_WORDS,
            260,
        ]);
        tally.checked(&bytes, checked_alike(&bytes, random.any_words(words)));
    }
    tally.assert_refused((1..=17).chain([26]), 10);
    tally.assert_leaves(&[(Shown::Accepted, 200), (Shown::LeftLocally, 10)]);
    tally.assert_areas(&[(Area::Beyond, 20)]);
}

#[test]
fn refused_tables_fail_their_question() {
    let (all, timed) = (refused::all(), work::all());
    for refused in &all {
        let Refused { number, how, .. } = refused;
        let answer = checked_alike(&refused.table, vec![7; refused.scratch_words()]);
        let refused_by = answer.err().map(|refusal| refusal.number);
        assert_eq!(refused_by, Some(*number), "{number}{how}");
        let is_accepted = |work: &Work| work.what == refused.accepted;
        assert!(timed.iter().any(is_accepted), "{}", refused.accepted);
    }
    let is_there = |number| all.iter().any(|refused| refused.number == number);
    assert!((1..=17).chain([26]).all(is_there));
}

/// What both sides answer, with these words of scratch.
fn checked_alike(table: &[u8], mut scratch: Vec<u32>) -> Result<(), Refusal> {
    let mut expected = scratch.clone();
    let answer = native::check(table, &mut scratch);
    assert_eq!(answer, finchchaise::check(table, &mut expected));
    assert_eq!(scratch, expected);
    answer
}

/// The plain Rust keeps two facts in a bit of a node that leaves. Here such a node is never used, and
/// another twice.
#[test]
fn a_node_that_leaves_and_is_not_used_is_refused() {
    let mut table = Builder::new(1, &[]);
    let (condition, found, other) = (table.own_number(), table.leave(), table.nothing());
    let place = table.choose(condition, found, other);
    let twice = table.nothing();
    let body = table.sequence(twice, twice);
    table.procedure(body, false);
    let refusal = Refusal { number: 11, place };
    let answer = checked_alike(&table.bytes(), vec![7; SCRATCH_WORDS]);
    assert_eq!(answer, Err(refusal));
}

/// State and roll of one side.
#[derive(Clone, Debug, PartialEq)]
struct Lent {
    state: Vec<u32>,
    roll: Vec<u32>,
}

impl Lent {
    /// With the process to ask for.
    fn made_up(table: &Builder, random: &mut Random) -> (Lent, u32) {
        let MadeUp {
            state, roll, asked, ..
        } = MadeUp::new(table, random);
        (Lent { state, roll }, asked)
    }

    fn step_alike(&mut self, table: &[u8], process: u32) -> Result<Answer, Refusal> {
        let mut expected = self.clone();
        let answer = native::step(table, &mut self.state, &mut self.roll, process);
        let Lent { state, roll } = &mut expected;
        assert_eq!(answer, finchchaise::step(table, state, roll, process));
        assert_eq!(*self, expected);
        answer
    }

    fn serve_alike(&mut self, table: &[u8], last: u32, turns: u32) -> Served {
        let mut expected = self.clone();
        let served = native::serve(table, &mut self.state, &mut self.roll, last, turns);
        let Lent { state, roll } = &mut expected;
        assert_eq!(served, finchchaise::serve(table, state, roll, last, turns));
        assert_eq!(*self, expected);
        served
    }

    fn start_alike(&mut self, table: &[u8], given: &[u32]) -> Result<(), Refusal> {
        let count = (self.roll.len() / ROLL_WORDS) as u32;
        let mut expected = self.clone();
        let answer = native::start(table, count, given, &mut self.state, &mut self.roll);
        let Lent { state, roll } = &mut expected;
        assert_eq!(answer, finchchaise::start(table, count, given, state, roll));
        assert_eq!(*self, expected);
        answer
    }
}

/// A table, and its bytes, some of which are damaged.
fn mostly_sound(turn: usize, random: &mut Random) -> (Builder, Vec<u8>) {
    let built = table(random, turn.is_multiple_of(2));
    let bytes = match turn % 8 {
        0 => damaged(&built, random),
        _ => built.bytes(),
    };
    (built, bytes)
}

#[test]
fn starts_and_steps_are_answered_alike() {
    let mut random = Random::new(2);
    let (mut starts, mut steps) = (Tally::default(), Tally::default());
    for turn in 0..TABLES {
        let random = &mut random;
        let (built, bytes) = mostly_sound(turn, random);
        let (mut lent, asked) = Lent::made_up(&built, random);
        let stack_before = leaving(&bytes, &lent.state, asked).map(<[u32]>::to_vec);
        let answer = lent.step_alike(&bytes, asked);
        steps.stepped(answer);
        if let (Ok(_), Some(before)) = (answer, stack_before) {
            steps.left(&before, stack(&lent.state, asked).map_or(0, <[u32]>::len));
        }
        let count = lent.roll.len() / ROLL_WORDS;
        let given = random.words(count * (built.variables as usize + DOORS));
        starts.judged(lent.start_alike(&bytes, &given));
    }
    steps.assert_events(200);
    steps.assert_refused((20..=24).chain([26]), 100);
    let leaves = [Shown::Left, Shown::PastOthers, Shown::Repeated];
    steps.assert_leaves(&leaves.map(|shown| (shown, 100)));
    assert!(starts.taken > TABLES / 4, "{starts}");
    starts.assert_refused([26], 100);
}

#[test]
fn serves_are_answered_alike() {
    let mut random = Random::new(3);
    let (mut at_once, mut midway) = (Tally::default(), Tally::default());
    let mut not_by_own_turn = 0;
    for turn in 0..2 * TABLES {
        let random = &mut random;
        let (built, bytes) = mostly_sound(turn, random);
        let (mut lent, last) = Lent::made_up(&built, random);
        let turns = random.pick(&[0, 1, 2, 5, 20, 100]);
        let Served {
            made,
            last,
            refusal,
        } = lent.serve_alike(&bytes, last, turns);
        let tally = match made {
            0 => &mut at_once,
            _ => &mut midway,
        };
        tally.judged(refusal.map_or(Ok(()), Err));
        if let (1.., Some(Refusal { number: 23, place })) = (made, refusal) {
            not_by_own_turn += (place != last) as usize;
        }
    }
    assert!(at_once.taken.min(midway.taken) > TABLES / 8, "{at_once}");
    at_once.assert_refused((20..=24).chain([26]), 100);
    midway.assert_refused([23, 24], 100);
    // A collective put a leave on top.
    assert!(not_by_own_turn >= 10, "{not_by_own_turn} of {midway}");
}

/// Otherwise the rows would not say what it costs.
#[test]
fn loops_are_left_early_where_it_is_timed() {
    let table = inputs::left_early(256, 16).bytes();
    assert_eq!(checked_alike(&table, vec![7; SCRATCH_WORDS]), Ok(()));
    let mut lent = Lent {
        state: vec![0; PROCESS_WORDS],
        roll: vec![0; ROLL_WORDS],
    };
    let given = [0; inputs::VARIABLES + DOORS];
    assert_eq!(lent.start_alike(&table, &given), Ok(()));
    let mut left = 0;
    for _ in 0..60 {
        left += leaving(&table, &lent.state, 0).is_some() as usize;
        lent.step_alike(&table, 0).expect("a step");
    }
    assert!(left >= 10, "left {left} loops");
}

/// Each piece of work more than once, since it goes on from what it has left.
#[test]
fn timed_work_is_done_alike_and_as_expected() {
    for mut library in work::all() {
        let mut native = library.clone();
        for _ in 0..3 {
            library.once(LIBRARY);
            native.once(NATIVE);
            assert!(library.is_as_expected(), "{library:?}");
            assert_eq!(library, native);
        }
    }
}

/// Otherwise a served turn could not be compared with a step.
#[test]
fn served_turns_are_those_of_the_steps() {
    let all = work::all();
    let is_served = |work: &&Work| work.is_of_turns() && !work.is_steps_of(work);
    let mut served: Vec<Work> = all.iter().filter(is_served).cloned().collect();
    assert_eq!(served.len(), 3);
    for served in &mut served {
        let steps = all.iter().find(|steps| steps.is_steps_of(served));
        let mut steps = steps.expect("its steps").clone();
        for _ in 0..3 {
            served.once(LIBRARY);
            steps.once(LIBRARY);
            assert!(served.stands_as(&steps), "{served:?} {steps:?}");
        }
    }
}
