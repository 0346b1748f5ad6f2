//! Leaves: what they pop, and every refusal that they bring.

mod common;

use common::*;
use finchchaise_model::{check_table, run_team, start, step, Event, TeamStatus};

/// While there are processes: leave, then nothing; then nothing; nothing after the loop.
const INSIDE_LISTS: [Node; 9] = [
    COUNT,
    LEAVE,
    NOTHING,
    sequence(1, 2),
    NOTHING,
    sequence(3, 4),
    repeat(0, 5),
    NOTHING,
    sequence(6, 7),
];

/// A while (6) whose body leaves another while (4) and is then left itself.
const NESTED: [Node; 9] = [
    COUNT,
    COUNT,
    LEAVE,
    LEAVE,
    repeat(1, 2),
    sequence(4, 3),
    repeat(0, 5),
    NOTHING,
    sequence(6, 7),
];

/// What a step of one process with this stack does, and its stack words after it.
fn stepped(table: &[u8], entries: &[u32]) -> (Event, Vec<u32>) {
    let mut state = stacked(entries);
    let answer = step(table, &mut state, &mut [RUNNING], 0).expect("a step");
    (answer.event, state[DEPTH..].to_vec())
}

/// What a step of one process with this stack is refused with.
fn refused(table: &[u8], entries: &[u32]) -> (u32, u32) {
    refused_step(table, &stacked(entries), &[RUNNING], 0)
}

/// The stacks before each step of one process, from its start.
fn stacks(table: &[u8], steps: usize) -> Vec<Vec<u32>> {
    let (mut state, mut arrivals) = started(table, 1, &[0; 13]);
    let mut stacks = Vec::new();
    for _ in 0..steps {
        let depth = state[DEPTH] as usize;
        let (entries, vacated) = state[STACK..].split_at(depth);
        assert!(vacated.iter().all(|&place| place == 0), "{vacated:?}");
        stacks.push(entries.to_vec());
        step(table, &mut state, &mut arrivals, 0).expect("a step");
    }
    assert_eq!(arrivals, [ENDED]);
    stacks
}

#[test]
fn a_leave_pops_the_lists_in_its_loop() {
    let expected: [&[u32]; 6] = [
        &[8],
        &[7, 6],
        &[7, 6, 5],
        &[7, 6, 4, 3],
        &[7, 6, 4, 2, 1],
        &[7],
    ];
    assert_eq!(stacks(&table_of(&INSIDE_LISTS), 6), expected);
}

#[test]
fn a_leave_ends_the_inner_of_two_loops() {
    let expected: [&[u32]; 7] = [
        &[8],
        &[7, 6],
        &[7, 6, 5],
        &[7, 6, 3, 4],
        &[7, 6, 3, 4, 2],
        &[7, 6, 3],
        &[7],
    ];
    assert_eq!(stacks(&table_of(&NESTED), 7), expected);
}

#[test]
fn processes_leave_on_their_own_and_meet_after_the_loop() {
    // While there are processes: if own number then leave, else set variable 0 to
    // 1 and leave. Then a barrier.
    let table = table_of(&[
        COUNT,
        OWN,
        LEAVE,
        [0, 0, 0, 1],
        [17, 0, 3, 0],
        LEAVE,
        sequence(4, 5),
        choose(1, 2, 6),
        repeat(0, 7),
        BARRIER,
        sequence(8, 9),
    ]);
    assert_eq!(check_table(&table), "accepted\n");
    assert_eq!(
        run(&table, 2, &[0, 1, 1, 1, 1, 1, 0, 0, 0, 0, 0, 0]),
        "bank what node site\n0 moved 0 going\n\
         1 moved 0 going\n1 moved 0 going\n1 moved 0 going\n1 moved 0 going\n\
         1 arrived 9 going\n0 moved 0 going\n0 moved 0 going\n0 moved 0 going\n\
         0 moved 0 going\n0 moved 0 going\n0 met 9 done\n"
    );
}

#[test]
fn the_highest_entry_of_the_while_is_popped() {
    let table = table_of(&NESTED);
    let kept = |entries: &[u32], popped: usize| {
        let mut words = vec![entries.len() as u32];
        words.extend(entries);
        words.extend(vec![0; popped]);
        words.resize(STACK - DEPTH + 256, MARK);
        words
    };
    let moved = |entries, popped| (Event::Moved, kept(entries, popped));
    assert_eq!(stepped(&table, &[4, 7, 4, 5, 2]), moved(&[4, 7], 3));
    assert_eq!(stepped(&table, &[4, 4, 4, 2]), moved(&[4, 4], 2));
    assert_eq!(stepped(&table, &[7, 4, 2, 6, 2, 2]), moved(&[7], 5));
    assert_eq!(stepped(&table, &[6, 4, 6, 4, 3]), moved(&[6, 4], 3));
    assert_eq!(stepped(&table, &[4, 7, 2]), (Event::Finished, kept(&[], 3)));
}

#[test]
fn a_leave_that_empties_the_stack_ends_the_process() {
    let table = table_of(&[COUNT, LEAVE, repeat(0, 1)]);
    let (mut state, mut arrivals) = started(&table, 2, &[0; 26]);
    let mut answers = Vec::new();
    for process in [0, 1, 0, 0, 1] {
        let answer = step(&table, &mut state, &mut arrivals, process).expect("a step");
        answers.push((answer.event, answer.team));
    }
    assert_eq!(answers[2], (Event::Finished, TeamStatus::Going));
    assert_eq!(answers[3], (Event::Ended, TeamStatus::Going));
    assert_eq!(answers[4], (Event::Finished, TeamStatus::Done));
    assert_eq!(arrivals, [ENDED; 2]);
}

#[test]
fn a_leave_needs_its_while_below() {
    let table = table_of(&NESTED);
    let unsound: [&[u32]; 5] = [&[2], &[6, 2], &[3, 5, 4, 3], &[2, 2], &[6, 3, 7, 2]];
    for entries in unsound {
        assert_eq!(refused(&table, entries), (23, 0), "{entries:?}");
    }
    // Above the depth the while is no entry.
    let mut state = stacked(&[6, 2]);
    state[STACK + 2] = 4;
    assert_eq!(refused_step(&table, &state, &[RUNNING], 0), (23, 0));
    // The question is put to every process.
    let both = [stacked(&[4, 2]), stacked(&[6, 2])].concat();
    assert_eq!(refused_step(&table, &both, &[RUNNING; 2], 0), (23, 1));
    // A leave below the top needs nothing.
    assert_eq!(stepped(&table, &[2, 3, 7]).0, Event::Moved);
}

#[test]
fn a_leave_takes_no_stack_place() {
    let table = table_of(&NESTED);
    let mut entries = [7; 256];
    entries[100] = 4;
    entries[255] = 2;
    let (event, words) = stepped(&table, &entries);
    assert_eq!((event, words[0]), (Event::Moved, 100));
    assert_eq!(words[1..101], [7; 100]);
    assert_eq!(words[101..], [0; 156]);
}

#[test]
fn a_leave_needs_a_while_in_its_procedure() {
    // Alone; behind a loop; under an if; called from a loop.
    let alone = table_of(&[LEAVE]);
    let behind = table_of(&[COUNT, NOTHING, repeat(0, 1), LEAVE, sequence(2, 3)]);
    let under_if = table_of(&[COUNT, NOTHING, LEAVE, choose(0, 1, 2)]);
    let called = table_with(&[0, 3], &[LEAVE, COUNT, call(0), repeat(1, 2)]);
    for (table, place) in [(alone, 0), (behind, 3), (under_if, 2), (called, 0)] {
        let text = format!("refused 26 {place}\n");
        assert_eq!(check_table(&table), text);
        assert_eq!(run(&table, 1, &[0]), text);
        // Before 23, by which a running process needs a stack.
        assert_eq!(refused(&table, &[]), (26, place));
    }
}

#[test]
fn the_lowest_leave_without_a_while_is_named() {
    let nodes = [
        COUNT,
        LEAVE,
        repeat(0, 1),
        LEAVE,
        LEAVE,
        sequence(3, 4),
        sequence(2, 5),
    ];
    assert_eq!(check_table(&table_of(&nodes)), "refused 26 3\n");
}

#[test]
fn question_26_is_asked_after_12_and_before_13() {
    // A call of its own procedure, beside a leave without a while.
    let nodes = [LEAVE, call(0), sequence(0, 1)];
    assert_eq!(check_table(&table_of(&nodes)), "refused 12 1\n");
    // A single variable takes the own number before such a leave.
    let mut table = table_of(&[OWN, [17, 0, 0, 0], LEAVE, sequence(1, 2)]);
    table[4] = 0x80;
    assert_eq!(check_table(&table), "refused 26 2\n");
    // Before 18 and 21.
    assert_eq!(run(&table, 0, &[]), "refused 26 2\n");
    let refusal = start(&table, 17, &[], &mut [], &mut []).expect_err("a refusal");
    assert_eq!((refusal.number, refusal.place), (26, 2));
    assert_eq!(refused_step(&table, &[], &[], 9), (26, 2));
    assert_eq!(run_team(&table), "refused 25 0\n");
}

#[test]
fn a_leave_has_no_fields_and_is_the_last_kind() {
    let judged = |leave| check_table(&table_of(&[COUNT, leave, repeat(0, 1)]));
    assert_eq!(judged(LEAVE), "accepted\n");
    for field in 1..4 {
        let mut leave = LEAVE;
        leave[field] = 1;
        assert_eq!(judged(leave), "refused 8 1\n");
    }
    for kind in 27..32 {
        assert_eq!(judged([kind, 0, 0, 0]), "refused 7 1\n");
    }
    // It is a statement, and no expression.
    let as_condition = [LEAVE, NOTHING, repeat(0, 1)];
    assert_eq!(check_table(&table_of(&as_condition)), "refused 9 2\n");
}

/// A while with a single condition around a barrier and then these nodes, of
/// which the last is the statement; the while is the last node.
fn loud_loop(nodes: &[Node]) -> String {
    let last = nodes.len() as u32 - 1;
    let mut nodes = nodes.to_vec();
    nodes.extend([
        BARRIER,
        sequence(last + 1, last),
        COUNT,
        repeat(last + 3, last + 2),
    ]);
    check_table(&table_of(&nodes))
}

#[test]
fn a_loop_with_a_global_effect_is_not_left_locally() {
    assert_eq!(loud_loop(&[LEAVE]), "accepted\n");
    let single = [COUNT, LEAVE, NOTHING, choose(0, 1, 2)];
    assert_eq!(loud_loop(&single), "accepted\n");
    let local = [OWN, NOTHING, LEAVE, choose(0, 1, 2)];
    assert_eq!(loud_loop(&local), "refused 16 7\n");
    // At any depth: an if of the other sort between, or around.
    let mut both = [
        OWN,
        COUNT,
        LEAVE,
        NOTHING,
        choose(0, 2, 3),
        NOTHING,
        choose(1, 4, 5),
    ];
    assert_eq!(loud_loop(&both), "refused 16 10\n");
    both.swap(0, 1);
    assert_eq!(loud_loop(&both), "refused 16 10\n");
}

#[test]
fn a_leave_counts_for_its_own_loop_only() {
    // Under an own condition in an inner loop, without effect.
    let in_inner = [OWN, LEAVE, NOTHING, choose(0, 1, 2), COUNT, repeat(4, 3)];
    assert_eq!(loud_loop(&in_inner), "accepted\n");
    // The own condition stands around the inner loop.
    let around_inner = [COUNT, LEAVE, repeat(0, 1), OWN, NOTHING, choose(3, 2, 4)];
    assert_eq!(loud_loop(&around_inner), "accepted\n");
    // Behind the inner loop, it is the outer one that is left.
    let behind_inner = [
        COUNT,
        NOTHING,
        repeat(0, 1),
        OWN,
        LEAVE,
        NOTHING,
        choose(3, 4, 5),
        sequence(2, 6),
    ];
    assert_eq!(loud_loop(&behind_inner), "refused 16 11\n");
}

#[test]
fn a_leave_has_no_global_effect() {
    // An own condition decides between leaves, in a loop whose condition is own too.
    let nodes = [OWN, LEAVE, LEAVE, choose(0, 1, 2), OWN, repeat(4, 3)];
    let mut table = table_of(&nodes);
    assert_eq!(check_table(&table), "accepted\n");
    table[9] = 0; // the effect flag
    assert_eq!(check_table(&table), "accepted\n");
}
