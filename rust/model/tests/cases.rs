//! The marked cases of the rules paper, and what the lent words hold after a call.

mod common;

use common::*;
use finchchaise_model::{
    check, check_table, latches, run_team, start, step, Answer, Event, Refusal, Status, TeamStatus,
    PROCESS_WORDS,
};

/// If own number then barrier else nothing.
const T1: [u32; 7] = [
    0x10420400, 0x00000000, 0x03800000, 0x10000000, 0xB8000000, 0x80000000, 0x98000202,
];

/// T1 with one word changed.
fn t1_with(place: usize, word: u32) -> Vec<u8> {
    let mut words = T1;
    words[place] = word;
    bytes(&words)
}

fn t2() -> Vec<u8> {
    t1_with(3, 0x18000000)
}

/// Latch 0 after one process's step that sets it to the last expression. Doors
/// 0 and 11 hold 4 and 9, slots 0 and 1 of each area hold 6 more than its
/// number and a mark.
fn latched(expression: &[[u32; 4]]) -> u32 {
    let mut nodes = expression.to_vec();
    let last = nodes.len() as u32;
    nodes.extend([[0, 0, 0, 0], [22, last, last - 1, 0]]);
    let table = table_of(&nodes);
    let (mut state, mut arrivals) = started(&table, 1, &[0, 4, 0, 0, 0, 0, 0, 0, 0, 0, 0, 0, 9]);
    for (slots, value) in state[GATHERED..DOORS].chunks_mut(SLOTS).zip(6..) {
        slots[..2].copy_from_slice(&[value, MARK]);
    }
    step(&table, &mut state, &mut arrivals, 0).expect("a step");
    latches(&state, 0)[0]
}

#[test]
fn marked_tables_are_judged_as_written() {
    assert_eq!(check_table(&bytes(&T1)), "refused 15 3\n");
    assert_eq!(check_table(&t2()), "accepted\n");
    assert_eq!(check_table(&bytes(&T1[..6])), "refused 4 0\n");
    assert_eq!(check_table(&t1_with(6, 0x98000201)), "refused 11 1\n");
    assert_eq!(check_table(&t1_with(0, 0x10020400)), "refused 3 0\n");
    assert_eq!(check_table(&t1_with(2, 0x03000000)), "refused 15 3\n");
    assert_eq!(check_table(&[0; 4096]), "refused 2 0\n");
}

#[test]
fn marked_runs_print_as_written() {
    assert_eq!(
        run(&bytes(&T1), 2, &[0, 0, 1, 1]),
        "bank what node site\n0 moved 0 going\n0 finished 0 going\n\
         1 moved 0 going\n1 arrived 1 crossed\n"
    );
    assert_eq!(
        run(&t2(), 1, &[0, 0, 0]),
        "bank what node site\n0 moved 0 going\n0 met 1 done\n0 ended 0 done\n"
    );
    assert_eq!(
        run(&t2(), 2, &[0, 0, 0, 1, 1]),
        "bank what node site\n0 moved 0 going\n0 arrived 1 going\n0 waits 0 going\n\
         1 moved 0 going\n1 met 1 done\n"
    );
}

#[test]
fn runs_are_refused_as_written() {
    assert_eq!(
        run(&t2(), 2, &[0, 2, 0]),
        "bank what node site\n0 moved 0 going\nrefused 22 2\n"
    );
    assert_eq!(run(&t2(), 0, &[]), "refused 18 0\n");
    assert_eq!(run_team(&[]), "refused 25 0\n");
    assert_eq!(run_team(&[0xFF; 64]), "refused 25 0\n");
    assert_eq!(run_team(&[0; 32_768]), "refused 2 0\n");
    assert_eq!(run_team(&[0; 32_769]), "refused 25 0\n");
    let mut cut = bytes(&[28]);
    cut.extend(t2());
    cut.extend(bytes(&[1]));
    cut.extend([0; 13 * 4 - 1]);
    assert_eq!(run_team(&cut), "refused 19 0\n");
    cut.push(0);
    assert_eq!(run_team(&cut), "bank what node site\n");
}

#[test]
fn expressions_at_their_edges() {
    let constant = |value: u32| [0, 0, value / 512, value % 512];
    let door = |number| latched(&[constant(number), [4, 0, 0, 0]]);
    assert_eq!((door(11), door(12)), (9, 0));
    let slot = |area, number| latched(&[constant(number), [5, 0, area, 0]]);
    for area in 0..AREAS {
        assert_eq!(slot(area, 0), 6 + area);
        assert_eq!((slot(area, 1), slot(area, 16)), (0, 0));
    }
    let quotient = |left, right| latched(&[constant(left), constant(right), [9, 0, 1, 0]]);
    assert_eq!((quotient(7, 2), quotient(7, 0)), (3, 0));
    assert_eq!(latched(&[constant(513)]), 513);
}

#[test]
fn a_gathered_word_is_single_by_its_index() {
    let judged = |index, area| {
        let mut table = table_of(&[index, [5, 0, area, 0], [17, 0, 1, 0]]);
        table[4] = 0x80; // variable 0 is single
        check_table(&table)
    };
    for area in 0..AREAS {
        assert_eq!(judged(COUNT, area), "accepted\n");
        assert_eq!(judged(OWN, area), "refused 13 2\n");
    }
}

#[test]
fn scratch_is_zeroed_unless_too_short() {
    let one = Refusal {
        number: 1,
        place: 0,
    };
    let mut short = [MARK; 31];
    assert_eq!(check(&t2(), &mut short), Err(one));
    assert_eq!(short, [MARK; 31]);
    for table in [t2(), bytes(&T1), vec![]] {
        let mut scratch = [MARK; 34];
        let _ = check(&table, &mut scratch);
        assert_eq!(scratch[..32], [0; 32]);
        assert_eq!(scratch[32..], [MARK; 2]);
    }
}

#[test]
fn start_fills_every_word() {
    let words: Vec<u32> = (1..27).collect();
    let (state, arrivals) = started(&t2(), 2, &words);
    assert_eq!(arrivals, [RUNNING; 2]);
    for (process, given) in words.chunks(13).enumerate() {
        let mut expected = [0; PROCESS_WORDS];
        expected[0] = given[0];
        expected[DOORS..LATCHES].copy_from_slice(&given[1..]);
        expected[DEPTH..STACK + 1].copy_from_slice(&[1, 3]);
        assert_eq!(state[process * PROCESS_WORDS..][..PROCESS_WORDS], expected);
    }
}

#[test]
fn refused_starts_change_nothing() {
    let refused = |table: &[u8], processes, words, state_words, records| {
        let mut state = vec![MARK; state_words];
        let mut arrivals = vec![ENDED; records];
        let start_words = vec![1; words];
        let answer = start(table, processes, &start_words, &mut state, &mut arrivals);
        assert!(state.iter().all(|&word| word == MARK));
        assert!(arrivals.iter().all(|&record| record == ENDED));
        answer.expect_err("a refusal").number
    };
    assert_eq!(refused(&[], 17, 0, 0, 0), 2);
    for processes in [0, 17, u32::MAX] {
        assert_eq!(refused(&t2(), processes, 13, PROCESS_WORDS, 1), 18);
    }
    assert_eq!(refused(&t2(), 1, 12, PROCESS_WORDS - 1, 2), 19);
    assert_eq!(refused(&t2(), 1, 13, PROCESS_WORDS - 1, 2), 20);
    assert_eq!(refused(&t2(), 1, 13, PROCESS_WORDS, 2), 21);
}

#[test]
fn refused_steps_change_nothing() {
    let (state, arrivals) = started(&t2(), 2, &[0; 26]);
    assert_eq!(refused_step(&[], &state, &arrivals, 9), (2, 0));
    assert_eq!(refused_step(&t2(), &state[1..], &[], 9), (21, 0));
    assert_eq!(refused_step(&t2(), &state[1..], &[RUNNING; 17], 9), (21, 0));
    assert_eq!(refused_step(&t2(), &state[1..], &arrivals, 9), (20, 0));
    assert_eq!(refused_step(&t2(), &state, &arrivals, 9), (22, 9));
}

#[test]
fn unsound_states_are_refused_at_their_process() {
    let (mut state, _) = started(&t2(), 2, &[0; 26]);
    let waiting = |node, value, source| arrival(Status::Waiting, node, value, source);
    let refused = |state: &[u32], first, second| refused_step(&t2(), state, &[first, second], 0);
    assert_eq!(refused(&state, RUNNING, ENDED), (23, 1));
    assert_eq!(refused(&state, RUNNING, waiting(3, 0, 0)), (23, 1));
    assert_eq!(
        refused(&state, RUNNING, arrival(Status::Running, 0, 0, 1)),
        (23, 1)
    );
    state[PROCESS_WORDS + STACK] = 1;
    assert_eq!(refused(&state, RUNNING, waiting(1, 1, 0)), (23, 1));
    assert_eq!(refused(&state, RUNNING, waiting(1, 0, 1)), (23, 1));
    state[STACK] = 1;
    assert_eq!(refused(&state, waiting(1, 0, 0), waiting(1, 0, 0)), (23, 0));
    for (place, word) in [(DEPTH, 257), (DEPTH, u32::MAX), (STACK, 0), (STACK, 4)] {
        let mut unsound = state.clone();
        unsound[PROCESS_WORDS + place] = word;
        assert_eq!(refused(&unsound, RUNNING, RUNNING), (23, 1));
    }
}

#[test]
fn a_full_stack_is_refused_only_where_a_place_is_needed() {
    // Nodes 2, 5 and 8: a sequence, a while that goes on, a while that goes.
    let table = table_of(&[
        [16, 0, 0, 0],
        [16, 0, 0, 0],
        [18, 0, 1, 0],
        [3, 0, 0, 0],
        [16, 0, 0, 0],
        [20, 3, 4, 0],
        [0, 0, 0, 0],
        [16, 0, 0, 0],
        [20, 6, 7, 0],
        [18, 2, 5, 0],
        [18, 9, 8, 0],
    ]);
    let full = |node| {
        let mut state = vec![0; PROCESS_WORDS];
        state[DEPTH] = 256;
        state[STACK..].fill(node);
        state
    };
    assert_eq!(refused_step(&table, &full(2), &[RUNNING], 0), (24, 0));
    assert_eq!(refused_step(&table, &full(5), &[RUNNING], 0), (24, 0));
    let moved = Answer {
        event: Event::Moved,
        team: TeamStatus::Going,
    };
    let mut state = full(8);
    assert_eq!(step(&table, &mut state, &mut [RUNNING], 0), Ok(moved));
    assert_eq!((state[DEPTH], state[STACK + 255]), (255, 0));
}

#[test]
fn collectives_use_each_process_own_source_and_fill_alike() {
    // Exchange of own number + 5, then variable 0 takes that value from the process own number + 1.
    let table = table_of(&[
        [2, 0, 0, 0],
        [0, 0, 0, 5],
        [6, 0, 1, 0],
        [25, 2, 0, 0],
        [2, 0, 0, 0],
        [5, 4, 0, 0],
        [2, 0, 0, 0],
        [0, 0, 0, 1],
        [6, 6, 7, 0],
        [24, 0, 5, 8],
        [18, 3, 9, 0],
    ]);
    let (mut state, mut arrivals) = started(&table, 3, &[0; 39]);
    let mut answers = Vec::new();
    for process in [0, 1, 2, 0, 1, 2, 0, 1, 2] {
        state[GATHERED + 3] = MARK;
        answers.push(step(&table, &mut state, &mut arrivals, process).expect("a step"));
    }
    let event = |place: usize| answers[place].event;
    assert_eq!(
        (event(4), event(5)),
        (Event::Arrived(3), Event::Completed(3))
    );
    assert_eq!(
        (event(7), event(8)),
        (Event::Arrived(9), Event::Completed(9))
    );
    assert_eq!(answers[8].team, TeamStatus::Done);
    assert_eq!(arrivals, [ENDED; 3]);
    assert_eq!(area(&state, 0)[..5], [5, 6, 7, MARK, 0]);
    let variable = |process: usize| state[process * PROCESS_WORDS];
    assert_eq!([variable(0), variable(1), variable(2)], [6, 7, 0]);
}

#[test]
fn a_source_that_is_not_there_gives_0() {
    // Variable 0 takes door 0 from the process that variable 0 numbers.
    let table = table_of(&[[0, 0, 0, 0], [4, 0, 0, 0], [1, 0, 0, 0], [24, 0, 1, 2]]);
    let sent = |[first, second]: [u32; 2]| {
        let words = [[first].as_slice(), &[7; 12], &[second], &[9; 12]].concat();
        let (mut state, mut arrivals) = started(&table, 2, &words);
        for process in [0, 1] {
            step(&table, &mut state, &mut arrivals, process).expect("a step");
        }
        [state[0], state[PROCESS_WORDS]]
    };
    assert_eq!(sent([0, 1]), [7, 9]);
    assert_eq!(sent([1, 2]), [9, 0]);
    for source in [2, 3, 16, 17, u32::MAX] {
        assert_eq!(sent([source, source]), [0, 0]);
    }
}

#[test]
fn latches_are_part_of_the_lent_state() {
    let state: Vec<u32> = (0..2 * PROCESS_WORDS as u32).collect();
    assert_eq!(latches(&state, 0), &state[LATCHES..DEPTH]);
    let second = &state[PROCESS_WORDS..];
    assert_eq!(latches(&state, 1), &second[LATCHES..DEPTH]);
    assert!(latches(&state, 2).is_empty());
    assert!(latches(&state, usize::MAX).is_empty());
    assert!(latches(&state[1..], 0).is_empty());
    assert!(latches(&[], 0).is_empty());
}
