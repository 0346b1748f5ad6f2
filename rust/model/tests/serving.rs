//! Turns that the machine shares: whose they are, and every refusal that stops it.

mod common;

use common::*;
use finchchaise_model::{schedule_team, serve, step, Arrival, Refusal, Served, Status};

/// State and arrivals.
type Team = (Vec<u32>, Vec<Arrival>);

const LEAVE_AT: u32 = 1;
const WHILE_AT: u32 = 2;
const BARRIER_AT: u32 = 3;
const NOTHING_AT: u32 = 4;

/// A table that has every statement of the stacks below.
fn table() -> Vec<u8> {
    table_of(&[
        COUNT,
        LEAVE,
        repeat(0, LEAVE_AT),
        BARRIER,
        NOTHING,
        sequence(BARRIER_AT, NOTHING_AT),
        sequence(WHILE_AT, 5),
    ])
}

/// Processes with these stacks: one with the barrier on top waits, one without entries has ended.
fn made_up(stacks: &[&[u32]]) -> Team {
    let stand = |entries: &&[u32]| match entries.last() {
        None => ENDED,
        Some(&BARRIER_AT) => arrival(Status::Waiting, BARRIER_AT, 0, 0),
        Some(_) => RUNNING,
    };
    let state = stacks.iter().flat_map(|entries| stacked(entries)).collect();
    (state, stacks.iter().map(stand).collect())
}

/// Serving makes just the turns of `order`, leaves what single steps in that order leave, and adds
/// the refusal, given as number and place.
fn assert_served(
    table: &[u8],
    (state, arrivals): &Team,
    (last, turns): (u32, u32),
    order: &[u32],
    refusal: Option<(u32, u32)>,
) {
    let (mut state, mut arrivals) = (state.clone(), arrivals.clone());
    let (mut state_stepped, mut arrivals_stepped) = (state.clone(), arrivals.clone());
    let answer = serve(table, &mut state, &mut arrivals, last, turns);
    let expected = Served {
        made: order.len() as u32,
        last: *order.last().unwrap_or(&last),
        refusal: refusal.map(|(number, place)| Refusal { number, place }),
    };
    assert_eq!(answer, expected, "{turns} turns after {last}");
    for &process in order {
        step(table, &mut state_stepped, &mut arrivals_stepped, process).expect("a step");
    }
    assert_eq!((state, arrivals), (state_stepped, arrivals_stepped));
}

/// The same for every number of turns: those of `order` are all that can be made, and only a call
/// with turns left ends with the refusal.
fn assert_order(team: &Team, last: u32, order: &[u32], refusal: Option<(u32, u32)>) {
    for turns in 0..=order.len() {
        let call = (last, turns as u32);
        assert_served(&table(), team, call, &order[..turns], None);
    }
    for turns in [order.len() as u32 + 1, 1_000, u32::MAX] {
        assert_served(&table(), team, (last, turns), order, refusal);
    }
}

#[test]
fn turns_go_round() {
    let rounds = table_of(&[COUNT, NOTHING, repeat(0, 1)]);
    let order = |first: u32| (first..first + 20).map(|turn| turn % 3);
    let team = started(&rounds, 3, &[0; 39]);
    for last in 0..3 {
        let order: Vec<u32> = order(last + 1).collect();
        for turns in 0..20 {
            let call = (last, turns as u32);
            assert_served(&rounds, &team, call, &order[..turns], None);
        }
    }
    let alone = started(&rounds, 1, &[0; 13]);
    assert_served(&rounds, &alone, (0, 5), &[0; 5], None);
}

#[test]
fn those_that_wait_or_have_ended_are_passed_over() {
    let team = made_up(&[&[BARRIER_AT], &[NOTHING_AT; 3], &[], &[NOTHING_AT; 2]]);
    assert_order(&team, 1, &[3, 1, 3, 1, 1], None);
    assert_order(&team, 3, &[1, 3, 1, 3, 1], None);
    let none_runs = made_up(&[&[BARRIER_AT], &[]]);
    assert_order(&none_runs, 1, &[], None);
    assert_order(&made_up(&[&[], &[]]), 0, &[], None);
}

#[test]
fn a_meeting_lets_all_go_on() {
    let team = made_up(&[
        &[NOTHING_AT, BARRIER_AT],
        &[NOTHING_AT, BARRIER_AT, NOTHING_AT],
    ]);
    assert_order(&team, 0, &[1, 1, 0, 1], None);
    assert_order(&team, 1, &[1, 1, 0, 1], None);
}

#[test]
fn the_questions_are_asked_first() {
    let (state, arrivals) = made_up(&[&[NOTHING_AT; 9], &[NOTHING_AT; 9]]);
    let stray = table_of(&[LEAVE]);
    let unsound = made_up(&[&[NOTHING_AT; 9], &[LEAVE_AT]]);
    let all_there = made_up(&[&[BARRIER_AT], &[BARRIER_AT]]);
    let short = (state[1..].to_vec(), arrivals.clone());
    let no_roll = (short.0.clone(), vec![]);
    for turns in [0, 1, 9] {
        let refused = |table: &[u8], team: &Team, last, refusal| {
            assert_served(table, team, (last, turns), &[], Some(refusal));
        };
        refused(&[], &no_roll, 2, (2, 0));
        refused(&stray, &no_roll, 2, (26, 0));
        refused(&table(), &no_roll, 2, (21, 0));
        refused(&table(), &short, 2, (20, 0));
        for last in [2, 3, 16, u32::MAX] {
            refused(&table(), &unsound, last, (22, last));
        }
        refused(&table(), &unsound, 1, (23, 1));
        refused(&table(), &all_there, 1, (23, 0));
    }
}

#[test]
fn a_full_stack_stops_it_where_a_place_is_needed() {
    let full = [WHILE_AT; 256];
    assert_order(&made_up(&[&full]), 0, &[], Some((24, 0)));
    let team = made_up(&[&[NOTHING_AT; 4], &full, &[NOTHING_AT; 4]]);
    assert_order(&team, 0, &[], Some((24, 1)));
    assert_order(&team, 1, &[2, 0], Some((24, 1)));
    assert_order(&team, 2, &[0], Some((24, 1)));
    // It gets full on the way: a free place is taken by the loop's body, here a list.
    let list = table_of(&[COUNT, NOTHING, NOTHING, sequence(1, 2), repeat(0, 3)]);
    let nearly_full = (stacked(&[4; 255]), vec![RUNNING]);
    assert_served(&list, &nearly_full, (0, 1), &[0], None);
    assert_served(&list, &nearly_full, (0, 2), &[0], Some((24, 0)));
}

#[test]
fn a_leave_that_is_uncovered_stops_it() {
    let by_own_turn = made_up(&[&[LEAVE_AT, NOTHING_AT], &[NOTHING_AT; 3]]);
    assert_order(&by_own_turn, 1, &[0], Some((23, 0)));
    assert_order(&by_own_turn, 0, &[1, 0], Some((23, 0)));
    let by_meeting = made_up(&[
        &[NOTHING_AT, BARRIER_AT],
        &[LEAVE_AT, BARRIER_AT, NOTHING_AT],
    ]);
    assert_order(&by_meeting, 0, &[1, 1], Some((23, 1)));
    let with_its_while = made_up(&[
        &[NOTHING_AT, WHILE_AT, LEAVE_AT, NOTHING_AT],
        &[NOTHING_AT; 3],
    ]);
    assert_order(&with_its_while, 1, &[0, 1, 0, 1, 0, 1], None);
}

#[test]
fn a_call_is_refused_for_what_the_one_before_left() {
    let (mut state, mut arrivals) = made_up(&[&[LEAVE_AT, NOTHING_AT], &[NOTHING_AT; 3]]);
    let answer = serve(&table(), &mut state, &mut arrivals, 1, 1);
    assert_eq!((answer.made, answer.last, answer.refusal), (1, 0, None));
    for turns in [0, 1, 9] {
        let team = (state.clone(), arrivals.clone());
        assert_served(&table(), &team, (1, turns), &[], Some((23, 0)));
    }
}

/// What is printed for a table that does nothing: processes, last, turns, then these start bytes.
fn scheduled([processes, last, turns]: [u32; 3], start_bytes: usize) -> String {
    let table = table_of(&[NOTHING]);
    let mut input = bytes(&[table.len() as u32]);
    input.extend(table);
    input.extend(bytes(&[processes, last, turns]));
    input.extend(vec![0; start_bytes]);
    schedule_team(&input)
}

#[test]
fn served_teams_print_as_written() {
    let printed = |last, turns| scheduled([2, last, turns], 2 * 13 * 4);
    assert_eq!(printed(0, 0), "made last site\n0 0 going\n");
    assert_eq!(printed(0, 1), "made last site\n1 1 going\n");
    assert_eq!(printed(0, 2), "made last site\n2 0 done\n");
    assert_eq!(printed(1, u32::MAX), "made last site\n2 1 done\n");
    assert_eq!(printed(2, 0), "refused 22 2\n");
}

#[test]
fn served_teams_are_refused_as_written() {
    let whole = 13 * 4;
    for length in [0, 1, whole - 4, whole - 1, whole + 1, whole + 4] {
        assert_eq!(scheduled([1, 9, 1], length), "refused 19 0\n");
    }
    assert_eq!(scheduled([1, 9, 1], whole), "refused 22 9\n");
    assert_eq!(scheduled([0, 9, 1], 1), "refused 18 0\n");
    // No table: with the two words behind the number of processes, and cut short in them.
    assert_eq!(schedule_team(&[0; 16]), "refused 2 0\n");
    for length in 0..16 {
        assert_eq!(schedule_team(&vec![0; length]), "refused 25 0\n");
    }
    assert_eq!(schedule_team(&[0xFF; 64]), "refused 25 0\n");
    assert_eq!(schedule_team(&[0; 32_768]), "refused 2 0\n");
    assert_eq!(schedule_team(&[0; 32_769]), "refused 25 0\n");
}
