//! Tables out of nodes, and calls on states of their own.

// No test needs all of it.
#![allow(dead_code)]

use finchchaise_model::{run_team, start, step, Arrival, Refusal, Status, PROCESS_WORDS};

pub const RUNNING: Arrival = arrival(Status::Running, 0, 0, 0);
pub const ENDED: Arrival = arrival(Status::Ended, 0, 0, 0);
pub const MARK: u32 = 0xABCD;
pub const GATHERED: usize = 32;
pub const AREAS: u32 = 4;
pub const SLOTS: usize = 16;
pub const DOORS: usize = GATHERED + AREAS as usize * SLOTS;
pub const LATCHES: usize = DOORS + 12;
pub const DEPTH: usize = LATCHES + 12;
pub const STACK: usize = DEPTH + 1;

pub const fn arrival(status: Status, node: u32, value: u32, source: u32) -> Arrival {
    Arrival {
        status,
        node,
        value,
        source,
    }
}

pub fn bytes(words: &[u32]) -> Vec<u8> {
    words.iter().flat_map(|word| word.to_be_bytes()).collect()
}

/// Kind, A, B, C.
pub type Node = [u32; 4];

pub const OWN: Node = [2, 0, 0, 0];
pub const COUNT: Node = [3, 0, 0, 0];
pub const NOTHING: Node = [16, 0, 0, 0];
pub const BARRIER: Node = [23, 0, 0, 0];
pub const LEAVE: Node = [26, 0, 0, 0];

pub const fn call(procedure: u32) -> Node {
    [21, procedure, 0, 0]
}

pub const fn sequence(first: u32, second: u32) -> Node {
    [18, first, second, 0]
}

pub const fn choose(condition: u32, then: u32, otherwise: u32) -> Node {
    [19, condition, then, otherwise]
}

pub const fn repeat(condition: u32, body: u32) -> Node {
    [20, condition, body, 0]
}

/// One variable, one procedure with the last node as its body.
pub fn table_of(nodes: &[Node]) -> Vec<u8> {
    table_with(&[nodes.len() as u32 - 1], nodes)
}

/// One variable, procedures with these bodies, all with the effect flag.
pub fn table_with(bodies: &[u32], nodes: &[Node]) -> Vec<u8> {
    let procedures: Vec<_> = bodies.iter().map(|&body| (body, true)).collect();
    table_flagged(1, 0, &procedures, nodes)
}

/// So many variables, their word of flags, procedures' bodies and effect flags.
pub fn table_flagged(
    variables: u32,
    flags: u32,
    procedures: &[(u32, bool)],
    nodes: &[Node],
) -> Vec<u8> {
    let header = 1 << 28 | variables << 22 | (procedures.len() << 17 | nodes.len() << 8) as u32;
    let mut words = vec![header, flags];
    let procedure = |&(body, effect): &(u32, bool)| body << 24 | (effect as u32) << 23;
    words.extend(procedures.iter().map(procedure));
    words.extend(
        nodes
            .iter()
            .map(|[k, a, b, c]| k << 27 | a << 18 | b << 9 | c),
    );
    bytes(&words)
}

/// Tables with one variable and start words 0.
pub fn run(table: &[u8], processes: u32, turns: &[u8]) -> String {
    let mut input = bytes(&[table.len() as u32]);
    input.extend(table);
    input.extend(bytes(&[processes]));
    input.extend(vec![0; processes as usize * 13 * 4]);
    input.extend(turns);
    run_team(&input)
}

pub fn started(table: &[u8], processes: u32, words: &[u32]) -> (Vec<u32>, Vec<Arrival>) {
    let count = processes as usize;
    let mut state = vec![MARK; count * PROCESS_WORDS];
    let mut arrivals = vec![ENDED; count];
    start(table, processes, words, &mut state, &mut arrivals).expect("a start");
    (state, arrivals)
}

/// One process's words: these stack entries, and a mark in every place above them.
pub fn stacked(entries: &[u32]) -> Vec<u32> {
    let mut state = vec![0; PROCESS_WORDS];
    state[DEPTH] = entries.len() as u32;
    state[STACK..].fill(MARK);
    state[STACK..][..entries.len()].copy_from_slice(entries);
    state
}

/// The slots of one of a process's gathered areas.
pub fn area(words: &[u32], number: usize) -> &[u32] {
    &words[GATHERED + number * SLOTS..][..SLOTS]
}

/// A step that is refused and changes no word.
pub fn refused_step(table: &[u8], state: &[u32], arrivals: &[Arrival], process: u32) -> (u32, u32) {
    let (mut state_after, mut arrivals_after) = (state.to_vec(), arrivals.to_vec());
    let answer = step(table, &mut state_after, &mut arrivals_after, process);
    assert_eq!((&state_after[..], &arrivals_after[..]), (state, arrivals));
    let Refusal { number, place } = answer.expect_err("a refusal");
    (number, place)
}
