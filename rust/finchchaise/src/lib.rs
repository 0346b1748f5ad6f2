//! Safe Rust over the proved library: a checker of site tables, a machine that runs them and a
//! linker that joins one to another.
//!
//! The host lends all memory; the library allocates nothing and keeps nothing between calls. Any
//! bytes and words may be passed: what does not fit is refused, and what is refused changes neither
//! state nor roll nor an output. The words are described in docs/FORMAT.md. A process is the rules
//! paper's bank, a team its site, a step its turn, a collective its meeting and a gathered area its
//! roster.
//!
//! ```
//! use finchchaise::{check, serve, start, step, Event, TeamStatus};
//! use finchchaise::{DOORS, PROCESS_WORDS, ROLL_WORDS, SCRATCH_WORDS};
//!
//! // If there are any processes then a barrier, else nothing; one variable.
//! let words: [u32; 7] = [
//!     0x10420400, 0x00000000, 0x03800000, 0x18000000, 0xB8000000, 0x80000000, 0x98000202,
//! ];
//! let table: Vec<u8> = words.iter().flat_map(|word| word.to_be_bytes()).collect();
//! check(&table, &mut [0; SCRATCH_WORDS])?;
//!
//! let mut state = [0; 2 * PROCESS_WORDS];
//! let mut roll = [0; 2 * ROLL_WORDS];
//! start(&table, 2, &[0; 2 * (1 + DOORS)], &mut state, &mut roll)?;
//! // Process 0 comes after process 1, which is given as the one served last.
//! let served = serve(&table, &mut state, &mut roll, 1, 3);
//! assert_eq!((served.made, served.last, served.refusal), (3, 0, None));
//! let answer = step(&table, &mut state, &mut roll, 1)?;
//! assert_eq!((answer.event, answer.team), (Event::Completed(1), TeamStatus::Done));
//! # Ok::<(), finchchaise::Refusal>(())
//! ```

#![no_std]

mod answer;
mod arrival;
mod raw;

pub use answer::{Answer, Event, LinkRefusal, LinkedTable, Refusal, Served, TeamStatus};
pub use arrival::{Arrival, Status};

/// The longest table.
pub const MOST_TABLE_BYTES: usize = 1096;
pub const MOST_PROCESSES: usize = 16;
/// Words of roll for each process.
pub const ROLL_WORDS: usize = 4;
/// Words of scratch that the checker needs.
pub const SCRATCH_WORDS: usize = 32;

/// The parts of a process's words, in their order: variables first.
pub const VARIABLES: usize = 32;
/// Gathered areas of a process; an exchange fills the one that it names.
pub const GATHERED_AREAS: usize = 4;
/// Slots of an area, one for each process that there can be.
pub const AREA_SLOTS: usize = 16;
/// The words of all areas, of which area r has those from `AREA_SLOTS` * r on.
pub const GATHERED: usize = GATHERED_AREAS * AREA_SLOTS;
/// Start words are the table's variables and these, for each process.
pub const DOORS: usize = 12;
pub const LATCHES: usize = 12;
/// Places of the stack, before which its depth stands.
pub const STACK: usize = 256;

pub const GATHERED_AT: usize = VARIABLES;
pub const DOORS_AT: usize = GATHERED_AT + GATHERED;
pub const LATCHES_AT: usize = DOORS_AT + DOORS;
pub const DEPTH_AT: usize = LATCHES_AT + LATCHES;
pub const STACK_AT: usize = DEPTH_AT + 1;
/// Words of state for each process.
pub const PROCESS_WORDS: usize = STACK_AT + STACK;

/// The checker (questions 1 to 17 and 26). What the scratch holds before plays no part. Its first
/// `SCRATCH_WORDS` are 0 afterwards, unless there are fewer, which is refused with 1.
pub fn check(table: &[u8], scratch: &mut [u32]) -> Result<(), Refusal> {
    Refusal::judged(raw::check(table, scratch))
}

/// Starts a team (questions 2 to 12, 26 and 18 to 21) and writes every word of state and roll.
///
/// It does not ask whether the checker accepts the table. `start_words` holds for each process the
/// table's variables and then its doors.
pub fn start(
    table: &[u8],
    processes: u32,
    start_words: &[u32],
    state: &mut [u32],
    roll: &mut [u32],
) -> Result<(), Refusal> {
    Refusal::judged(raw::start(table, processes, start_words, state, roll))
}

/// One step of a process (questions 2 to 12, 26 and 20 to 24). Table, state and roll are those of
/// the start, as the call before left them.
pub fn step(
    table: &[u8],
    state: &mut [u32],
    roll: &mut [u32],
    process: u32,
) -> Result<Answer, Refusal> {
    Answer::judged(raw::step(table, state, roll, process))
}

/// Makes up to so many turns, each a step of the first running process after the one that had the
/// turn before (`last` for the first), cyclically. It stops early when no process runs.
///
/// Questions 2 to 12, 26 and 20 to 23 are asked at the call, also for no turns; 22 is asked of
/// `last`. Then each turn is asked 23 and 24. One that would be refused is not made, and the turns
/// made stand. Table, state and roll are as for a step; with those only 22 refuses.
pub fn serve(table: &[u8], state: &mut [u32], roll: &mut [u32], last: u32, turns: u32) -> Served {
    Served::judged(raw::serve(table, state, roll, last, turns))
}

/// A process's latches, or `None` for a process that the state lacks and for a state that is no
/// whole number of processes.
pub fn latches(state: &[u32], process: u32) -> Option<[u32; LATCHES]> {
    let mut latches = [0; LATCHES];
    (copy_latches(state, process, &mut latches) == LATCHES).then_some(latches)
}

/// Copies as many of a process's latches as `out` has room for, and answers how many.
pub fn copy_latches(state: &[u32], process: u32, out: &mut [u32]) -> usize {
    raw::latches(state, process, out) as usize
}

/// Joins a library, which is a table too, to a program: the joined table has the library's
/// procedures in place of the stubs (the paper's stand-ins) that the program begins with. It is
/// written to `out`, every byte of it, whose length is that of `joined_length`.
///
/// Questions 2 to 12 and 26 are asked of the library, then of the program, and then 27 to 29. It does
/// not ask whether the checker accepts the two tables; if it does, it accepts the joined one.
pub fn link(library: &[u8], program: &[u8], out: &mut [u8]) -> Result<(), LinkRefusal> {
    LinkRefusal::judged(raw::link(library, program, out))
}

/// The joined table's length in bytes, at most `MOST_TABLE_BYTES`, or `None` if `link` refuses the
/// two tables whatever the output.
pub fn joined_length(library: &[u8], program: &[u8]) -> Option<usize> {
    match raw::joined_length(library, program) {
        0 => None,
        length => Some(length as usize),
    }
}
