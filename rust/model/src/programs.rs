//! What the check program, the run program, the serve program and the join program print.

use crate::arrival::Arrival;
use crate::judgement::{check, SCRATCH_WORDS};
use crate::linker::joined_bytes;
use crate::process::PROCESS_WORDS;
use crate::refusal::{ask, Refusal};
use crate::scheduler::serve;
use crate::table::words_of;
use crate::team::{start, startable, step, team_status, Answer, Event, TeamStatus};

const MOST_INPUT: usize = 32_768;

/// What the check program prints for its input.
pub fn check_table(input: &[u8]) -> String {
    match check(input, &mut [0; SCRATCH_WORDS]) {
        Ok(()) => "accepted\n".to_string(),
        Err(refusal) => format!("{refusal}\n"),
    }
}

/// What the run program prints for its input.
pub fn run_team(input: &[u8]) -> String {
    run(input).unwrap_or_else(|refusal| format!("{refusal}\n"))
}

/// What the serve program prints for its input.
pub fn schedule_team(input: &[u8]) -> String {
    schedule(input).unwrap_or_else(|refusal| format!("{refusal}\n"))
}

/// What the join program prints for its input: the joined table, or a line as the others have it.
pub fn link_tables(input: &[u8]) -> Vec<u8> {
    let line = match split_table(input) {
        Some((library, program)) => match joined_bytes(library, program) {
            Ok(joined) => return joined,
            Err(refusal) => format!("{refusal}\n"),
        },
        None => format!("{NO_INPUT}\n"),
    };
    line.into_bytes()
}

const NO_INPUT: Refusal = Refusal {
    number: 25,
    place: 0,
};

/// A refused start prints no header, a refused turn ends the text.
fn run(input: &[u8]) -> Result<String, Refusal> {
    let (table, processes, rest) = split_input(input).ok_or(NO_INPUT)?;
    let (mut team, turns) = Started::read(table, processes, rest)?;
    let mut text = "bank what node site\n".to_string();
    for &process in turns {
        let process = process as u32;
        match step(table, &mut team.state, &mut team.arrivals, process) {
            Ok(answer) => text += &line(process, answer),
            Err(refusal) => return Ok(text + &format!("{refusal}\n")),
        }
    }
    Ok(text)
}

/// Start words are all that may follow. From a start, only the call itself is refused, with 22.
fn schedule(input: &[u8]) -> Result<String, Refusal> {
    let (table, processes, rest) = split_input(input).ok_or(NO_INPUT)?;
    let (last, rest) = split_word(rest).ok_or(NO_INPUT)?;
    let (turns, rest) = split_word(rest).ok_or(NO_INPUT)?;
    let (mut team, left_over) = Started::read(table, processes, rest)?;
    ask(19, left_over.is_empty())?;
    let served = serve(table, &mut team.state, &mut team.arrivals, last, turns);
    let refused_line = match served.refusal {
        Some(refusal) if refusal.number == 22 => return Err(refusal),
        Some(refusal) => format!("{refusal}\n"),
        None => String::new(),
    };
    let site = site(team_status(&team.arrivals));
    let (made, last) = (served.made, served.last);
    Ok(format!(
        "made last site\n{made} {last} {site}\n{refused_line}"
    ))
}

/// A team after its start.
struct Started {
    state: Vec<u32>,
    arrivals: Vec<Arrival>,
}

impl Started {
    /// Takes the start words off the bytes and answers what is left of them.
    fn read<'input>(
        table: &[u8],
        processes: u32,
        bytes: &'input [u8],
    ) -> Result<(Started, &'input [u8]), Refusal> {
        let cut_short = Refusal {
            number: 19,
            place: 0,
        };
        let (_, words) = startable(table, processes)?;
        let (start_bytes, rest) = bytes.split_at_checked(4 * words).ok_or(cut_short)?;
        let count = processes as usize;
        let mut state = vec![0; count * PROCESS_WORDS];
        let mut arrivals = vec![Arrival::running(); count];
        let start_words = words_of(start_bytes);
        start(table, processes, &start_words, &mut state, &mut arrivals)?;
        Ok((Started { state, arrivals }, rest))
    }
}

/// Question 25: the table's bytes, the number of processes and what follows.
fn split_input(input: &[u8]) -> Option<(&[u8], u32, &[u8])> {
    let (table, rest) = split_table(input)?;
    let (processes, rest) = split_word(rest)?;
    Some((table, processes, rest))
}

/// The part of question 25 that all programs share: the table's bytes and what follows.
fn split_table(input: &[u8]) -> Option<(&[u8], &[u8])> {
    if input.len() > MOST_INPUT {
        return None;
    }
    let (length, rest) = split_word(input)?;
    rest.split_at_checked(length as usize)
}

fn split_word(bytes: &[u8]) -> Option<(u32, &[u8])> {
    let (word, rest) = bytes.split_first_chunk()?;
    Some((u32::from_be_bytes(*word), rest))
}

fn line(process: u32, answer: Answer) -> String {
    let (what, node) = match answer.event {
        Event::Moved => ("moved", 0),
        Event::Finished => ("finished", 0),
        Event::Arrived(node) => ("arrived", node),
        Event::Completed(node) => ("met", node),
        Event::Waiting => ("waits", 0),
        Event::Ended => ("ended", 0),
    };
    let site = site(answer.team);
    format!("{process} {what} {node} {site}\n")
}

/// The printed word.
fn site(team: TeamStatus) -> &'static str {
    match team {
        TeamStatus::Going => "going",
        TeamStatus::Done => "done",
        TeamStatus::Deadlocked => "crossed",
    }
}
