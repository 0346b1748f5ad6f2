//! The model's calls with the library's types, and with the plain words of a roll.

use finchchaise::{
    Answer, Event, LinkRefusal, LinkedTable, Refusal, Served, TeamStatus, ROLL_WORDS,
};
use finchchaise_model as model;
use finchchaise_model::{Arrival, Status};

pub fn check(table: &[u8], scratch: &mut [u32]) -> Result<(), Refusal> {
    model::check(table, scratch).map_err(refusal)
}

pub fn start(
    table: &[u8],
    processes: u32,
    start_words: &[u32],
    state: &mut [u32],
    roll: &mut [u32],
) -> Result<(), Refusal> {
    let mut arrivals = arrivals(roll);
    model::start(table, processes, start_words, state, &mut arrivals).map_err(refusal)?;
    write(&arrivals, roll);
    Ok(())
}

pub fn step(
    table: &[u8],
    state: &mut [u32],
    roll: &mut [u32],
    process: u32,
) -> Result<Answer, Refusal> {
    let mut arrivals = arrivals(roll);
    let answer = model::step(table, state, &mut arrivals, process).map_err(refusal)?;
    write(&arrivals, roll);
    Ok(Answer {
        event: event(answer.event),
        team: team(answer.team),
    })
}

/// Without a turn nothing changes, so a record that the model has no word for stays as it is.
pub fn serve(table: &[u8], state: &mut [u32], roll: &mut [u32], last: u32, turns: u32) -> Served {
    let mut arrivals = arrivals(roll);
    let answer = model::serve(table, state, &mut arrivals, last, turns);
    if answer.made > 0 {
        write(&arrivals, roll);
    }
    Served {
        made: answer.made,
        last: answer.last,
        refusal: answer.refusal.map(refusal),
    }
}

pub fn link(library: &[u8], program: &[u8], out: &mut [u8]) -> Result<(), LinkRefusal> {
    model::link(library, program, out).map_err(link_refusal)
}

pub fn joined_length(library: &[u8], program: &[u8]) -> Option<usize> {
    match model::joined_length(library, program) {
        0 => None,
        length => Some(length),
    }
}

/// A roll that is no whole number of records is refused with 21, as an empty one is.
fn arrivals(roll: &[u32]) -> Vec<Arrival> {
    if roll.len().is_multiple_of(ROLL_WORDS) {
        roll.chunks_exact(ROLL_WORDS).map(arrival).collect()
    } else {
        Vec::new()
    }
}

/// A status that is none fails question 23 at its process. A running process at a node does too,
/// so it stands for such a record, which the model has no word for.
fn arrival(record: &[u32]) -> Arrival {
    let (status, node) = match record[0] {
        0 => (Status::Running, record[1]),
        1 => (Status::Waiting, record[1]),
        2 => (Status::Ended, record[1]),
        _ => (Status::Running, 1),
    };
    Arrival {
        status,
        node,
        value: record[2],
        source: record[3],
    }
}

fn write(arrivals: &[Arrival], roll: &mut [u32]) {
    for (arrival, record) in arrivals.iter().zip(roll.chunks_exact_mut(ROLL_WORDS)) {
        let status = match arrival.status {
            Status::Running => 0,
            Status::Waiting => 1,
            Status::Ended => 2,
        };
        record.copy_from_slice(&[status, arrival.node, arrival.value, arrival.source]);
    }
}

fn refusal(refusal: model::Refusal) -> Refusal {
    let model::Refusal { number, place } = refusal;
    Refusal { number, place }
}

fn link_refusal(refused: model::LinkRefusal) -> LinkRefusal {
    LinkRefusal {
        refusal: refusal(refused.refusal),
        table: match refused.table {
            model::LinkedTable::Library => LinkedTable::Library,
            model::LinkedTable::Program => LinkedTable::Program,
        },
    }
}

fn event(event: model::Event) -> Event {
    match event {
        model::Event::Moved => Event::Moved,
        model::Event::Finished => Event::Finished,
        model::Event::Arrived(node) => Event::Arrived(node),
        model::Event::Completed(node) => Event::Completed(node),
        model::Event::Waiting => Event::Waiting,
        model::Event::Ended => Event::Ended,
    }
}

fn team(team: model::TeamStatus) -> TeamStatus {
    match team {
        model::TeamStatus::Going => TeamStatus::Going,
        model::TeamStatus::Done => TeamStatus::Done,
        model::TeamStatus::Deadlocked => TeamStatus::Deadlocked,
    }
}
