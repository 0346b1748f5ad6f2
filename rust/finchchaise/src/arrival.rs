//! The roll's words, read as records.

use crate::ROLL_WORDS;

/// What a process is doing.
#[derive(Clone, Copy, Debug, PartialEq, Eq, Hash)]
pub enum Status {
    Running,
    Waiting,
    Ended,
}

/// A process's record of the roll. Unless it waits, node, value and source are 0.
#[derive(Clone, Copy, Debug, PartialEq, Eq, Hash)]
pub struct Arrival {
    pub status: Status,
    /// The collective's node.
    pub node: u32,
    /// The value that the process brought.
    pub value: u32,
    /// The sender that it asks for, in a broadcast; one that the team lacks sends 0.
    pub source: u32,
}

impl Status {
    /// `None` for a word that is no status; a step refuses it with 23.
    fn of(word: u32) -> Option<Status> {
        match word {
            0 => Some(Status::Running),
            1 => Some(Status::Waiting),
            2 => Some(Status::Ended),
            _ => None,
        }
    }
}

impl Arrival {
    /// The record of `process`, or `None` if the roll lacks it or its status is none.
    pub fn of(roll: &[u32], process: u32) -> Option<Arrival> {
        let record = roll.chunks_exact(ROLL_WORDS).nth(process as usize)?;
        Some(Arrival {
            status: Status::of(record[0])?,
            node: record[1],
            value: record[2],
            source: record[3],
        })
    }
}
