//! Turns shared fairly (request U4): the machine chooses whose step is next.

use crate::arrival::{Arrival, Status};
use crate::refusal::Refusal;
use crate::team::{ask_team, step};

/// What serving answers.
#[derive(Clone, Copy, Debug, PartialEq, Eq)]
pub struct Served {
    /// The number of turns made; they stand, whatever the refusal.
    pub made: u32,
    /// The process served last, or the one given if no turn was made.
    pub last: u32,
    pub refusal: Option<Refusal>,
}

/// "A turn's questions up to 23 are asked first, also when no turn is made."
pub fn serve(
    table: &[u8],
    state: &mut [u32],
    arrivals: &mut [Arrival],
    last: u32,
    turns: u32,
) -> Served {
    let mut served = Served {
        made: 0,
        last,
        refusal: ask_team(table, state, arrivals, last).err(),
    };
    while served.refusal.is_none() && served.made < turns {
        let Some(next) = next_running(arrivals, served.last) else {
            break;
        };
        match step(table, state, arrivals, next) {
            Ok(_) => {
                served.made += 1;
                served.last = next;
            }
            Err(refusal) => served.refusal = Some(refusal),
        }
    }
    served
}

/// "The first running bank after that one, cyclically"; the last one itself comes last.
fn next_running(arrivals: &[Arrival], last: u32) -> Option<u32> {
    let count = arrivals.len() as u32;
    (last + 1..count)
        .chain(0..=last)
        .find(|&process| arrivals[process as usize].status == Status::Running)
}
