//! What a comparison has covered of served turns.

use crate::both::Team;
use crate::shape::WHILE;
use crate::tree::nodes_of;
use finchchaise::{Refusal, Served};

/// How a call ended.
#[derive(Clone, Copy, Debug, PartialEq)]
pub enum Ending {
    /// It was refused itself.
    Refused,
    /// No turn was asked for.
    NoneAsked,
    /// All turns were made.
    AllMade,
    /// The same, and the next would be refused with 23, whosever it is.
    AllMadeUnsound,
    /// No process ran at the call.
    NoneRan,
    /// Turns were made until no process ran.
    NoneLeft,
    /// The first turn needs a stack place that is not there.
    FullFirst,
    /// A later turn does, of a while.
    FullWhile,
    /// A later turn does, of a list.
    FullList,
    /// The last turn made uncovered a leave of its own process.
    Uncovered,
    /// It uncovered one of another process, by a collective.
    UncoveredElsewhere,
}

/// In the order of `Ending`.
pub const ENDINGS: [&str; 11] = [
    "refused at once",
    "no turn asked for",
    "all made",
    "all made, then 23",
    "none ran",
    "made until none ran",
    "24 first",
    "24 later by a while",
    "24 later by a list",
    "23 later",
    "23 later by a collective",
];

/// How a call for so many turns ended, by its answer and what it left.
pub fn of_call(team: &Team, turns: u32, answer: Served) -> Ending {
    let Served { made, last, .. } = answer;
    let Some(Refusal { number, place }) = answer.refusal else {
        return of_taken(team, turns, made);
    };
    match (number, made) {
        (24, 0) => Ending::FullFirst,
        (24, _) if top_kind(team, place) == Some(WHILE) => Ending::FullWhile,
        (24, _) => Ending::FullList,
        (_, 0) => Ending::Refused,
        (23, _) if place == last => Ending::Uncovered,
        (23, _) => Ending::UncoveredElsewhere,
        _ => panic!("a turn is refused with {number} at {place}"),
    }
}

fn of_taken(team: &Team, turns: u32, made: u32) -> Ending {
    match made {
        0 if turns == 0 => Ending::NoneAsked,
        0 => Ending::NoneRan,
        _ if made < turns => Ending::NoneLeft,
        _ if team.is_sound() => Ending::AllMade,
        _ => Ending::AllMadeUnsound,
    }
}

fn top_kind(team: &Team, process: u32) -> Option<u32> {
    let top = *team.stack(process).last()?;
    nodes_of(team.table())
        .nth(top as usize)
        .map(|[kind, ..]| kind)
}
