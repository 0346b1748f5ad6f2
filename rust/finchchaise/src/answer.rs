//! What the calls answer.

use crate::raw::{FcLink, FcServe, FcStep};
use core::fmt;

/// Question `number` of the rules paper failed at `place`, which is 0 where the paper names none.
/// Printed as the programs do: `refused 15 3`.
#[derive(Clone, Copy, Debug, PartialEq, Eq, Hash)]
pub struct Refusal {
    pub number: u32,
    pub place: u32,
}

/// What happened to the process that was asked for.
#[derive(Clone, Copy, Debug, PartialEq, Eq, Hash)]
pub enum Event {
    /// A statement was worked on, and others are left.
    Moved,
    /// The last statement is done, and the process has ended.
    Finished,
    /// The process waits at the collective of this node.
    Arrived(u32),
    /// Its arrival brought the collective of this node about, and all go on. Printed `met`.
    Completed(u32),
    /// Nothing: the process was waiting already. Printed `waits`.
    Waiting,
    /// Nothing: the process had ended already.
    Ended,
}

/// How the team (the paper's site) stands.
#[derive(Clone, Copy, Debug, PartialEq, Eq, Hash)]
pub enum TeamStatus {
    /// Some process runs.
    Going,
    /// All processes have ended.
    Done,
    /// None runs, some wait, and no collective can take place. Printed `crossed`.
    Deadlocked,
}

/// The answer to a step that was taken. Printed as the run program does after the process's number:
/// `met 1 done`.
#[derive(Clone, Copy, Debug, PartialEq, Eq, Hash)]
pub struct Answer {
    pub event: Event,
    pub team: TeamStatus,
}

/// The answer to a serve.
#[derive(Clone, Copy, Debug, PartialEq, Eq, Hash)]
pub struct Served {
    /// How many turns were made. They stand, also if the next one was refused.
    pub made: u32,
    /// The process that had the last of them; the one given if none was made.
    pub last: u32,
    /// Of the call, in which case no turn was made, or of the turn that would have come next.
    pub refusal: Option<Refusal>,
}

/// One of the two tables that are joined.
#[derive(Clone, Copy, Debug, PartialEq, Eq, Hash)]
pub enum LinkedTable {
    Library,
    /// The table that the library is joined to.
    Program,
}

/// The refusal of a link, and the table of which the question was asked: the program for 27 to 29.
/// Printed as the join program does: `refused 27 1 program`.
#[derive(Clone, Copy, Debug, PartialEq, Eq, Hash)]
pub struct LinkRefusal {
    pub refusal: Refusal,
    pub table: LinkedTable,
}

impl Refusal {
    /// An answer of fc_check or fc_start.
    pub(crate) fn judged(answer: u64) -> Result<(), Refusal> {
        match answer {
            0 => Ok(()),
            _ => Err(Refusal {
                number: (answer >> 32) as u32,
                place: answer as u32,
            }),
        }
    }
}

impl Answer {
    pub(crate) fn judged(step: FcStep) -> Result<Answer, Refusal> {
        if step.number != 0 {
            let FcStep { number, place, .. } = step;
            return Err(Refusal { number, place });
        }
        Ok(Answer {
            event: Event::numbered(step.event, step.node),
            team: TeamStatus::numbered(step.site),
        })
    }
}

impl Served {
    pub(crate) fn judged(serve: FcServe) -> Served {
        let FcServe {
            made,
            last,
            number,
            place,
        } = serve;
        let refusal = (number != 0).then_some(Refusal { number, place });
        Served {
            made,
            last,
            refusal,
        }
    }
}

impl LinkRefusal {
    pub(crate) fn judged(link: FcLink) -> Result<(), LinkRefusal> {
        let FcLink {
            number,
            place,
            table,
        } = link;
        match number {
            0 => Ok(()),
            _ => Err(LinkRefusal {
                refusal: Refusal { number, place },
                table: LinkedTable::numbered(table),
            }),
        }
    }
}

impl LinkedTable {
    fn numbered(number: u32) -> LinkedTable {
        match number {
            0 => LinkedTable::Library,
            1 => LinkedTable::Program,
            _ => unreachable!("the library has no table {number}"),
        }
    }

    /// The printed word.
    pub fn word(self) -> &'static str {
        match self {
            LinkedTable::Library => "library",
            LinkedTable::Program => "program",
        }
    }
}

impl Event {
    fn numbered(number: u32, node: u32) -> Event {
        match number {
            0 => Event::Moved,
            1 => Event::Finished,
            2 => Event::Arrived(node),
            3 => Event::Completed(node),
            4 => Event::Waiting,
            5 => Event::Ended,
            _ => unreachable!("the library has no event {number}"),
        }
    }

    /// The printed word.
    pub fn word(self) -> &'static str {
        match self {
            Event::Moved => "moved",
            Event::Finished => "finished",
            Event::Arrived(_) => "arrived",
            Event::Completed(_) => "met",
            Event::Waiting => "waits",
            Event::Ended => "ended",
        }
    }

    /// The collective's node, or 0 for an event that has none, as it is printed.
    pub fn node(self) -> u32 {
        match self {
            Event::Arrived(node) | Event::Completed(node) => node,
            _ => 0,
        }
    }
}

impl TeamStatus {
    fn numbered(number: u32) -> TeamStatus {
        match number {
            0 => TeamStatus::Going,
            1 => TeamStatus::Done,
            2 => TeamStatus::Deadlocked,
            _ => unreachable!("the library has no team status {number}"),
        }
    }

    /// The printed word.
    pub fn word(self) -> &'static str {
        match self {
            TeamStatus::Going => "going",
            TeamStatus::Done => "done",
            TeamStatus::Deadlocked => "crossed",
        }
    }
}

impl fmt::Display for Refusal {
    fn fmt(&self, out: &mut fmt::Formatter) -> fmt::Result {
        write!(out, "refused {} {}", self.number, self.place)
    }
}

impl core::error::Error for Refusal {}

impl fmt::Display for LinkRefusal {
    fn fmt(&self, out: &mut fmt::Formatter) -> fmt::Result {
        write!(out, "{} {}", self.refusal, self.table.word())
    }
}

impl core::error::Error for LinkRefusal {}

impl fmt::Display for Answer {
    fn fmt(&self, out: &mut fmt::Formatter) -> fmt::Result {
        let Answer { event, team } = self;
        write!(out, "{} {} {}", event.word(), event.node(), team.word())
    }
}
