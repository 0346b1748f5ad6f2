//! A second, independent reading of the rules paper (01-scope) and of the change
//! requests that have landed (02-change-requests).
//!
//! Nothing here is proved. The model exists so that the proved code can be run
//! beside it: both take the same bytes and words, so every answer and every
//! lent word can be compared. It prefers being easy to check against the paper
//! over being fast, and shares no code with what it is compared to.
//!
//! The paper's words are in brackets at the definitions: a process is a bank,
//! a team a site, a step a turn, a collective a meeting.

#![forbid(unsafe_code)]

mod arrival;
mod evaluation;
mod judgement;
mod leave;
mod linker;
mod process;
mod programs;
mod refusal;
mod scheduler;
mod switches;
mod table;
mod team;

pub use arrival::{Arrival, Status};
pub use judgement::check;
pub use linker::{joined_length, link, LinkRefusal, LinkedTable};
pub use process::{latches, PROCESS_WORDS};
pub use programs::{check_table, link_tables, run_team, schedule_team};
pub use refusal::Refusal;
pub use scheduler::{serve, Served};
pub use team::{start, step, Answer, Event, TeamStatus};
