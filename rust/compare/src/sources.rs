//! What a comparison has covered of broadcasts, by their sources.

use crate::shape::BROADCAST;
use crate::tree::nodes_of;
use finchchaise::{Answer, Event, Refusal, ROLL_WORDS};
use std::cmp::Ordering;

/// Whom a process names as its sender. A source that is not there counts only where the process
/// that it would wrap around to brought another value than 0.
#[derive(Clone, Copy)]
pub enum Source {
    There,
    AtCount,
    AboveCount,
}

/// In the order of `Source`.
pub const SOURCES: [&str; 3] = ["sent", "source at the count", "source above the count"];

/// The sources of the broadcast that a step brought about, as far as the roll before it had them.
pub fn of_step(table: &[u8], roll: &[u32], answer: Result<Answer, Refusal>) -> Vec<Source> {
    let Ok(Answer {
        event: Event::Completed(node),
        ..
    }) = answer
    else {
        return vec![];
    };
    let kind = nodes_of(table).nth(node as usize).map(|[kind, ..]| kind);
    match kind == Some(BROADCAST) {
        true => of_broadcast(roll),
        false => vec![],
    }
}

/// The last to arrive does not wait yet, and its value is not in the roll.
fn of_broadcast(roll: &[u32]) -> Vec<Source> {
    let (records, _) = roll.as_chunks::<ROLL_WORDS>();
    let count = records.len();
    let waiting = records.iter().filter(|[status, ..]| *status == 1);
    waiting
        .filter_map(|&[_, _, _, source]| {
            let [_, _, value, _] = records[source as usize % count];
            match (source as usize).cmp(&count) {
                Ordering::Less => Some(Source::There),
                _ if value == 0 => None,
                Ordering::Equal => Some(Source::AtCount),
                Ordering::Greater => Some(Source::AboveCount),
            }
        })
        .collect()
}
