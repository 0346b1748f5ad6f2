//! How a question that fails is answered.

use std::fmt;

/// Question `number` failed at `place`; the place is 0 where the paper names none.
#[derive(Clone, Copy, Debug, PartialEq, Eq)]
pub struct Refusal {
    pub number: u32,
    pub place: u32,
}

impl fmt::Display for Refusal {
    fn fmt(&self, out: &mut fmt::Formatter) -> fmt::Result {
        write!(out, "refused {} {}", self.number, self.place)
    }
}

/// A question without a place.
pub fn ask(number: u32, passes: bool) -> Result<(), Refusal> {
    ask_at(number, 0, passes)
}

/// A question about one place.
pub fn ask_at(number: u32, place: u32, passes: bool) -> Result<(), Refusal> {
    if passes {
        Ok(())
    } else {
        Err(Refusal { number, place })
    }
}

/// A question put to the places from 0 to `count`, refused at the lowest that fails.
pub fn ask_each(number: u32, count: usize, passes: impl Fn(usize) -> bool) -> Result<(), Refusal> {
    match (0..count).find(|&place| !passes(place)) {
        None => Ok(()),
        Some(place) => ask_at(number, place as u32, false),
    }
}
