//! Lists of turns that the library or the model plays from a start, and what they come to.

use crate::both::hexadecimal;
use crate::random::Random;
use crate::words;
use finchchaise::{Answer, Arrival, Event, Refusal, Served, Status, TeamStatus};
use finchchaise::{PROCESS_WORDS, ROLL_WORDS};
use std::fmt;

type StartCall = fn(&[u8], u32, &[u32], &mut [u32], &mut [u32]) -> Result<(), Refusal>;
type StepCall = fn(&[u8], &mut [u32], &mut [u32], u32) -> Result<Answer, Refusal>;
type ServeCall = fn(&[u8], &mut [u32], &mut [u32], u32, u32) -> Served;

/// Who plays.
#[derive(Clone, Copy)]
pub struct Machine {
    name: &'static str,
    start: StartCall,
    step: StepCall,
    serve: ServeCall,
}

pub const LIBRARY: Machine = Machine {
    name: "library",
    start: finchchaise::start,
    step: finchchaise::step,
    serve: finchchaise::serve,
};

pub const MODEL: Machine = Machine {
    name: "model",
    start: words::start,
    step: words::step,
    serve: words::serve,
};

/// What several lists begin with.
pub struct Start {
    pub table: Vec<u8>,
    pub count: usize,
    pub words: Vec<u32>,
}

impl fmt::Display for Start {
    fn fmt(&self, out: &mut fmt::Formatter) -> fmt::Result {
        let Start { count, words, .. } = self;
        let table = hexadecimal(&self.table);
        write!(out, "{table} on {count} with start words {words:?}")
    }
}

/// A list of turns, as far as it has been played.
pub struct Played<'start> {
    start: &'start Start,
    machine: Machine,
    /// The order of the turns, in words.
    order: String,
    state: Vec<u32>,
    roll: Vec<u32>,
    /// The team in the last answer that was no refusal.
    answered: TeamStatus,
    /// The nodes of each process's collectives; those of served turns are not told.
    lists: Vec<Vec<u32>>,
    /// The steps of each process that were not idle.
    counts: Vec<usize>,
    /// Turns that were served, whosever they were.
    served: usize,
    /// The processes whose arrivals brought the collectives about.
    completers: Vec<u32>,
}

impl<'start> Played<'start> {
    /// Words of any contents are lent, other ones for each list.
    pub fn new(
        machine: Machine,
        start: &'start Start,
        order: String,
        random: &mut Random,
    ) -> Result<Played<'start>, Refusal> {
        let Start {
            table,
            count,
            words,
        } = start;
        let mut state = random.any_words(count * PROCESS_WORDS);
        let mut roll = random.any_words(count * ROLL_WORDS);
        (machine.start)(table, *count as u32, words, &mut state, &mut roll)?;
        Ok(Played {
            start,
            machine,
            order,
            state,
            roll,
            answered: TeamStatus::Going,
            lists: vec![vec![]; *count],
            counts: vec![0; *count],
            served: 0,
            completers: vec![],
        })
    }

    /// Another list from the same start, which is no more refused than before.
    pub fn again(&self, machine: Machine, order: String, random: &mut Random) -> Played<'start> {
        Played::new(machine, self.start, order, random).unwrap_or_else(|refusal| {
            panic!("{} of {}: {refusal}", machine.name, self.start);
        })
    }

    /// From a start only 22 refuses, and only a process that is not there.
    pub fn step(&mut self, process: u32) -> Result<Answer, Refusal> {
        let table = &self.start.table;
        let answer = (self.machine.step)(table, &mut self.state, &mut self.roll, process);
        let not_there = Refusal {
            number: 22,
            place: process,
        };
        let refusal = (process as usize >= self.start.count).then_some(not_there);
        assert!(
            answer.err() == refusal,
            "{}: step of {process}: {answer:?}",
            self.name()
        );
        if let Ok(answer) = answer {
            self.record(process, answer);
        }
        answer
    }

    fn record(&mut self, process: u32, answer: Answer) {
        self.answered = answer.team;
        if let Event::Arrived(node) | Event::Completed(node) = answer.event {
            self.lists[process as usize].push(node);
        }
        if let Event::Completed(_) = answer.event {
            self.completers.push(process);
        }
        let idle = matches!(answer.event, Event::Waiting | Event::Ended);
        self.counts[process as usize] += !idle as usize;
    }

    pub fn serve(&mut self, last: u32, turns: u32) -> Served {
        let table = &self.start.table;
        let answer = (self.machine.serve)(table, &mut self.state, &mut self.roll, last, turns);
        assert!(
            answer.refusal.is_none(),
            "{}: {turns} turns after {last}: {answer:?}",
            self.name()
        );
        self.served += answer.made as usize;
        answer
    }

    /// The order, who plays, and what.
    pub fn name(&self) -> String {
        format!("{}, {} of {}", self.order, self.machine.name, self.start)
    }
}

/// What a list comes to.
impl Played<'_> {
    pub fn count(&self) -> usize {
        self.start.count
    }

    /// By the roll, one for each process.
    pub fn statuses(&self) -> impl Iterator<Item = Status> + '_ {
        let arrivals = (0..).map_while(|process| Arrival::of(&self.roll, process));
        arrivals.map(|arrival| arrival.status)
    }

    /// The processes that run, lowest first.
    pub fn running(&self) -> Vec<u32> {
        let numbered = self.statuses().zip(0..);
        let running = numbered.filter(|&(status, _)| status == Status::Running);
        running.map(|(_, process)| process).collect()
    }

    /// How the team stands, which the roll and the last answer say alike.
    pub fn ending(&self) -> TeamStatus {
        let mut statuses = self.statuses();
        let by_roll = match self.running().is_empty() {
            false => TeamStatus::Going,
            true if statuses.all(|status| status == Status::Ended) => TeamStatus::Done,
            true => TeamStatus::Deadlocked,
        };
        let answered = self.answered;
        assert!(
            answered == by_roll,
            "{}: {answered:?} by the last answer, {by_roll:?} by the roll",
            self.name()
        );
        by_roll
    }

    /// Turns that were not idle.
    pub fn made(&self) -> usize {
        self.served + self.counts.iter().sum::<usize>()
    }

    pub fn completers(&self) -> &[u32] {
        &self.completers
    }

    /// What differs from another list, if anything does. Whose turns were served, and what they
    /// met at, is not told.
    pub fn difference(&self, other: &Played) -> Option<String> {
        let ending = |_| "ending".to_string();
        let list = |process| format!("collectives of process {process}");
        let count = |process| format!("turns of process {process}");
        let made = |_| "turns of all".to_string();
        let state = |place| name(place, PROCESS_WORDS, "state");
        let roll = |place| name(place, ROLL_WORDS, "roll");
        let by_process = || {
            differing(list, &self.lists, &other.lists)
                .or_else(|| differing(count, &self.counts, &other.counts))
        };
        let told = self.served == 0 && other.served == 0;
        differing(ending, &[self.ending()], &[other.ending()])
            .or_else(|| told.then(by_process).flatten())
            .or_else(|| differing(made, &[self.made()], &[other.made()]))
            .or_else(|| differing(state, &self.state, &other.state))
            .or_else(|| differing(roll, &self.roll, &other.roll))
    }
}

/// A lent word, by its process.
fn name(place: usize, words: usize, lent: &str) -> String {
    format!(
        "word {} of process {} in the {lent}",
        place % words,
        place / words
    )
}

/// The first difference of two rows of one length.
fn differing<T: fmt::Debug + PartialEq>(
    name: impl Fn(usize) -> String,
    row: &[T],
    other: &[T],
) -> Option<String> {
    let place = row.iter().zip(other).position(|(a, b)| a != b)?;
    let (here, there) = (&row[place], &other[place]);
    Some(format!("{}: {here:?}, not {there:?}", name(place)))
}
