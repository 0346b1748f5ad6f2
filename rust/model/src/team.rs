//! The team (the paper's site): start, step and questions 18 to 24.

use crate::arrival::{common_node, Arrival, Status};
use crate::process::{Process, DOORS, PROCESS_WORDS};
use crate::refusal::{ask, ask_at, ask_each, Refusal};
use crate::table::{Kind, Table};

const MOST_PROCESSES: usize = 16;

/// What happened to the process that was asked for.
#[derive(Clone, Copy, Debug, PartialEq, Eq)]
pub enum Event {
    Moved,
    Finished,
    Arrived(u32),
    /// The paper's met: the arrival that brings the collective about.
    Completed(u32),
    /// Idle while waiting.
    Waiting,
    /// Idle after its end.
    Ended,
}

#[derive(Clone, Copy, Debug, PartialEq, Eq)]
pub enum TeamStatus {
    Going,
    Done,
    /// The paper's crossed.
    Deadlocked,
}

#[derive(Clone, Copy, Debug, PartialEq, Eq)]
pub struct Answer {
    pub event: Event,
    pub team: TeamStatus,
}

/// Questions 2 to 12, 26 and 18, and the number of start words that question 19 asks for.
pub fn startable(table: &[u8], processes: u32) -> Result<(Table, usize), Refusal> {
    let table = Table::read(table)?;
    let processes = processes as usize;
    ask(18, (1..=MOST_PROCESSES).contains(&processes))?;
    let words = processes * (table.variables + DOORS);
    Ok((table, words))
}

/// Asks questions 2 to 12, 26 and 18 to 21.
pub fn start(
    table: &[u8],
    processes: u32,
    start_words: &[u32],
    state: &mut [u32],
    arrivals: &mut [Arrival],
) -> Result<(), Refusal> {
    let (table, start_length) = startable(table, processes)?;
    let count = processes as usize;
    ask(19, start_words.len() == start_length)?;
    ask(20, state.len() == count * PROCESS_WORDS)?;
    ask(21, arrivals.len() == count)?;
    let given = start_words.chunks_exact(table.variables + DOORS);
    let lent = state.chunks_exact_mut(PROCESS_WORDS);
    for (number, (given, lent)) in given.zip(lent).enumerate() {
        started(&table, number, count, given).write(lent);
    }
    arrivals.fill(Arrival::running());
    Ok(())
}

fn started(table: &Table, number: usize, count: usize, given: &[u32]) -> Process {
    let (variables, doors) = given.split_at(table.variables);
    let mut process = Process::blank(number, count);
    process.variables[..variables.len()].copy_from_slice(variables);
    process.doors.copy_from_slice(doors);
    process.push(table.main_body());
    process
}

/// One step (the paper's turn); asks questions 2 to 12, 26, 21, 20, 22, 23, 24.
pub fn step(
    table: &[u8],
    state: &mut [u32],
    arrivals: &mut [Arrival],
    process: u32,
) -> Result<Answer, Refusal> {
    let mut team = ask_team(table, state, arrivals, process)?;
    let number = process as usize;
    ask_at(24, process, team.stack_suffices(number))?;
    let answer = team.step(number);
    team.write(state, arrivals);
    Ok(answer)
}

/// A step's questions up to 23, and the team that passes them.
pub fn ask_team(
    table: &[u8],
    state: &[u32],
    arrivals: &[Arrival],
    process: u32,
) -> Result<Team, Refusal> {
    let table = Table::read(table)?;
    let count = arrivals.len();
    ask(21, (1..=MOST_PROCESSES).contains(&count))?;
    ask(20, state.len() == count * PROCESS_WORDS)?;
    ask_at(22, process, (process as usize) < count)?;
    let team = Team::read(table, state, arrivals);
    ask_each(23, count, |number| team.process_is_sound(number))?;
    ask(23, common_node(arrivals).is_none())?;
    Ok(team)
}

pub struct Team {
    table: Table,
    processes: Vec<Process>,
    arrivals: Vec<Arrival>,
}

impl Team {
    fn read(table: Table, state: &[u32], arrivals: &[Arrival]) -> Team {
        let lent = state.chunks_exact(PROCESS_WORDS).enumerate();
        Team {
            table,
            processes: lent
                .map(|(number, words)| Process::read(number, arrivals.len(), words))
                .collect(),
            arrivals: arrivals.to_vec(),
        }
    }

    fn write(self, state: &mut [u32], arrivals: &mut [Arrival]) {
        let lent = state.chunks_exact_mut(PROCESS_WORDS);
        for (process, words) in self.processes.into_iter().zip(lent) {
            process.write(words);
        }
        arrivals.copy_from_slice(&self.arrivals);
    }

    /// Question 23 for one process.
    fn process_is_sound(&self, number: usize) -> bool {
        let process = &self.processes[number];
        let arrival = self.arrivals[number];
        let Some(entries) = process.stack.get(..process.depth as usize) else {
            return false;
        };
        entries
            .iter()
            .all(|&entry| self.table.is_statement(entry as usize))
            && (arrival.status == Status::Ended) == entries.is_empty()
            && match arrival.status {
                Status::Waiting => self.waits_rightly(process, arrival),
                _ => (arrival.node, arrival.value, arrival.source) == (0, 0, 0),
            }
            && self.can_leave(entries)
    }

    /// "A made-up stack with a leave on top and that while not below is number 23."
    fn can_leave(&self, entries: &[u32]) -> bool {
        let Some((&top, below)) = entries.split_last() else {
            return true;
        };
        let is_below = |left| below.contains(&(left as u32));
        self.table.while_left(top as usize).is_none_or(is_below)
    }

    /// The top is the collective waited at, and a field that its kind lacks is 0.
    fn waits_rightly(&self, process: &Process, arrival: Arrival) -> bool {
        process.top() == Some(arrival.node as usize)
            && match self.table.nodes[arrival.node as usize].kind {
                Kind::Barrier => arrival.value == 0 && arrival.source == 0,
                Kind::Exchange => arrival.source == 0,
                kind => kind == Kind::Broadcast,
            }
    }

    /// Question 24: only a running process can need a place.
    fn stack_suffices(&self, number: usize) -> bool {
        let process = &self.processes[number];
        let grows = self
            .running_top(number)
            .is_some_and(|top| process.grows(&self.table, top));
        !grows || !process.is_full()
    }

    fn running_top(&self, number: usize) -> Option<usize> {
        match self.arrivals[number].status {
            Status::Running => self.processes[number].top(),
            _ => None,
        }
    }

    fn step(&mut self, number: usize) -> Answer {
        let event = match self.running_top(number) {
            Some(top) if self.table.nodes[top].kind.is_collective() => self.arrive(number, top),
            Some(top) => self.perform(number, top),
            None if self.arrivals[number].status == Status::Waiting => Event::Waiting,
            None => Event::Ended,
        };
        Answer {
            event,
            team: team_status(&self.arrivals),
        }
    }

    fn perform(&mut self, number: usize, top: usize) -> Event {
        self.processes[number].perform(&self.table, top);
        if self.processes[number].depth > 0 {
            return Event::Moved;
        }
        self.arrivals[number] = self.arrivals[number].end();
        Event::Finished
    }

    fn arrive(&mut self, number: usize, top: usize) -> Event {
        let (value, source) = self.contribution(number, top);
        self.arrivals[number] = self.arrivals[number].arrive(top, value, source);
        match common_node(&self.arrivals) {
            Some(node) => {
                self.complete(node);
                Event::Completed(node as u32)
            }
            None => Event::Arrived(top as u32),
        }
    }

    /// Value and source, worked out on arrival.
    fn contribution(&self, number: usize, top: usize) -> (u32, u32) {
        let [a, b, c] = self.table.nodes[top].fields;
        let value = |node| self.processes[number].value(&self.table, node);
        match self.table.nodes[top].kind {
            Kind::Broadcast => (value(b), value(c)),
            Kind::Exchange => (value(a), 0),
            _ => (0, 0),
        }
    }

    /// The collective at `node` takes place.
    fn complete(&mut self, node: usize) {
        let [a, b, _] = self.table.nodes[node].fields;
        match self.table.nodes[node].kind {
            Kind::Broadcast => self.broadcast(a),
            Kind::Exchange => self.exchange(b),
            _ => (),
        }
        for (process, arrival) in self.processes.iter_mut().zip(&mut self.arrivals) {
            process.pop();
            *arrival = match process.depth {
                0 => arrival.end(),
                _ => arrival.resume(),
            };
        }
    }

    /// Each process goes by its own source; one that is not there sends 0.
    fn broadcast(&mut self, variable: usize) {
        for (process, arrival) in self.processes.iter_mut().zip(&self.arrivals) {
            let sender = self.arrivals.get(arrival.source as usize);
            process.variables[variable] = sender.map_or(0, |sender| sender.value);
        }
    }

    /// Slots from the count on and the other areas keep their words.
    fn exchange(&mut self, area: usize) {
        for process in &mut self.processes {
            for (slot, arrival) in process.gathered[area].iter_mut().zip(&self.arrivals) {
                *slot = arrival.value;
            }
        }
    }
}

pub fn team_status(arrivals: &[Arrival]) -> TeamStatus {
    let statuses = || arrivals.iter().map(|arrival| arrival.status);
    if statuses().any(|status| status == Status::Running) {
        TeamStatus::Going
    } else if statuses().all(|status| status == Status::Ended) {
        TeamStatus::Done
    } else {
        TeamStatus::Deadlocked
    }
}
