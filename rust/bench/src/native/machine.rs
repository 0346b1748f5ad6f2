//! Start and step, questions 18 to 24, on the lent words in place.

use super::reader::read;
use super::refusal::refused;
use super::table::{Node, Table};
use finchchaise::{Answer, Event, Refusal, TeamStatus};
use finchchaise::{AREA_SLOTS, DOORS, LATCHES, MOST_PROCESSES, PROCESS_WORDS, ROLL_WORDS, STACK};
use finchchaise::{DEPTH_AT, DOORS_AT, GATHERED_AT, LATCHES_AT, STACK_AT};

const RUNNING: u32 = 0;
const WAITING: u32 = 1;
const ENDED: u32 = 2;

type Words = [u32; PROCESS_WORDS];
/// Status, node, value, source.
type Record = [u32; ROLL_WORDS];

pub fn start(
    table: &[u8],
    processes: u32,
    start_words: &[u32],
    state: &mut [u32],
    roll: &mut [u32],
) -> Result<(), Refusal> {
    let table = read(table)?;
    let count = processes as usize;
    if !(1..=MOST_PROCESSES).contains(&count) {
        return refused(18, 0);
    }
    if start_words.len() != count * (table.variables + DOORS) {
        return refused(19, 0);
    }
    if state.len() != count * PROCESS_WORDS {
        return refused(20, 0);
    }
    if roll.len() != count * ROLL_WORDS {
        return refused(21, 0);
    }
    state.fill(0);
    roll.fill(RUNNING);
    let main_body = table.body(table.procedures.len() - 1);
    let given = start_words.chunks_exact(table.variables + DOORS);
    for (given, words) in given.zip(state.as_chunks_mut::<PROCESS_WORDS>().0) {
        let (variables, doors) = given.split_at(table.variables);
        words[..variables.len()].copy_from_slice(variables);
        words[DOORS_AT..LATCHES_AT].copy_from_slice(doors);
        push(words, main_body);
    }
    Ok(())
}

pub fn step(
    table: &[u8],
    state: &mut [u32],
    roll: &mut [u32],
    process: u32,
) -> Result<Answer, Refusal> {
    let mut team = Team::asked(table, state, roll, process)?;
    let event = team.turn(process as usize)?;
    let team = team.status();
    Ok(Answer { event, team })
}

pub struct Team<'lent> {
    table: Table<'lent>,
    processes: &'lent mut [Words],
    records: &'lent mut [Record],
}

impl<'lent> Team<'lent> {
    /// A team that has passed questions 2 to 12, 26 and 20 to 23. Inlined, as it is large to copy.
    #[inline(always)]
    pub fn asked(
        table: &'lent [u8],
        state: &'lent mut [u32],
        roll: &'lent mut [u32],
        process: u32,
    ) -> Result<Team<'lent>, Refusal> {
        let table = read(table)?;
        let (records, rest) = roll.as_chunks_mut();
        let count = records.len();
        if !rest.is_empty() || !(1..=MOST_PROCESSES).contains(&count) {
            return refused(21, 0);
        }
        if state.len() != count * PROCESS_WORDS {
            return refused(20, 0);
        }
        let team = Team {
            table,
            processes: state.as_chunks_mut().0,
            records,
        };
        let number = process as usize;
        if number >= count {
            return refused(22, number);
        }
        match team.first_unsound() {
            Some(unsound) => refused(23, unsound),
            None => Ok(team),
        }
    }
}

impl Team<'_> {
    /// Question 23.
    fn first_unsound(&self) -> Option<usize> {
        let mut both = self.processes.iter().zip(&*self.records);
        both.position(|(words, record)| !self.is_sound(words, record))
            .or(self.common_node().map(|_| 0))
    }

    fn is_sound(&self, words: &Words, record: &Record) -> bool {
        let Some(stack) = words[STACK_AT..].get(..words[DEPTH_AT] as usize) else {
            return false;
        };
        let is_statement = |&entry: &u32| self.table.is_statement(entry as usize);
        stack.iter().all(is_statement)
            && match (record, stack.last()) {
                ([ENDED, 0, 0, 0], top) => top.is_none(),
                ([RUNNING, 0, 0, 0], Some(&top)) => self.can_leave(top as usize, stack),
                (&[WAITING, node, value, source], Some(&top)) if top == node => {
                    match self.table.node(node as usize).kind() {
                        23 => value | source == 0,
                        24 => true,
                        25 => source == 0,
                        _ => false,
                    }
                }
                _ => false,
            }
    }

    /// Question 23 after a turn, if none failed it before. What a turn writes is as it should be,
    /// but a leave may then be on top: of the process that moved, or of any after a collective.
    #[inline]
    pub fn first_unsound_after(&self, event: Event, process: usize) -> Option<usize> {
        let can_leave = |&process: &usize| {
            let words = &self.processes[process];
            let stack = &words[STACK_AT..][..words[DEPTH_AT] as usize];
            let top = stack.last();
            top.is_none_or(|&top| self.can_leave(top as usize, stack))
        };
        match event {
            Event::Moved => Some(process).filter(|process| !can_leave(process)),
            Event::Completed(_) => (0..self.processes.len()).find(|process| !can_leave(process)),
            _ => None,
        }
    }

    /// A leave on top needs its while below.
    fn can_leave(&self, top: usize, stack: &[u32]) -> bool {
        if self.table.node(top).kind() != 26 {
            return true;
        }
        let left = self.table.while_around(top);
        left.is_some_and(|left| stack.contains(&(left as u32)))
    }

    /// Where all processes wait, if they do.
    fn common_node(&self) -> Option<usize> {
        let node = self.records[0][1];
        let mut records = self.records.iter();
        let all = records.all(|record| record[0] == WAITING && record[1] == node);
        all.then_some(node as usize)
    }

    /// The first running process after this one, cyclically: this one comes last.
    #[inline]
    pub fn next_running(&self, last: usize) -> Option<usize> {
        let runs = |record: &Record| record[0] == RUNNING;
        let (first, after) = self.records.split_at(last + 1);
        let next = after.iter().position(runs).map(|place| last + 1 + place);
        next.or_else(|| first.iter().position(runs))
    }

    pub fn turn(&mut self, number: usize) -> Result<Event, Refusal> {
        match self.records[number][0] {
            WAITING => return Ok(Event::Waiting),
            ENDED => return Ok(Event::Ended),
            _ => (),
        }
        let top = top(&self.processes[number]);
        let node = self.table.node(top);
        match node.kind() {
            23..=25 => return Ok(self.arrive(number, top, node)),
            26 => self.leave(number, top),
            _ if !self.perform(number, node) => return refused(24, number),
            _ => (),
        }
        if self.processes[number][DEPTH_AT] > 0 {
            return Ok(Event::Moved);
        }
        self.records[number] = [ENDED, 0, 0, 0];
        Ok(Event::Finished)
    }

    /// Question 23 has found the while.
    fn leave(&mut self, number: usize, top: usize) {
        let left = self.table.while_around(top);
        let words = &mut self.processes[number];
        let (depth, stack) = words[DEPTH_AT..].split_first_mut().expect("a stack");
        let entries = &mut stack[..*depth as usize];
        let is_left = |&entry: &u32| Some(entry as usize) == left;
        let kept = entries.iter().rposition(is_left).unwrap_or(0);
        entries[kept..].fill(0);
        *depth = kept as u32;
    }

    /// A statement that is no collective or leave; false if there is no place on the stack.
    fn perform(&mut self, number: usize, node: Node) -> bool {
        let (kind, a, b, c) = (node.kind(), node.a(), node.b(), node.c());
        let value = |part| self.value(number, part);
        let place = match kind {
            17 => Some((a, value(b))),
            22 => Some((value(a) as usize, value(b))).filter(|&(latch, _)| latch < LATCHES),
            _ => None,
        };
        let holds = matches!(kind, 19 | 20) && value(a) != 0;
        let body = if kind == 21 { self.table.body(a) } else { 0 };
        let words = &mut self.processes[number];
        if words[DEPTH_AT] as usize == STACK && (kind == 18 || kind == 20 && holds) {
            return false;
        }
        match kind {
            18 => {
                replace(words, b);
                push(words, a);
            }
            19 => replace(words, if holds { b } else { c }),
            20 if holds => push(words, b),
            21 => replace(words, body),
            _ => pop(words),
        }
        if let Some((index, value)) = place {
            let begin = if kind == 17 { 0 } else { LATCHES_AT };
            words[begin + index] = value;
        }
        true
    }

    fn arrive(&mut self, number: usize, top: usize, node: Node) -> Event {
        let (value, source) = match node.kind() {
            24 => (self.value(number, node.b()), self.value(number, node.c())),
            25 => (self.value(number, node.a()), 0),
            _ => (0, 0),
        };
        self.records[number] = [WAITING, top as u32, value, source];
        if self.common_node().is_none() {
            return Event::Arrived(top as u32);
        }
        self.complete(node);
        Event::Completed(top as u32)
    }

    fn complete(&mut self, node: Node) {
        for (words, record) in self.processes.iter_mut().zip(&*self.records) {
            match node.kind() {
                24 => {
                    let sender = self.records.get(record[3] as usize);
                    words[node.a()] = sender.map_or(0, |sender| sender[2]);
                }
                25 => {
                    let slots = &mut words[area_at(node)..];
                    let values = self.records.iter().map(|record| record[2]);
                    slots
                        .iter_mut()
                        .zip(values)
                        .for_each(|(slot, value)| *slot = value);
                }
                _ => (),
            }
            pop(words);
        }
        for (words, record) in self.processes.iter().zip(&mut *self.records) {
            let status = if words[DEPTH_AT] == 0 { ENDED } else { RUNNING };
            *record = [status, 0, 0, 0];
        }
    }

    fn status(&self) -> TeamStatus {
        let mut all_ended = true;
        for record in &*self.records {
            match record[0] {
                RUNNING => return TeamStatus::Going,
                status => all_ended &= status == ENDED,
            }
        }
        if all_ended {
            TeamStatus::Done
        } else {
            TeamStatus::Deadlocked
        }
    }

    fn value(&self, number: usize, node: usize) -> u32 {
        let words = &self.processes[number];
        let node = self.table.node(node);
        match node.kind() {
            0 => return node.constant(),
            1 => return words[node.a()],
            2 => return number as u32,
            3 => return self.records.len() as u32,
            _ => (),
        }
        let left = self.value(number, node.a());
        let looked_up = |begin, count| match (left as usize) < count {
            true => words[begin + left as usize],
            false => 0,
        };
        match node.kind() {
            4 => return looked_up(DOORS_AT, DOORS),
            5 => return looked_up(area_at(node), self.records.len()),
            _ => (),
        }
        operate(node.kind(), left, self.value(number, node.b()))
    }
}

/// Kinds 6 to 12, of the values of their parts.
#[inline(always)]
pub fn operate(kind: u32, left: u32, right: u32) -> u32 {
    match kind {
        6 => left.wrapping_add(right),
        7 => left.wrapping_sub(right),
        8 => left.wrapping_mul(right),
        9 => left.checked_div(right).unwrap_or(0),
        10 => (left < right) as u32,
        11 => (left == right) as u32,
        _ => (left != 0 && right != 0) as u32,
    }
}

/// Where the area that the node names begins.
fn area_at(node: Node) -> usize {
    GATHERED_AT + AREA_SLOTS * node.b()
}

fn top(words: &Words) -> usize {
    words[STACK_AT + words[DEPTH_AT] as usize - 1] as usize
}

fn push(words: &mut Words, node: usize) {
    words[STACK_AT + words[DEPTH_AT] as usize] = node as u32;
    words[DEPTH_AT] += 1;
}

fn pop(words: &mut Words) {
    words[DEPTH_AT] -= 1;
    words[STACK_AT + words[DEPTH_AT] as usize] = 0;
}

fn replace(words: &mut Words, node: usize) {
    words[STACK_AT + words[DEPTH_AT] as usize - 1] = node as u32;
}
