//! States and rolls that no start led to: most of them sound, others not.

use crate::random::Random;
use crate::shape::{BROADCAST, EXCHANGE, FIRST_COLLECTIVE, FIRST_STATEMENT};
use crate::shape::{LAST_COLLECTIVE, LAST_EXPRESSION, LAST_STATEMENT, LEAVE, WHILE};
use crate::tree::leaves;
use finchchaise::{DEPTH_AT, MOST_PROCESSES, PROCESS_WORDS, ROLL_WORDS, STACK, STACK_AT};
use finchchaise_samples::Builder;

const FULL: u32 = STACK as u32;

/// How the processes stand to each other.
#[derive(Clone, Copy, Debug, PartialEq)]
pub enum Plan {
    /// Each as it comes.
    Apart,
    /// All but the one asked for wait at the node that it is about to reach.
    LastMissing,
    /// All wait at one node, which no step leads to.
    AllThere,
    /// None runs.
    NoneRuns,
    /// The one asked for is about to leave a loop; the others are as they come.
    Leaving,
}

pub struct MadeUp {
    pub state: Vec<u32>,
    pub roll: Vec<u32>,
    /// The process to step.
    pub asked: u32,
    pub plan: Plan,
    /// The lowest process with a leave on top and its while not below.
    pub lost: Option<u32>,
    /// Whether words were changed that do not fit then.
    pub damaged: bool,
}

impl MadeUp {
    /// For a table that passes questions 2 to 12.
    pub fn new(table: &Builder, random: &mut Random) -> MadeUp {
        let count = random.pick(&[1, 1, 2, 2, 2, 3, 3, 4, 5, 8, MOST_PROCESSES]);
        let nodes = Nodes::of(table);
        let mut made_up = MadeUp {
            state: random.words(count * PROCESS_WORDS),
            roll: vec![0; count * ROLL_WORDS],
            asked: random.below(count) as u32,
            plan: nodes.plan(random),
            lost: None,
            damaged: random.one_in(3),
        };
        made_up.place(&nodes, random);
        if made_up.damaged {
            made_up.damage(&nodes, random);
        }
        if random.one_in(20) {
            made_up.asked = random.pick(&[count as u32, 16, 255, PROCESS_WORDS as u32, u32::MAX]);
        }
        made_up
    }

    /// The process after which the one asked for is served; itself if it is not there.
    pub fn before_asked(&self) -> u32 {
        let count = (self.roll.len() / ROLL_WORDS) as u32;
        match self.asked {
            0 if count > 0 => count - 1,
            asked if asked < count => asked - 1,
            asked => asked,
        }
    }

    fn place(&mut self, nodes: &Nodes, random: &mut Random) {
        let meeting = match nodes.collectives.is_empty() {
            true => 0,
            false => random.pick(&nodes.collectives),
        };
        for process in 0..self.roll.len() / ROLL_WORDS {
            let asked = process == self.asked as usize;
            self.fill_stack(process, nodes, random);
            match self.plan {
                Plan::Leaving if asked => self.leave(process, random.pick(&nodes.leaves), random),
                Plan::LastMissing if asked => self.put_top(process, meeting),
                Plan::LastMissing | Plan::AllThere => self.wait(process, meeting, nodes, random),
                Plan::NoneRuns if random.one_in(3) => self.end(process),
                Plan::NoneRuns => self.wait_anywhere(process, nodes, random),
                Plan::Apart | Plan::Leaving => self.stand(process, nodes, random),
            }
        }
        if random.one_in(2) {
            self.trap(nodes, random);
        }
    }

    /// What only a later turn comes upon, in a process that is not about to leave: a leave below
    /// the top, without its while, or a full stack with a while on it.
    fn trap(&mut self, nodes: &Nodes, random: &mut Random) {
        let process = random.below(self.roll.len() / ROLL_WORDS);
        let ended = self.words(process)[DEPTH_AT] == 0;
        if ended || nodes.kinds[*self.top(process) as usize] == LEAVE {
            return;
        }
        let runs_later = self.record(process)[0] == 0 && process != self.asked as usize;
        if !nodes.leaves.is_empty() && random.one_in(2) {
            self.bury(process, random.pick(&nodes.leaves));
        } else if !nodes.whiles.is_empty() && runs_later {
            self.fill(process, STACK, nodes, random);
            self.put_top(process, random.pick(&nodes.whiles));
        }
    }

    /// Ended, waiting or running; a running process may have a leave on top.
    fn stand(&mut self, process: usize, nodes: &Nodes, random: &mut Random) {
        let top = *self.top(process);
        let leave = nodes.leaves.iter().find(|(leave, _)| *leave == top);
        match leave {
            _ if random.one_in(6) => self.end(process),
            _ if random.one_in(3) => self.wait_anywhere(process, nodes, random),
            Some(&leave) => self.leave(process, leave, random),
            None => (),
        }
    }

    fn fill_stack(&mut self, process: usize, nodes: &Nodes, random: &mut Random) {
        let depth = random.pick(&[1, 1, 1, 2, 2, 3, 17, STACK - 1, STACK, STACK, STACK]);
        self.fill(process, depth, nodes, random);
    }

    /// Words above the depth stay random: they are not to be looked at.
    fn fill(&mut self, process: usize, depth: usize, nodes: &Nodes, random: &mut Random) {
        let words = self.words(process);
        words[DEPTH_AT] = depth as u32;
        for entry in &mut words[STACK_AT..STACK_AT + depth] {
            *entry = random.pick(&nodes.statements);
        }
    }

    /// A leave on top; mostly with its while below.
    fn leave(&mut self, process: usize, (leave, left): (u32, u32), random: &mut Random) {
        self.put_top(process, leave);
        match self.lost.is_none() && random.one_in(4) {
            true => self.lose_while(process, left),
            false => self.put_while(process, left, random),
        }
    }

    /// The while stands at some heights below the leave.
    fn put_while(&mut self, process: usize, left: u32, random: &mut Random) {
        let leave = *self.top(process);
        let words = self.words(process);
        let depth = words[DEPTH_AT].max(2) as usize;
        words[DEPTH_AT] = depth as u32;
        words[STACK_AT + depth - 1] = leave;
        for _ in 0..random.pick(&[1, 1, 2, 4]) {
            words[STACK_AT + random.below(depth - 1)] = left;
        }
    }

    /// The while stands nowhere but above the stack, where it is no entry.
    fn lose_while(&mut self, process: usize, left: u32) {
        self.lost = Some(process as u32);
        let leave = *self.top(process);
        let words = self.words(process);
        let depth = words[DEPTH_AT] as usize;
        let (entries, above) = words[STACK_AT..].split_at_mut(depth);
        replace(entries, left, leave);
        above.iter_mut().take(1).for_each(|place| *place = left);
    }

    /// The leave stands right below the top, its while nowhere below that.
    fn bury(&mut self, process: usize, (leave, left): (u32, u32)) {
        let top = *self.top(process);
        let words = self.words(process);
        let depth = words[DEPTH_AT].max(2) as usize;
        words[DEPTH_AT] = depth as u32;
        let entries = &mut words[STACK_AT..STACK_AT + depth];
        replace(entries, left, leave);
        entries[depth - 2..].copy_from_slice(&[leave, top]);
    }

    fn end(&mut self, process: usize) {
        self.words(process)[DEPTH_AT] = 0;
        self.record(process)[0] = 2;
    }

    fn wait_anywhere(&mut self, process: usize, nodes: &Nodes, random: &mut Random) {
        match nodes.collectives.is_empty() {
            true => self.end(process),
            false => self.wait(process, random.pick(&nodes.collectives), nodes, random),
        }
    }

    fn wait(&mut self, process: usize, node: u32, nodes: &Nodes, random: &mut Random) {
        self.put_top(process, node);
        let (value, source) = match nodes.kinds[node as usize] {
            BROADCAST => (random.word(), self.source(random)),
            EXCHANGE => (random.word(), 0),
            _ => (0, 0),
        };
        self.record(process)
            .copy_from_slice(&[1, node, value, source]);
    }

    /// Often of the first process that is not there.
    fn source(&self, random: &mut Random) -> u32 {
        match random.one_in(4) {
            true => (self.roll.len() / ROLL_WORDS) as u32,
            false => random.word(),
        }
    }

    fn put_top(&mut self, process: usize, node: u32) {
        *self.top(process) = node;
    }

    fn top(&mut self, process: usize) -> &mut u32 {
        let words = self.words(process);
        &mut words[STACK_AT + words[DEPTH_AT] as usize - 1]
    }

    fn words(&mut self, process: usize) -> &mut [u32] {
        &mut self.state[process * PROCESS_WORDS..][..PROCESS_WORDS]
    }

    fn record(&mut self, process: usize) -> &mut [u32] {
        &mut self.roll[process * ROLL_WORDS..][..ROLL_WORDS]
    }

    /// One word that may not fit, or a length.
    fn damage(&mut self, nodes: &Nodes, random: &mut Random) {
        let process = random.below(self.roll.len() / ROLL_WORDS);
        let words = self.words(process);
        let depth = words[DEPTH_AT] as usize;
        let other = nodes.no_statement(random);
        match random.below(10) {
            0 => words[DEPTH_AT] = random.pick(&[0, 1, 2, FULL, FULL + 1, FULL + 2, 512, u32::MAX]),
            1 => words[STACK_AT + random.below(STACK)] = other,
            2 if depth > 0 => words[STACK_AT] = other,
            3 if depth > 0 => words[STACK_AT + depth - 1] = other,
            4 => self.record(process)[0] = random.pick(&[0, 1, 2, 3, 4, 256, u32::MAX]),
            5 => self.record(process)[1] ^= 1 << random.pick(&[0, 0, 1, 4, 8, 31]),
            6 => self.record(process)[2] = random.word(),
            7 => self.record(process)[3] = random.word(),
            8 => change_length(
                &mut self.state,
                &[1, PROCESS_WORDS - 1, PROCESS_WORDS],
                random,
            ),
            _ => change_length(&mut self.roll, &[1, 2, 3, 4, 64], random),
        }
    }
}

fn replace(entries: &mut [u32], old: u32, new: u32) {
    for entry in entries.iter_mut().filter(|entry| **entry == old) {
        *entry = new;
    }
}

fn change_length(words: &mut Vec<u32>, changes: &[usize], random: &mut Random) {
    let change = random.pick(changes);
    match random.one_in(2) {
        true => words.truncate(words.len().saturating_sub(change)),
        false => words.extend(random.words(change)),
    }
}

/// A table's nodes by what they are.
struct Nodes {
    kinds: Vec<u32>,
    statements: Vec<u32>,
    collectives: Vec<u32>,
    expressions: Vec<u32>,
    whiles: Vec<u32>,
    /// With the while that each ends.
    leaves: Vec<(u32, u32)>,
}

impl Nodes {
    fn of(table: &Builder) -> Nodes {
        let kinds: Vec<u32> = table.nodes.iter().map(|node| node[0]).collect();
        let of = |least, most| {
            let wanted = |&node: &u32| (least..=most).contains(&kinds[node as usize]);
            (0..kinds.len() as u32).filter(wanted).collect()
        };
        Nodes {
            statements: of(FIRST_STATEMENT, LAST_STATEMENT),
            collectives: of(FIRST_COLLECTIVE, LAST_COLLECTIVE),
            expressions: of(0, LAST_EXPRESSION),
            whiles: of(WHILE, WHILE),
            leaves: leaves(&table.nodes),
            kinds,
        }
    }

    /// A plan for which the table has the nodes.
    fn plan(&self, random: &mut Random) -> Plan {
        if !self.leaves.is_empty() && random.one_in(3) {
            return Plan::Leaving;
        }
        match self.collectives.is_empty() {
            true => Plan::Apart,
            false => random.pick(&[
                Plan::Apart,
                Plan::Apart,
                Plan::LastMissing,
                Plan::LastMissing,
                Plan::AllThere,
                Plan::NoneRuns,
            ]),
        }
    }

    /// A stack entry that is no statement.
    fn no_statement(&self, random: &mut Random) -> u32 {
        let beyond = self.kinds.len() as u32 + random.edge();
        let mut others = vec![beyond, 256, 511, u32::MAX];
        others.extend(&self.expressions);
        random.pick(&others)
    }
}
