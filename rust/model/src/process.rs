//! One process (the paper's bank): its words, its stack and the work of a statement.

use crate::table::{Kind, Table};

const VARIABLES: usize = 32;
/// The gathered areas (the paper's rosters), and the slots of each.
pub const AREAS: usize = 4;
const SLOTS: usize = 16;
pub const DOORS: usize = 12;
const LATCHES: usize = 12;
const STACK: usize = 256;
const LATCHES_BEGIN: usize = VARIABLES + AREAS * SLOTS + DOORS;
const LATCHES_END: usize = LATCHES_BEGIN + LATCHES;
pub const PROCESS_WORDS: usize = LATCHES_END + 1 + STACK;

pub struct Process {
    pub number: u32,
    pub count: u32,
    pub variables: [u32; VARIABLES],
    /// The areas, one after another.
    pub gathered: [[u32; SLOTS]; AREAS],
    pub doors: [u32; DOORS],
    pub latches: [u32; LATCHES],
    pub depth: u32,
    /// Statement nodes, first entry lowest; places above the depth keep their words.
    pub stack: [u32; STACK],
}

impl Process {
    pub fn blank(number: usize, count: usize) -> Process {
        Process {
            number: number as u32,
            count: count as u32,
            variables: [0; VARIABLES],
            gathered: [[0; SLOTS]; AREAS],
            doors: [0; DOORS],
            latches: [0; LATCHES],
            depth: 0,
            stack: [0; STACK],
        }
    }

    /// The lent words in their order.
    fn words(&mut self) -> impl Iterator<Item = &mut u32> {
        self.variables
            .iter_mut()
            .chain(self.gathered.as_flattened_mut())
            .chain(&mut self.doors)
            .chain(&mut self.latches)
            .chain([&mut self.depth])
            .chain(&mut self.stack)
    }

    pub fn read(number: usize, count: usize, lent: &[u32]) -> Process {
        let mut process = Process::blank(number, count);
        for (word, lent) in process.words().zip(lent) {
            *word = *lent;
        }
        process
    }

    pub fn write(mut self, lent: &mut [u32]) {
        for (word, lent) in self.words().zip(lent) {
            *lent = *word;
        }
    }

    pub fn top(&self) -> Option<usize> {
        let place = (self.depth as usize).checked_sub(1)?;
        Some(*self.stack.get(place)? as usize)
    }

    pub fn is_full(&self) -> bool {
        self.depth as usize >= self.stack.len()
    }

    pub fn push(&mut self, node: usize) {
        self.stack[self.depth as usize] = node as u32;
        self.depth += 1;
    }

    pub fn pop(&mut self) {
        self.depth -= 1;
        self.stack[self.depth as usize] = 0;
    }

    fn replace(&mut self, node: usize) {
        self.pop();
        self.push(node);
    }

    /// The step of a statement that is no collective.
    pub fn perform(&mut self, table: &Table, top: usize) {
        let [a, b, c] = table.nodes[top].fields;
        match table.nodes[top].kind {
            Kind::Sequence => {
                self.replace(b);
                self.push(a);
            }
            Kind::If if self.value(table, a) != 0 => self.replace(b),
            Kind::If => self.replace(c),
            Kind::While if self.value(table, a) != 0 => self.push(b),
            Kind::Call => self.replace(table.procedures[a].body),
            Kind::Assign => {
                self.variables[a] = self.value(table, b);
                self.pop();
            }
            Kind::Latch => {
                self.set_latch(self.value(table, a), self.value(table, b));
                self.pop();
            }
            Kind::Leave => self.leave(table, top),
            _ => self.pop(),
        }
    }

    /// "The stack is popped down to and including the highest entry of that
    /// while"; by question 23 there is one.
    fn leave(&mut self, table: &Table, top: usize) {
        let left = table.while_left(top);
        let entries = &self.stack[..self.depth as usize];
        let highest = entries
            .iter()
            .rposition(|&entry| Some(entry as usize) == left);
        let kept = highest.unwrap_or(0) as u32;
        while self.depth > kept {
            self.pop();
        }
    }

    fn set_latch(&mut self, latch: u32, value: u32) {
        if let Some(word) = self.latches.get_mut(latch as usize) {
            *word = value;
        }
    }

    /// Whether the step needs a free stack place (question 24).
    pub fn grows(&self, table: &Table, top: usize) -> bool {
        let [condition, _, _] = table.nodes[top].fields;
        match table.nodes[top].kind {
            Kind::Sequence => true,
            Kind::While => self.value(table, condition) != 0,
            _ => false,
        }
    }
}

/// A process's latches in the lent state; empty for a process the state lacks
/// and for a state that is no whole number of processes.
pub fn latches(state: &[u32], process: usize) -> &[u32] {
    if !state.len().is_multiple_of(PROCESS_WORDS) {
        return &[];
    }
    state
        .chunks_exact(PROCESS_WORDS)
        .nth(process)
        .map_or(&[], |words| &words[LATCHES_BEGIN..LATCHES_END])
}
