//! Questions 13 to 17 where an if's condition is fixed: what stands in the branch that is never taken
//! does not count. Only a table that they refuse if all nodes count comes here.

use super::leaves::{is_left_locally, pass_on};
use super::machine::operate;
use super::planes::{Plane, Planes, Scratch};
use super::refusal::Fault;
use super::table::{has_effect, is_statement, Node, Table};
use finchchaise::{Refusal, SCRATCH_WORDS};

/// The least of 13 to 17 of the nodes that count, or the refusal of before if all do. The planes are
/// as the pass over all nodes left them.
#[cold]
#[inline(never)]
pub fn judge_live(table: &Table, words: &mut Scratch, refusal: Refusal) -> Result<(), Refusal> {
    let mut judge = Judge {
        table,
        planes: Planes::of(words),
        rule: Fault::NONE,
    };
    if !judge.set_aside() {
        return Err(refusal);
    }
    judge.planes.take_all(Plane::Fact, Plane::Dead);
    // Every node was used; the bit now serves the leaves alone.
    judge.planes.clear_plane(Plane::Used);
    judge.read();
    judge.rule.answer()
}

struct Judge<'table> {
    table: &'table Table<'table>,
    planes: Planes<'table, SCRATCH_WORDS>,
    /// The least of 13 to 17 so far.
    rule: Fault,
}

impl Judge<'_> {
    /// Finds the statements that do not count, from the highest node down, and whether there are
    /// any.
    fn set_aside(&mut self) -> bool {
        let mut any = false;
        let nodes = self.table.nodes.iter().enumerate().rev();
        for (number, word) in nodes.filter(|(_, word)| matches!(word[0] >> 3, 18..=20)) {
            let node = Node::of(*word);
            let (a, b, c) = (node.a(), node.b(), node.c());
            match (node.kind(), self.planes.has(Plane::Dead, number)) {
                (18, true) => self.put_dead([a, b]),
                (19, true) => self.put_dead([b, c]),
                (20, true) => self.put_dead([b]),
                (19, false) => {
                    let never = self.fixed(a).map(|value| if value == 0 { b } else { c });
                    any |= never.is_some();
                    self.put_dead(never);
                }
                _ => (),
            }
        }
        any
    }

    fn put_dead(&mut self, parts: impl IntoIterator<Item = usize>) {
        for part in parts {
            self.planes.put(Plane::Dead, part);
        }
    }

    /// An expression's value, if it is fixed.
    fn fixed(&self, expression: usize) -> Option<u32> {
        let node = self.table.node(expression);
        match node.kind() {
            0 => Some(node.constant()),
            kind @ 6..=12 => {
                let left = self.fixed(node.a())?;
                Some(operate(kind, left, self.fixed(node.b())?))
            }
            _ => None,
        }
    }

    /// The nodes that count, then the bodies. What was found of expressions stands.
    fn read(&mut self) {
        for (number, word) in self.table.nodes.iter().enumerate() {
            if is_statement(word) && !self.planes.has(Plane::Dead, number) {
                self.read_statement(number, Node::of(*word));
            }
        }
        for (procedure, word) in self.table.procedures.iter().enumerate() {
            if self.has_fact(word[0] as usize) && !has_effect(word) {
                self.rule = self.rule.or(17, procedure);
            }
        }
    }

    fn read_statement(&mut self, number: usize, node: Node) {
        let (a, b, c) = (node.a(), node.b(), node.c());
        match node.kind() {
            17 => self.ask(13, number, self.has_fact(b)),
            18 => self.contain(number, [a, b], false),
            19 => {
                let local = self.has_fact(a);
                self.contain(number, [b, c], local);
                self.ask(15, number, local);
            }
            20 => {
                let local = self.has_fact(a) | is_left_locally(&mut self.planes, b);
                self.keep_effect(number, [b]);
                self.ask(16, number, local);
            }
            24 => self.ask(14, number, self.has_fact(c)),
            26 => self.planes.put(Plane::Leaves, number),
            _ => (),
        }
    }

    fn has_fact(&self, node: usize) -> bool {
        self.planes.has(Plane::Fact, node)
    }

    fn ask(&mut self, question: u32, statement: usize, local: bool) {
        if local && self.has_fact(statement) {
            self.rule = self.rule.or(question, statement);
        }
    }

    /// The effects and leaves of a statement are those of its parts.
    #[inline(always)]
    fn contain(&mut self, statement: usize, parts: [usize; 2], local: bool) {
        pass_on(&mut self.planes, statement, parts, local);
        self.keep_effect(statement, parts);
    }

    /// It had one before if a part has one now.
    fn keep_effect<const COUNT: usize>(&mut self, statement: usize, parts: [usize; COUNT]) {
        if !parts.into_iter().any(|part| self.has_fact(part)) {
            self.planes.take(Plane::Fact, statement);
        }
    }
}
