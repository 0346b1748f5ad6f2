//! Single values, global effects and questions 1 and 13 to 17: the checker.

use crate::refusal::{ask_each, Refusal};
use crate::table::{Kind, Table};

pub const SCRATCH_WORDS: usize = 32;

/// The checker: questions 1 to 12, 26 and 13 to 17. The judgements need no scratch here, so its
/// first words are only set to 0 as promised.
pub fn check(table: &[u8], scratch: &mut [u32]) -> Result<(), Refusal> {
    scratch
        .get_mut(..SCRATCH_WORDS)
        .ok_or(Refusal {
            number: 1,
            place: 0,
        })?
        .fill(0);
    let table = Table::read(table)?;
    table.ask_live(13, |node| table.assignment_fits(node))?;
    table.ask_live(14, |node| table.source_is_single(node))?;
    table.ask_live(15, |node| table.if_is_uniform(node))?;
    table.ask_live(16, |node| table.while_is_uniform(node))?;
    let procedures = table.procedures.len();
    ask_each(17, procedures, |number| table.effect_is_flagged(number))
}

impl Table {
    /// A question that is put to the nodes in no dead branch. Most nodes pass anyway, so where a
    /// node stands is looked at last.
    fn ask_live(&self, number: u32, passes: impl Fn(usize) -> bool) -> Result<(), Refusal> {
        let nodes = self.nodes.len();
        ask_each(number, nodes, |node| passes(node) || !self.is_live(node))
    }

    /// Whether an expression has the same value in every process. A fixed one has, so it "passes
    /// wherever single does".
    fn is_single(&self, node: usize) -> bool {
        let [a, b, _] = self.nodes[node].fields;
        match self.nodes[node].kind {
            Kind::Constant | Kind::Count => true,
            Kind::Variable => self.is_flagged(a),
            Kind::OwnNumber | Kind::Door => false,
            Kind::Gathered => self.is_single(a),
            _ => self.is_single(a) && self.is_single(b),
        }
    }

    /// A call's effect is what the flag says, whatever the body does. Dead branches are not
    /// "counted for effects".
    fn has_effect(&self, node: usize) -> bool {
        let [a, b, _] = self.nodes[node].fields;
        match self.nodes[node].kind {
            Kind::Barrier | Kind::Broadcast | Kind::Exchange => true,
            Kind::Assign => self.is_flagged(a),
            Kind::Call => self.procedures[a].effect,
            Kind::Sequence => self.has_effect(a) || self.has_effect(b),
            Kind::If => {
                let branches = self.counted_branches(node);
                branches.into_iter().any(|branch| self.has_effect(branch))
            }
            Kind::While => self.has_effect(b),
            _ => false,
        }
    }

    /// Question 13.
    fn assignment_fits(&self, node: usize) -> bool {
        let [a, b, _] = self.nodes[node].fields;
        self.nodes[node].kind != Kind::Assign || !self.is_flagged(a) || self.is_single(b)
    }

    /// Question 14.
    fn source_is_single(&self, node: usize) -> bool {
        let [_, _, c] = self.nodes[node].fields;
        self.nodes[node].kind != Kind::Broadcast || self.is_single(c)
    }

    /// Question 15.
    fn if_is_uniform(&self, node: usize) -> bool {
        let [a, b, c] = self.nodes[node].fields;
        let quiet = |branch| !self.has_effect(branch);
        self.nodes[node].kind != Kind::If || self.is_single(a) || (quiet(b) && quiet(c))
    }

    /// Question 16. A while that is left locally counts as having an own condition.
    fn while_is_uniform(&self, node: usize) -> bool {
        let [a, b, _] = self.nodes[node].fields;
        let uniform = || self.is_single(a) && !self.is_left_locally(node);
        self.nodes[node].kind != Kind::While || uniform() || !self.has_effect(b)
    }

    /// Whether "a leave stands within the while's body, not in an inner while,
    /// and under an if whose condition is not single". A leave in a dead branch
    /// is not "counted .. for U1's own conditions".
    fn is_left_locally(&self, node: usize) -> bool {
        (0..self.nodes.len())
            .filter(|&leave| self.while_left(leave) == Some(node))
            .filter(|&leave| self.is_live(leave))
            .any(|leave| self.stands_under_local_if(leave, node))
    }

    /// Looks at every if on the way up from the leave to its while.
    fn stands_under_local_if(&self, leave: usize, loop_left: usize) -> bool {
        self.around(leave)
            .take_while(|&node| node != loop_left)
            .filter(|&node| self.nodes[node].kind == Kind::If)
            .any(|node| !self.is_single(self.nodes[node].fields[0]))
    }

    /// Question 17.
    fn effect_is_flagged(&self, number: usize) -> bool {
        let procedure = &self.procedures[number];
        procedure.effect || !self.has_effect(procedure.body)
    }
}
