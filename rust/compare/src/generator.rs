//! Random tables that pass questions 2 to 12, and that the checker often accepts.

use crate::fixed::{fixed, ruled};
use crate::order::renumber_behind;
use crate::random::Random;
use crate::shape::{EXCHANGE, IF, LEAVE, NOTHING, OWN};
use finchchaise::GATHERED_AREAS;
use finchchaise_samples::Builder;

pub const MOST_NODES: usize = 256;
pub const MOST_PROCEDURES: usize = 16;
/// Tables are given at most one of these numbers of nodes.
pub const SIZES: [usize; 10] = [1, 3, 8, 16, 16, 32, 32, 64, 128, MOST_NODES];
/// And one of these numbers of variables.
pub const VARIABLES: [u32; 8] = [1, 2, 3, 4, 4, 8, 31, 32];
/// With this many nodes a statement is always made of others, so that large tables become large.
const LARGE: usize = 14;
/// A while that counts a variable up, without its body.
const COUNTED_LOOP: usize = 9;

/// A table that keeps the rules about single values and leaves, if `careful`, and breaks some of
/// them otherwise.
pub fn table(random: &mut Random, careful: bool) -> Builder {
    drafted(random, careful, false)
}

/// The same with many switches: ifs with fixed conditions. What stands in their dead branches
/// breaks the rules either way.
pub fn switched_table(random: &mut Random, careful: bool) -> Builder {
    drafted(random, careful, true)
}

fn drafted(random: &mut Random, careful: bool, switched: bool) -> Builder {
    let size = random.pick(&SIZES);
    let variables = random.pick(&VARIABLES);
    let flags = random.number();
    let single: Vec<u32> = (0..variables).filter(|a| flags >> a & 1 == 1).collect();
    let begun = Builder::new(variables, &single);
    completed(begun, size, careful, switched, random)
}

/// A table of at most so many nodes that begins with what is there: procedures whose bodies are
/// single nodes without an effect.
pub(crate) fn completed(
    begun: Builder,
    size: usize,
    careful: bool,
    switched: bool,
    random: &mut Random,
) -> Builder {
    let first = begun.nodes.len();
    let strays = !careful && random.one_in(10);
    let areas = [(); 2].map(|()| random.below(GATHERED_AREAS) as u32);
    let mut draft = Draft {
        random,
        table: begun,
        effects: vec![false; first],
        areas,
        careful,
        strays,
        switched,
        dead: false,
    };
    draft.procedures(size);
    let Draft { random, table, .. } = draft;
    if random.one_in(2) {
        renumber_behind(first, &table, random)
    } else {
        table
    }
}

pub(crate) struct Draft<'random> {
    pub random: &'random mut Random,
    pub table: Builder,
    /// Whether each node is a statement with a global effect.
    effects: Vec<bool>,
    /// The gathered areas that most nodes name, so that those read are often filled before.
    areas: [u32; 2],
    careful: bool,
    /// Whether leaves stand anywhere, also without a while around them.
    strays: bool,
    /// Whether there are many switches.
    switched: bool,
    /// Whether the nodes to come stand in a dead branch.
    dead: bool,
}

/// What a statement may hold where it stands, if the rules are kept.
#[derive(Clone, Copy)]
struct Place {
    /// No global effect.
    quiet: bool,
    /// A leave.
    leave: bool,
    /// A leave in a dead branch: some while stands around.
    dead_leave: bool,
}

impl Place {
    /// The body of a while.
    fn in_loop(quiet: bool) -> Place {
        Place {
            quiet,
            leave: true,
            dead_leave: true,
        }
    }
}

impl Draft<'_> {
    fn procedures(&mut self, size: usize) {
        let left = size - self.table.nodes.len();
        let most = left.min(MOST_PROCEDURES - self.table.procedures.len());
        let count = match self.random.below(4) {
            0 => 1,
            1 => self.random.from(1, most),
            _ => self.random.from(1, 4.min(most)),
        };
        for after in (0..count).rev() {
            let left = size - self.table.nodes.len();
            let share = match after {
                0 => left,
                _ => self
                    .random
                    .from(1, (2 * left / (after + 1)).min(left - after)),
            };
            let place = Place {
                quiet: after > 0 && self.random.one_in(3),
                leave: false,
                dead_leave: false,
            };
            let mut body = self.statement(share, place);
            if after == 0 && self.random.one_in(2) {
                body = self.filled(size, body);
            }
            let effect = self.effects[body as usize] && !self.slips();
            let effect = effect || self.random.one_in(12);
            self.table.procedure(body, effect);
        }
    }

    /// The body behind more statements, so that the table has as many nodes as it may.
    fn filled(&mut self, size: usize, mut body: u32) -> u32 {
        while size - self.table.nodes.len() > 1 {
            let first = if (size - self.table.nodes.len()).is_multiple_of(2) {
                self.add(16, [0, 0, 0], false)
            } else {
                self.exchange(2)
            };
            body = self.sequence_of(first, body);
        }
        body
    }

    pub fn add(&mut self, kind: u32, [a, b, c]: [u32; 3], effect: bool) -> u32 {
        self.effects.push(effect);
        self.table.node(kind, a, b, c)
    }

    /// Whether a rule about single values is broken here.
    pub fn slips(&mut self) -> bool {
        match self.dead {
            true => self.random.one_in(2),
            false => !self.careful && self.random.one_in(8),
        }
    }

    pub fn is_single(&self, variable: u32) -> bool {
        self.table.single.contains(&variable)
    }

    /// A variable that is single or not, if there is one.
    pub fn variable(&mut self, single: bool) -> Option<u32> {
        let first = self.random.below(self.table.variables as usize) as u32;
        (0..self.table.variables)
            .map(|step| (first + step) % self.table.variables)
            .find(|&variable| self.is_single(variable) == single)
    }

    pub fn area(&mut self) -> u32 {
        match self.random.one_in(8) {
            true => self.random.below(GATHERED_AREAS) as u32,
            false => self.random.pick(&self.areas),
        }
    }

    /// What is left after one node, in two parts that are not 0. Often nearly all goes to the first,
    /// so that some trees are deep.
    pub fn split(&mut self, budget: usize) -> (usize, usize) {
        let first = match self.random.one_in(3) {
            true => budget - 2,
            false => self.random.from(1, budget - 2),
        };
        (first, budget - 1 - first)
    }
}

/// Statements: each takes at most `budget` nodes, and has no global effect if its place is quiet.
impl Draft<'_> {
    fn statement(&mut self, budget: usize, place: Place) -> u32 {
        let quiet = place.quiet && !self.slips();
        let place = Place { quiet, ..place };
        if self.switched && budget >= 4 && self.random.one_in(4) {
            return self.switch(budget, place);
        }
        let choices = if budget < LARGE { 16 } else { 8 };
        match self.random.below(choices) {
            0..=3 if budget >= 3 => self.sequence(budget, place),
            4 | 5 if budget >= 4 => self.choose(budget, place),
            6 if budget > COUNTED_LOOP => self.counted_loop(budget, place),
            7 if budget >= 3 && self.random.one_in(5) => self.repeat(budget, quiet),
            7 if budget >= 3 => self.sequence(budget, place),
            8 | 9 if budget >= 3 => self.latch(budget),
            10 | 11 if budget >= 3 && !quiet => self.broadcast(budget),
            12 if budget >= 2 && !quiet => self.exchange(budget),
            13 | 14 if budget >= 2 => self.assign(budget, place),
            _ => self.short(place),
        }
    }

    fn short(&mut self, place: Place) -> u32 {
        let Place { quiet, .. } = place;
        if self.leaves(place, 6) {
            return self.leave();
        }
        let called = self.random.below(self.table.procedures.len() + 1);
        match self.table.procedures.get(called) {
            Some(&(_, effect)) if !(effect && quiet) => self.add(21, [called as u32, 0, 0], effect),
            _ if !quiet && self.random.one_in(2) => self.add(23, [0, 0, 0], true),
            _ => self.add(16, [0, 0, 0], false),
        }
    }

    /// Whether to leave here, in one of so many places where one may.
    fn leaves(&mut self, place: Place, many: usize) -> bool {
        (place.leave || self.strays) && self.random.one_in(many)
    }

    fn leave(&mut self) -> u32 {
        self.add(LEAVE, [0, 0, 0], false)
    }

    fn assign(&mut self, budget: usize, place: Place) -> u32 {
        let single = !place.quiet && self.random.one_in(2);
        let Some(variable) = self.variable(single) else {
            return self.short(place);
        };
        let single_value = single && !self.slips();
        let value = self.expression(budget - 1, single_value);
        self.add(17, [variable, value, 0], single)
    }

    fn latch(&mut self, budget: usize) -> u32 {
        let (first, second) = self.split(budget);
        let latch = self.expression(first.min(3), false);
        let value = self.expression(second, false);
        self.add(22, [latch, value, 0], false)
    }

    fn broadcast(&mut self, budget: usize) -> u32 {
        let (first, second) = self.split(budget);
        let variable = self.random.below(self.table.variables as usize) as u32;
        let value = self.expression(first, false);
        let single_source = !self.slips();
        let source = self.expression(second, single_source);
        self.add(24, [variable, value, source], true)
    }

    fn exchange(&mut self, budget: usize) -> u32 {
        let value = self.expression(budget - 1, false);
        let area = self.area();
        self.add(EXCHANGE, [value, area, 0], true)
    }

    fn sequence(&mut self, budget: usize, place: Place) -> u32 {
        let (first, second) = self.split(budget);
        let first = self.statement(first, place);
        let second = self.statement(second, place);
        self.sequence_of(first, second)
    }

    fn sequence_of(&mut self, first: u32, second: u32) -> u32 {
        let effect = self.effects[first as usize] || self.effects[second as usize];
        self.add(18, [first, second, 0], effect)
    }

    fn choose(&mut self, budget: usize, place: Place) -> u32 {
        let single = self.random.one_in(2);
        let condition = self.random.from(1, (budget - 3).min(7));
        let (then, otherwise) = self.split(budget - condition);
        let condition = self.expression(condition, single);
        let place = match single {
            true => place,
            false => self.under_local_if(place),
        };
        let then = match self.leaves(place, 3) {
            true => self.leave(),
            false => self.statement(then, place),
        };
        let otherwise = self.statement(otherwise, place);
        let effect = self.effects[then as usize] || self.effects[otherwise as usize];
        self.add(19, [condition, then, otherwise], effect)
    }

    /// Where a leave may stand, the place is as quiet as the body of its while: if the rules are
    /// kept, a loop with a global effect is not left under a local condition.
    fn under_local_if(&mut self, place: Place) -> Place {
        Place {
            quiet: place.quiet || !self.slips(),
            leave: place.leave && (place.quiet || !self.careful || self.dead),
            ..place
        }
    }

    /// An if whose condition is fixed or, now and then, nearly. If the rules are kept, only a
    /// branch that is dead breaks them.
    fn switch(&mut self, budget: usize, place: Place) -> u32 {
        let condition = self.random.from(1, (budget - 3).min(9));
        let (then, otherwise) = self.split(budget - condition);
        let condition = match self.random.one_in(6) {
            true => self.nearly_fixed(condition),
            false => self.fixed(condition),
        };
        let value = fixed(&self.table.nodes, condition, ruled);
        let is_first_dead = value.map_or_else(|| self.random.one_in(2), |value| value == 0);
        let breaks_rules = value.is_some() || !self.careful;
        let then = self.branch(then, place, is_first_dead && breaks_rules);
        let otherwise = self.branch(otherwise, place, !is_first_dead && breaks_rules);
        let [first, second] = [then, otherwise].map(|branch| self.effects[branch as usize]);
        let effect = match value {
            None => first || second,
            Some(0) => second,
            Some(_) => first,
        };
        self.add(IF, [condition, then, otherwise], effect)
    }

    /// A branch of a switch, which keeps no rules about single values if it is dead.
    fn branch(&mut self, budget: usize, place: Place, dead: bool) -> u32 {
        if !dead {
            return self.statement(budget, place);
        }
        let place = Place {
            quiet: false,
            leave: place.dead_leave,
            ..place
        };
        let around = self.dead;
        self.dead = true;
        let branch = match self.leaves(place, 3) {
            true if budget >= 4 => self.local_leave(),
            true => self.leave(),
            false => self.statement(budget, place),
        };
        self.dead = around;
        branch
    }

    /// A leave of some processes.
    fn local_leave(&mut self) -> u32 {
        let own = self.add(OWN, [0, 0, 0], false);
        let leave = self.leave();
        let nothing = self.add(NOTHING, [0, 0, 0], false);
        self.add(IF, [own, leave, nothing], false)
    }

    /// A while that may well go on for ever.
    fn repeat(&mut self, budget: usize, quiet: bool) -> u32 {
        let single = self.random.one_in(2);
        let condition = self.random.from(1, (budget - 2).min(5));
        let body = budget - 1 - condition;
        let condition = self.expression(condition, single);
        let quiet = quiet || (!single && !self.slips());
        let body = self.statement(body, Place::in_loop(quiet));
        self.repeat_of(condition, body)
    }

    fn repeat_of(&mut self, condition: u32, body: u32) -> u32 {
        let effect = self.effects[body as usize];
        self.add(20, [condition, body, 0], effect)
    }

    /// A while that ends unless its body also changes the variable.
    fn counted_loop(&mut self, budget: usize, place: Place) -> u32 {
        let single = !place.quiet && self.random.one_in(2);
        let Some(variable) = self.variable(single) else {
            return self.short(place);
        };
        let rounds = self.random.from(1, 4) as u32;
        let left = self.add(1, [variable, 0, 0], false);
        let right = self.add(0, [0, 0, rounds], false);
        let condition = self.add(10, [left, right, 0], false);
        let place = Place::in_loop(place.quiet || !single);
        let body = self.statement(budget - COUNTED_LOOP, place);
        let old = self.add(1, [variable, 0, 0], false);
        let one = self.add(0, [0, 0, 1], false);
        let new = self.add(6, [old, one, 0], false);
        let next = self.add(17, [variable, new, 0], single);
        let body = self.sequence_of(body, next);
        self.repeat_of(condition, body)
    }
}
