//! Random libraries, and programs that they are joined to.

use crate::damage::{damaged, random_bytes, small_table};
use crate::generator::{completed, switched_table, table};
use crate::generator::{MOST_NODES, MOST_PROCEDURES, SIZES, VARIABLES};
use crate::order::renumber;
use crate::random::Random;
use crate::shape::BARRIER;
use finchchaise_samples::Builder;

/// A library, and a program with stubs for it. Both are well formed but for leaves that stand
/// anywhere, and the checker often accepts them.
#[derive(Clone)]
pub struct Pair {
    pub library: Builder,
    pub program: Builder,
}

impl Pair {
    pub fn new(random: &mut Random) -> Pair {
        let (careful, switched) = style(random);
        let library = match switched {
            true => switched_table(random, careful),
            false => table(random, careful),
        };
        let program = program_for(&library, random);
        Pair { library, program }
    }

    pub fn bytes(&self) -> [Vec<u8>; 2] {
        [self.library.bytes(), self.program.bytes()]
    }

    /// What starts of the joined table go by: its variables, and those that are single.
    pub fn joined_variables(&self) -> Builder {
        let Pair { library, program } = self;
        let single = [&library.single[..], &program.single].concat();
        Builder::new(library.variables.max(program.variables), &single)
    }

    /// The bytes of both. Mostly something is wrong with one of them, or they do not fit.
    pub fn damaged(&self, random: &mut Random) -> [Vec<u8>; 2] {
        let Pair { library, program } = self;
        match random.below(12) {
            0 | 1 => [damaged(library, random), program.bytes()],
            2 | 3 => [library.bytes(), damaged(program, random)],
            4 => [damaged(library, random), damaged(program, random)],
            5 => [library.bytes(), renumber(program, random).bytes()],
            6 => self.unrelated(random),
            _ => self.misfit(random).bytes(),
        }
    }

    /// One of them, beside what was not made for it.
    fn unrelated(&self, random: &mut Random) -> [Vec<u8>; 2] {
        let other = match random.below(4) {
            0 => small_table(random),
            1 => random_bytes(random),
            _ => Pair::new(random).program.bytes(),
        };
        match random.one_in(4) {
            true => [other, self.program.bytes()],
            false => [self.library.bytes(), other],
        }
    }

    /// Both mostly well formed, with stubs or flags that are not as they should be.
    fn misfit(&self, random: &mut Random) -> Pair {
        let mut pair = self.clone();
        for _ in 0..random.from(1, 3) {
            match random.one_in(2) {
                true => pair.damage_flags(random),
                false => pair.damage_stub(random),
            }
        }
        pair
    }

    /// Another flag for a variable that both have, in one of them.
    fn damage_flags(&mut self, random: &mut Random) {
        let Pair { library, program } = self;
        let shared = library.variables.min(program.variables);
        let variable = random.below(shared as usize) as u32;
        let single = match random.one_in(2) {
            true => &mut library.single,
            false => &mut program.single,
        };
        match single.iter().position(|&other| other == variable) {
            Some(place) => drop(single.remove(place)),
            None => single.push(variable),
        }
    }

    /// Another flag, another kind, a body in the place of another, or none of the procedures after
    /// the stub.
    fn damage_stub(&mut self, random: &mut Random) {
        let Pair { library, program } = self;
        let stubs = library.procedures.len().min(program.procedures.len());
        let (stub, other) = (random.below(stubs), random.below(stubs));
        match random.below(5) {
            0 => program.procedures[stub].1 ^= true,
            1 => program.nodes[stub] = [BARRIER, 0, 0, 0],
            2 | 3 => {
                let body = program.procedures[stub].0;
                program.procedures[stub].0 = program.procedures[other].0;
                program.procedures[other].0 = body;
            }
            _ => {
                program.procedures.truncate(stub + 1);
                program.nodes.truncate(stub + 1);
            }
        }
    }
}

/// Whether a table keeps the rules, and whether it has many switches.
fn style(random: &mut Random) -> (bool, bool) {
    (!random.one_in(4), random.one_in(4))
}

/// Stubs for a library's procedures, and then a table of its own. A library with as many procedures
/// as there can be leaves no room for that.
fn program_for(library: &Builder, random: &mut Random) -> Builder {
    let variables = random.pick(&VARIABLES);
    let flags = random.number();
    let is_single = |variable: &u32| match *variable < library.variables {
        true => library.single.contains(variable),
        false => flags >> variable & 1 == 1,
    };
    let single: Vec<u32> = (0..variables).filter(is_single).collect();
    let mut begun = Builder::new(variables, &single);
    for &(_, effect) in &library.procedures {
        let body = begun.nothing();
        begun.procedure(body, effect);
    }
    let stubs = begun.procedures.len();
    if stubs == MOST_PROCEDURES {
        return begun;
    }
    let own = own_nodes(library.nodes.len(), random);
    let (careful, switched) = style(random);
    let size = (stubs + own).min(MOST_NODES);
    completed(begun, size, careful, switched, random)
}

/// How many nodes a program has at most beside its stubs: often as many as there is room for, or one
/// more, and sometimes however many.
fn own_nodes(of_library: usize, random: &mut Random) -> usize {
    let room = MOST_NODES - of_library;
    match random.below(8) {
        0 => room.max(1),
        1 => room + 1,
        2 => random.pick(&SIZES),
        _ => random.pick(&SIZES).min(room).max(1),
    }
}
