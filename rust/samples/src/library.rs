//! A library that adds up what processes bring, and two programs that use it.

use crate::{add_slots, count_doors, find, input, look_alone, run_input, show, start_words};
use crate::{bytes, Builder, BAGS, DOOR, LOCKERS, OCCUPIED, SLOT, TOTAL};

/// A table that uses the library.
#[derive(Clone, Copy)]
pub enum Program {
    Stocktake,
    Search,
}

/// What a process brings: in a stocktake, its occupied doors. DOOR is the programs' own.
const BROUGHT: u32 = OCCUPIED;
const VARIABLES: usize = 4;

/// The library's procedures, in the order of its table.
const SHOW: u32 = 0;
const TELL: u32 = 1;

/// Latches: the total for all to see, and beside it what a process has found.
const SIGN: u32 = 0;
const FOUND: u32 = 1;

pub fn library() -> Vec<u8> {
    library_parts().bytes()
}

fn library_parts() -> Builder {
    let mut table = Builder::new(VARIABLES as u32, &[SLOT, TOTAL]);
    let body = show(&mut table, SIGN, TOTAL);
    table.procedure(body, false);
    let body = tell(&mut table);
    table.procedure(body, true);
    table
}

/// What every process brought is exchanged, added up and shown. Slot and total begin at 0, so that it
/// can be called again.
fn tell(table: &mut Builder) -> u32 {
    let brought = table.variable(BROUGHT);
    let exchange = table.exchange(brought, 0);
    let from_first = table.set(SLOT, 0);
    let from_nothing = table.set(TOTAL, 0);
    let add_up = add_slots(table);
    let show = table.call(SHOW);
    table.row(&[exchange, from_first, from_nothing, add_up, show])
}

/// As the paper has a table start that uses a library.
fn stubs() -> Builder {
    let library = library_parts();
    let mut table = Builder::new(library.variables, &library.single);
    for (_, effect) in library.procedures {
        let body = table.nothing();
        table.procedure(body, effect);
    }
    table
}

/// The program's own procedures behind stubs.
pub fn program(program: Program) -> Vec<u8> {
    behind(stubs(), program)
}

/// The program's own procedures behind the library's: the joined table, but made without joining.
pub fn joined(program: Program) -> Vec<u8> {
    behind(library_parts(), program)
}

fn behind(mut table: Builder, program: Program) -> Vec<u8> {
    let body = match program {
        Program::Stocktake => stocktake(&mut table),
        Program::Search => search(&mut table),
    };
    table.procedure(body, true);
    table.bytes()
}

/// The last total is on show while doors are counted; then the new one is.
fn stocktake(table: &mut Builder) -> u32 {
    let count_doors = count_doors(table);
    let show = table.call(SHOW);
    let count = table.call(count_doors);
    let tell = table.call(TELL);
    table.row(&[show, count, tell])
}

/// Every process brings 1 if it has an empty door, and shows which.
fn search(table: &mut Builder) -> u32 {
    let find = find(table, look_alone);
    let door = table.variable(DOOR);
    let doors = table.constant(12);
    let is_there = table.less(door, doors);
    let bring = table.assign(BROUGHT, is_there);
    let show = show(table, FOUND, DOOR);
    let tell = table.call(TELL);
    table.row(&[find, bring, show, tell])
}

/// The link program's input: the library's length, the library, the program.
pub fn join(with: Program) -> Vec<u8> {
    let library = library();
    [bytes(&[library.len() as u32]), library, program(with)].concat()
}

/// The joined stocktake on two processes, in turns; the last total was 7.
pub fn stocktake_run() -> Vec<u8> {
    let mut variables = [0; VARIABLES];
    variables[TOTAL as usize] = 7;
    let start = start_words(&variables, &BAGS);
    let turns = [0, 1].repeat(STOCKTAKE_STEPS);
    run_input(&joined(Program::Stocktake), 2, &start, &turns)
}

/// Steps that each process needs to the end.
const STOCKTAKE_STEPS: usize = 85;

/// The joined search: three processes, 2 counts as served last, at most 1,000 turns.
pub fn search_serve() -> Vec<u8> {
    let start = start_words(&[0; VARIABLES], &LOCKERS);
    input(&joined(Program::Search), &[3, 2, 1000], &start)
}
