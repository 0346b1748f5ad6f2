//! Tables of an exact size, of the statements that real tables have.

use finchchaise::GATHERED_AREAS;
use finchchaise_compare::{renumber, Random};
use finchchaise_samples::Builder;

const OWN: u32 = 0;
pub const SINGLE: u32 = 1;
pub const VARIABLES: usize = 2;
/// Nodes of a loop that is left early.
const SEARCH: usize = 10;
const PIECES: usize = 6;

/// Adds a statement of at most so many nodes, 3 or more; the last number says whose turn it is.
pub type Piece = fn(&mut Builder, usize, usize) -> u32;

/// An accepted table with this many nodes and procedures. A procedure that has one node left over
/// calls the one below it; the main one repeats its body for ever if it has the nodes for that.
pub fn table(nodes: usize, procedures: usize) -> Builder {
    table_of(nodes, procedures, piece)
}

/// The same, with loops that are left early.
pub fn left_early(nodes: usize, procedures: usize) -> Builder {
    table_of(nodes, procedures, search_or_piece)
}

fn table_of(nodes: usize, procedures: usize, piece: Piece) -> Builder {
    table_with(nodes, procedures, piece, |table, share, number| {
        (filled(table, share, number, piece), true)
    })
}

/// A body and its effect flag are made for so many nodes and for a procedure's number, from 1.
pub fn table_with(
    nodes: usize,
    procedures: usize,
    piece: Piece,
    body: impl Fn(&mut Builder, usize, usize) -> (u32, bool),
) -> Builder {
    let begun = Builder::new(VARIABLES as u32, &[SINGLE]);
    completed(begun, nodes, procedures, piece, body)
}

/// The same, with so many more nodes and procedures than there are.
fn completed(
    mut table: Builder,
    nodes: usize,
    procedures: usize,
    piece: Piece,
    body: impl Fn(&mut Builder, usize, usize) -> (u32, bool),
) -> Builder {
    let first = table.nodes.len();
    for number in 1..=procedures {
        let share = first + nodes * number / procedures - table.nodes.len();
        let (body, effect) = match number == procedures && share > 2 {
            true => (endless(&mut table, share, piece), true),
            false => body(&mut table, share, number),
        };
        table.procedure(body, effect);
    }
    table
}

/// An accepted table with this many nodes that begins with stubs for a library, and has as many
/// procedures of its own.
pub fn program_for(library: &Builder, nodes: usize) -> Builder {
    let mut begun = Builder::new(library.variables, &library.single);
    for &(_, effect) in &library.procedures {
        let stub = begun.nothing();
        begun.procedure(stub, effect);
    }
    let stubs = begun.procedures.len();
    completed(
        begun,
        nodes - stubs,
        stubs,
        piece,
        |table, share, number| (filled(table, share, number, piece), true),
    )
}

/// An accepted table of statements only: one procedure, a row of so many that do nothing.
pub fn statements(row: usize) -> Builder {
    let mut table = Builder::new(VARIABLES as u32, &[]);
    let mut body = table.nothing();
    for _ in 1..row {
        let next = table.nothing();
        body = table.sequence(body, next);
    }
    table.procedure(body, false);
    table
}

/// The same table with the nodes of all procedures mixed. Before, each procedure's lay together.
pub fn out_of_order(table: &Builder) -> Builder {
    renumber(table, &mut Random::new(1))
}

fn endless(table: &mut Builder, nodes: usize, piece: Piece) -> u32 {
    let condition = table.count();
    let body = filled(table, nodes - 2, 0, piece);
    table.repeat(condition, body)
}

/// A statement of just so many nodes, which begins with the piece whose turn it is.
pub fn filled(table: &mut Builder, nodes: usize, turn: usize, piece: Piece) -> u32 {
    let called = table.procedures.len() as u32;
    match nodes {
        1 if called > 0 => table.call(called - 1),
        1 => table.nothing(),
        2 => exchange(table, turn),
        3 => latch(table),
        4 => table.increase(OWN),
        _ => {
            let before = table.nodes.len();
            let first = piece(table, nodes - 2, turn);
            let taken = table.nodes.len() - before;
            let second = filled(table, nodes - 1 - taken, turn + 1, piece);
            table.sequence(first, second)
        }
    }
}

/// One of `PIECES` statements in turn.
pub fn piece(table: &mut Builder, most: usize, turn: usize) -> u32 {
    match turn % PIECES {
        0 if most >= 4 => table.increase(OWN),
        1 if most >= 6 => choose(table),
        2 => exchange(table, turn),
        3 => broadcast(table),
        4 => look_at_door(table),
        _ => latch(table),
    }
}

/// A search wherever there is room, else what has its turn.
fn search_or_piece(table: &mut Builder, most: usize, turn: usize) -> u32 {
    match most >= SEARCH {
        true => search(table),
        false => piece(table, most, turn),
    }
}

/// Looks for a door whose word is 0, from the one that is due, and leaves the loop there.
fn search(table: &mut Builder) -> u32 {
    let always = table.count();
    let door = table.variable(OWN);
    let is_occupied = table.door(door);
    let next = table.increase(OWN);
    let found = table.leave();
    let look = table.choose(is_occupied, next, found);
    table.repeat(always, look)
}

/// Into one area after another.
fn exchange(table: &mut Builder, turn: usize) -> u32 {
    let area = turn / PIECES % GATHERED_AREAS;
    let value = table.variable(OWN);
    table.exchange(value, area as u32)
}

fn latch(table: &mut Builder) -> u32 {
    let latch = table.constant(3);
    let value = table.variable(SINGLE);
    table.latch(latch, value)
}

fn look_at_door(table: &mut Builder) -> u32 {
    let door = table.constant(11);
    let value = table.door(door);
    table.assign(OWN, value)
}

fn broadcast(table: &mut Builder) -> u32 {
    let value = table.own_number();
    let source = table.constant(5);
    table.broadcast(SINGLE, value, source)
}

fn choose(table: &mut Builder) -> u32 {
    let left = table.variable(SINGLE);
    let right = table.constant(2);
    let condition = table.less(left, right);
    let then = table.barrier();
    let otherwise = table.nothing();
    table.choose(condition, then, otherwise)
}
