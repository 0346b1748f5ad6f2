//! Accepted tables with switches: ifs whose conditions are fixed, so that one of their branches is
//! never taken.

use crate::inputs::{filled, piece, table_with, Piece, SINGLE};
use finchchaise_samples::Builder;

/// One piece in so many is a switch, where there is room.
const PIECES_A_SWITCH: usize = 3;
/// One procedure in so many is turned off by a switch around its body.
const PROCEDURES_AN_OFF: usize = 6;
/// Nodes of the largest switch with a constant for its condition.
const SWITCH: usize = 7;
/// The same with a comparison.
const COMPARED_SWITCH: usize = SWITCH + 2;
/// Nodes of the switch around a body.
const OFF: usize = 3;
const SITE: u32 = 7;

/// Adds an expression on which a branch that is never taken depends.
type Decider = fn(&mut Builder) -> u32;

/// What is never taken would fail each of 13 to 17.
pub fn failing(nodes: usize, procedures: usize) -> Builder {
    table_of(nodes, procedures, failing_or_piece, false)
}

/// What is never taken would fail nothing.
pub fn sound(nodes: usize, procedures: usize) -> Builder {
    table_of(nodes, procedures, sound_or_piece, true)
}

/// A procedure that is turned off has no effect, whatever its flag.
fn table_of(nodes: usize, procedures: usize, piece: Piece, off_flag: bool) -> Builder {
    let body = |table: &mut Builder, share, number| match number % PROCEDURES_AN_OFF {
        0 if share > OFF => (turned_off(table, share, number, piece), off_flag),
        _ => (filled(table, share, number, piece), true),
    };
    table_with(nodes, procedures, piece, body)
}

fn turned_off(table: &mut Builder, nodes: usize, turn: usize, piece: Piece) -> u32 {
    let condition = table.constant(0);
    let then = filled(table, nodes - OFF, turn, piece);
    let otherwise = table.nothing();
    table.choose(condition, then, otherwise)
}

fn failing_or_piece(table: &mut Builder, most: usize, turn: usize) -> u32 {
    switch_or_piece(table, most, turn, Builder::own_number)
}

fn sound_or_piece(table: &mut Builder, most: usize, turn: usize) -> u32 {
    switch_or_piece(table, most, turn, Builder::count)
}

fn switch_or_piece(table: &mut Builder, most: usize, turn: usize, decider: Decider) -> u32 {
    match turn % PIECES_A_SWITCH {
        1 if most >= SWITCH => switch(table, most, turn, decider),
        _ => piece(table, most, turn),
    }
}

/// On in every second procedure.
fn switch(table: &mut Builder, most: usize, turn: usize, decider: Decider) -> u32 {
    let is_on = table.procedures.len().is_multiple_of(2);
    let condition = match most >= COMPARED_SWITCH {
        true => is_site(table, if is_on { SITE } else { SITE + 1 }),
        false => table.constant(is_on as u32),
    };
    let taken = table.barrier();
    let never = never_taken(table, turn, decider);
    match is_on {
        true => table.choose(condition, taken, never),
        false => table.choose(condition, never, taken),
    }
}

fn is_site(table: &mut Builder, number: u32) -> u32 {
    let site = table.constant(SITE);
    let number = table.constant(number);
    table.equal(site, number)
}

/// In turn a statement for each of 13 to 16.
fn never_taken(table: &mut Builder, turn: usize, decider: Decider) -> u32 {
    let decider = decider(table);
    match turn / PIECES_A_SWITCH % 4 {
        0 => table.assign(SINGLE, decider),
        1 => {
            let value = table.count();
            table.broadcast(SINGLE, value, decider)
        }
        2 => {
            let (then, otherwise) = (table.barrier(), table.nothing());
            table.choose(decider, then, otherwise)
        }
        _ => {
            let body = table.barrier();
            table.repeat(decider, body)
        }
    }
}
