//! A library joined to a program: questions 27 to 29, then the joined table's words.

use super::reader::read;
use super::refusal::refused;
use super::table::{Node, Table, MOST_NODES};
use finchchaise::{LinkRefusal, LinkedTable, Refusal};

const NOTHING: [u8; 4] = [0x80, 0, 0, 0];

/// What a 1 in each field of a node's word counts.
const A: u32 = 1 << 18;
const B: u32 = 1 << 9;
const C: u32 = 1;
const BODY: u32 = 1 << 24;

/// The fields of each kind that name nodes.
const PARTS: [u32; 32] = {
    let mut parts = [0; 32];
    let mut kind = 0;
    while kind < parts.len() {
        parts[kind] = match kind {
            4 | 5 | 25 => A,
            6..=12 | 18 | 20 | 22 => A + B,
            17 => B,
            19 => A + B + C,
            24 => B + C,
            _ => 0,
        };
        kind += 1;
    }
    parts
};

pub fn link(library: &[u8], program: &[u8], out: &mut [u8]) -> Result<(), LinkRefusal> {
    let of = |table| move |refusal| LinkRefusal { refusal, table };
    let library = read(library).map_err(of(LinkedTable::Library))?;
    let linked = read(program).and_then(|program| link_tables(&library, &program, out));
    linked.map_err(of(LinkedTable::Program))
}

#[inline(always)]
fn link_tables(library: &Table, program: &Table, out: &mut [u8]) -> Result<(), Refusal> {
    ask_stubs(library, program)?;
    let differing = (library.flags ^ program.flags).leading_zeros() as usize;
    if differing < library.variables.min(program.variables) {
        return refused(28, differing);
    }
    let nodes = library.nodes.len() + program.nodes.len() - library.procedures.len();
    let words = 2 + program.procedures.len() + nodes;
    if nodes > MOST_NODES || out.len() != 4 * words {
        return refused(29, 0);
    }
    write(library, program, nodes, out.as_chunks_mut().0);
    Ok(())
}

/// Question 27. Bits that are unnamed are 0 by now, so words are compared whole.
#[inline(always)]
fn ask_stubs(library: &Table, program: &Table) -> Result<(), Refusal> {
    let stubs = library.procedures.len();
    let is_stub = |number: usize| {
        let expected = [number as u8, library.procedures[number][1], 0, 0];
        program.procedures.get(number) == Some(&expected) && program.nodes[number] == NOTHING
    };
    match (0..stubs).find(|&number| !is_stub(number)) {
        Some(number) => refused(27, number),
        None if program.procedures.len() == stubs => refused(27, stubs),
        None => Ok(()),
    }
}

/// No node is named that is a stub's, so numbers only grow.
#[inline(always)]
fn write(library: &Table, program: &Table, nodes: usize, out: &mut [[u8; 4]]) {
    let stubs = library.procedures.len();
    let shift = (library.nodes.len() - stubs) as u32;
    let variables = library.variables.max(program.variables);
    let header = 1 << 28 | variables << 22 | program.procedures.len() << 17 | nodes << 8;
    let (front, rest) = out.split_at_mut(2);
    front[0] = (header as u32).to_be_bytes();
    front[1] = (library.flags | program.flags).to_be_bytes();
    let (procedures, rest) = rest.split_at_mut(stubs);
    procedures.copy_from_slice(library.procedures);
    let (procedures, rest) = rest.split_at_mut(program.procedures.len() - stubs);
    for (out, &word) in procedures.iter_mut().zip(&program.procedures[stubs..]) {
        *out = (u32::from_be_bytes(word) + shift * BODY).to_be_bytes();
    }
    let (nodes, rest) = rest.split_at_mut(library.nodes.len());
    nodes.copy_from_slice(library.nodes);
    for (out, &word) in rest.iter_mut().zip(&program.nodes[stubs..]) {
        let parts = PARTS[Node::of(word).kind() as usize];
        *out = (u32::from_be_bytes(word) + shift * parts).to_be_bytes();
    }
}
