//! One table for two sites, and the switch between them.

use crate::{find, look_alone, run_input, start_words, tell_and_open, Builder, DOOR};

/// What a table is written for.
#[derive(Clone, Copy)]
pub enum Site {
    /// Every process has lockers of its own.
    North = 1,
    /// Each locker has a door in process 0 and one in process 1.
    South = 2,
}

/// The area into which processes that look together bring what they see.
const SEEN: u32 = 1;

/// As `search`, but at South the processes look together. Only the constant of node 0 differs from
/// site to site.
///
/// It shows a switch: one branch leaves the loop under a local condition and the other holds a
/// collective, which no loop may have both of.
pub fn switches(site: Site) -> Vec<u8> {
    let mut table = Builder::new(1, &[]);
    let here = table.constant(site as u32);
    let south = table.constant(Site::South as u32);
    let is_south = table.equal(here, south);
    let find = find(&mut table, |table| {
        let together = look_together(table);
        let alone = look_alone(table);
        table.choose(is_south, together, alone)
    });
    let end = tell_and_open(&mut table);
    let body = table.sequence(find, end);
    table.procedure(body, true);
    table.bytes()
}

/// A locker is empty if processes 0 and 1 both see nothing: what they see is exchanged, so all leave
/// at once.
fn look_together(table: &mut Builder) -> u32 {
    let door = table.variable(DOOR);
    let word = table.door(door);
    let exchange = table.exchange(word, SEEN);
    let [first, second] = [0, 1].map(|process| {
        let slot = table.constant(process);
        table.gathered(slot, SEEN)
    });
    let is_occupied = table.sum(first, second);
    let pass = table.nothing();
    let found = table.leave();
    let look = table.choose(is_occupied, pass, found);
    table.sequence(exchange, look)
}

/// The doors of two processes, the same at both sites. The first empty one is 1 and 0; the first that
/// is empty in both is 2.
const DOORS: [[u32; 12]; 2] = [
    [1, 0, 0, 1, 0, 0, 0, 0, 0, 1, 0, 0],
    [0, 1, 0, 0, 1, 0, 0, 0, 0, 0, 0, 1],
];

pub fn run(site: Site) -> Vec<u8> {
    let turns = match site {
        Site::North => north_turns(),
        Site::South => [0, 1].repeat(SOUTH_STEPS),
    };
    run_input(&switches(site), 2, &start_words(&[0], &DOORS), &turns)
}

/// Each process goes to the exchange behind the loop alone; then a step each.
fn north_turns() -> Vec<u8> {
    let [first, second] = NORTH_STEPS;
    [vec![0; first], vec![1; second], vec![0, 1]].concat()
}

/// Steps that each process needs up to the exchange behind the loop.
const NORTH_STEPS: [usize; 2] = [14, 8];

/// Steps that each process needs to the end.
const SOUTH_STEPS: usize = 27;
