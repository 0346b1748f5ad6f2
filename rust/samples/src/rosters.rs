//! The sample with three gathered areas (the paper's rosters).

use crate::{add_slot, each_door, input, show, start_words, Builder, DOOR};

/// What doors are counted by.
#[derive(Clone, Copy)]
struct Condition {
    door_word: u32,
    /// The variable for a process's own count.
    count: u32,
    /// The area for the counts of all processes, and the latch that shows their total.
    area: u32,
    /// The variable for the total, the same on all processes.
    total: u32,
}

const OCCUPIED: Condition = Condition {
    door_word: 1,
    count: 1,
    area: 0,
    total: 5,
};
const OVERDUE: Condition = Condition {
    door_word: 2,
    count: 2,
    area: 1,
    total: 6,
};
const FAULTY: Condition = Condition {
    door_word: 3,
    count: 3,
    area: 2,
    total: 7,
};
const CONDITIONS: [Condition; 3] = [OCCUPIED, OVERDUE, FAULTY];

/// Besides these there are DOOR and, the same on all processes, the slot looked at.
const SLOT: u32 = 4;
const VARIABLES: usize = 8;

/// Every process counts its doors by their condition, each count is exchanged into an area of its
/// own, every process adds up all three.
pub fn rosters() -> Vec<u8> {
    let [occupied, overdue, faulty] = CONDITIONS.map(|condition| condition.total);
    let mut table = Builder::new(VARIABLES as u32, &[SLOT, occupied, overdue, faulty]);
    let count_doors = count_doors(&mut table);
    let add_up = add_up(&mut table);
    let mut statements = vec![table.call(count_doors)];
    for Condition { count, area, .. } in CONDITIONS {
        let count = table.variable(count);
        statements.push(table.exchange(count, area));
    }
    statements.push(table.call(add_up));
    for Condition { area, total, .. } in CONDITIONS {
        statements.push(show(&mut table, area, total));
    }
    let body = table.row(&statements);
    table.procedure(body, true);
    table.bytes()
}

/// Door by door; no global effect, since only own variables change.
fn count_doors(table: &mut Builder) -> u32 {
    let body = each_door(table, |table| {
        let counting = CONDITIONS.map(|condition| count_door(table, condition));
        table.row(&counting)
    });
    table.procedure(body, false)
}

/// A comparison is 1 or 0, so it can be added.
fn count_door(table: &mut Builder, condition: Condition) -> u32 {
    let old = table.variable(condition.count);
    let door = table.variable(DOOR);
    let word = table.door(door);
    let wanted = table.constant(condition.door_word);
    let is_wanted = table.equal(word, wanted);
    let new = table.sum(old, is_wanted);
    table.assign(condition.count, new)
}

/// Slot by slot; it assigns single variables, so it has a global effect.
fn add_up(table: &mut Builder) -> u32 {
    let add = |table: &mut Builder| {
        let adding = CONDITIONS.map(|of| add_slot(table, of.total, SLOT, of.area));
        table.row(&adding)
    };
    let body = table.count_up(SLOT, Builder::count, add);
    table.procedure(body, true)
}

/// The doors of the sample's three processes.
const DOORS: [[u32; 12]; 3] = [
    [1, 0, 0, 2, 1, 0, 0, 0, 3, 1, 0, 0],
    [0, 1, 1, 1, 0, 2, 2, 0, 0, 1, 0, 1],
    [3, 0, 0, 1, 2, 2, 2, 0, 0, 0, 3, 0],
];

/// Three processes, 2 counts as served last, at most 1,000 turns.
pub fn serve() -> Vec<u8> {
    let start = start_words(&[0; VARIABLES], &DOORS);
    input(&rosters(), &[3, 2, 1000], &start)
}
