//! The tables and runs of samples/, which an .md beside each explains to site staff.
//!
//! `cargo run --offline -p finchchaise-samples` writes the files; a test compares them.

#![forbid(unsafe_code)]

mod builder;
pub mod library;
mod rosters;
mod switches;

pub use builder::{bytes, Builder};
pub use rosters::rosters;
pub use switches::{switches, Site};

use library::Program::{Search, Stocktake};

/// A file of samples/.
pub struct Sample {
    pub name: &'static str,
    pub bytes: Vec<u8>,
}

/// Every file that is made here.
pub fn samples() -> Vec<Sample> {
    let file = |name, bytes| Sample { name, bytes };
    vec![
        file("t1.table", t1()),
        file("t2.table", t2()),
        file("stocktake.table", stocktake()),
        file("search.table", search()),
        file("tariff.table", tariff()),
        file("rosters.table", rosters()),
        file("switches-north.table", switches(Site::North)),
        file("switches-south.table", switches(Site::South)),
        file("library.table", library::library()),
        file("library-stocktake.table", library::program(Stocktake)),
        file("library-search.table", library::program(Search)),
        file("library-stocktake.join", library::join(Stocktake)),
        file("library-search.join", library::join(Search)),
        file("t2-two.run", t2_two()),
        file("stocktake.run", stocktake_run()),
        file("stocktake-late.run", stocktake_late_run()),
        file("search.run", search_run()),
        file("tariff.run", tariff_run()),
        file("switches-north.run", switches::run(Site::North)),
        file("switches-south.run", switches::run(Site::South)),
        file("library-stocktake.run", library::stocktake_run()),
        file("stocktake.serve", stocktake_serve()),
        file("rosters.serve", rosters::serve()),
        file("library-search.serve", library::search_serve()),
    ]
}

/// The rules paper's T1: if own number then barrier else nothing.
pub fn t1() -> Vec<u8> {
    let mut table = Builder::new(1, &[]);
    let condition = table.own_number();
    barrier_if(table, condition)
}

/// The rules paper's T2: if number of processes then barrier else nothing.
pub fn t2() -> Vec<u8> {
    let mut table = Builder::new(1, &[]);
    let condition = table.count();
    barrier_if(table, condition)
}

fn barrier_if(mut table: Builder, condition: u32) -> Vec<u8> {
    let barrier = table.barrier();
    let nothing = table.nothing();
    let body = table.choose(condition, barrier, nothing);
    table.procedure(body, true);
    table.bytes()
}

/// Variables of the stocktake: the door looked at, the occupied doors counted, and the same on all
/// processes: the slot looked at, the total.
const DOOR: u32 = 0;
const OCCUPIED: u32 = 1;
const SLOT: u32 = 2;
const TOTAL: u32 = 3;

/// Every process counts its occupied doors, the counts are exchanged, every process adds them up.
pub fn stocktake() -> Vec<u8> {
    let mut table = Builder::new(4, &[SLOT, TOTAL]);
    let count_doors = count_doors(&mut table);
    let add_up = add_up(&mut table);
    let counting = table.call(count_doors);
    let occupied = table.variable(OCCUPIED);
    let exchange = table.exchange(occupied, 0);
    let adding = table.call(add_up);
    let show = show(&mut table, 0, TOTAL);
    let body = table.row(&[counting, exchange, adding, show]);
    table.procedure(body, true);
    table.bytes()
}

/// A latch takes a variable.
fn show(table: &mut Builder, latch: u32, variable: u32) -> u32 {
    let latch = table.constant(latch);
    let shown = table.variable(variable);
    table.latch(latch, shown)
}

/// Door by door; no global effect, since only own variables change.
fn count_doors(table: &mut Builder) -> u32 {
    let body = each_door(table, |table| {
        let door = table.variable(DOOR);
        let is_occupied = table.door(door);
        let count = table.increase(OCCUPIED);
        let pass = table.nothing();
        table.choose(is_occupied, count, pass)
    });
    table.procedure(body, false)
}

/// The look at each door in DOOR, which is 0 at the start.
fn each_door(table: &mut Builder, look: impl Fn(&mut Builder) -> u32) -> u32 {
    table.count_up(DOOR, |table| table.constant(12), look)
}

/// Slot by slot; it assigns single variables, so it has a global effect.
fn add_up(table: &mut Builder) -> u32 {
    let body = add_slots(table);
    table.procedure(body, true)
}

/// The slots of area 0 from SLOT on, one for each process, added to TOTAL.
fn add_slots(table: &mut Builder) -> u32 {
    let add = |table: &mut Builder| add_slot(table, TOTAL, SLOT, 0);
    table.count_up(SLOT, Builder::count, add)
}

/// The total grows by the slot of an area.
fn add_slot(table: &mut Builder, total: u32, slot: u32, area: u32) -> u32 {
    let old = table.variable(total);
    let slot = table.variable(slot);
    let counted = table.gathered(slot, area);
    let new = table.sum(old, counted);
    table.assign(total, new)
}

/// Every process looks for its first empty door, the doors found are exchanged, and each process
/// opens its own. The only variable is DOOR.
///
/// It shows a leave under a local condition: one process goes round the loop more often than another,
/// so the loop has no global effect and the collective stands behind it.
pub fn search() -> Vec<u8> {
    let mut table = Builder::new(1, &[]);
    let find = find(&mut table, look_alone);
    let end = tell_and_open(&mut table);
    let body = table.sequence(find, end);
    table.procedure(body, true);
    table.bytes()
}

/// Door by door until the look leaves, with the door looked at in DOOR.
fn find(table: &mut Builder, look: impl Fn(&mut Builder) -> u32) -> u32 {
    let always = table.constant(1);
    let look = look(table);
    let next = table.increase(DOOR);
    let body = table.sequence(look, next);
    table.repeat(always, body)
}

/// Leaves at an empty door, or with 12 in DOOR, whose door word is 0 by the rules.
fn look_alone(table: &mut Builder) -> u32 {
    let door = table.variable(DOOR);
    let is_occupied = table.door(door);
    let pass = table.nothing();
    let found = table.leave();
    table.choose(is_occupied, pass, found)
}

/// Behind the search: the exchange, and the latch of the door found.
fn tell_and_open(table: &mut Builder) -> u32 {
    let door = table.variable(DOOR);
    let exchange = table.exchange(door, 0);
    let door = table.variable(DOOR);
    let opened = table.constant(1);
    let open = table.latch(door, opened);
    table.sequence(exchange, open)
}

/// Variables of the tariff change: the tariff, the same on all processes, and what is offered at a
/// process's own desk.
const TARIFF: u32 = 0;
const OFFERED: u32 = 1;

/// Process 1's offer becomes everyone's tariff. A tariff of 1,000 or more is shown only once all are
/// ready.
pub fn tariff() -> Vec<u8> {
    let mut table = Builder::new(2, &[TARIFF]);
    let offered = table.variable(OFFERED);
    let desk = table.constant(1);
    let send = table.broadcast(TARIFF, offered, desk);
    let limit = table.constant(999);
    let tariff = table.variable(TARIFF);
    let is_high = table.less(limit, tariff);
    let lamp = table.constant(1);
    let on = table.constant(1);
    let warn = table.latch(lamp, on);
    let together = table.barrier();
    let careful = table.sequence(warn, together);
    let pass = table.nothing();
    let prepare = table.choose(is_high, careful, pass);
    let sign = table.constant(0);
    let tariff = table.variable(TARIFF);
    let show = table.latch(sign, tariff);
    let rest = table.sequence(prepare, show);
    let body = table.sequence(send, rest);
    table.procedure(body, true);
    table.bytes()
}

/// A run program's input: length, table, number of processes, start words, turns.
pub fn run_input(table: &[u8], processes: u32, start: &[u32], turns: &[u8]) -> Vec<u8> {
    let mut input = input(table, &[processes], start);
    input.extend(turns);
    input
}

/// What all programs that start a team read: length, table, the numbers of the call, start words.
fn input(table: &[u8], numbers: &[u32], start: &[u32]) -> Vec<u8> {
    let length = bytes(&[table.len() as u32]);
    [length, table.to_vec(), bytes(numbers), bytes(start)].concat()
}

fn t2_two() -> Vec<u8> {
    run_input(&t2(), 2, &[0; 2 * 13], &[0, 0, 1, 1])
}

/// The doors of the sample's two processes: three and five are occupied.
const BAGS: [[u32; 12]; 2] = [
    [0, 1, 0, 0, 1, 0, 0, 0, 0, 0, 0, 1],
    [1, 1, 0, 0, 0, 1, 0, 0, 1, 1, 0, 0],
];

/// In turns: a step for process 0, one for process 1, and so on.
fn stocktake_run() -> Vec<u8> {
    let turns = [0, 1].repeat(STOCKTAKE_STEPS);
    run_input(&stocktake(), 2, &stocktake_start(), &turns)
}

/// The same in another order: process 1 goes first and waits, process 0 comes late and goes on to its
/// end. Both have turns to spare, which are idle; the last turn is that which ends the run.
fn stocktake_late_run() -> Vec<u8> {
    let turns = [[1; 80], [0; 80]].concat();
    let rest = vec![1; STOCKTAKE_STEPS - STOCKTAKE_MEETING];
    run_input(&stocktake(), 2, &stocktake_start(), &[turns, rest].concat())
}

/// The same, but the machine chooses: two processes, 1 counts as served last, at most 1,000 turns.
fn stocktake_serve() -> Vec<u8> {
    input(&stocktake(), &[2, 1, 1000], &stocktake_start())
}

fn stocktake_start() -> Vec<u32> {
    start_words(&[0; 4], &BAGS)
}

/// Every process has the same variables, and doors of its own.
fn start_words(variables: &[u32], doors: &[[u32; 12]]) -> Vec<u32> {
    doors
        .iter()
        .flat_map(|doors| variables.iter().chain(doors))
        .copied()
        .collect()
}

/// Steps that each process needs to the end.
const STOCKTAKE_STEPS: usize = 77;

/// Steps up to the exchange, with the arrival.
const STOCKTAKE_MEETING: usize = 65;

/// The doors of the search's three processes: the first empty one is 2, 0 and none.
const LOCKERS: [[u32; 12]; 3] = [
    [1, 1, 0, 1, 0, 0, 0, 0, 1, 0, 0, 0],
    [0, 1, 1, 0, 0, 0, 1, 0, 0, 0, 0, 1],
    [1; 12],
];

/// Each process goes to the exchange alone, one after another; behind it a step each.
fn search_run() -> Vec<u8> {
    let alone = |(process, steps)| vec![process; steps];
    let turns: Vec<u8> = (0..)
        .zip(SEARCH_STEPS)
        .flat_map(alone)
        .chain([0, 1, 2])
        .collect();
    run_input(&search(), 3, &start_words(&[0], &LOCKERS), &turns)
}

/// Steps that each process needs up to the exchange.
const SEARCH_STEPS: [usize; 3] = [17, 7, 67];

/// Three processes; 1,250 is offered at the desk of process 1.
fn tariff_run() -> Vec<u8> {
    let offers = [900, 1250, 0];
    let start: Vec<u32> = offers
        .iter()
        .flat_map(|&offer| [900, offer].into_iter().chain([0; 12]))
        .collect();
    run_input(&tariff(), 3, &start, &[0, 1, 2].repeat(TARIFF_STEPS))
}

/// Steps that each process needs to the end.
const TARIFF_STEPS: usize = 8;
