//! What a comparison has covered of gathered areas (the paper's rosters).

use crate::both::Team;
use crate::leaves::stack;
use crate::shape::{fields, parts, Field, EXCHANGE, GATHERED};
use crate::tree::{nodes_of, with_nodes, Node};
use crate::words;
use finchchaise::{Answer, Event, Refusal, GATHERED_AREAS, SCRATCH_WORDS};

/// What a call shows of areas.
#[derive(Clone, Copy, Debug, PartialEq)]
pub enum Area {
    /// A step brought an exchange into this one about.
    Filled(u32),
    /// A step came out otherwise than if all that is read were read of area 0.
    Read,
    /// A table is refused with 9 at a node, and would not be if that node named area 0.
    Beyond,
}

/// In the order of their places.
pub const AREAS: [&str; GATHERED_AREAS + 2] = [
    "into area 0",
    "into area 1",
    "into area 2",
    "into area 3",
    "read of another area",
    "9 by an area",
];

impl Area {
    pub fn place(self) -> usize {
        match self {
            Area::Filled(area) => area as usize,
            Area::Read => GATHERED_AREAS,
            Area::Beyond => GATHERED_AREAS + 1,
        }
    }
}

/// What a check shows.
pub fn of_check(table: &[u8], answer: Result<(), Refusal>) -> Option<Area> {
    let Err(Refusal { number: 9, place }) = answer else {
        return None;
    };
    let mended = with_area_0(table, |number, _| number == place as usize);
    (words::check(&mended, &mut [0; SCRATCH_WORDS]) != answer).then_some(Area::Beyond)
}

/// What a step shows of a team that had this state and roll before it.
pub fn of_step(
    team: &Team,
    state: &[u32],
    roll: &[u32],
    process: u32,
    answer: Result<Answer, Refusal>,
) -> Vec<Area> {
    let Ok(Answer { event, .. }) = answer else {
        return vec![];
    };
    let nodes: Vec<Node> = nodes_of(team.table()).collect();
    let mut areas = Vec::new();
    if let Event::Completed(node) = event {
        let [kind, _, area, _] = nodes[node as usize];
        areas.extend((kind == EXCHANGE).then_some(Area::Filled(area)));
    }
    let top = stack(state, process).and_then(<[u32]>::last);
    if top.is_some_and(|&top| reads_another(&nodes, top)) {
        let (mut state, mut roll) = (state.to_vec(), roll.to_vec());
        let changed = with_area_0(team.table(), |_, kind| kind == GATHERED);
        let other = words::step(&changed, &mut state, &mut roll, process);
        let is_same = (other, &state[..], &roll[..]) == (answer, team.state(), team.roll());
        areas.extend((!is_same).then_some(Area::Read));
    }
    areas
}

/// Whether an area other than 0 is read where the node is evaluated or worked on.
fn reads_another(nodes: &[Node], node: u32) -> bool {
    let node = nodes[node as usize];
    let [kind, _, area, _] = node;
    let is_expression = |place: &usize| fields(kind)[place - 1] == Field::Expression;
    let mut expressions = parts(kind).filter(is_expression);
    kind == GATHERED && area != 0 || expressions.any(|place| reads_another(nodes, node[place]))
}

/// The table with area 0 in some of the nodes that name an area, by their numbers and kinds.
fn with_area_0(table: &[u8], is_changed: impl Fn(usize, u32) -> bool) -> Vec<u8> {
    with_nodes(table, |number, word| {
        let kind = word >> 27;
        match fields(kind)[1] == Field::Area && is_changed(number, kind) {
            true => word & !(0x1FF << 9),
            false => word,
        }
    })
}
