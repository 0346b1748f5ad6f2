//! Refusals, and what only some tables need: places of refusals, and the walk of question 12. The
//! planes then serve other ends.

use super::planes::{Plane, Planes};
use super::table::{Node, Table, A, B, C};
use finchchaise::Refusal;

#[cold]
pub fn refused<T>(number: u32, place: usize) -> Result<T, Refusal> {
    let place = place as u32;
    Err(Refusal { number, place })
}

/// A question that fails and its place, or none. The least is the one to answer with.
#[derive(Clone, Copy, PartialEq, Eq, PartialOrd, Ord)]
pub struct Fault(u32);

impl Fault {
    pub const NONE: Fault = Fault(u32::MAX);

    #[cold]
    pub fn or(self, number: u32, place: usize) -> Fault {
        self.min(Fault(number << 8 | place as u32))
    }

    #[inline(always)]
    pub fn answer(self) -> Result<(), Refusal> {
        match self {
            Fault::NONE => Ok(()),
            Fault(fault) => refused(fault >> 8, (fault & 0xFF) as usize),
        }
    }
}

/// Which one of 7, 8 and 9 fails at a node where one does.
pub fn question_failed(node: Node) -> u32 {
    let unnamed = match node.kind() {
        0 => A,
        1 | 4 | 21 => B | C,
        2 | 3 | 16 | 23 | 26 => A | B | C,
        5..=12 | 17 | 18 | 20 | 22 | 25 => C,
        19 | 24 => 0,
        _ => return 7,
    };
    node.unnamed(unnamed).map_or(8, |()| 9)
}

/// Question 11: the lowest node that is used never or more than once.
#[cold]
#[inline(never)]
pub fn misused(table: &Table, planes: &mut Planes) -> usize {
    const ONCE: Plane = Plane::Used;
    const AGAIN: Plane = Plane::Fact;
    planes.clear();
    let mut note = |node| {
        if planes.has(ONCE, node) {
            planes.put(AGAIN, node);
        }
        planes.put(ONCE, node);
    };
    (0..table.procedures.len()).for_each(|procedure| note(table.body(procedure)));
    for &word in table.nodes {
        let node = Node::of(word);
        let (a, b, c) = (node.a(), node.b(), node.c());
        match node.kind() {
            4 | 5 | 25 => note(a),
            6..=12 | 18 | 20 | 22 => [a, b].into_iter().for_each(&mut note),
            17 => note(b),
            19 => [a, b, c].into_iter().for_each(&mut note),
            24 => [b, c].into_iter().for_each(&mut note),
            _ => (),
        }
    }
    planes.lowest(|[once, again, _]| !once | again)
}

/// The plane of the walk of question 12. The facts may be needed after it.
const WAITS: Plane = Plane::Used;

/// Question 12 of procedures that do not lie in blocks: the lowest call that goes to its own
/// procedure or a higher one.
#[inline(never)]
pub fn call_going_up(table: &Table, planes: &mut Planes) -> Fault {
    planes.clear_plane(WAITS);
    let procedures = 0..table.procedures.len();
    let calls = procedures.map(|procedure| call_in(table, planes, procedure));
    calls.min().unwrap_or(Fault::NONE)
}

/// The same of one procedure. Walks down its statements; where both parts may hold a call, one
/// waits.
fn call_in(table: &Table, planes: &mut Planes, procedure: usize) -> Fault {
    let mut fault = Fault::NONE;
    let mut holds = |statement: usize| {
        let node = table.node(statement);
        if node.kind() == 21 && node.a() >= procedure {
            fault = fault.or(12, statement);
        }
        matches!(node.kind(), 18..=20)
    };
    let body = table.body(procedure);
    let mut next = holds(body).then_some(body);
    while let Some(statement) = next {
        let node = table.node(statement);
        // A while has one part.
        let (first, last) = match node.kind() {
            18 => (node.a(), node.b()),
            19 => (node.b(), node.c()),
            _ => (node.b(), node.b()),
        };
        next = match (holds(first), holds(last)) {
            (true, true) if first != last => {
                planes.put(WAITS, first);
                Some(last)
            }
            (true, _) => Some(first),
            (false, true) => Some(last),
            (false, false) => planes.take_any(WAITS),
        };
    }
    fault
}

/// Question 26: the lowest leave that has no while around it. What stands in a while is found from
/// the highest node down.
#[cold]
#[inline(never)]
pub fn stray_leave(table: &Table, planes: &mut Planes) -> usize {
    const ENCLOSED: Plane = Plane::Leaves;
    planes.clear();
    let mut lowest = 0;
    for number in (0..table.nodes.len()).rev() {
        let node = table.node(number);
        let is_enclosed = planes.has(ENCLOSED, number);
        let enclose = |part| planes.put(ENCLOSED, part);
        match node.kind() {
            20 => planes.put(ENCLOSED, node.b()),
            18 if is_enclosed => [node.a(), node.b()].into_iter().for_each(enclose),
            19 if is_enclosed => [node.b(), node.c()].into_iter().for_each(enclose),
            26 if !is_enclosed => lowest = number,
            _ => (),
        }
    }
    lowest
}
