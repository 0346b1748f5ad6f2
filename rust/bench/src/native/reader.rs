//! Questions 7 to 17 and 26, in one pass over the nodes.

use super::leaves::{is_left_locally, pass_on};
use super::planes::{PassScratch, Plane, Planes, Scratch, PASS_WORDS};
use super::refusal::{call_going_up, misused, question_failed, refused, stray_leave, Fault};
use super::switches::judge_live;
use super::table::{has_effect, is_statement, Node, Table, A, B, BEYOND_AREAS, C};
use finchchaise::{Refusal, SCRATCH_WORDS};

pub fn check(table: &[u8], scratch: &mut [u32]) -> Result<(), Refusal> {
    let Some(words) = scratch.first_chunk_mut() else {
        return refused(1, 0);
    };
    *words = [0; SCRATCH_WORDS];
    let answer = Table::of(table).and_then(|table| judge(&table, words));
    *words = [0; SCRATCH_WORDS];
    answer
}

/// Questions 7 to 17 and 26. What 13 to 17 accept of all nodes, they accept of those that count.
#[inline(always)]
fn judge(table: &Table, words: &mut Scratch) -> Result<(), Refusal> {
    let first = words.first_chunk_mut().expect("words of fewer planes");
    match ask::<true>(table, first) {
        Err(refusal) if (13..=17).contains(&refusal.number) => judge_live(table, words, refusal),
        answer => answer,
    }
}

/// A table that has passed questions 2 to 12 and 26.
pub fn read(table: &[u8]) -> Result<Table<'_>, Refusal> {
    let table = Table::of(table)?;
    ask::<false>(&table, &mut [0; PASS_WORDS])?;
    Ok(table)
}

/// Questions 7 to 12 and 26, and 13 to 17 of all nodes if the table is judged. The words are 0.
#[inline(always)]
fn ask<const JUDGED: bool>(table: &Table, words: &mut PassScratch) -> Result<(), Refusal> {
    let mut reader = Reader::<JUDGED>::of(table, words);
    match reader.read() {
        Some(()) => reader.answer(),
        None => reader.refuse(),
    }
}

struct Reader<'table, const JUDGED: bool> {
    table: &'table Table<'table>,
    planes: Planes<'table>,
    /// The nodes before the one that is read now.
    before: &'table [[u8; 4]],
    /// The first node that is not read yet.
    next: usize,
    /// How often nodes were named as parts and bodies.
    uses: usize,
    /// Whether each procedure's nodes lie together, in the order of the procedures.
    in_blocks: bool,
    /// The first call that does not go down, if they do.
    goes_up: Fault,
    /// Until there is a leave, nobody looks for one.
    has_leaves: bool,
    /// Whether some leave has no while around it.
    strays: bool,
    /// The least of 13 to 17.
    rule: Fault,
}

impl<'table, const JUDGED: bool> Reader<'table, JUDGED> {
    fn of(table: &'table Table, words: &'table mut PassScratch) -> Self {
        Reader {
            table,
            planes: Planes::of(words),
            before: &[],
            next: 0,
            uses: 0,
            in_blocks: true,
            goes_up: Fault::NONE,
            has_leaves: false,
            strays: false,
            rule: Fault::NONE,
        }
    }

    /// Each procedure's nodes up to its body, then the body. If that makes as many uses as nodes,
    /// all nodes so far belong to procedures up to this one: they lie in blocks. `None` if one of 7
    /// to 10 fails, or if nodes are left above all bodies, of which nothing can use the last.
    #[inline(always)]
    fn read(&mut self) -> Option<()> {
        for (procedure, word) in self.table.procedures.iter().enumerate() {
            let body = word[0] as usize;
            self.read_nodes(procedure, &self.table.nodes[..=body])?;
            if !self.table.is_statement(body) {
                return None;
            }
            if self.has_leaves && self.planes.take(Plane::Leaves, body) {
                self.strays = true;
            }
            let effect = self.part(body);
            self.in_blocks &= self.uses == self.next;
            if effect && !has_effect(word) {
                self.rule = self.rule.or(17, procedure);
            }
        }
        (self.next == self.table.nodes.len()).then_some(())
    }

    #[inline(always)]
    fn read_nodes(&mut self, procedure: usize, nodes: &'table [[u8; 4]]) -> Option<()> {
        for number in self.next..nodes.len() {
            self.next = number;
            self.before = &nodes[..number];
            if self.read_node(procedure, Node::of(nodes[number]))? && JUDGED {
                self.planes.put(Plane::Fact, number);
            }
        }
        self.next = self.next.max(nodes.len());
        Some(())
    }

    /// Questions 11, 12, 26 and 13 to 17 of a table that passes 7 to 10.
    #[inline(always)]
    fn answer(mut self) -> Result<(), Refusal> {
        // As many uses as nodes, and every node used: none is used twice. A node that still leaves
        // is not used, whatever its bit.
        let unused = self.planes.lowest(|[used, _, leaves]| !used | leaves);
        let nodes = self.table.nodes.len();
        if self.uses != nodes || unused < nodes {
            return refused(11, misused(self.table, &mut self.planes));
        }
        match self.in_blocks {
            true => self.goes_up.answer()?,
            false => call_going_up(self.table, &mut self.planes).answer()?,
        }
        if self.strays {
            return refused(26, stray_leave(self.table, &mut self.planes));
        }
        self.rule.answer()
    }

    /// The least of 7 to 11 of a table that was not read to its end.
    #[cold]
    #[inline(never)]
    fn refuse(mut self) -> Result<(), Refusal> {
        let Table {
            procedures, nodes, ..
        } = self.table;
        let mut fault = Fault::NONE;
        for number in self.next..nodes.len() {
            self.before = &nodes[..number];
            let node = Node::of(nodes[number]);
            if self.read_node(0, node).is_none() {
                fault = fault.or(question_failed(node), number);
            }
        }
        fault.answer()?;
        let is_unfit = |word: &[u8; 4]| !self.table.is_statement(word[0] as usize);
        match procedures.iter().position(is_unfit) {
            Some(procedure) => refused(10, procedure),
            None => refused(11, misused(self.table, &mut self.planes)),
        }
    }
}

/// Questions 7 to 9 and 13 to 16 of a node: its fact, or `None` if 7, 8 or 9 fails.
impl<const JUDGED: bool> Reader<'_, JUDGED> {
    #[inline(always)]
    fn read_node(&mut self, procedure: usize, node: Node) -> Option<bool> {
        match node.kind() {
            0 => node.unnamed(A).map(|()| false),
            1 => self.variable(node),
            2 | 23 => node.unnamed(A | B | C).map(|()| true),
            3 | 16 => node.unnamed(A | B | C).map(|()| false),
            4 => self.unary(node, B | C).map(|_| true),
            5 => self.unary(node, BEYOND_AREAS | C),
            25 => self.unary(node, BEYOND_AREAS | C).map(|_| true),
            6..=12 => self.binary(node),
            17 => self.assign(node),
            18 => self.sequence(node),
            19 => self.choose(node),
            20 => self.repeat(node),
            21 => self.call(procedure, node),
            22 => self.binary(node).map(|_| false),
            24 => self.broadcast(node),
            26 => self.leave(node),
            _ => None,
        }
    }

    #[inline(always)]
    fn variable(&mut self, node: Node) -> Option<bool> {
        node.unnamed(B | C)?;
        self.table.variable(node.a()).map(|is_single| !is_single)
    }

    #[inline(always)]
    fn unary(&mut self, node: Node, unnamed: u32) -> Option<bool> {
        node.unnamed(unnamed)?;
        self.expression(node.a())
    }

    #[inline(always)]
    fn binary(&mut self, node: Node) -> Option<bool> {
        node.unnamed(C)?;
        Some(self.expression(node.a())? | self.expression(node.b())?)
    }

    #[inline(always)]
    fn assign(&mut self, node: Node) -> Option<bool> {
        node.unnamed(C)?;
        let effect = self.table.variable(node.a())?;
        let local = self.expression(node.b())?;
        self.ruled(13, effect, local)
    }

    #[inline(always)]
    fn sequence(&mut self, node: Node) -> Option<bool> {
        node.unnamed(C)?;
        self.pass_on(node.a(), node.b(), false);
        Some(self.statement(node.a())? | self.statement(node.b())?)
    }

    #[inline(always)]
    fn choose(&mut self, node: Node) -> Option<bool> {
        let local = self.expression(node.a())?;
        self.pass_on(node.b(), node.c(), local);
        let effect = self.statement(node.b())? | self.statement(node.c())?;
        self.ruled(15, effect, local)
    }

    /// If it is left locally, its condition counts as local.
    #[inline(always)]
    fn repeat(&mut self, node: Node) -> Option<bool> {
        node.unnamed(C)?;
        let local = self.expression(node.a())? | self.is_left_locally(node.b());
        let effect = self.statement(node.b())?;
        self.ruled(16, effect, local)
    }

    /// The flag decides, not the body.
    #[inline(always)]
    fn call(&mut self, procedure: usize, node: Node) -> Option<bool> {
        node.unnamed(B | C)?;
        let called = self.table.procedures.get(node.a())?;
        if node.a() >= procedure {
            self.goes_up = self.goes_up.or(12, self.before.len());
        }
        Some(has_effect(called))
    }

    #[inline(always)]
    fn broadcast(&mut self, node: Node) -> Option<bool> {
        self.table.variable(node.a())?;
        self.expression(node.b())?;
        let local = self.expression(node.c())?;
        self.ruled(14, true, local)
    }

    #[inline(always)]
    fn leave(&mut self, node: Node) -> Option<bool> {
        node.unnamed(A | B | C)?;
        self.has_leaves = true;
        self.planes.put(Plane::Leaves, self.before.len());
        Some(false)
    }
}

/// The parts of a node.
impl<const JUDGED: bool> Reader<'_, JUDGED> {
    /// Whether it is not single, or `None` if it is no expression before the node.
    #[inline(always)]
    fn expression(&mut self, part: usize) -> Option<bool> {
        let word = self.before.get(part)?;
        (!is_statement(word)).then(|| self.part(part))
    }

    /// Whether it has a global effect, or `None` if it is no statement before the node.
    #[inline(always)]
    fn statement(&mut self, part: usize) -> Option<bool> {
        let word = self.before.get(part)?;
        is_statement(word).then(|| self.part(part))
    }

    /// The fact of a part or a body, which has one use more.
    #[inline(always)]
    fn part(&mut self, node: usize) -> bool {
        self.uses += 1;
        self.planes.put(Plane::Used, node);
        JUDGED && self.planes.has(Plane::Fact, node)
    }

    /// What has an effect may not depend on a local expression.
    #[inline(always)]
    fn ruled(&mut self, question: u32, effect: bool, local: bool) -> Option<bool> {
        if effect && local {
            self.rule = self.rule.or(question, self.before.len());
        }
        Some(effect)
    }

    /// The parts are not marked as used yet.
    #[inline(always)]
    fn pass_on(&mut self, first: usize, second: usize, local: bool) {
        if self.has_leaves {
            pass_on(&mut self.planes, self.before.len(), [first, second], local);
        }
    }

    /// Of a while's body, which is not marked as used yet.
    #[inline(always)]
    fn is_left_locally(&mut self, body: usize) -> bool {
        self.has_leaves && is_left_locally(&mut self.planes, body)
    }
}
