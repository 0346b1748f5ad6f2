//! A table, built node by node. Each method puts one node behind those that are there and answers
//! its number, so parts stand below the nodes that name them.

/// Nothing is checked here: the checker is there for that, and tests also build wrong tables.
#[derive(Clone, Default)]
pub struct Builder {
    pub variables: u32,
    /// The numbers of the single variables.
    pub single: Vec<u32>,
    /// Body and effect flag; the last is the main procedure.
    pub procedures: Vec<(u32, bool)>,
    /// Kind, A, B, C.
    pub nodes: Vec<[u32; 4]>,
}

impl Builder {
    pub fn new(variables: u32, single: &[u32]) -> Builder {
        Builder {
            variables,
            single: single.to_vec(),
            ..Builder::default()
        }
    }

    pub fn node(&mut self, kind: u32, a: u32, b: u32, c: u32) -> u32 {
        self.nodes.push([kind, a, b, c]);
        self.nodes.len() as u32 - 1
    }

    /// A procedure's number.
    pub fn procedure(&mut self, body: u32, effect: bool) -> u32 {
        self.procedures.push((body, effect));
        self.procedures.len() as u32 - 1
    }

    pub fn words(&self) -> Vec<u32> {
        let procedures = self.procedures.len() as u32;
        let nodes = self.nodes.len() as u32;
        let header = 1 << 28 | self.variables << 22 | procedures << 17 | nodes << 8;
        let flags = self.single.iter().fold(0, |flags, a| flags | 1 << (31 - a));
        let mut words = vec![header, flags];
        let procedure = |&(body, effect): &(u32, bool)| body << 24 | (effect as u32) << 23;
        words.extend(self.procedures.iter().map(procedure));
        let node = |[kind, a, b, c]: &[u32; 4]| kind << 27 | a << 18 | b << 9 | c;
        words.extend(self.nodes.iter().map(node));
        words
    }

    pub fn bytes(&self) -> Vec<u8> {
        bytes(&self.words())
    }
}

/// High byte first.
pub fn bytes(words: &[u32]) -> Vec<u8> {
    words.iter().flat_map(|word| word.to_be_bytes()).collect()
}

/// Expressions.
impl Builder {
    /// At most 262,143.
    pub fn constant(&mut self, value: u32) -> u32 {
        self.node(0, 0, value / 512, value % 512)
    }

    pub fn variable(&mut self, variable: u32) -> u32 {
        self.node(1, variable, 0, 0)
    }

    pub fn own_number(&mut self) -> u32 {
        self.node(2, 0, 0, 0)
    }

    pub fn count(&mut self) -> u32 {
        self.node(3, 0, 0, 0)
    }

    pub fn door(&mut self, door: u32) -> u32 {
        self.node(4, door, 0, 0)
    }

    /// An area is the paper's roster, 0 to 3.
    pub fn gathered(&mut self, slot: u32, area: u32) -> u32 {
        self.node(5, slot, area, 0)
    }

    pub fn sum(&mut self, left: u32, right: u32) -> u32 {
        self.node(6, left, right, 0)
    }

    pub fn less(&mut self, left: u32, right: u32) -> u32 {
        self.node(10, left, right, 0)
    }

    pub fn equal(&mut self, left: u32, right: u32) -> u32 {
        self.node(11, left, right, 0)
    }
}

/// Statements.
impl Builder {
    pub fn nothing(&mut self) -> u32 {
        self.node(16, 0, 0, 0)
    }

    pub fn assign(&mut self, variable: u32, value: u32) -> u32 {
        self.node(17, variable, value, 0)
    }

    pub fn sequence(&mut self, first: u32, second: u32) -> u32 {
        self.node(18, first, second, 0)
    }

    pub fn choose(&mut self, condition: u32, then: u32, otherwise: u32) -> u32 {
        self.node(19, condition, then, otherwise)
    }

    pub fn repeat(&mut self, condition: u32, body: u32) -> u32 {
        self.node(20, condition, body, 0)
    }

    pub fn call(&mut self, procedure: u32) -> u32 {
        self.node(21, procedure, 0, 0)
    }

    pub fn latch(&mut self, latch: u32, value: u32) -> u32 {
        self.node(22, latch, value, 0)
    }

    pub fn barrier(&mut self) -> u32 {
        self.node(23, 0, 0, 0)
    }

    pub fn broadcast(&mut self, variable: u32, value: u32, source: u32) -> u32 {
        self.node(24, variable, value, source)
    }

    pub fn exchange(&mut self, value: u32, area: u32) -> u32 {
        self.node(25, value, area, 0)
    }

    pub fn leave(&mut self) -> u32 {
        self.node(26, 0, 0, 0)
    }
}

/// Statements of several nodes.
impl Builder {
    /// The variable takes a constant: two nodes.
    pub fn set(&mut self, variable: u32, value: u32) -> u32 {
        let value = self.constant(value);
        self.assign(variable, value)
    }

    /// The variable takes its own value and one more: four nodes.
    pub fn increase(&mut self, variable: u32) -> u32 {
        let old = self.variable(variable);
        let one = self.constant(1);
        let new = self.sum(old, one);
        self.assign(variable, new)
    }

    /// Statements one after another, of which there is at least one.
    pub fn row(&mut self, statements: &[u32]) -> u32 {
        let (last, before) = statements.split_last().expect("a statement");
        let backwards = before.iter().rev();
        backwards.fold(*last, |rest, &first| self.sequence(first, rest))
    }

    /// The body for each number from the variable's on, while it is less than the limit.
    pub fn count_up(
        &mut self,
        variable: u32,
        limit: impl Fn(&mut Builder) -> u32,
        body: impl Fn(&mut Builder) -> u32,
    ) -> u32 {
        let number = self.variable(variable);
        let limit = limit(self);
        let any_left = self.less(number, limit);
        let body = body(self);
        let next = self.increase(variable);
        let body = self.sequence(body, next);
        self.repeat(any_left, body)
    }
}
