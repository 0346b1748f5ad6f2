//! The arrivals (the paper's roll) and their moves.

#[derive(Clone, Copy, Debug, Default, PartialEq, Eq)]
pub enum Status {
    #[default]
    Running,
    Waiting,
    Ended,
}

/// A process's record; unless it waits, node, value and source are 0.
#[derive(Clone, Copy, Debug, Default, PartialEq, Eq)]
pub struct Arrival {
    pub status: Status,
    pub node: u32,
    pub value: u32,
    pub source: u32,
}

impl Arrival {
    pub fn running() -> Arrival {
        Arrival::default()
    }

    pub fn arrive(self, node: usize, value: u32, source: u32) -> Arrival {
        Arrival {
            status: Status::Waiting,
            node: node as u32,
            value,
            source,
        }
    }

    pub fn resume(self) -> Arrival {
        Arrival::running()
    }

    pub fn end(self) -> Arrival {
        Arrival {
            status: Status::Ended,
            ..Arrival::default()
        }
    }
}

/// The node at which all processes wait, if there is one.
pub fn common_node(arrivals: &[Arrival]) -> Option<usize> {
    let node = arrivals.first()?.node;
    arrivals
        .iter()
        .all(|arrival| arrival.status == Status::Waiting && arrival.node == node)
        .then_some(node as usize)
}
