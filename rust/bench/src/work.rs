//! What is timed. Each piece of work is done by the library and by plain Rust, on buffers of their
//! own that are equal.

use crate::refused::{self, Refused, FULL, MIXED, STATEMENTS, SWITCHED};
use crate::{inputs, native, switched};
use finchchaise::{Answer, Event, LinkRefusal, Refusal, Served, TeamStatus, MOST_PROCESSES};
use finchchaise::{DEPTH_AT, DOORS, PROCESS_WORDS, ROLL_WORDS, SCRATCH_WORDS, STACK, STACK_AT};
use finchchaise_samples::stocktake;

const STOCKTAKE_VARIABLES: usize = 4;
const EXCHANGE: u8 = 25;
const RUNNING: u32 = 0;
const WAITING: u32 = 1;
const LIBRARY_PROCEDURES: usize = 8;
/// Turns that a call serves, and steps that they are compared with.
const TURNS: u32 = 1_000;

type Check = fn(&[u8], &mut [u32]) -> Result<(), Refusal>;
type Start = fn(&[u8], u32, &[u32], &mut [u32], &mut [u32]) -> Result<(), Refusal>;
type Step = fn(&[u8], &mut [u32], &mut [u32], u32) -> Result<Answer, Refusal>;
type Serve = fn(&[u8], &mut [u32], &mut [u32], u32, u32) -> Served;
type Link = fn(&[u8], &[u8], &mut [u8]) -> Result<(), LinkRefusal>;

/// The five calls, of either side.
#[derive(Clone, Copy)]
pub struct Side {
    check: Check,
    start: Start,
    step: Step,
    serve: Serve,
    link: Link,
}

pub const LIBRARY: Side = Side {
    check: finchchaise::check,
    start: finchchaise::start,
    step: finchchaise::step,
    serve: finchchaise::serve,
    link: finchchaise::link,
};

pub const NATIVE: Side = Side {
    check: native::check,
    start: native::start,
    step: native::step,
    serve: native::serve,
    link: native::link,
};

#[derive(Clone, Copy, Debug, PartialEq)]
enum Task {
    Check,
    /// The next process's step.
    Step,
    /// Process 0's step each time.
    Idle,
    /// The step of the process for which all others wait at an exchange.
    Exchange,
    /// A start and all steps to the end.
    Run,
    /// Many turns in one call.
    Serve,
    /// The same turns, in a call each.
    Steps,
    /// A library joined to the table.
    Join,
}

#[derive(Clone, Debug, PartialEq)]
pub struct Work {
    pub what: String,
    task: Task,
    table: Vec<u8>,
    /// What is joined to the table, and the output for it, if that is the task.
    library: Vec<u8>,
    joined: Vec<u8>,
    /// The question that the table fails first, and the check that it is compared with.
    pub refused_by: Option<(u32, &'static str)>,
    processes: u32,
    /// The exchange at which processes wait, if any do.
    exchange: u32,
    start_words: Vec<u32>,
    scratch: Vec<u32>,
    state: Vec<u32>,
    roll: Vec<u32>,
    /// The process that had the last step; after a start, the one before process 0.
    last: u32,
    /// Calls that ask the table's questions, so far.
    pub calls: usize,
    checked: Result<(), Refusal>,
    stepped: Option<Result<Answer, Refusal>>,
    served: Option<Served>,
    linked: Option<Result<(), LinkRefusal>>,
}

/// All that is timed, in the order in which it is printed.
pub fn all() -> Vec<Work> {
    let mut all = Vec::new();
    for procedures in [1, 16] {
        all.extend([16, 64, 256].map(|nodes| Work::check(nodes, procedures)));
    }
    all.push(Work::check_out_of_order());
    all.push(Work::check_left_early());
    all.push(Work::check_statements());
    all.extend(Work::checks_of_switches());
    for (nodes, procedures) in [(16, 1), (256, 16)] {
        all.extend([1, 4, 16].map(|processes| Work::step(nodes, procedures, processes)));
        all.push(Work::exchange(nodes, procedures));
    }
    all.push(Work::step_left_early());
    all.push(Work::idle());
    all.extend([2, 4, 16].map(Work::run));
    all.extend([32, 64, 128].map(Work::join));
    for (nodes, procedures, processes) in [(16, 1, 16), (256, 16, 4), (256, 16, 16)] {
        all.extend(Work::turns(nodes, procedures, processes));
    }
    all.extend(refused::all().into_iter().map(Work::refused_check));
    all
}

fn size(nodes: usize, procedures: usize, processes: u32) -> String {
    format!("N {nodes}, P {procedures}, processes {processes}")
}

impl Work {
    fn new(what: String, task: Task, table: Vec<u8>, variables: usize, processes: u32) -> Work {
        let count = processes as usize;
        let doors = (0..DOORS as u32).map(|door| door % 3 % 2);
        let given: Vec<u32> = vec![0; variables].into_iter().chain(doors).collect();
        Work {
            what,
            task,
            table,
            library: Vec::new(),
            joined: Vec::new(),
            refused_by: None,
            processes,
            exchange: 0,
            start_words: given.repeat(count),
            scratch: vec![0; SCRATCH_WORDS],
            state: vec![0; count * PROCESS_WORDS],
            roll: vec![0; count * ROLL_WORDS],
            last: processes - 1,
            calls: 0,
            checked: Ok(()),
            stepped: None,
            served: None,
            linked: None,
        }
    }

    fn check(nodes: usize, procedures: usize) -> Work {
        let what = format!("check, N {nodes}, P {procedures}");
        Work::check_of(what, inputs::table(nodes, procedures).bytes())
    }

    fn check_of(what: String, table: Vec<u8>) -> Work {
        Work::new(what, Task::Check, table, inputs::VARIABLES, 1)
    }

    fn check_out_of_order() -> Work {
        let table = inputs::out_of_order(&inputs::table(256, 16));
        Work::check_of(MIXED.to_string(), table.bytes())
    }

    fn check_left_early() -> Work {
        let table = inputs::left_early(256, 16);
        Work::check_of(format!("{FULL}, loops left early"), table.bytes())
    }

    fn check_statements() -> Work {
        Work::check_of(STATEMENTS.to_string(), inputs::statements(128).bytes())
    }

    /// Where what is never taken would be refused if it counted, and where not.
    fn checks_of_switches() -> [Work; 2] {
        let sound = format!("{SWITCHED}, nothing dead fails");
        [
            Work::check_of(SWITCHED.to_string(), switched::failing(256, 16).bytes()),
            Work::check_of(sound, switched::sound(256, 16).bytes()),
        ]
    }

    fn refused_check(refused: Refused) -> Work {
        let Refused {
            number,
            accepted,
            how,
            ..
        } = refused;
        let what = accepted.replacen("check", &format!("check refused by {number}"), 1) + how;
        Work {
            refused_by: Some((number, accepted)),
            scratch: vec![0; refused.scratch_words()],
            ..Work::check_of(what, refused.table)
        }
    }

    fn step(nodes: usize, procedures: usize, processes: u32) -> Work {
        let what = format!("step, {}", size(nodes, procedures, processes));
        Work::step_of(what, inputs::table(nodes, procedures).bytes(), processes)
    }

    fn step_of(what: String, table: Vec<u8>, processes: u32) -> Work {
        let mut work = Work::new(what, Task::Step, table, inputs::VARIABLES, processes);
        work.start(LIBRARY);
        work
    }

    fn step_left_early() -> Work {
        let what = "step, N 256, P 16, processes 4, loops left early".to_string();
        Work::step_of(what, inputs::left_early(256, 16).bytes(), 4)
    }

    /// Steps of the most processes, some of which are to wait at an exchange.
    fn at_exchange(what: String, task: Task, nodes: usize, procedures: usize) -> Work {
        let work = Work::step(nodes, procedures, MOST_PROCESSES as u32);
        let words = work.table.iter().step_by(4).skip(2 + procedures);
        let exchange = words
            .map(|byte| byte >> 3)
            .position(|kind| kind == EXCHANGE);
        Work {
            what,
            task,
            exchange: exchange.expect("an exchange") as u32,
            ..work
        }
    }

    /// The most that a step can have to read: every stack is full. Process 0 waits, so nothing
    /// changes.
    fn idle() -> Work {
        let what = "step of a waiting process, all stacks full".to_string();
        let mut work = Work::at_exchange(what, Task::Idle, 256, 16);
        let node = work.exchange;
        for words in work.state.chunks_exact_mut(PROCESS_WORDS) {
            words[DEPTH_AT] = STACK as u32;
            words[STACK_AT..].fill(node);
        }
        work.roll[..2].copy_from_slice(&[WAITING, node]);
        work
    }

    fn exchange(nodes: usize, procedures: usize) -> Work {
        let size = size(nodes, procedures, MOST_PROCESSES as u32);
        let what = format!("step that completes an exchange, {size}");
        Work::at_exchange(what, Task::Exchange, nodes, procedures)
    }

    /// All processes but the first, which runs, wait at the exchange that each has on top. Undoes
    /// what the step before has changed, but for the gathered words.
    fn wait_for_first(&mut self) {
        let node = self.exchange;
        for words in self.state.chunks_exact_mut(PROCESS_WORDS) {
            words[DEPTH_AT] = 2;
            words[STACK_AT..][..2].fill(node);
        }
        for (record, value) in self.roll.chunks_exact_mut(ROLL_WORDS).zip(0..).skip(1) {
            record.copy_from_slice(&[WAITING, node, value, 0]);
        }
    }

    fn run(processes: u32) -> Work {
        let what = format!("whole stocktake, processes {processes}");
        Work::new(what, Task::Run, stocktake(), STOCKTAKE_VARIABLES, processes)
    }

    /// Of two tables with so many nodes each; half of the program's procedures are stubs.
    fn join(nodes: usize) -> Work {
        let library = inputs::table(nodes, LIBRARY_PROCEDURES);
        let program = inputs::program_for(&library, nodes);
        let what = format!(
            "join, N {nodes} and {nodes}, P {LIBRARY_PROCEDURES} and {}",
            program.procedures.len()
        );
        let (library, program) = (library.bytes(), program.bytes());
        let length = finchchaise::joined_length(&library, &program);
        Work {
            joined: vec![0; length.expect("tables that fit")],
            library,
            ..Work::new(what, Task::Join, program, inputs::VARIABLES, 1)
        }
    }

    /// Steps, and the same turns served: the table repeats its main body for ever.
    fn turns(nodes: usize, procedures: usize, processes: u32) -> [Work; 2] {
        let size = size(nodes, procedures, processes);
        [(Task::Steps, "steps"), (Task::Serve, "turns served")].map(|(task, name)| Work {
            what: format!("{TURNS} {name}, {size}"),
            task,
            ..Work::step(nodes, procedures, processes)
        })
    }

    pub fn is_of_turns(&self) -> bool {
        matches!(self.task, Task::Serve | Task::Steps)
    }

    /// Whether these are the steps that turns of the other's table and team are compared with.
    pub fn is_steps_of(&self, turns: &Work) -> bool {
        self.task == Task::Steps && self.table == turns.table && self.processes == turns.processes
    }

    /// Whether the two have come to the same words, and the same process had the last step.
    #[cfg(test)]
    pub fn stands_as(&self, other: &Work) -> bool {
        (&self.state, &self.roll, self.last) == (&other.state, &other.roll, other.last)
    }

    /// Of all tables that a call reads.
    pub fn table_words(&self) -> usize {
        (self.table.len() + self.library.len()) / 4
    }

    pub fn once(&mut self, side: Side) {
        match self.task {
            Task::Check => {
                self.calls += 1;
                self.checked = (side.check)(&self.table, &mut self.scratch);
            }
            Task::Step => {
                self.take_step(side, self.after(self.last));
            }
            Task::Idle => {
                self.take_step(side, 0);
            }
            Task::Exchange => {
                self.wait_for_first();
                self.take_step(side, 0);
            }
            Task::Run => {
                self.start(side);
                while self.take_step(side, self.after(self.last)) == Some(TeamStatus::Going) {}
            }
            Task::Serve => self.serve(side),
            Task::Steps => self.take_steps(side),
            Task::Join => {
                self.calls += 1;
                self.linked = Some((side.link)(&self.library, &self.table, &mut self.joined));
            }
        }
    }

    fn start(&mut self, side: Side) {
        let Work {
            table, state, roll, ..
        } = self;
        self.calls += 1;
        self.last = self.processes - 1;
        self.checked = (side.start)(table, self.processes, &self.start_words, state, roll);
    }

    fn take_step(&mut self, side: Side, process: u32) -> Option<TeamStatus> {
        let Work {
            table, state, roll, ..
        } = self;
        let answer = (side.step)(table, state, roll, process);
        self.calls += 1;
        self.last = process;
        self.stepped = Some(answer);
        answer.ok().map(|answer| answer.team)
    }

    fn take_steps(&mut self, side: Side) {
        for _ in 0..TURNS {
            if self.take_step(side, self.next_running()) != Some(TeamStatus::Going) {
                break;
            }
        }
    }

    fn serve(&mut self, side: Side) {
        let Work {
            table, state, roll, ..
        } = self;
        let served = (side.serve)(table, state, roll, self.last, TURNS);
        self.calls += 1;
        self.last = served.last;
        self.served = Some(served);
    }

    fn after(&self, process: u32) -> u32 {
        match process + 1 == self.processes {
            true => 0,
            false => process + 1,
        }
    }

    /// Of a team that is going.
    fn next_running(&self) -> u32 {
        let mut process = self.after(self.last);
        while self.roll[ROLL_WORDS * process as usize] != RUNNING {
            process = self.after(process);
        }
        process
    }

    /// Only a refused check may be refused, and by its question, an exchange must be completed, all
    /// turns must be made, and tables must be joined: another call takes another time.
    pub fn is_as_expected(&self) -> bool {
        let refused_by = self.checked.err().map(|refusal| refusal.number);
        let is_checked = refused_by == self.refused_by.map(|(number, _)| number);
        let is_stepped = match self.stepped {
            Some(Ok(Answer { event, team })) => match self.task {
                Task::Exchange => event == Event::Completed(self.exchange),
                Task::Steps => team == TeamStatus::Going,
                _ => true,
            },
            Some(Err(_)) => false,
            None => true,
        };
        let is_served = self
            .served
            .is_none_or(|served| served.made == TURNS && served.refusal.is_none());
        let is_linked = self.linked.is_none_or(|linked| linked.is_ok());
        is_checked && is_stepped && is_served && is_linked
    }
}
