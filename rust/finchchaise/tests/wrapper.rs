//! What the wrapper adds to the library's numbers: types, printed words, views. Whether the library
//! answers rightly is compared elsewhere, in rust/compare.

use finchchaise::{check, copy_latches, joined_length, latches, link, serve, start, step};
use finchchaise::{Answer, Arrival, Event, LinkRefusal, LinkedTable, Refusal, Served, Status};
use finchchaise::{TeamStatus, DEPTH_AT, DOORS, LATCHES_AT, PROCESS_WORDS, ROLL_WORDS};
use finchchaise::{SCRATCH_WORDS, STACK, STACK_AT};

fn bytes(words: &[u32]) -> Vec<u8> {
    words.iter().flat_map(|word| word.to_be_bytes()).collect()
}

/// If own number (T1) or number of processes (T2) then barrier else nothing.
fn table(condition: u32) -> Vec<u8> {
    bytes(&[
        0x10420400, 0, 0x03800000, condition, 0xB8000000, 0x80000000, 0x98000202,
    ])
}

fn t1() -> Vec<u8> {
    table(0x10000000)
}

fn t2() -> Vec<u8> {
    table(0x18000000)
}

/// Nothing, then nothing: node 2.
fn sequence() -> Vec<u8> {
    bytes(&[
        0x10420300, 0, 0x02000000, 0x80000000, 0x80000000, 0x90000200,
    ])
}

struct Team {
    table: Vec<u8>,
    state: Vec<u32>,
    roll: Vec<u32>,
}

impl Team {
    fn started(table: Vec<u8>) -> Team {
        let mut team = Team {
            table,
            state: vec![7; 2 * PROCESS_WORDS],
            roll: vec![7; 2 * ROLL_WORDS],
        };
        let Team { table, state, roll } = &mut team;
        start(table, 2, &[0; 2 * (1 + DOORS)], state, roll).expect("a start");
        team
    }

    fn step(&mut self, process: u32) -> Result<Answer, Refusal> {
        step(&self.table, &mut self.state, &mut self.roll, process)
    }

    fn serve(&mut self, last: u32, turns: u32) -> Served {
        serve(&self.table, &mut self.state, &mut self.roll, last, turns)
    }

    fn printed(&mut self, processes: &[u32]) -> Vec<String> {
        let line = |&process: &u32| match self.step(process) {
            Ok(answer) => answer.to_string(),
            Err(refusal) => refusal.to_string(),
        };
        processes.iter().map(line).collect()
    }
}

#[test]
fn refusals_have_number_and_place() {
    let refused = check(&t1(), &mut [0; SCRATCH_WORDS]).expect_err("a refusal");
    assert_eq!((refused.number, refused.place), (15, 3));
    assert_eq!(refused.to_string(), "refused 15 3");
    assert_eq!(check(&t2(), &mut [0; SCRATCH_WORDS]), Ok(()));
    assert_eq!(
        check(&t2(), &mut []).map_err(|refusal| refusal.number),
        Err(1)
    );
    let beyond = Refusal {
        number: 22,
        place: u32::MAX,
    };
    assert_eq!(Team::started(t2()).step(u32::MAX), Err(beyond));
}

#[test]
fn answers_are_printed_as_the_run_program_does() {
    let printed = Team::started(t2()).printed(&[0, 0, 0, 1, 1, 1, 2]);
    assert_eq!(
        printed,
        [
            "moved 0 going",
            "arrived 1 going",
            "waits 0 going",
            "moved 0 going",
            "met 1 done",
            "ended 0 done",
            "refused 22 2"
        ]
    );
    let printed = Team::started(t1()).printed(&[0, 0, 1, 1]);
    assert_eq!(printed[1], "finished 0 going");
    assert_eq!(printed[3], "arrived 1 crossed");
}

#[test]
fn answers_are_typed() {
    let mut team = Team::started(t2());
    let answer = |event, team| Ok(Answer { event, team });
    assert_eq!(team.step(0), answer(Event::Moved, TeamStatus::Going));
    assert_eq!(team.step(0), answer(Event::Arrived(1), TeamStatus::Going));
    assert_eq!(team.step(1), answer(Event::Moved, TeamStatus::Going));
    assert_eq!(team.step(1), answer(Event::Completed(1), TeamStatus::Done));
}

#[test]
fn served_turns_are_counted_and_stand() {
    let served = |made, last, refusal| Served {
        made,
        last,
        refusal,
    };
    let mut team = Team::started(t2());
    assert_eq!(team.serve(1, 0), served(0, 1, None));
    assert_eq!(team.serve(1, 3), served(3, 0, None));
    assert_eq!(team.serve(0, 9), served(1, 1, None));
    let beyond = Refusal {
        number: 22,
        place: u32::MAX,
    };
    assert_eq!(team.serve(u32::MAX, 9), served(0, u32::MAX, Some(beyond)));

    // Process 1 has no free place on its stack, where one is needed.
    let mut team = Team::started(sequence());
    let words = &mut team.state[PROCESS_WORDS..];
    words[DEPTH_AT] = STACK as u32;
    words[STACK_AT..].fill(2);
    let full = Refusal {
        number: 24,
        place: 1,
    };
    assert_eq!(team.serve(1, 9), served(1, 0, Some(full)));
    assert_eq!(team.state[DEPTH_AT], 2);
}

#[test]
fn arrivals_are_read_out_of_the_roll() {
    let mut team = Team::started(t2());
    team.printed(&[0, 0]);
    let waiting = Arrival {
        status: Status::Waiting,
        node: 1,
        value: 0,
        source: 0,
    };
    assert_eq!(Arrival::of(&team.roll, 0), Some(waiting));
    let status = |roll: &[u32], process| Arrival::of(roll, process).map(|arrival| arrival.status);
    assert_eq!(status(&team.roll, 1), Some(Status::Running));
    assert_eq!(status(&team.roll, 2), None);
    team.printed(&[1, 1]);
    assert_eq!(status(&team.roll, 1), Some(Status::Ended));
    assert_eq!(status(&[3, 0, 0, 0], 0), None);
    assert_eq!(status(&[0, 0, 0], 0), None);
}

#[test]
fn latches_are_copied_as_far_as_there_is_room() {
    let state: Vec<u32> = (0..2 * PROCESS_WORDS as u32).collect();
    let second = (PROCESS_WORDS + LATCHES_AT) as u32;
    assert_eq!(latches(&state, 1).map(|words| words[0]), Some(second));
    assert_eq!(latches(&state, 2), None);
    assert_eq!(latches(&state[1..], 0), None);
    let mut out = [7; 3];
    assert_eq!(copy_latches(&state, 0, &mut out[..2]), 2);
    let first = LATCHES_AT as u32;
    assert_eq!(out, [first, first + 1, 7]);
    assert_eq!(copy_latches(&state, 0, &mut []), 0);
}

/// A procedure with this effect flag that does nothing, and then one that calls it.
fn caller(effect: u32) -> Vec<u8> {
    bytes(&[
        0x10440200,
        0,
        effect << 23,
        0x01800000,
        0x80000000,
        0xA8000000,
    ])
}

#[test]
fn tables_are_joined() {
    let (library, program) = (t2(), caller(1));
    let mut joined = vec![7; 36];
    assert_eq!(joined_length(&library, &program), Some(joined.len()));
    assert_eq!(link(&library, &program, &mut joined), Ok(()));
    let expected = [
        0x10440500, 0, 0x03800000, 0x04800000, 0x18000000, 0xB8000000, 0x80000000, 0x98000202,
        0xA8000000,
    ];
    assert_eq!(joined, bytes(&expected));
    let printed = Team::started(joined).printed(&[0, 0, 0]);
    assert_eq!(printed[2], "arrived 1 going");
}

#[test]
fn refused_links_say_which_table() {
    let refused = |number, place, table| {
        let refusal = Refusal { number, place };
        Err(LinkRefusal { refusal, table })
    };
    let mut out = [7; 40];
    let unlike = link(&t2(), &caller(0), &mut out);
    assert_eq!(unlike, refused(27, 0, LinkedTable::Program));
    let cut = link(&t2()[4..], &caller(1), &mut out);
    assert_eq!(cut, refused(3, 0, LinkedTable::Library));
    let too_long = link(&t2(), &caller(1), &mut out);
    assert_eq!(too_long, refused(29, 0, LinkedTable::Program));
    assert_eq!(out, [7; 40]);
    assert_eq!(joined_length(&t2(), &caller(0)), None);
    let printed = [unlike, cut].map(|answer| answer.expect_err("a refusal").to_string());
    assert_eq!(printed, ["refused 27 0 program", "refused 3 0 library"]);
}
