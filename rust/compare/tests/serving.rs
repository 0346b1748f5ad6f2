//! Turns that the machine shares: the proved library beside the model, answers and every word.

use finchchaise::{Refusal, Served, DOORS, MOST_PROCESSES, PROCESS_WORDS, ROLL_WORDS};
use finchchaise_compare::{damaged, start_words, table, LEAVE};
use finchchaise_compare::{Ending, MadeUp, Random, Tally, Team};
use finchchaise_samples::Builder;

const RUNS: usize = 8_000;
const MOST_CALLS: usize = 10;
const MADE_UP_TABLES: usize = 6_000;
const TEAMS_A_TABLE: usize = 10;

/// None, one, about a round, many.
fn some_turns(count: usize, random: &mut Random) -> u32 {
    let round = count as u32;
    random.pick(&[0, 1, 1, 2, 3, round, round + 1, 2 * round, 30, 300])
}

/// Mostly the process served last; at times another, also one that is not there.
fn some_last(last: u32, count: usize, random: &mut Random) -> u32 {
    match random.below(12) {
        0 => random.pick(&[count as u32, 16, 255, PROCESS_WORDS as u32, u32::MAX]),
        1 | 2 => random.below(count) as u32,
        _ => last,
    }
}

fn serve(team: &mut Team, last: u32, turns: u32, tally: &mut Tally) -> Served {
    let answer = team.serve(last, turns);
    tally.served(team, turns, answer);
    answer
}

/// Any number of processes, few of them mostly.
fn some_count(random: &mut Random) -> usize {
    random.pick(&[1, 2, 2, 3, 3, 4, 5, 7, MOST_PROCESSES])
}

#[derive(Default)]
struct Runs {
    serves: Tally,
    steps: Tally,
    /// Runs that were served whole by one call.
    whole: usize,
}

impl Runs {
    /// Serves in a row, with single steps between them. From a start only 22 refuses them.
    fn calls(&mut self, team: &mut Team, count: usize, random: &mut Random) {
        let mut last = random.below(count) as u32;
        for _ in 0..random.from(1, MOST_CALLS) {
            let process = some_last(last, count, random);
            let refusal = match random.one_in(3) {
                true => {
                    let answer = team.step(process);
                    self.steps.stepped(answer);
                    answer.err()
                }
                false => {
                    let turns = some_turns(count, random);
                    let answer = serve(team, process, turns, &mut self.serves);
                    if answer.refusal.is_none() {
                        last = answer.last;
                    }
                    answer.refusal
                }
            };
            let not_there = Refusal {
                number: 22,
                place: process,
            };
            assert_eq!(refusal, (process as usize >= count).then_some(not_there));
        }
    }

    /// A run that has come to its end does so again by one call, however many turns are asked for.
    fn run(&mut self, random: &mut Random) {
        let count = some_count(random);
        let careful = random.one_in(2);
        let table = table(random, careful);
        let (bytes, words) = (table.bytes(), start_words(&table, count, true, random));
        let state = random.words(count * PROCESS_WORDS);
        let mut team = Team::new(&bytes, &state, &random.words(count * ROLL_WORDS));
        // A leave may have no while.
        if team.start(count as u32, &words).is_err() {
            return;
        }
        self.calls(&mut team, count, random);
        if team.roll().chunks(ROLL_WORDS).all(|record| record[0] != 0) {
            team.start(count as u32, &words).expect("a second start");
            serve(&mut team, 0, u32::MAX, &mut self.serves);
            self.whole += 1;
        }
    }
}

#[test]
fn served_runs() {
    let mut random = Random::new(11);
    let mut runs = Runs::default();
    for _ in 0..RUNS {
        runs.run(&mut random);
    }
    let Runs {
        serves,
        steps,
        whole,
    } = runs;
    serves.show(&format!("serves of runs ({whole} whole)"));
    steps.show("steps between them");
    assert!(whole > 2_000, "{whole}");
    serves.assert_refused([22], 500);
    serves.assert_endings(&[(Ending::NoneAsked, 500), (Ending::AllMade, 5_000)]);
    serves.assert_endings(&[(Ending::NoneRan, 2_000), (Ending::NoneLeft, 5_000)]);
}

/// One to three calls on a team that was made up; the first turn is that of the process asked for,
/// if it runs.
fn calls(bytes: &[u8], made_up: &MadeUp, tally: &mut Tally, random: &mut Random) {
    let mut team = Team::new(bytes, &made_up.state, &made_up.roll);
    let count = made_up.roll.len() / ROLL_WORDS;
    let mut last = made_up.before_asked();
    for _ in 0..random.from(1, 3) {
        let answer = serve(&mut team, last, some_turns(count, random), tally);
        last = match random.one_in(2) {
            true => random.nearly_below(count) as u32,
            false => answer.last,
        };
    }
}

/// Mostly one with a leave.
fn some_table(random: &mut Random) -> Builder {
    let has_leave = |table: &Builder| table.nodes.iter().any(|node| node[0] == LEAVE);
    let any = random.one_in(3);
    loop {
        let careful = random.one_in(2);
        let table = table(random, careful);
        if any || has_leave(&table) {
            return table;
        }
    }
}

#[test]
fn serves_of_made_up_teams() {
    let mut random = Random::new(12);
    let random = &mut random;
    let mut tally = Tally::default();
    for _ in 0..MADE_UP_TABLES {
        let table = some_table(random);
        let bytes = match random.one_in(20) {
            true => damaged(&table, random),
            false => table.bytes(),
        };
        for _ in 0..TEAMS_A_TABLE {
            let made_up = MadeUp::new(&table, random);
            calls(&bytes, &made_up, &mut tally, random);
        }
    }
    tally.show("serves of made-up teams");
    tally.assert_refused([2, 3, 6, 8, 9, 11], 50);
    tally.assert_refused((20..=24).chain([26]), 500);
    tally.assert_endings(&[(Ending::NoneAsked, 2_000), (Ending::AllMade, 5_000)]);
    tally.assert_endings(&[(Ending::NoneRan, 2_000), (Ending::NoneLeft, 2_000)]);
    tally.assert_endings(&[(Ending::FullFirst, 1_000), (Ending::FullList, 1_000)]);
    tally.assert_endings(&[(Ending::FullWhile, 200), (Ending::Uncovered, 500)]);
    tally.assert_endings(&[(Ending::UncoveredElsewhere, 200)]);
    tally.assert_endings(&[(Ending::AllMadeUnsound, 200)]);
}

/// More turns in one call than 16 bits can count, on a table that never ends.
#[test]
fn a_long_serve() {
    const TURNS: u32 = 70_000;
    let mut table = Builder::new(1, &[]);
    let always = table.count();
    let body = table.increase(0);
    let main = table.repeat(always, body);
    table.procedure(main, false);
    let bytes = table.bytes();
    let mut team = Team::new(&bytes, &[0; 2 * PROCESS_WORDS], &[0; 2 * ROLL_WORDS]);
    team.start(2, &[0; 2 * (1 + DOORS)]).expect("a start");
    let answer = team.serve(1, TURNS);
    assert_eq!((answer.made, answer.last, answer.refusal), (TURNS, 1, None));
}
