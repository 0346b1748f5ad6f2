//! The proved library beside the model: the same answers, and the same words after every call.

use finchchaise::{Answer, Refusal, TeamStatus};
use finchchaise::{DOORS, LATCHES, MOST_PROCESSES, PROCESS_WORDS, ROLL_WORDS, SCRATCH_WORDS};
use finchchaise_compare::{check, latches, Area, MadeUp, Plan, Random, Shown, Switch, Tally, Team};
use finchchaise_compare::{damaged, random_bytes, small_table, switched_table, table};
use finchchaise_compare::{dead_nodes, start_words};
use finchchaise_samples::Builder;

const CHECKS_A_SOURCE: usize = 50_000;
const MOST_TURNS_A_PROCESS: usize = 60;
const STARTS: usize = 30_000;
const MADE_UP_TABLES: usize = 6_000;
const TEAMS_A_TABLE: usize = 10;
const LATCH_VIEWS: usize = 20_000;
/// Kinds of fixed conditions: a constant, and all that may be worked out of constants.
const SWITCHING_KINDS: [u32; 8] = [0, 6, 7, 8, 9, 10, 11, 12];

/// Scratch of the right length mostly, never cleared.
fn scratch(random: &mut Random) -> Vec<u32> {
    let length = match random.below(40) {
        0 => random.below(SCRATCH_WORDS),
        1 => random.pick(&[SCRATCH_WORDS + 1, 256]),
        _ => SCRATCH_WORDS,
    };
    random.any_words(length)
}

/// Checks tables out of one source.
fn checks(what: &str, seed: u64, source: impl Fn(&mut Random) -> Vec<u8>) -> Tally {
    let mut random = Random::new(seed);
    let mut tally = Tally::default();
    for _ in 0..CHECKS_A_SOURCE {
        // Tables at any address: bytes need no alignment.
        let mut bytes = vec![0; random.below(4)];
        let offset = bytes.len();
        bytes.extend(source(&mut random));
        let table = &bytes[offset..];
        tally.checked(table, check(table, &mut scratch(&mut random)));
    }
    tally.show(what);
    tally
}

#[test]
fn checks_of_tables_that_keep_the_rules() {
    let tally = checks("checks of careful tables", 1, |random| {
        table(random, true).bytes()
    });
    assert!(tally.taken * 10 > tally.calls() * 9, "{tally}");
    tally.assert_leaves(&[(Shown::Accepted, 5_000), (Shown::AcceptedLoud, 500)]);
}

#[test]
fn checks_of_tables_that_break_rules_on_single_values() {
    let tally = checks("checks of careless tables", 2, |random| {
        table(random, false).bytes()
    });
    tally.assert_refused([1, 13, 14, 15, 16, 17, 26], 500);
    tally.assert_leaves(&[(Shown::Accepted, 500), (Shown::LeftLocally, 100)]);
}

#[test]
fn checks_of_damaged_tables() {
    let tally = checks("checks of damaged tables", 3, |random| {
        let careful = random.one_in(2);
        damaged(&table(random, careful), random)
    });
    tally.assert_refused((1..=17).chain([26]), 50);
    tally.assert_areas(&[(Area::Beyond, 50)]);
}

#[test]
fn checks_of_small_tables() {
    let tally = checks("checks of small tables", 4, small_table);
    tally.assert_refused([6, 8, 9, 10, 11, 12, 17, 26], 50);
    tally.assert_areas(&[(Area::Beyond, 100)]);
}

#[test]
fn checks_of_random_bytes() {
    let tally = checks("checks of random bytes", 5, random_bytes);
    tally.assert_refused(2..=7, 50);
}

#[test]
fn checks_of_switched_tables() {
    let tally = checks("checks of switched tables", 16, |random| {
        switched_table(random, true).bytes()
    });
    assert!(tally.taken * 10 > tally.calls() * 9, "{tally}");
    tally.assert_switches(&[(Switch::Accepted, 5_000)]);
    tally.assert_switches(&[(Switch::DeadLeave, 200), (Switch::DeadCall, 500)]);
    tally.assert_switches(&[13, 14, 15, 16].map(|number| (Switch::DeadNode(number), 300)));
    tally.assert_switches(&[15, 16, 17].map(|number| (Switch::DeadEffect(number), 300)));
    tally.assert_switches(&SWITCHING_KINDS.map(|kind| (Switch::By(kind), 500)));
    tally.assert_switches(&[(Switch::Wrapped, 300), (Switch::ByZero, 300)]);
}

#[test]
fn checks_of_switched_tables_that_break_rules_on_single_values() {
    let tally = checks("checks of careless switched tables", 17, |random| {
        switched_table(random, false).bytes()
    });
    tally.assert_refused([1, 13, 14, 15, 16, 17, 26], 300);
    tally.assert_switches(&[(Switch::Accepted, 2_000), (Switch::Nearly, 1_000)]);
    tally.assert_switches(&[(Switch::Further, 300), (Switch::Later, 500)]);
    tally.assert_switches(&[(Switch::DeadStray, 300), (Switch::DeadLeave, 100)]);
}

#[test]
fn checks_of_damaged_switched_tables() {
    let tally = checks("checks of damaged switched tables", 18, |random| {
        let careful = random.one_in(2);
        damaged(&switched_table(random, careful), random)
    });
    tally.assert_refused((1..=17).chain([26]), 50);
    tally.assert_switches(&[(Switch::Accepted, 500), (Switch::DeadStray, 200)]);
    tally.assert_switches(&SWITCHING_KINDS.map(|kind| (Switch::By(kind), 50)));
}

/// A step, and what it shows.
fn step(team: &mut Team, process: u32, tally: &mut Tally) -> Result<Answer, Refusal> {
    let leaving = team.leaving(process);
    let (state, roll) = (team.state().to_vec(), team.roll().to_vec());
    let answer = team.step(process);
    tally.stepped(answer);
    tally.sent(team.table(), &roll, answer);
    tally.gathered(team, &state, &roll, process, answer);
    if let (Ok(_), Some(stack)) = (answer, leaving) {
        tally.left(&stack, team.stack(process).len());
    }
    answer
}

/// A random table, careful or not.
type Source = fn(&mut Random, bool) -> Builder;

#[derive(Default)]
struct Runs {
    starts: Tally,
    steps: Tally,
    /// Checks of the tables that were started with equal single variables.
    checks: Tally,
    /// Runs that came to an end; others loop for ever, or long.
    ended: usize,
}

impl Runs {
    /// Steps to the end and a few beyond, in random order; answers the team's last status. Nothing
    /// in a dead branch is ever come upon.
    fn steps(&mut self, team: &mut Team, count: usize, random: &mut Random) -> TeamStatus {
        let dead = dead_nodes(team.table());
        let mut last = TeamStatus::Going;
        let mut beyond = 0;
        for _ in 0..count * MOST_TURNS_A_PROCESS {
            let process = match random.one_in(50) {
                true => random.word(),
                false => random.below(count) as u32,
            };
            match step(team, process, &mut self.steps) {
                Ok(Answer { team, .. }) => last = team,
                Err(refusal) => assert_eq!((refusal.number, refusal.place), (22, process)),
            }
            let mut entries = team.stack(process).iter();
            assert!(entries.all(|&entry| !dead[entry as usize]));
            beyond += (last != TeamStatus::Going) as usize;
            if beyond > 3 {
                self.ended += 1;
                break;
            }
        }
        last
    }

    /// What demand 3 promises is looked at too: an accepted table does not deadlock.
    fn run(&mut self, source: Source, count: usize, random: &mut Random) {
        let careful = !random.one_in(5);
        let table = source(random, careful);
        let bytes = table.bytes();
        let equal = !random.one_in(8);
        let words = start_words(&table, count, equal, random);
        let state = random.words(count * PROCESS_WORDS);
        let roll = random.words(count * ROLL_WORDS);
        let mut team = Team::new(&bytes, &state, &roll);
        let started = team.start(count as u32, &words);
        self.starts.judged(started);
        // A leave without a while; the caller asserts that there is no other refusal.
        if started.is_err() {
            return;
        }
        let last = self.steps(&mut team, count, random);
        if equal {
            let answer = check(&bytes, &mut [1; SCRATCH_WORDS]);
            self.checks.checked(&bytes, answer);
            assert!(answer.is_err() || last != TeamStatus::Deadlocked);
        }
    }
}

/// As many runs as are asked for come to an end.
fn runs(what: &str, seed: u64, source: Source, least: usize, counts: &[usize]) -> Runs {
    let mut random = Random::new(seed);
    let mut runs = Runs::default();
    while runs.ended < least {
        let count = random.pick(counts);
        runs.run(source, count, &mut random);
    }
    runs.starts.show(&format!("runs of {what} ({least} ended)"));
    runs.steps.show(&format!("steps of runs of {what}"));
    runs.checks.show(&format!("checks of runs of {what}"));
    assert_eq!(
        runs.starts.taken + runs.starts.refused[26],
        runs.starts.calls()
    );
    runs.starts.assert_refused([26], 20);
    assert!(runs.steps.teams[2] > 200, "{}", runs.steps);
    runs.steps.assert_events(2_000);
    let leaves = [Shown::Left, Shown::PastOthers, Shown::Finished];
    runs.steps.assert_leaves(&leaves.map(|shown| (shown, 200)));
    runs.steps.assert_sources(200);
    runs.steps.assert_filled(100);
    runs
}

#[test]
fn runs_of_few_processes() {
    let runs = runs("few processes", 6, table, 16_000, &[1, 2, 2, 3, 3, 4]);
    runs.steps.assert_areas(&[(Area::Read, 500)]);
}

#[test]
fn runs_of_many_processes() {
    let counts = [5, 6, 8, 11, 15, MOST_PROCESSES];
    let runs = runs("many processes", 7, table, 4_000, &counts);
    runs.steps.assert_areas(&[(Area::Read, 500)]);
}

#[test]
fn runs_of_switched_tables() {
    let counts = [1, 2, 2, 3, 3, 4, 8];
    let runs = runs("switched tables", 19, switched_table, 8_000, &counts);
    runs.checks.assert_switches(&[(Switch::Accepted, 1_000)]);
}

/// As many random words as are asked for, or not quite.
fn about(count: usize, random: &mut Random) -> Vec<u32> {
    let wrong = random.pick(&[1, 4, 13, PROCESS_WORDS]);
    let count = match random.below(8) {
        0 => count.saturating_sub(wrong),
        1 => count + wrong,
        _ => count,
    };
    random.words(count)
}

#[test]
fn starts_that_may_be_refused() {
    let mut random = Random::new(8);
    let random = &mut random;
    let mut tally = Tally::default();
    for _ in 0..STARTS {
        let table = table(random, true);
        let bytes = match random.one_in(4) {
            true => damaged(&table, random),
            false => table.bytes(),
        };
        let count = random.pick(&[1, 2, 2, 3, 3, 4, 5, 7, MOST_PROCESSES]);
        let words = about(count * (table.variables as usize + DOORS), random);
        let state = about(count * PROCESS_WORDS, random);
        let roll = about(count * ROLL_WORDS, random);
        let processes = match random.one_in(12) {
            true => random.pick(&[0, 1, 16, 17, 0x8000_0000, u32::MAX]),
            false => count as u32,
        };
        tally.judged(Team::new(&bytes, &state, &roll).start(processes, &words));
    }
    tally.show("starts");
    assert!(tally.taken > STARTS / 10, "{tally}");
    tally.assert_refused((2..=12).chain(18..=21).chain([26]), 50);
}

/// One to three steps of a team that was made up.
fn steps(bytes: &[u8], made_up: &MadeUp, tally: &mut Tally, random: &mut Random) {
    let mut team = Team::new(bytes, &made_up.state, &made_up.roll);
    let first = step(&mut team, made_up.asked, tally);
    let unsound_at = |place| first == Err(Refusal { number: 23, place });
    if made_up.plan == Plan::AllThere && !made_up.damaged && unsound_at(0) {
        tally.all_there += 1;
    }
    if !made_up.damaged && made_up.lost.is_some_and(unsound_at) {
        tally.shown(Shown::NotBelow);
    }
    for _ in 0..random.below(3) {
        let process = random.nearly_below(made_up.roll.len() / ROLL_WORDS);
        let _ = step(&mut team, process as u32, tally);
    }
}

#[test]
fn steps_of_made_up_teams() {
    let mut random = Random::new(9);
    let random = &mut random;
    let mut tally = Tally::default();
    for _ in 0..MADE_UP_TABLES {
        let careful = random.one_in(2);
        let table = table(random, careful);
        let bytes = match random.one_in(20) {
            true => damaged(&table, random),
            false => table.bytes(),
        };
        for _ in 0..TEAMS_A_TABLE {
            let made_up = MadeUp::new(&table, random);
            steps(&bytes, &made_up, &mut tally, random);
        }
    }
    tally.show("steps of made-up teams");
    assert!(tally.calls() >= 100_000, "{tally}");
    tally.assert_events(2_000);
    tally.assert_refused([2, 3, 6, 7, 8, 9, 11], 50);
    tally.assert_refused((20..=24).chain([26]), 500);
    assert!(tally.all_there > 1_000, "{tally}");
    let leaves = [Shown::Left, Shown::PastOthers, Shown::Repeated];
    tally.assert_leaves(&leaves.map(|shown| (shown, 500)));
    tally.assert_leaves(&[(Shown::Finished, 200), (Shown::NotBelow, 500)]);
    tally.assert_sources(500);
    tally.assert_filled(200);
    tally.assert_areas(&[(Area::Read, 200)]);
}

#[test]
fn latches_of_any_state() {
    let mut random = Random::new(10);
    let mut copied = [0; LATCHES + 1];
    for _ in 0..LATCH_VIEWS {
        let count = random.below(18);
        let state = about(count * PROCESS_WORDS, &mut random);
        let process = match random.one_in(4) {
            true => random.word(),
            false => random.below(count + 2) as u32,
        };
        let room = random.pick(&[
            0,
            1,
            5,
            LATCHES - 1,
            LATCHES,
            LATCHES,
            LATCHES,
            LATCHES + 1,
            20,
        ]);
        copied[latches(&state, process, &vec![7; room])] += 1;
    }
    assert!(
        [0, 1, 5, LATCHES - 1, LATCHES]
            .iter()
            .all(|&count| copied[count] > 500),
        "{copied:?}"
    );
}
