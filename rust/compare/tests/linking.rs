//! Libraries joined to programs: the proved library beside the model, answers and every byte.

use finchchaise::{Answer, LinkRefusal, TeamStatus};
use finchchaise::{MOST_TABLE_BYTES, PROCESS_WORDS, ROLL_WORDS, SCRATCH_WORDS};
use finchchaise_compare::{check, joined_length, link, start_words};
use finchchaise_compare::{Joint, Pair, Random, Tally, Team};

const PAIRS: usize = 40_000;
const DAMAGED_PAIRS: usize = 100_000;
const PAIRS_FOR_OUTPUTS: usize = 10_000;
/// One joined table in so many is run.
const JOINED_A_RUN: usize = 12;
const MOST_TURNS_A_PROCESS: usize = 40;

/// A library and a program, at any addresses.
struct Tables {
    bytes: [Vec<u8>; 2],
    offsets: [usize; 2],
}

impl Tables {
    fn of(tables: [Vec<u8>; 2], random: &mut Random) -> Tables {
        let offsets = [(); 2].map(|()| random.below(4));
        let mut bytes = offsets.map(|offset| vec![0; offset]);
        for (bytes, table) in bytes.iter_mut().zip(tables) {
            bytes.extend(table);
        }
        Tables { bytes, offsets }
    }

    fn library(&self) -> &[u8] {
        &self.bytes[0][self.offsets[0]..]
    }

    fn program(&self) -> &[u8] {
        &self.bytes[1][self.offsets[1]..]
    }

    fn joined_length(&self) -> Option<usize> {
        joined_length(self.library(), self.program())
    }

    /// What an output holds after a link, of any contents before it.
    fn link(
        &self,
        length: usize,
        tally: &mut Tally,
        random: &mut Random,
    ) -> Result<Vec<u8>, LinkRefusal> {
        let mut out = random.bytes(length);
        let answer = link(self.library(), self.program(), &mut out);
        tally.linked(self.library(), self.program(), length, answer);
        answer.map(|()| out)
    }
}

/// Pairs that mostly join, and what becomes of them.
#[derive(Default)]
struct Joins {
    links: Tally,
    /// Checks of the joined tables.
    checks: Tally,
    steps: Tally,
    /// Joined tables of which both are accepted.
    accepted: usize,
    /// Runs that came to an end.
    ended: usize,
}

impl Joins {
    fn join(&mut self, random: &mut Random) {
        let pair = Pair::new(random);
        let tables = Tables::of(pair.bytes(), random);
        let length = tables.joined_length().unwrap_or(MOST_TABLE_BYTES);
        let Ok(joined) = tables.link(length, &mut self.links, random) else {
            return;
        };
        let answer = check(&joined, &mut [1; SCRATCH_WORDS]);
        self.checks.judged(answer);
        let both = [tables.library(), tables.program()];
        if both.map(|table| check(table, &mut [1; SCRATCH_WORDS])) == [Ok(()); 2] {
            assert_eq!(answer, Ok(()), "two accepted tables");
            self.accepted += 1;
        }
        if random.one_in(JOINED_A_RUN) {
            self.run(&pair, &joined, answer.is_ok(), random);
        }
    }

    /// Whatever was joined can be started, and if it is accepted it does not deadlock.
    fn run(&mut self, pair: &Pair, joined: &[u8], accepted: bool, random: &mut Random) {
        let count = random.pick(&[1, 2, 2, 3, 3, 4, 6]);
        let words = start_words(&pair.joined_variables(), count, true, random);
        let state = random.words(count * PROCESS_WORDS);
        let mut team = Team::new(joined, &state, &random.words(count * ROLL_WORDS));
        team.start(count as u32, &words).expect("a start");
        for _ in 0..count * MOST_TURNS_A_PROCESS {
            let answer = team.step(random.below(count) as u32);
            self.steps.stepped(answer);
            let Answer { team, .. } = answer.expect("a step");
            assert!(!accepted || team != TeamStatus::Deadlocked);
            if team != TeamStatus::Going {
                self.ended += 1;
                break;
            }
        }
    }
}

#[test]
fn links_of_pairs() {
    let mut random = Random::new(21);
    let mut joins = Joins::default();
    for _ in 0..PAIRS {
        joins.join(&mut random);
    }
    let Joins {
        links,
        checks,
        steps,
        accepted,
        ended,
    } = joins;
    links.show("links of pairs");
    checks.show(&format!("checks of joined tables ({accepted} of accepted)"));
    steps.show(&format!("steps of joined tables ({ended} ended)"));
    assert!(links.taken > PAIRS / 2, "{links}");
    links.assert_joints(&[(Joint::AsMany, 2_000), (Joint::Full, 2_000)]);
    let fewer = [Joint::FewerInLibrary, Joint::FewerInProgram];
    links.assert_joints(&fewer.map(|joint| (joint, 5_000)));
    links.assert_joints(&[(Joint::JustTooMany, 1_000), (Joint::NoneLeft, 200)]);
    assert!(accepted > PAIRS / 4, "{accepted}");
    assert!(ended > 1_000, "{ended}");
    // All that was joined is well formed.
    assert_eq!(
        checks.taken + checks.refused[13..=17].iter().sum::<usize>(),
        links.taken
    );
    checks.assert_refused(13..=17, 50);
    steps.assert_events(500);
}

#[test]
fn links_of_damaged_pairs() {
    let mut random = Random::new(22);
    let mut tally = Tally::default();
    for _ in 0..DAMAGED_PAIRS {
        let random = &mut random;
        let tables = Pair::new(random).damaged(random);
        let tables = Tables::of(tables, random);
        let some = random.pick(&[0, tables.library().len(), tables.program().len()]);
        let length = tables.joined_length().unwrap_or(some);
        let _ = tables.link(length, &mut tally, random);
    }
    tally.show("links of damaged pairs");
    assert!(tally.taken > 1_000, "{tally}");
    tally.assert_both_refused((2..=12).chain([26]), 100);
    let of_stubs = [Joint::Body, Joint::Kind, Joint::Effect, Joint::Missing];
    tally.assert_joints(&of_stubs.map(|joint| (joint, 1_000)));
    tally.assert_joints(&[(Joint::NoneLeft, 1_000), (Joint::LowestStub, 5_000)]);
    let of_flags = [Joint::SingleInLibrary, Joint::SingleInProgram];
    tally.assert_joints(&of_flags.map(|joint| (joint, 2_000)));
    tally.assert_joints(&[(Joint::LowestVariable, 1_000)]);
    tally.assert_joints(&[(Joint::JustTooMany, 200), (Joint::TooMany, 50)]);
}

#[test]
fn outputs_of_any_length() {
    let mut random = Random::new(23);
    let mut tally = Tally::default();
    for _ in 0..PAIRS_FOR_OUTPUTS {
        let random = &mut random;
        let tables = Tables::of(Pair::new(random).bytes(), random);
        let Some(length) = tables.joined_length() else {
            continue;
        };
        assert!(length <= MOST_TABLE_BYTES);
        let lengths = [
            0,
            1,
            length - 4,
            length - 1,
            length,
            length + 1,
            length + 4,
            tables.library().len(),
            MOST_TABLE_BYTES,
            random.below(1200),
        ];
        for tried in lengths {
            let answer = tables.link(tried, &mut tally, random);
            assert_eq!(answer.is_ok(), tried == length);
        }
    }
    tally.show("outputs of links");
    assert!(tally.taken > PAIRS_FOR_OUTPUTS / 2, "{tally}");
    tally.assert_joints(&[
        (Joint::Short, PAIRS_FOR_OUTPUTS),
        (Joint::Long, PAIRS_FOR_OUTPUTS),
    ]);
}
