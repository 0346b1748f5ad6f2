//! What a check asks of its scratch, and what it leaves there: the proved library beside the model,
//! and both beside the words of the request.

use finchchaise::Refusal;
use finchchaise_compare::{check, damaged, random_bytes, small_table, switched_table, table};
use finchchaise_compare::{Random, Switch, Tally};

const NEEDED: usize = 32;
const TOO_SHORT: [usize; 2] = [0, NEEDED - 1];
const ENOUGH: [usize; 3] = [NEEDED, NEEDED + 1, 256];
const TABLES_A_SOURCE: usize = 20_000;

/// Fewer words than are needed: the table plays no part.
fn refuses_without_a_trace(table: &[u8], length: usize, random: &mut Random) {
    let before = random.any_words(length);
    let mut scratch = before.clone();
    let refusal = Refusal {
        number: 1,
        place: 0,
    };
    assert_eq!(check(table, &mut scratch), Err(refusal), "{length} words");
    assert_eq!(scratch, before);
}

/// The answer, which leaves the first words 0 and no trace in the others.
fn answer(table: &[u8], length: usize, random: &mut Random) -> Result<(), Refusal> {
    let mut expected = random.any_words(length);
    let mut scratch = expected.clone();
    let answer = check(table, &mut scratch);
    expected[..NEEDED].fill(0);
    assert_eq!(scratch, expected, "{length} words, {answer:?}");
    answer
}

/// Checks tables out of one source, each with all lengths.
fn checks(what: &str, seed: u64, source: impl Fn(&mut Random) -> Vec<u8>) -> Tally {
    let mut random = Random::new(seed);
    let mut tally = Tally::default();
    for _ in 0..TABLES_A_SOURCE {
        let table = source(&mut random);
        for length in TOO_SHORT {
            refuses_without_a_trace(&table, length, &mut random);
        }
        let answers = ENOUGH.map(|length| answer(&table, length, &mut random));
        assert_eq!(answers, [answers[0]; ENOUGH.len()]);
        tally.checked(&table, answers[0]);
    }
    tally.show(what);
    assert_eq!(tally.refused[1], 0, "{tally}");
    tally
}

#[test]
fn scratch_of_tables() {
    let tally = checks("scratch of tables", 12, |random| {
        let careful = !random.one_in(4);
        table(random, careful).bytes()
    });
    assert!(tally.taken > TABLES_A_SOURCE / 2, "{tally}");
    tally.assert_refused((13..=17).chain([26]), 50);
}

#[test]
fn scratch_of_switched_tables() {
    let tally = checks("scratch of switched tables", 20, |random| {
        let careful = !random.one_in(4);
        switched_table(random, careful).bytes()
    });
    assert!(tally.taken > TABLES_A_SOURCE / 2, "{tally}");
    tally.assert_refused((13..=17).chain([26]), 50);
    tally.assert_switches(&[(Switch::Accepted, 2_000), (Switch::Further, 20)]);
}

#[test]
fn scratch_of_damaged_tables() {
    let tally = checks("scratch of damaged tables", 13, |random| {
        let careful = random.one_in(2);
        damaged(&table(random, careful), random)
    });
    tally.assert_refused((2..=17).chain([26]), 20);
}

#[test]
fn scratch_of_small_tables() {
    let tally = checks("scratch of small tables", 14, small_table);
    tally.assert_refused([6, 8, 9, 10, 11, 12, 17, 26], 20);
}

#[test]
fn scratch_of_random_bytes() {
    let tally = checks("scratch of random bytes", 15, random_bytes);
    tally.assert_refused(2..=7, 20);
}
