//! Random start words.

use crate::random::Random;
use finchchaise::DOORS;
use finchchaise_samples::Builder;

/// Small words mostly, so that loops end; equal in the single variables if `equal`.
pub fn start_words(table: &Builder, count: usize, equal: bool, random: &mut Random) -> Vec<u32> {
    let mut words = Vec::new();
    for process in 0..count {
        for variable in 0..table.variables {
            let single = table.single.contains(&variable);
            words.push(match process > 0 && single && equal {
                true => words[variable as usize],
                false if random.one_in(4) => random.word(),
                false => random.below(4) as u32,
            });
        }
        words.extend(random.words(DOORS));
    }
    words
}
