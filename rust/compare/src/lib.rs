//! What the comparison of the proved library with the model is made of: random and damaged inputs,
//! calls of both on copies of the same buffers, and a count of what was covered. The comparison
//! itself is in tests/.

#![forbid(unsafe_code)]

mod areas;
mod both;
mod conditions;
mod damage;
mod expressions;
mod fixed;
mod generator;
mod joints;
mod leaves;
mod made_up;
mod order;
mod pairs;
mod played;
mod random;
mod served;
mod shape;
mod sources;
mod starts;
mod switches;
mod tally;
mod tree;
mod words;

pub use areas::Area;
pub use both::{check, joined_length, latches, link, Team};
pub use damage::{damaged, random_bytes, small_table};
pub use fixed::dead_nodes;
pub use generator::{switched_table, table};
pub use joints::Joint;
pub use leaves::{leaving, stack, Shown};
pub use made_up::{MadeUp, Plan};
pub use order::renumber;
pub use pairs::Pair;
pub use played::{Machine, Played, Start, LIBRARY, MODEL};
pub use random::Random;
pub use served::Ending;
pub use shape::LEAVE;
pub use starts::start_words;
pub use switches::Switch;
pub use tally::Tally;
