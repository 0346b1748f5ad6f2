//! The library's work in plain Rust, as one would write it for speed: a table is read in one pass,
//! or in one more where switches may save it, and state and roll are changed in place.

mod leaves;
mod linker;
mod machine;
mod planes;
mod reader;
mod refusal;
mod scheduler;
mod switches;
mod table;

pub use linker::link;
pub use machine::{start, step};
pub use reader::check;
pub use scheduler::serve;
