//! Times the proved library beside plain Rust that does the same work, in turns, and prints the
//! medians. Run it with `./site bench`, or here with `cargo run --release --offline`.

mod inputs;
mod native;
mod refused;
mod switched;
#[cfg(test)]
mod tests;
mod work;

use std::hint::black_box;
use std::time::{Duration, Instant};
use work::{Side, Work, LIBRARY, NATIVE};

const ROUNDS: usize = 101;
/// A round repeats short work for at least so long, as the clock is coarse.
const ROUND: Duration = Duration::from_micros(500);
const COMPARED: usize = 2_000;

/// A piece of work on both sides' own buffers.
struct Row {
    library: Work,
    native: Work,
    repeats: usize,
    calls_a_repeat: f64,
    library_times: Vec<f64>,
    native_times: Vec<f64>,
}

fn main() {
    let mut rows: Vec<Row> = work::all().into_iter().map(Row::new).collect();
    for round in 0..ROUNDS {
        rows.iter_mut().for_each(|row| row.time(round));
    }
    let (refused, rows) = parted(rows, |work| work.refused_by.is_some());
    let (turns, calls) = parted(rows, Work::is_of_turns);
    print_table(&calls, "ns a table word", Row::time_a_word);
    print_table(&turns, "of steps", |row| {
        row.library_time() / time_of(&turns, |work| work.is_steps_of(&row.library))
    });
    print_table(&refused, "of accepted", |row| {
        let accepted = row.library.refused_by.map(|(_, accepted)| accepted);
        row.library_time() / time_of(&calls, |work| Some(work.what.as_str()) == accepted)
    });
    print_notes();
}

/// The rows of such work, and the others.
fn parted(rows: Vec<Row>, is_such: impl Fn(&Work) -> bool) -> (Vec<Row>, Vec<Row>) {
    rows.into_iter().partition(|row| is_such(&row.library))
}

/// The library's time for the first of such work, with which others are compared.
fn time_of(rows: &[Row], is_such: impl Fn(&Work) -> bool) -> f64 {
    let row = rows.iter().find(|row| is_such(&row.library));
    row.map(Row::library_time).expect("a row of such work")
}

/// The last column is named and worked out as given.
fn print_table(rows: &[Row], column: &str, value: impl Fn(&Row) -> f64) {
    println!("| work | ns | ns Rust | ratio | {column} |");
    println!("|---|---|---|---|---|");
    for row in rows {
        let (what, library) = (&row.library.what, row.library_time());
        let native = median(&row.native_times);
        let (ratio, value) = (library / native, value(row));
        println!("| {what} | {library:.0} | {native:.0} | {ratio:.2} | {value:.2} |");
    }
    println!();
}

fn print_notes() {
    println!("Medians of {ROUNDS} rounds, library and Rust in turns, every piece of work in each");
    println!(
        "round. No buffer is cleared first: a check leaves its scratch 0, steps and serves go"
    );
    println!(
        "on from where the last call left state and roll, a start writes every word. Before a"
    );
    println!("step that completes an exchange both sides put stacks and roll back, which is timed");
    println!("with it. Answers and words were compared first. A table word's time is that of one");
    println!(
        "call, shared among the table's words, those of both for a join; a whole stocktake has"
    );
    println!("a call for its start and one for each step.");
    println!("Of steps: the library's time, divided by its time for the same turns, a call each.");
    println!("A refused table is an accepted one with a word changed. Of accepted: the library's");
    println!("time, divided by its time for that one.");
}

impl Row {
    fn new(work: Work) -> Row {
        let mut row = Row {
            library: work.clone(),
            native: work,
            repeats: 1,
            calls_a_repeat: 1.0,
            library_times: Vec::new(),
            native_times: Vec::new(),
        };
        row.compare();
        while timed(&mut row.library, LIBRARY, row.repeats) < ROUND {
            row.repeats *= 2;
        }
        row
    }

    /// The two sides must do the same before their times mean anything.
    fn compare(&mut self) {
        let mut repeats = 0;
        while self.library.calls < COMPARED {
            self.library.once(LIBRARY);
            self.native.once(NATIVE);
            repeats += 1;
            assert!(self.library.is_as_expected(), "{:?}", self.library);
            assert_eq!(self.library, self.native);
        }
        self.calls_a_repeat = self.library.calls as f64 / repeats as f64;
    }

    /// Which side goes first changes from round to round.
    fn time(&mut self, round: usize) {
        for turn in 0..2 {
            let (work, side, times) = match (round + turn) % 2 {
                0 => (&mut self.library, LIBRARY, &mut self.library_times),
                _ => (&mut self.native, NATIVE, &mut self.native_times),
            };
            let time = timed(work, side, self.repeats);
            times.push(time.as_nanos() as f64 / self.repeats as f64);
        }
    }

    fn library_time(&self) -> f64 {
        median(&self.library_times)
    }

    fn time_a_word(&self) -> f64 {
        self.library_time() / self.calls_a_repeat / self.library.table_words() as f64
    }
}

fn timed(work: &mut Work, side: Side, repeats: usize) -> Duration {
    let begin = Instant::now();
    for _ in 0..repeats {
        black_box(&mut *work).once(side);
    }
    begin.elapsed()
}

fn median(times: &[f64]) -> f64 {
    let mut sorted = times.to_vec();
    sorted.sort_by(f64::total_cmp);
    sorted[sorted.len() / 2]
}
