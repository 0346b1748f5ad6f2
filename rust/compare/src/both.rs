//! Calls of the library and of the model on copies of the same buffers. Answers and every word
//! afterwards must be equal, or the call panics with what it was given.

use crate::leaves::{self, leaving};
use crate::words;
use finchchaise::{Answer, LinkRefusal, Refusal, Served};
use std::fmt::Debug;

const MARGIN: usize = 3;
const MARK: u8 = 0xED;

/// Words, or bytes, lent out of the middle of a longer buffer, so that one written beside them is
/// seen too.
#[derive(Clone, Debug, PartialEq)]
struct Lent<Word = u32>(Vec<Word>);

impl<Word: Copy + PartialEq + From<u8>> Lent<Word> {
    fn of(words: &[Word]) -> Lent<Word> {
        let margin = [Word::from(MARK); MARGIN];
        Lent([&margin, words, &margin].concat())
    }

    fn words(&mut self) -> &mut [Word] {
        let end = self.0.len() - MARGIN;
        &mut self.0[MARGIN..end]
    }

    fn lent(&self) -> &[Word] {
        &self.0[MARGIN..self.0.len() - MARGIN]
    }

    /// Where the buffers first differ, counted from the first lent word, and what they hold there.
    fn difference(&self, other: &Lent<Word>) -> Option<(isize, Word, Word)> {
        let place = self.0.iter().zip(&other.0).position(|(a, b)| a != b)?;
        Some((
            place as isize - MARGIN as isize,
            self.0[place],
            other.0[place],
        ))
    }
}

/// The scratch is then as both have left it.
pub fn check(table: &[u8], scratch: &mut [u32]) -> Result<(), Refusal> {
    let (mut library, mut model) = (Lent::of(scratch), Lent::of(scratch));
    let answer = finchchaise::check(table, library.words());
    let expected = words::check(table, model.words());
    assert!(
        answer == expected && library == model,
        "check of {} with {} words of scratch: library {answer:?}, model {expected:?}, \
         scratch differs at {:?}",
        hexadecimal(table),
        scratch.len(),
        library.difference(&model)
    );
    scratch.copy_from_slice(model.lent());
    answer
}

/// How many words were copied, after a comparison with the part of the state that the model gives.
pub fn latches(state: &[u32], process: u32, out: &[u32]) -> usize {
    let part = finchchaise_model::latches(state, process as usize);
    let (mut library, mut expected) = (Lent::of(out), Lent::of(out));
    let count = part.len().min(out.len());
    expected.words()[..count].copy_from_slice(&part[..count]);
    let answer = finchchaise::copy_latches(state, process, library.words());
    let whole = finchchaise::latches(state, process);
    assert!(
        answer == count && library == expected && whole.as_ref().map_or(&[][..], |l| l) == part,
        "latches of {process} in {} words, room for {}: library {answer}, model {count}",
        state.len(),
        out.len()
    );
    answer
}

/// What the output then holds: the joined table, or if it is refused, what it held before.
pub fn link(library: &[u8], program: &[u8], out: &mut [u8]) -> Result<(), LinkRefusal> {
    let (mut of_library, mut of_model) = (Lent::of(out), Lent::of(out));
    let answer = finchchaise::link(library, program, of_library.words());
    let expected = words::link(library, program, of_model.words());
    assert!(
        answer == expected && of_library == of_model,
        "link of {} to {} with an output of {}: library {answer:?}, model {expected:?}, output \
         differs at {:?}",
        hexadecimal(library),
        hexadecimal(program),
        out.len(),
        of_library.difference(&of_model)
    );
    assert!(answer.is_ok() || of_library.lent() == out);
    out.copy_from_slice(of_library.lent());
    answer
}

pub fn joined_length(library: &[u8], program: &[u8]) -> Option<usize> {
    let answer = finchchaise::joined_length(library, program);
    let expected = words::joined_length(library, program);
    assert!(
        answer == expected,
        "length of {} joined to {}: library {answer:?}, model {expected:?}",
        hexadecimal(library),
        hexadecimal(program)
    );
    answer
}

#[derive(Clone, PartialEq)]
struct Buffers {
    state: Lent,
    roll: Lent,
}

/// A team whose state and roll are lent to both.
pub struct Team<'table> {
    table: &'table [u8],
    library: Buffers,
    model: Buffers,
}

impl Team<'_> {
    pub fn new<'table>(table: &'table [u8], state: &[u32], roll: &[u32]) -> Team<'table> {
        let buffers = Buffers {
            state: Lent::of(state),
            roll: Lent::of(roll),
        };
        Team {
            table,
            library: buffers.clone(),
            model: buffers,
        }
    }

    pub fn table(&self) -> &[u8] {
        self.table
    }

    /// The state, which both have alike.
    pub fn state(&self) -> &[u32] {
        self.model.state.lent()
    }

    /// The roll, which both have alike.
    pub fn roll(&self) -> &[u32] {
        self.model.roll.lent()
    }

    /// The stack of a process, which both have alike.
    pub fn stack(&self, process: u32) -> &[u32] {
        leaves::stack(self.state(), process).unwrap_or(&[])
    }

    /// The same, if a leave is on top.
    pub fn leaving(&self, process: u32) -> Option<Vec<u32>> {
        leaving(self.table, self.state(), process).map(<[u32]>::to_vec)
    }

    /// Whether a call passes the questions up to 23.
    pub fn is_sound(&self) -> bool {
        let Buffers {
            mut state,
            mut roll,
        } = self.model.clone();
        let asked = words::serve(self.table, state.words(), roll.words(), 0, 0);
        asked.refusal.is_none()
    }

    pub fn start(&mut self, processes: u32, start_words: &[u32]) -> Result<(), Refusal> {
        self.both(
            |table, state, roll| finchchaise::start(table, processes, start_words, state, roll),
            |table, state, roll| words::start(table, processes, start_words, state, roll),
            || format!("start of {processes} with {} words", start_words.len()),
        )
    }

    pub fn step(&mut self, process: u32) -> Result<Answer, Refusal> {
        self.both(
            |table, state, roll| finchchaise::step(table, state, roll, process),
            |table, state, roll| words::step(table, state, roll, process),
            || format!("step of {process}"),
        )
    }

    pub fn serve(&mut self, last: u32, turns: u32) -> Served {
        self.both(
            |table, state, roll| finchchaise::serve(table, state, roll, last, turns),
            |table, state, roll| words::serve(table, state, roll, last, turns),
            || format!("{turns} turns after {last}"),
        )
    }

    /// The answer to a call, which is named if the two differ.
    fn both<T: Debug + PartialEq>(
        &mut self,
        of_library: impl Fn(&[u8], &mut [u32], &mut [u32]) -> T,
        of_model: impl Fn(&[u8], &mut [u32], &mut [u32]) -> T,
        call: impl Fn() -> String,
    ) -> T {
        let (library, model) = (&mut self.library, &mut self.model);
        let answer = of_library(self.table, library.state.words(), library.roll.words());
        let expected = of_model(self.table, model.state.words(), model.roll.words());
        assert!(
            answer == expected && library == model,
            "{} of {}: library {answer:?}, model {expected:?}, state differs at {:?}, roll at \
             {:?}; the model's roll is {:?}",
            call(),
            hexadecimal(self.table),
            library.state.difference(&model.state),
            library.roll.difference(&model.roll),
            model.roll,
        );
        answer
    }
}

pub(crate) fn hexadecimal(bytes: &[u8]) -> String {
    bytes.iter().map(|byte| format!("{byte:02x}")).collect()
}
