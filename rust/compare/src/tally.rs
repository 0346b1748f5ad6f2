//! What a comparison has covered.

use crate::areas::{self, Area, AREAS};
use crate::both::Team;
use crate::joints::{self, Joint, JOINTS};
use crate::leaves::{self, Shown, SHOWN};
use crate::served::{self, Ending, ENDINGS};
use crate::sources::{self, SOURCES};
use crate::switches::{self, Switch, SWITCHES};
use finchchaise::{Answer, Event, LinkRefusal, LinkedTable, Refusal};
use finchchaise::{Served, TeamStatus, GATHERED_AREAS};
use std::io::Write;
use std::{fmt, io};

const NUMBERS: usize = 30;
const EVENTS: [&str; 6] = ["moved", "finished", "arrived", "met", "waits", "ended"];
const TEAMS: [&str; 3] = ["going", "done", "crossed"];

#[derive(Default)]
pub struct Tally {
    /// Calls that were not refused.
    pub taken: usize,
    pub refused: [usize; NUMBERS],
    /// Links that were refused for the library; `refused` has those for the program.
    pub of_library: [usize; NUMBERS],
    pub events: [usize; 6],
    pub teams: [usize; 3],
    /// Refusals of teams that all wait at one node.
    pub all_there: usize,
    /// What was shown of leaves, in the order of `SHOWN`.
    pub leaves: [usize; SHOWN.len()],
    /// Sources of broadcasts that took place, in the order of `SOURCES`.
    pub sources: [usize; SOURCES.len()],
    /// What was shown of gathered areas, in the order of `AREAS`.
    pub areas: [usize; AREAS.len()],
    /// What was shown of switches, in the order of `SWITCHES`.
    pub switches: [usize; SWITCHES.len()],
    /// Turns that were served.
    pub made: usize,
    /// How serving ended, in the order of `ENDINGS`.
    pub endings: [usize; ENDINGS.len()],
    /// What was shown of links, in the order of `JOINTS`.
    pub joints: [usize; JOINTS.len()],
}

impl Tally {
    pub fn judged(&mut self, answer: Result<(), Refusal>) {
        match answer {
            Ok(()) => self.taken += 1,
            Err(refusal) => self.refused[refusal.number as usize] += 1,
        }
    }

    /// A check, also of what it shows of leaves, areas and switches.
    pub fn checked(&mut self, table: &[u8], answer: Result<(), Refusal>) {
        self.judged(answer);
        self.named(areas::of_check(table, answer));
        for switch in switches::of_check(table, answer) {
            self.switches[switch.place()] += 1;
        }
        leaves::of_check(table, answer)
            .into_iter()
            .for_each(|shown| self.shown(shown));
    }

    /// A step that left so many entries of a stack with a leave on top.
    pub fn left(&mut self, stack: &[u32], kept: usize) {
        leaves::of_step(stack, kept)
            .into_iter()
            .for_each(|shown| self.shown(shown));
    }

    /// A step of a team with this roll before it, by the sources if it brought a broadcast about.
    pub fn sent(&mut self, table: &[u8], roll: &[u32], answer: Result<Answer, Refusal>) {
        sources::of_step(table, roll, answer)
            .into_iter()
            .for_each(|source| self.sources[source as usize] += 1);
    }

    /// A step of a team with this state and roll before it, by the areas that it filled or read.
    pub fn gathered(
        &mut self,
        team: &Team,
        state: &[u32],
        roll: &[u32],
        process: u32,
        answer: Result<Answer, Refusal>,
    ) {
        self.named(areas::of_step(team, state, roll, process, answer));
    }

    fn named(&mut self, areas: impl IntoIterator<Item = Area>) {
        for area in areas {
            self.areas[area.place()] += 1;
        }
    }

    pub fn shown(&mut self, shown: Shown) {
        self.leaves[shown as usize] += 1;
    }

    pub fn stepped(&mut self, answer: Result<Answer, Refusal>) {
        self.judged(answer.map(|_| ()));
        if let Ok(Answer { event, team }) = answer {
            let event = match event {
                Event::Moved => 0,
                Event::Finished => 1,
                Event::Arrived(_) => 2,
                Event::Completed(_) => 3,
                Event::Waiting => 4,
                Event::Ended => 5,
            };
            let team = match team {
                TeamStatus::Going => 0,
                TeamStatus::Done => 1,
                TeamStatus::Deadlocked => 2,
            };
            self.events[event] += 1;
            self.teams[team] += 1;
        }
    }

    /// A call for so many turns, which left the team as it is.
    pub fn served(&mut self, team: &Team, turns: u32, answer: Served) {
        self.judged(answer.refusal.map_or(Ok(()), Err));
        self.made += answer.made as usize;
        self.endings[served::of_call(team, turns, answer) as usize] += 1;
    }

    /// A link of two tables with an output of so many bytes.
    pub fn linked(
        &mut self,
        library: &[u8],
        program: &[u8],
        length: usize,
        answer: Result<(), LinkRefusal>,
    ) {
        match answer {
            Err(LinkRefusal {
                refusal,
                table: LinkedTable::Library,
            }) => self.of_library[refusal.number as usize] += 1,
            _ => self.judged(answer.map_err(|refused| refused.refusal)),
        }
        for joint in joints::of_link(library, program, length, answer) {
            self.joints[joint as usize] += 1;
        }
    }

    pub fn calls(&self) -> usize {
        let refused = self.refused.iter().chain(&self.of_library);
        self.taken + refused.sum::<usize>()
    }

    /// A comparison that covers little would pass without saying much.
    pub fn assert_refused(&self, numbers: impl IntoIterator<Item = usize>, least: usize) {
        for number in numbers {
            let times = self.refused[number];
            assert!(times >= least, "number {number} only {times} times: {self}");
        }
    }

    /// The same for each of the tables that are linked.
    pub fn assert_both_refused(&self, numbers: impl IntoIterator<Item = usize>, least: usize) {
        for number in numbers {
            self.assert_refused([number], least);
            let times = self.of_library[number];
            assert!(
                times >= least,
                "library {number} only {times} times: {self}"
            );
        }
    }

    pub fn assert_events(&self, least: usize) {
        for (word, &times) in EVENTS.iter().zip(&self.events) {
            assert!(times >= least, "{word} only {times} times: {self}");
        }
    }

    pub fn assert_leaves(&self, wanted: &[(Shown, usize)]) {
        for &(shown, least) in wanted {
            let times = self.leaves[shown as usize];
            assert!(times >= least, "{shown:?} only {times} times: {self}");
        }
    }

    pub fn assert_sources(&self, least: usize) {
        for (words, &times) in SOURCES.iter().zip(&self.sources) {
            assert!(times >= least, "{words} only {times} times: {self}");
        }
    }

    pub fn assert_areas(&self, wanted: &[(Area, usize)]) {
        for &(area, least) in wanted {
            let times = self.areas[area.place()];
            assert!(times >= least, "{area:?} only {times} times: {self}");
        }
    }

    /// Exchanges into every area.
    pub fn assert_filled(&self, least: usize) {
        for area in 0..GATHERED_AREAS as u32 {
            self.assert_areas(&[(Area::Filled(area), least)]);
        }
    }

    pub fn assert_switches(&self, wanted: &[(Switch, usize)]) {
        for &(switch, least) in wanted {
            let times = self.switches[switch.place()];
            assert!(times >= least, "{switch:?} only {times} times: {self}");
        }
    }

    pub fn assert_endings(&self, wanted: &[(Ending, usize)]) {
        for &(ending, least) in wanted {
            let times = self.endings[ending as usize];
            assert!(times >= least, "{ending:?} only {times} times: {self}");
        }
    }

    pub fn assert_joints(&self, wanted: &[(Joint, usize)]) {
        for &(joint, least) in wanted {
            let times = self.joints[joint as usize];
            assert!(times >= least, "{joint:?} only {times} times: {self}");
        }
    }

    /// Not by println, which a test keeps to itself unless it fails.
    pub fn show(&self, what: &str) {
        let line = format!("compared {what}: {self}\n");
        io::stdout()
            .write_all(line.as_bytes())
            .expect("a line of output");
    }
}

impl fmt::Display for Tally {
    fn fmt(&self, out: &mut fmt::Formatter) -> fmt::Result {
        write!(out, "{} calls, {} taken", self.calls(), self.taken)?;
        if self.made > 0 {
            write!(out, ", {} turns served", self.made)?;
        }
        let words = EVENTS.iter().chain(&TEAMS).chain(&SHOWN).chain(&SOURCES);
        let words = words.chain(&AREAS).chain(&SWITCHES).chain(&ENDINGS);
        let words = words.chain(&JOINTS);
        let times = self.events.iter().chain(&self.teams).chain(&self.leaves);
        let times = times.chain(&self.sources).chain(&self.areas);
        let times = times.chain(&self.switches).chain(&self.endings);
        let times = times.chain(&self.joints);
        for (word, times) in words.zip(times) {
            if *times > 0 {
                write!(out, ", {word} {times}")?;
            }
        }
        if self.all_there > 0 {
            write!(out, ", all at one node {}", self.all_there)?;
        }
        if self.of_library != [0; NUMBERS] {
            write!(out, "; libraries {}", by_number(&self.of_library))?;
        }
        match self.refused == [0; NUMBERS] {
            true => write!(out, "; none refused"),
            false => write!(out, "; refused by number {}", by_number(&self.refused)),
        }
    }
}

fn by_number(refused: &[usize]) -> String {
    let numbers = refused.iter().enumerate();
    let refused = numbers.filter(|(_, times)| **times > 0);
    let refused: Vec<String> = refused.map(|(n, times)| format!("{n}: {times}")).collect();
    refused.join(", ")
}
