//! The order of turns makes no difference: lists of turns from one start, in several orders and each
//! to its end, by the proved library and by the model.

use finchchaise::{Status, TeamStatus};
use finchchaise::{DOORS, MOST_PROCESSES, PROCESS_WORDS, SCRATCH_WORDS};
use finchchaise_compare::{check, start_words, switched_table, table};
use finchchaise_compare::{Machine, Played, Random, Start, Tally, LIBRARY, MODEL};
use finchchaise_samples::Builder;

const ENDED: usize = 4_500;
/// Turns of a first list, idle ones among them; a start that needs more is dropped.
const MOST_TURNS_A_PROCESS: usize = 60;
const MOST_STEPS_BEFORE_SERVES: usize = 30;

/// Kinds of expressions without parts.
const CONSTANT: u32 = 0;
const VARIABLE: u32 = 1;
const OWN: u32 = 2;
const COUNT: u32 = 3;

/// What starts that come to an end show, and how many of them have to at least.
const WANTED: [(&str, usize); 10] = [
    ("done after collectives", 1_500),
    ("deadlocked", 300),
    ("deadlocked after collectives", 100),
    ("deadlocked with some ended", 150),
    ("of five processes or more", 600),
    ("of refused tables", 800),
    ("of switched tables", 1_000),
    ("unequal", 1_000),
    ("completed by others in another order", 1_200),
    ("served after steps", 1_500),
];

/// Whose turn is next.
#[derive(Clone, Copy, Debug)]
enum Order {
    /// Any process, idle or not; at times one that is not there.
    AtRandom,
    /// One after another, idle or not.
    RoundRobin,
    /// The lowest that runs.
    Lowest,
    /// The highest that runs.
    Highest,
    /// The one before as long as it runs, then the lowest that does.
    Staying,
    /// Any that runs, but this one only if no other does.
    Starving(u32),
}

impl Order {
    /// If none runs, process 0: its turn is idle, so that a list without an end is found.
    fn next(self, played: &Played, last: u32, random: &mut Random) -> u32 {
        let running = played.running();
        let lowest = running.first().copied().unwrap_or(0);
        match self {
            Order::AtRandom => some_process(played.count(), random),
            Order::RoundRobin => (last + 1) % played.count() as u32,
            Order::Highest => running.last().copied().unwrap_or(0),
            Order::Staying if running.contains(&last) => last,
            Order::Lowest | Order::Staying => lowest,
            Order::Starving(_) if running.len() < 2 => lowest,
            Order::Starving(process) => {
                let others = running.into_iter().filter(|&other| other != process);
                random.pick(&others.collect::<Vec<u32>>())
            }
        }
    }
}

/// Any process; at times one that is not there.
fn some_process(count: usize, random: &mut Random) -> u32 {
    match random.one_in(25) {
        true => random.pick(&[count as u32, 16, 255, PROCESS_WORDS as u32, u32::MAX]),
        false => random.below(count) as u32,
    }
}

/// The lists that are compared with the first one, which is the library's and at random. Of the
/// model's two, which take the most time, one has idle turns.
fn others(count: usize, random: &mut Random) -> [(Machine, Order); 8] {
    let [starving, other] = [(); 2].map(|()| Order::Starving(random.below(count) as u32));
    let idle = [Order::AtRandom, Order::RoundRobin];
    let busy = [Order::Lowest, Order::Highest, Order::Staying, other];
    [
        (LIBRARY, Order::AtRandom),
        (LIBRARY, Order::RoundRobin),
        (LIBRARY, Order::Lowest),
        (LIBRARY, Order::Highest),
        (LIBRARY, Order::Staying),
        (LIBRARY, starving),
        (MODEL, random.pick(&idle)),
        (MODEL, random.pick(&busy)),
    ]
}

/// A table of any source. Half of them get own numbers in places of other expressions: processes
/// then take different ways more often, and not all come to a collective.
fn some_table(switched: bool, random: &mut Random) -> Builder {
    let careful = random.one_in(2);
    let mut table = match switched {
        true => switched_table(random, careful),
        false => table(random, careful),
    };
    if random.one_in(2) {
        for node in &mut table.nodes {
            if [CONSTANT, VARIABLE, COUNT].contains(&node[0]) && random.one_in(2) {
                *node = [OWN, 0, 0, 0];
            }
        }
    }
    table
}

fn assert_alike(played: &Played, first: &Played) {
    if let Some(difference) = played.difference(first) {
        panic!("{}: {difference} in the first list", played.name());
    }
}

/// Whether every single variable starts with one value in all processes.
fn is_equal(table: &Builder, words: &[u32]) -> bool {
    let mut given = words.chunks_exact(table.variables as usize + DOORS);
    given.all(|given| {
        let mut single = table.single.iter().map(|&variable| variable as usize);
        single.all(|variable| given[variable] == words[variable])
    })
}

/// The first of `WANTED`, as far as a list shows them.
fn of_list(played: &Played) -> [bool; 5] {
    let deadlocked = played.ending() == TeamStatus::Deadlocked;
    let met = !played.completers().is_empty();
    let some_ended = played.statuses().any(|status| status == Status::Ended);
    [
        !deadlocked && met,
        deadlocked,
        deadlocked && met,
        deadlocked && some_ended,
        played.count() >= 5,
    ]
}

#[derive(Default)]
struct Orders {
    /// First starts, and the steps and served turns of all lists.
    calls: Tally,
    ended: usize,
    dropped: usize,
    /// In the order of `WANTED`.
    shown: [usize; WANTED.len()],
}

/// Parts of lists.
impl Orders {
    /// Steps until the team is done or deadlocked; whether it comes to that.
    fn play(
        &mut self,
        played: &mut Played,
        order: Order,
        most: usize,
        random: &mut Random,
    ) -> bool {
        let mut last = random.below(played.count()) as u32;
        for _ in 0..most {
            last = order.next(played, last, random);
            let answer = played.step(last);
            self.calls.stepped(answer);
            if answer.is_ok_and(|answer| answer.team != TeamStatus::Going) {
                return true;
            }
        }
        false
    }

    /// So many steps of any processes; behind the end they are idle or refused.
    fn steps(&mut self, played: &mut Played, many: usize, random: &mut Random) {
        for _ in 0..many {
            let process = some_process(played.count(), random);
            self.calls.stepped(played.step(process));
        }
    }

    /// The process served last, unless fewer turns are made.
    fn serve(&mut self, played: &mut Played, last: u32, turns: u32) -> Option<u32> {
        let answer = played.serve(last, turns);
        self.calls.made += answer.made as usize;
        (answer.made == turns).then_some(answer.last)
    }
}

/// Whole lists.
impl Orders {
    /// The one that the others are compared with, unless its start is refused or it has no end.
    fn first<'start>(
        &mut self,
        start: &'start Start,
        random: &mut Random,
    ) -> Option<Played<'start>> {
        let started = Played::new(LIBRARY, start, "first list".into(), random);
        let refusal = started.as_ref().err().copied();
        self.calls.judged(refusal.map_or(Ok(()), Err));
        let mut first = started.ok()?;
        let most = start.count * MOST_TURNS_A_PROCESS;
        if !self.play(&mut first, Order::AtRandom, most, random) {
            self.dropped += 1;
            return None;
        }
        self.ended += 1;
        let beyond = random.from(1, 6);
        self.steps(&mut first, beyond, random);
        Some(first)
    }

    /// Steps in another order, at times beyond the end; whether others completed the collectives.
    fn stepped(
        &mut self,
        (machine, order): (Machine, Order),
        first: &Played,
        random: &mut Random,
    ) -> bool {
        let mut played = first.again(machine, format!("{order:?}"), random);
        // At random, one turn in as many as there are processes is not idle, or more.
        let most = 20 * first.count() * (first.made() + 10);
        let ended = self.play(&mut played, order, most, random);
        assert!(ended, "{}: no end in {most} turns", played.name());
        let beyond = random.pick(&[0, 0, 1, 5]);
        self.steps(&mut played, beyond, random);
        assert_alike(&played, first);
        played.completers() != first.completers()
    }

    /// One serve, with turns enough.
    fn served(&mut self, machine: Machine, first: &Played, random: &mut Random) {
        let made = first.made() as u32;
        let turns = random.pick(&[made, made + 1, u32::MAX]);
        let last = random.below(first.count()) as u32;
        let order = format!("one serve of {turns} turns after {last}");
        let mut played = first.again(machine, order, random);
        self.serve(&mut played, last, turns);
        self.assert_served(played, first, random);
    }

    /// Some steps, then serves of few turns until fewer are made; whether both made turns.
    fn served_after_steps(&mut self, first: &Played, random: &mut Random) -> bool {
        let steps = random.below(MOST_STEPS_BEFORE_SERVES);
        let order = format!("serves after {steps} steps");
        let mut played = first.again(LIBRARY, order, random);
        self.steps(&mut played, steps, random);
        let stepped = played.made();
        let mut last = Some(random.below(first.count()) as u32);
        // Each serve but the last makes a turn, so there are no more of them.
        for _ in 0..=first.made() {
            let Some(before) = last else { break };
            last = self.serve(&mut played, before, random.from(1, 4) as u32);
        }
        self.assert_served(played, first, random);
        0 < stepped && stepped < first.made()
    }

    /// How the team stands is told by a step behind the end.
    fn assert_served(&mut self, mut played: Played, first: &Played, random: &mut Random) {
        let running = played.running();
        assert!(running.is_empty(), "{}: {running:?} run", played.name());
        let process = random.below(played.count()) as u32;
        self.calls.stepped(played.step(process));
        assert_alike(&played, first);
    }
}

impl Orders {
    /// Acceptance is no condition, and equal start words are none.
    fn run(&mut self, random: &mut Random) {
        let [equal, switched] = [2, 3].map(|many| random.one_in(many));
        let table = some_table(switched, random);
        let count = random.pick(&[1, 2, 2, 2, 3, 3, 3, 4, 4, 5, 7, MOST_PROCESSES]);
        let start = Start {
            table: table.bytes(),
            count,
            words: start_words(&table, count, equal, random),
        };
        let Some(first) = self.first(&start, random) else {
            return;
        };
        let mut by_others = false;
        for other in others(count, random) {
            by_others |= self.stepped(other, &first, random);
        }
        self.served(LIBRARY, &first, random);
        if random.one_in(8) {
            self.served(MODEL, &first, random);
        }
        let after_steps = self.served_after_steps(&first, random);
        let refused = check(&start.table, &mut [1; SCRATCH_WORDS]).is_err();
        let unequal = !is_equal(&table, &start.words);
        let shown = [refused, switched, unequal, by_others, after_steps];
        let shown = of_list(&first).into_iter().chain(shown);
        for (times, shown) in self.shown.iter_mut().zip(shown) {
            *times += shown as usize;
        }
    }

    fn show(&self) {
        let Orders { ended, dropped, .. } = self;
        let shown = WANTED.iter().zip(self.shown);
        let shown: Vec<String> = shown
            .map(|((words, _), times)| format!("{times} {words}"))
            .collect();
        let shown = shown.join(", ");
        let what = format!("orders of turns ({ended} starts ended, {dropped} dropped; {shown})");
        self.calls.show(&what);
    }
}

#[test]
fn the_order_of_turns_makes_no_difference() {
    let mut random = Random::new(24);
    let mut orders = Orders::default();
    while orders.ended < ENDED {
        orders.run(&mut random);
    }
    orders.show();
    for ((words, least), times) in WANTED.iter().zip(orders.shown) {
        assert!(times >= *least, "only {times} {words}");
    }
    let Orders { calls, .. } = orders;
    calls.assert_events(10_000);
    calls.assert_refused([22], 10_000);
    calls.assert_refused([26], 50);
    assert_eq!(
        calls.taken + calls.refused[22] + calls.refused[26],
        calls.calls()
    );
}
