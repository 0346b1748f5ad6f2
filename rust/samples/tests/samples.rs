//! The files of samples/ are what this package makes, and what their .md files say of them is true.

use finchchaise_model::{check_table, link_tables, run_team, schedule_team};
use finchchaise_model::{latches, start, step, Arrival, Event, PROCESS_WORDS};
use finchchaise_samples::library::{join, joined, library, program, Program};
use finchchaise_samples::{bytes, rosters, samples, search, stocktake, switches, tariff};
use finchchaise_samples::{Sample, Site};
use std::collections::BTreeSet;
use std::fs;
use std::path::PathBuf;

fn folder() -> PathBuf {
    PathBuf::from(env!("CARGO_MANIFEST_DIR")).join("../../samples")
}

fn read(name: &str) -> Vec<u8> {
    fs::read(folder().join(name)).unwrap_or_else(|error| panic!("{name}: {error}"))
}

fn text(name: &str) -> String {
    String::from_utf8(read(name)).expect(name)
}

/// What is printed for a sample: text, but of two tables that are joined the bytes of one.
fn answer(sample: &Sample) -> Vec<u8> {
    let program = match sample.name.rsplit_once('.') {
        Some((_, "join")) => return link_tables(&sample.bytes),
        Some((_, "table")) => check_table,
        Some((_, "run")) => run_team,
        Some((_, "serve")) => schedule_team,
        _ => panic!("no program for {}", sample.name),
    };
    program(&sample.bytes).into_bytes()
}

#[test]
fn files_are_as_made() {
    for sample in samples() {
        assert_eq!(read(sample.name), sample.bytes, "{}", sample.name);
        let printed = format!("{}.out", sample.name);
        assert_eq!(read(&printed), answer(&sample), "{printed}");
    }
}

#[test]
fn tables_are_accepted_but_t1_and_runs_end_done() {
    for sample in samples() {
        let answer = answer(&sample);
        if sample.name.ends_with(".join") {
            assert_eq!(check_table(&answer), "accepted\n", "{}", sample.name);
            continue;
        }
        let answer = String::from_utf8(answer).expect(sample.name);
        match sample.name {
            "t1.table" => assert_eq!(answer, "refused 15 3\n"),
            name if name.ends_with(".table") => assert_eq!(answer, "accepted\n", "{name}"),
            name => {
                assert!(answer.ends_with(" done\n"), "{name}");
                assert_eq!(answer.matches("done").count(), 1, "{name} has idle turns");
            }
        }
    }
}

/// The words written `1234ABCD` in a column of a page's tables, of which column 1 is the first.
fn words(page: &str, column: usize) -> Vec<u32> {
    page.lines()
        .filter(|line| line.starts_with('|'))
        .filter_map(|row| row.split('|').nth(column))
        .filter_map(|cell| cell.trim().strip_prefix('`')?.strip_suffix('`'))
        .filter(|word| word.len() == 8)
        .filter_map(|word| u32::from_str_radix(word, 16).ok())
        .collect()
}

/// The columns with a table's words, and with what they are in the joined table.
const WORD: usize = 2;
const JOINED: usize = 4;

/// The name of the page that explains a file: all before the first - or dot.
fn page(sample: &Sample) -> &str {
    sample.name.split(['-', '.']).next().expect("a name")
}

/// The section of a page whose heading names the file, or all of a page that has none.
fn section<'a>(page: &'a str, file: &str) -> &'a str {
    let name = format!("`{file}`");
    let is_headed = |part: &&str| part.lines().next().is_some_and(|line| line.contains(&name));
    page.split("\n## ").find(is_headed).unwrap_or(page)
}

/// A page without the rows for the other site.
fn rows_of(site: &str, page: &str) -> String {
    let other = if site == "north" { "south" } else { "north" };
    let mark = format!(", {other} |");
    let rows = page.lines().filter(|line| !line.contains(&mark));
    rows.collect::<Vec<_>>().join("\n")
}

#[test]
fn explanations_list_every_word() {
    for sample in samples() {
        let Some(name) = sample.name.strip_suffix(".table") else {
            continue;
        };
        let site = name.split_once('-').map_or("", |(_, site)| site);
        let (table, rest) = sample.bytes.as_chunks();
        let table: Vec<u32> = table.iter().copied().map(u32::from_be_bytes).collect();
        let text = text(&format!("{}.md", page(&sample)));
        let rows = rows_of(site, section(&text, sample.name));
        assert_eq!(words(&rows, WORD), table, "{name}");
        assert!(rest.is_empty());
    }
}

/// The programs that use the library, and their files.
const PROGRAMS: [(Program, &str); 2] = [
    (Program::Stocktake, "library-stocktake.table"),
    (Program::Search, "library-search.table"),
];

#[test]
fn explanations_list_every_joined_word() {
    let page = text("library.md");
    // Behind header, flags and two procedures.
    let library = &words(section(&page, "library.table"), WORD)[4..];
    for (program, file) in PROGRAMS {
        let own = words(section(&page, file), JOINED);
        let procedures = (own[0] >> 17 & 31) as usize;
        let (before, nodes) = own.split_at(2 + procedures);
        let listed = [before, library, nodes].concat();
        assert_eq!(bytes(&listed), joined(program), "{file}");
    }
}

/// What is printed, in order, with a line `...` where some is left out.
fn assert_printed(session: &str) {
    let (command, shown) = session.split_once('\n').expect("a command");
    if command.starts_with("$ ./site join") {
        return assert_joined(command, shown);
    }
    let file = command.rsplit('/').next().expect("a file");
    let printed = text(&format!("{file}.out"));
    let mut left = &printed[..];
    for part in shown.split("...\n") {
        let begin = left
            .find(part)
            .unwrap_or_else(|| panic!("{command}: {part}"));
        left = &left[begin + part.len()..];
    }
    assert!(left.is_empty(), "{command} prints more");
}

/// Joining prints nothing here. What it reads is in a file of the program's name, and what it writes
/// is checked next.
fn assert_joined(command: &str, shown: &str) {
    let names: Vec<&str> = command.split(' ').skip(3).collect();
    let [library, program, out] = names[..] else {
        panic!("{command}");
    };
    let [library, program] = [library, program].map(|name| name.rsplit('/').next().unwrap());
    let input = program.replace(".table", ".join");
    let length = bytes(&[read(library).len() as u32]);
    let tables = [length, read(library), read(program)].concat();
    assert_eq!(read(&input), tables, "{command}");
    assert_eq!(shown, format!("$ ./site check {out}\naccepted\n"));
}

#[test]
fn explanations_show_what_is_printed() {
    let mut sessions = 0;
    let samples = samples();
    let pages: BTreeSet<&str> = samples.iter().map(page).collect();
    for name in pages {
        let text = text(&format!("{name}.md"));
        for session in text
            .split("```\n")
            .filter(|part| part.starts_with("$ ./site"))
        {
            assert_printed(session);
            sessions += 1;
        }
    }
    assert_eq!(sessions, samples.len());
}

/// The state after a run, given its start words and turns.
fn state_after(table: &[u8], start_words: &[u32], count: usize, turns: usize) -> Vec<u32> {
    let (state, _) = after(table, start_words, count, turns);
    state
}

/// The same, and the nodes at which the processes met.
fn after(table: &[u8], start_words: &[u32], count: usize, turns: usize) -> (Vec<u32>, Vec<u32>) {
    let round = (0..count as u32).cycle();
    played(table, start_words, count, round.take(count * turns))
}

/// The same for turns in any order.
fn played(
    table: &[u8],
    start_words: &[u32],
    count: usize,
    turns: impl Iterator<Item = u32>,
) -> (Vec<u32>, Vec<u32>) {
    let mut state = vec![0; count * PROCESS_WORDS];
    let mut arrivals = vec![Arrival::default(); count];
    let mut met = Vec::new();
    start(table, count as u32, start_words, &mut state, &mut arrivals).expect("a start");
    for process in turns {
        let answer = step(table, &mut state, &mut arrivals, process);
        if let Event::Completed(node) = answer.expect("a step").event {
            met.push(node);
        }
    }
    (state, met)
}

/// Latches 0, 1 and 2 of every process.
fn shown(state: &[u32]) -> Vec<[u32; 3]> {
    let count = state.len() / PROCESS_WORDS;
    let first = |process| *latches(state, process).first_chunk().expect("latches");
    (0..count).map(first).collect()
}

/// The start words within a program's input: behind length, table and the numbers of the call.
fn start_words(file: &str, table: &[u8], words: usize) -> Vec<u32> {
    let numbers = if file.ends_with(".serve") { 3 } else { 1 };
    let input = fs::read(folder().join(file)).expect(file);
    let (begin, _) = input[4 + table.len() + 4 * numbers..].as_chunks();
    begin[..words]
        .iter()
        .copied()
        .map(u32::from_be_bytes)
        .collect()
}

/// The paper's rosters in a process's words.
fn areas(words: &[u32]) -> &[[u32; 16]; 4] {
    let (areas, _) = words[32..].as_chunks();
    areas.first_chunk().expect("four areas")
}

#[test]
fn latches_hold_what_is_said() {
    let given = start_words("stocktake.run", &stocktake(), 2 * 16);
    let state = state_after(&stocktake(), &given, 2, 77);
    assert_eq!(shown(&state), [[8, 0, 0]; 2]);
    let given = start_words("tariff.run", &tariff(), 3 * 14);
    let state = state_after(&tariff(), &given, 3, 8);
    assert_eq!(shown(&state), [[1250, 1, 0]; 3]);
}

/// How often each bank stands in a run's lines with one of these words.
fn lines(file: &str, words: &[&str]) -> [usize; 2] {
    let printed = text(file);
    ["0", "1"].map(|bank| {
        let is_meant = |line: &&str| {
            let mut cells = line.split(' ');
            cells.next() == Some(bank) && cells.next().is_some_and(|word| words.contains(&word))
        };
        printed.lines().filter(is_meant).count()
    })
}

#[test]
fn a_stocktake_in_another_order_ends_alike() {
    let table = stocktake();
    let given = start_words("stocktake-late.run", &table, 2 * 16);
    assert_eq!(given, start_words("stocktake.run", &table, 2 * 16));
    assert_eq!(given, start_words("stocktake.serve", &table, 2 * 16));
    let late = read("stocktake-late.run").split_off(4 + table.len() + 4 + 4 * given.len());
    let late = played(&table, &given, 2, late.into_iter().map(u32::from));
    assert_eq!(late, after(&table, &given, 2, 77));
    for run in ["stocktake.run.out", "stocktake-late.run.out"] {
        let not_idle = lines(run, &["moved", "finished", "arrived", "met"]);
        assert_eq!(not_idle, [77, 77], "{run}");
        assert_eq!(lines(run, &["arrived", "met"]), [1, 1], "{run}");
    }
    let idle = lines("stocktake-late.run.out", &["waits", "ended"]);
    assert_eq!(idle, [3, 15]);
}

#[test]
fn tariff_of_a_bank_that_is_not_there_is_0() {
    let given = start_words("tariff.run", &tariff(), 14);
    let state = state_after(&tariff(), &given, 1, 8);
    assert_eq!(shown(&state), [[0, 0, 0]]);
}

#[test]
fn search_finds_the_doors_that_are_said() {
    let given = start_words("search.run", &search(), 3 * 13);
    let state = state_after(&search(), &given, 3, 68);
    assert_eq!(shown(&state), [[0, 0, 1], [1, 0, 0], [0, 0, 0]]);
    for words in state.chunks(PROCESS_WORDS) {
        assert_eq!(areas(words)[0][..3], [2, 0, 12]);
    }
}

#[test]
fn rosters_hold_what_is_said() {
    let given = start_words("rosters.serve", &rosters(), 3 * 20);
    let (state, met) = after(&rosters(), &given, 3, 411 / 3);
    assert_eq!(met, [60, 62, 64]);
    assert_eq!(shown(&state), [[9, 6, 3]; 3]);
    for words in state.chunks(PROCESS_WORDS) {
        let counts = areas(words).map(|slots| [slots[0], slots[1], slots[2]]);
        assert_eq!(counts, [[3, 5, 1], [1, 2, 3], [1, 0, 2], [0, 0, 0]]);
        assert_eq!(words[4..8], [3, 9, 6, 3]);
    }
}

#[test]
fn search_with_a_single_door_is_refused() {
    let mut table = search();
    // The flag of variable 0.
    table[4] = 0x80;
    assert_eq!(check_table(&table), "refused 16 11\n");
}

/// A table of one procedure, with this word for a node.
fn with_node(mut table: Vec<u8>, node: usize, word: u32) -> Vec<u8> {
    let begin = 4 * (2 + 1 + node);
    table[begin..begin + 4].copy_from_slice(&word.to_be_bytes());
    table
}

#[test]
fn tariff_by_own_condition_is_refused() {
    // Node 4 asks for variable 1.
    let table = with_node(tariff(), 4, 0x0804_0000);
    assert_eq!(check_table(&table), "refused 15 12\n");
}

#[test]
fn sites_differ_in_the_word_of_node_0() {
    let north = with_node(switches(Site::South), 0, 1);
    assert_eq!(north, switches(Site::North));
    assert_ne!(north, switches(Site::South));
}

#[test]
fn switches_find_the_doors_that_are_said() {
    let given = start_words("switches-north.run", &switches(Site::North), 2 * 13);
    let (state, met) = after(&switches(Site::North), &given, 2, 15);
    assert_eq!(met, [29]);
    assert_eq!(shown(&state), [[0, 1, 0], [1, 0, 0]]);
    for words in state.chunks(PROCESS_WORDS) {
        assert_eq!(areas(words)[0][..2], [1, 0]);
    }
    assert_eq!(
        given,
        start_words("switches-south.run", &switches(Site::South), 2 * 13)
    );
    let (state, met) = after(&switches(Site::South), &given, 2, 27);
    assert_eq!(met, [6, 6, 6, 29]);
    assert_eq!(shown(&state), [[0, 0, 1]; 2]);
    for words in state.chunks(PROCESS_WORDS) {
        assert_eq!(areas(words)[0][..2], [2, 2]);
    }
}

#[test]
fn a_switch_is_fixed() {
    for site in [Site::North, Site::South] {
        let by_count = with_node(switches(site), 0, 0x1800_0000);
        assert_eq!(check_table(&by_count), "refused 16 27\n");
        let by_variable = with_node(switches(site), 0, 0x0800_0000);
        assert_eq!(check_table(&by_variable), "refused 15 21\n");
        let another_site = with_node(switches(site), 0, 3);
        assert_eq!(check_table(&another_site), "accepted\n");
    }
}

#[test]
fn what_is_off_is_judged_when_it_is_on() {
    // Node 7 is the own number, so the slot of node 8 is the process's own.
    let slip = |site| check_table(&with_node(switches(site), 7, 0x1000_0000));
    assert_eq!(slip(Site::North), "accepted\n");
    assert_eq!(slip(Site::South), "refused 16 27\n");
    // Node 6 names area 4.
    for site in [Site::North, Site::South] {
        let slip = with_node(switches(site), 6, 0xC814_0800);
        assert_eq!(check_table(&slip), "refused 9 6\n");
    }
}

#[test]
fn joining_is_building_behind_the_library() {
    for (program, file) in PROGRAMS {
        assert_eq!(link_tables(&join(program)), joined(program), "{file}");
    }
}

#[test]
fn library_adds_up_what_is_said() {
    let table = joined(Program::Stocktake);
    let given = start_words("library-stocktake.run", &table, 2 * 16);
    assert_eq!(shown(&state_after(&table, &given, 2, 3)), [[7, 0, 0]; 2]);
    assert_eq!(shown(&state_after(&table, &given, 2, 68)), [[7, 0, 0]; 2]);
    let (state, met) = after(&table, &given, 2, 85);
    assert_eq!(met, [4]);
    assert_eq!(shown(&state), [[8, 0, 0]; 2]);
    let table = joined(Program::Search);
    let given = start_words("library-search.serve", &table, 3 * 16);
    let (state, met) = after(&table, &given, 3, 166);
    assert_eq!(met, [4]);
    assert_eq!(shown(&state), [[2, 2, 0], [2, 0, 0], [2, 12, 0]]);
}

#[test]
fn stubs_do_nothing() {
    let given = start_words("library-stocktake.run", &joined(Program::Stocktake), 2 * 16);
    let (state, met) = after(&program(Program::Stocktake), &given, 2, 85);
    assert!(met.is_empty());
    assert_eq!(shown(&state), [[0, 0, 0]; 2]);
}

/// What joining the library to a program prints that the checker accepts.
fn refused(program: &[u8]) -> String {
    assert_eq!(check_table(program), "accepted\n");
    let length = bytes(&[library().len() as u32]);
    let printed = link_tables(&[&length, &library(), program].concat());
    String::from_utf8(printed).expect("a refusal")
}

#[test]
fn slips_are_refused_by_joining() {
    let mut table = program(Program::Stocktake);
    // The flag of procedure 1.
    table[4 * (2 + 1) + 1] = 0;
    assert_eq!(refused(&table), "refused 27 1 program\n");
    let mut table = program(Program::Search);
    // The flags of variables 0 to 7.
    table[4] = 0;
    assert_eq!(refused(&table), "refused 28 2 program\n");
    for (program, _) in PROGRAMS {
        assert_eq!(refused(&joined(program)), "refused 27 0 program\n");
    }
}
