//! The wrapper's numbers and answers are those of the C header and of the proved code.

use finchchaise::*;

const HEADER: &str = include_str!("../../../include/finchchaise.h");
const CODE: &str = include_str!("../../../crates/rules/src/layout.rt");
const RAW: &str = include_str!("../src/raw.rs");
const EXPORTS: &str = include_str!("../../../crates/ffi/src/lib.rt");

/// What a text says that a name is: a sum of numbers, names and products of them.
fn value(text: &str, name: &str) -> usize {
    let said = text.lines().find_map(|line| {
        let line = line.trim().trim_end_matches([',', ';']);
        let (left, right) = line.split_once(" = ")?;
        let left = left.trim_start_matches("pub const ");
        (left.trim_end_matches(": usize") == name).then_some(right)
    });
    let sum = said.unwrap_or_else(|| panic!("{name} is missing"));
    let number = |part: &str| part.parse().unwrap_or_else(|_| value(text, part));
    let product = |term: &str| -> usize { term.split(" * ").map(number).product() };
    sum.split(" + ").map(product).sum()
}

#[test]
fn numbers_are_the_same_on_all_sides() {
    let numbers = [
        (MOST_TABLE_BYTES, "FC_MOST_TABLE_BYTES", "MOST_TABLE_BYTES"),
        (MOST_PROCESSES, "FC_MOST_PROCESSES", "MOST_PROCESSES"),
        (ROLL_WORDS, "FC_ROLL_WORDS", "ARRIVAL_WORDS"),
        (SCRATCH_WORDS, "FC_SCRATCH_WORDS", "SCRATCH_WORDS"),
        (VARIABLES, "FC_VARIABLES", "VARIABLE_PLACES"),
        (GATHERED_AREAS, "FC_GATHERED_AREAS", "GATHERED_AREAS"),
        (AREA_SLOTS, "FC_AREA_SLOTS", "AREA_SLOTS"),
        (GATHERED, "FC_GATHERED", "GATHERED_PLACES"),
        (DOORS, "FC_DOORS", "DOOR_PLACES"),
        (LATCHES, "FC_LATCHES", "LATCH_PLACES"),
        (STACK, "FC_STACK", "STACK_PLACES"),
        (GATHERED_AT, "FC_GATHERED_AT", "GATHERED_AT"),
        (DOORS_AT, "FC_DOORS_AT", "DOORS_AT"),
        (LATCHES_AT, "FC_LATCHES_AT", "LATCHES_AT"),
        (DEPTH_AT, "FC_DEPTH_AT", "DEPTH_AT"),
        (STACK_AT, "FC_STACK_AT", "STACK_AT"),
        (PROCESS_WORDS, "FC_PROCESS_WORDS", "PROCESS_WORDS"),
    ];
    for (number, in_header, in_code) in numbers {
        assert_eq!(value(HEADER, in_header), number, "{in_header}");
        assert_eq!(value(CODE, in_code), number, "{in_code}");
    }
}

/// What stands around a field that is a word.
type Around = (&'static str, &'static str);
const IN_C: Around = ("uint32_t ", ";");
const IN_RUST: Around = ("pub ", ": u32,");

/// The fields of a struct in their order, all of which are words.
fn fields<'text>(text: &'text str, name: &str, (before, after): Around) -> Vec<&'text str> {
    let begin = format!("struct {name} {{\n");
    let (_, rest) = text.split_once(&begin).expect("a struct");
    let (inside, _) = rest.split_once("\n}").expect("its end");
    let field = |line: &'text str| {
        let field = line.trim().strip_prefix(before)?;
        field.strip_suffix(after)
    };
    let lines = inside.lines();
    let fields = lines.map(|line| field(line).unwrap_or_else(|| panic!("no field: {line}")));
    fields.collect()
}

#[test]
fn answers_have_the_same_fields_on_all_sides() {
    let structs: [(&str, &[&str]); 3] = [
        ("FcStep", &["number", "place", "event", "node", "site"]),
        ("FcServe", &["made", "last", "number", "place"]),
        ("FcLink", &["number", "place", "table"]),
    ];
    for (name, expected) in structs {
        assert_eq!(fields(HEADER, name, IN_C), expected, "{name}");
        assert_eq!(fields(RAW, name, IN_RUST), expected, "{name}");
        assert_eq!(fields(EXPORTS, name, IN_RUST), expected, "{name}");
    }
}
