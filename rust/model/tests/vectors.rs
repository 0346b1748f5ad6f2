//! Every line of tests/vectors/u08.txt through the model.

use finchchaise_model::{check_table, link_tables, run_team, schedule_team};
use std::{fs, path::Path};

const VECTORS: &str = "../../tests/vectors/u08.txt";
const FEWEST_CASES: usize = 834;
const MOST_SHOWN: usize = 5;

/// A line: the program's word, its input and its output in hexadecimal.
struct Case<'line> {
    program: &'line str,
    input: &'line str,
    output: Vec<u8>,
}

impl Case<'_> {
    fn of(line: &str) -> Case<'_> {
        let fields: Vec<&str> = line.split(' ').collect();
        let [program, input, output] = fields[..] else {
            panic!("not three fields: {line}");
        };
        Case {
            program,
            input,
            output: bytes_of(output),
        }
    }

    fn found(&self) -> Vec<u8> {
        let input = bytes_of(self.input);
        match self.program {
            "check" => check_table(&input).into_bytes(),
            "run" => run_team(&input).into_bytes(),
            "serve" => schedule_team(&input).into_bytes(),
            "join" => link_tables(&input),
            other => panic!("no program {other}"),
        }
    }
}

/// `-` stands for no bytes.
fn bytes_of(hexadecimal: &str) -> Vec<u8> {
    if hexadecimal == "-" {
        return Vec::new();
    }
    let (bytes, rest) = hexadecimal.as_bytes().as_chunks::<2>();
    assert!(rest.is_empty(), "half a byte: {hexadecimal}");
    bytes.iter().map(byte_of).collect()
}

fn byte_of(digits: &[u8; 2]) -> u8 {
    let digits = str::from_utf8(digits).expect("text");
    u8::from_str_radix(digits, 16).expect("hexadecimal")
}

#[test]
fn every_vector_is_answered_as_written() {
    let path = Path::new(env!("CARGO_MANIFEST_DIR")).join(VECTORS);
    let text = fs::read_to_string(&path).expect("the vectors");
    let cases: Vec<Case> = text.lines().map(Case::of).collect();
    let differing: Vec<&Case> = cases
        .iter()
        .filter(|case| case.found() != case.output)
        .collect();
    for case in differing.iter().take(MOST_SHOWN) {
        println!("{} {}", case.program, case.input);
        println!("  expected {}", String::from_utf8_lossy(&case.output));
        println!("  found    {}", String::from_utf8_lossy(&case.found()));
    }
    assert!(cases.len() >= FEWEST_CASES, "{} cases", cases.len());
    assert!(differing.is_empty(), "{} cases differ", differing.len());
}
