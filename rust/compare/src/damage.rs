//! Tables that are wrong in some way, and bytes that were never a table.

use crate::random::Random;
use crate::shape::{fields, is_statement, parts, Field, BARRIER, CALL, KINDS, LEAVE, NOTHING};
use finchchaise::GATHERED_AREAS;
use finchchaise_samples::{bytes, Builder};

/// The table's bytes with one or two changes.
pub fn damaged(table: &Builder, random: &mut Random) -> Vec<u8> {
    let mut words = table.words();
    for _ in 0..random.from(1, 2) {
        match random.below(8) {
            0 => words[0] = damaged_header(words[0], random),
            1 => words[1] ^= 1 << random.below(32),
            2 | 3 => damage_procedure(table, &mut words, random),
            _ => damage_node(table, &mut words, random),
        }
    }
    let mut bytes = bytes(&words);
    if random.one_in(8) {
        change_length(&mut bytes, random);
    }
    bytes
}

fn damaged_header(word: u32, random: &mut Random) -> u32 {
    match random.below(4) {
        0 => word ^ 1 << random.below(32),
        1 => word.wrapping_add(1 << random.pick(&[8, 17, 22, 28])),
        2 => word.wrapping_sub(1 << random.pick(&[8, 17, 22, 28])),
        _ => word & !(0x3F << 22) | random.edge().min(63) << 22,
    }
}

fn damage_procedure(table: &Builder, words: &mut [u32], random: &mut Random) {
    let procedure = 2 + random.below(table.procedures.len());
    let word = &mut words[procedure];
    match random.below(4) {
        0 | 1 => *word ^= 1 << 23,
        2 => *word ^= 1 << random.below(23),
        _ => *word = random.edge() << 24 | *word & 1 << 23,
    }
}

fn damage_node(table: &Builder, words: &mut [u32], random: &mut Random) {
    let nodes = &mut words[2 + table.procedures.len()..];
    let (node, other) = (random.below(nodes.len()), random.below(nodes.len()));
    let word = nodes[node];
    let called = random.from(0, table.procedures.len()) as u32;
    nodes[node] = match random.below(16) {
        0 => (random.below(32) as u32) << 27 | word & 0x7FF_FFFF,
        1 => random.pick(&KINDS) << 27 | word & 0x7FF_FFFF,
        2 => random.number() as u32,
        3 => return nodes.swap(node, other),
        4..=6 => return replace_some(nodes, &[CALL], CALL << 27 | called << 18, random),
        7 | 8 => return replace_some(nodes, &[NOTHING, BARRIER], LEAVE << 27, random),
        9 | 10 => with_another_part(word, &nodes[..node], random),
        _ => damaged_field(word, nodes.len(), random),
    };
}

/// Some nodes of these kinds become another one: calls go to any procedure, often not a lower one,
/// leaves stand anywhere, often without a while around them.
fn replace_some(nodes: &mut [u32], kinds: &[u32], replacement: u32, random: &mut Random) {
    let replaced = |node: &&mut u32| kinds.contains(&(**node >> 27));
    for node in nodes.iter_mut().filter(replaced) {
        if random.one_in(2) {
            *node = replacement;
        }
    }
}

/// In place of a part another node of its sort, which is then used twice, and the part never.
fn with_another_part(word: u32, before: &[u32], random: &mut Random) -> u32 {
    let kind = word >> 27;
    let places: Vec<usize> = parts(kind).collect();
    if places.is_empty() {
        return word;
    }
    let place = random.pick(&places);
    let statement = fields(kind)[place - 1] == Field::Statement;
    let fits = |part: &usize| is_statement(before[*part] >> 27) == statement;
    let alike: Vec<usize> = (0..before.len()).filter(fits).collect();
    match alike.is_empty() {
        true => word,
        false => with_field(word, 27 - 9 * place, random.pick(&alike) as u32),
    }
}

fn with_field(word: u32, shift: usize, field: u32) -> u32 {
    word & !(0x1FF << shift) | field << shift
}

/// Another number in A, B or C, mostly one that some node has.
fn damaged_field(word: u32, nodes: usize, random: &mut Random) -> u32 {
    let shift = random.pick(&[0, 9, 18]);
    let field = match random.below(4) {
        0 => random.edge() & 0x1FF,
        _ => random.below(nodes + 1) as u32 & 0x1FF,
    };
    with_field(word, shift, field)
}

fn change_length(table: &mut Vec<u8>, random: &mut Random) {
    let change = random.pick(&[1, 2, 3, 4, 8, 16, 1096]);
    match random.one_in(2) {
        true => table.truncate(table.len().saturating_sub(change)),
        false => table.extend(random.bytes(change)),
    }
}

/// A table of few nodes whose fields mostly name what they should, though not always once each.
pub fn small_table(random: &mut Random) -> Vec<u8> {
    let variables = random.from(1, 3);
    let mut table = Builder::new(variables as u32, &[random.below(variables) as u32]);
    let procedures = random.from(1, 3);
    for _ in 0..random.from(1, 7) {
        let kind = small_kind(&table, random);
        let [a, b, c] = fields(kind).map(|field| small_field(&table, field, procedures, random));
        table.node(kind, a, b, c);
    }
    for _ in 0..procedures {
        let body = small_field(&table, Field::Statement, procedures, random);
        table.procedure(body, random.one_in(2));
    }
    table.bytes()
}

/// Mostly a kind for which there are parts that have no use yet.
fn small_kind(table: &Builder, random: &mut Random) -> u32 {
    let has_parts = |&kind: &u32| {
        let count = |sort| fields(kind).iter().filter(|&&field| field == sort).count();
        let parts = [Field::Expression, Field::Statement];
        parts
            .iter()
            .all(|&sort| count(sort) <= unused(table, sort).len())
    };
    let kinds: Vec<u32> = KINDS.into_iter().filter(has_parts).collect();
    match random.one_in(20) {
        true => random.pick(&KINDS),
        false => random.pick(&kinds),
    }
}

/// Nodes of a sort that no other node names.
fn unused(table: &Builder, sort: Field) -> Vec<u32> {
    let named = |part: u32| {
        let names = |node: &[u32; 4]| parts(node[0]).any(|place| node[place] == part);
        table.nodes.iter().any(names)
    };
    let fits =
        |part: u32| is_statement(table.nodes[part as usize][0]) == (sort == Field::Statement);
    let nodes = 0..table.nodes.len() as u32;
    nodes.filter(|&part| fits(part) && !named(part)).collect()
}

fn small_field(table: &Builder, field: Field, procedures: usize, random: &mut Random) -> u32 {
    match field {
        Field::Unnamed => random.one_in(100) as u32,
        Field::Number => random.below(512) as u32,
        Field::Variable => random.nearly_below(table.variables as usize) as u32,
        Field::Procedure => random.nearly_below(procedures) as u32,
        Field::Area if random.one_in(16) => random.edge() & 0x1FF,
        Field::Area => random.below(GATHERED_AREAS) as u32,
        Field::Expression | Field::Statement => {
            let unused = unused(table, field);
            match unused.is_empty() || random.one_in(50) {
                true => random.below(table.nodes.len() + 1) as u32,
                false => random.pick(&unused),
            }
        }
    }
}

/// Bytes of any length; half of them begin as a table does.
pub fn random_bytes(random: &mut Random) -> Vec<u8> {
    let length = match random.below(4) {
        0 => random.below(1200),
        1 => random.pick(&[0, 4, 12, 15, 16, 17, 20, 1092, 1096, 1100]),
        _ => 4 * random.from(4, 40),
    };
    let mut bytes = random.bytes(length);
    if random.one_in(2) && (16..=1096).contains(&length) {
        begin_as_table(&mut bytes, random);
    }
    bytes
}

fn begin_as_table(bytes: &mut [u8], random: &mut Random) {
    let words = bytes.len() / 4;
    let procedures = random.from(1, 16.min(words - 3));
    let nodes = (words - 2 - procedures).min(256) as u32;
    let variables = random.from(1, 32) as u32;
    let flags = (random.number() as u32) << (31 - random.below(32));
    let mut begin = vec![
        1 << 28 | variables << 22 | (procedures as u32) << 17 | nodes << 8,
        flags,
    ];
    for _ in 0..procedures {
        begin.push((random.nearly_below(nodes as usize) as u32) << 24);
    }
    for (place, word) in begin.iter().enumerate() {
        bytes[4 * place..][..4].copy_from_slice(&word.to_be_bytes());
    }
}
