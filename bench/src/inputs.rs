//! The inputs, made from fixed seeds: the same bytes in each run.
use crate::random::Random;
use crate::report_inputs;

pub const VARINT: u64 = 0;
pub const FIXED64: u64 = 1;
const DELIMITED: u64 = 2;
const GROUP_START: u64 = 3;
const GROUP_END: u64 = 4;
const FIXED32: u64 = 5;

/// Bytes, and how many units of work they hold.
pub struct Input {
    pub bytes: Vec<u8>,
    pub units: u64,
}

pub fn put_varint(value: u64, text: &mut Vec<u8>) {
    let mut rest = value;
    while rest >= 0x80 {
        text.push(rest as u8 | 0x80);
        rest >>= 7;
    }
    text.push(rest as u8);
}

pub fn put_tag(number: u64, wire_type: u64, text: &mut Vec<u8>) {
    put_varint(number << 3 | wire_type, text);
}

pub fn put_delimited(payload: &[u8], text: &mut Vec<u8>) {
    put_varint(payload.len() as u64, text);
    text.extend(payload);
}

pub fn put_payload(number: u64, payload: &[u8], text: &mut Vec<u8>) {
    put_tag(number, DELIMITED, text);
    put_delimited(payload, text);
}

/// The inputs of the rows, by name.
pub fn named(name: &str) -> Input {
    match name {
        "varint1" => varints(1, |random| random.of_width(1)),
        "varint2" => varints(2, |random| random.of_width(2)),
        "varint5" => varints(3, |random| random.of_width(5)),
        "varint10" => varints(4, |random| random.of_width(10)),
        "varints" => varints(5, Random::mixed),
        "small" => varints(6, |random| random.between(0, 299)),
        "short" => strings(7, 16384, |random| random.ascii(0, 24)),
        "long" => strings(8, 32, |random| random.ascii(8000, 32000)),
        "unicode" => strings(9, 1024, |random| random.text(0, 200)),
        "records" => records(10, 400_000),
        "persons" => persons(11, false),
        "newer" => persons(12, true),
        "tree" => tree(13),
        _ => report_inputs::named(name),
    }
}

fn varints(seed: u64, number: impl Fn(&mut Random) -> u64) -> Input {
    let mut random = Random(seed);
    let mut bytes = Vec::new();
    let units = 32768;
    for _ in 0..units {
        put_varint(number(&mut random), &mut bytes);
    }
    Input { bytes, units }
}

fn strings(seed: u64, units: u64, string: impl Fn(&mut Random) -> String) -> Input {
    let mut random = Random(seed);
    let mut bytes = Vec::new();
    for _ in 0..units {
        put_delimited(string(&mut random).as_bytes(), &mut bytes);
    }
    Input { bytes, units }
}

// Records of all wire types, in groups up to three deep, until they have so many bytes. The units
// are all records.
fn records(seed: u64, least: usize) -> Input {
    let mut random = Random(seed);
    let mut bytes = Vec::new();
    let mut units = 0;
    while bytes.len() < least {
        units += put_record(&mut random, 3, &mut bytes);
    }
    Input { bytes, units }
}

// Answers how many records there are, itself and those in its groups.
fn put_record(random: &mut Random, levels: u64, text: &mut Vec<u8>) -> u64 {
    let width = [4, 4, 11, 18][random.between(0, 3) as usize];
    let number = random.between(1, (1 << width) - 1);
    match random.between(0, 9) {
        0..=3 => {
            put_tag(number, VARINT, text);
            put_varint(random.mixed(), text);
        }
        4 => {
            put_tag(number, FIXED64, text);
            text.extend(random.number().to_le_bytes());
        }
        5 => {
            put_tag(number, FIXED32, text);
            text.extend((random.number() as u32).to_le_bytes());
        }
        6..=8 => put_payload(number, random.ascii(0, 60).as_bytes(), text),
        _ if levels == 0 => put_payload(number, &[], text),
        _ => {
            put_tag(number, GROUP_START, text);
            let inner = random.between(0, 6);
            let count: u64 = (0..inner)
                .map(|_| put_record(random, levels - 1, text))
                .sum();
            put_tag(number, GROUP_END, text);
            return count + 1;
        }
    }
    1
}

/// So many thousand times the same eight records of all wire types, which have a thousand bytes.
pub fn thousands(times: usize) -> Vec<u8> {
    let mut random = Random(14);
    let mut text = Vec::new();
    put_tag(1, VARINT, &mut text);
    put_varint(random.of_width(5), &mut text);
    put_tag(2, FIXED64, &mut text);
    text.extend(random.number().to_le_bytes());
    put_tag(3, FIXED32, &mut text);
    text.extend((random.number() as u32).to_le_bytes());
    put_tag(4, GROUP_START, &mut text);
    put_tag(1, VARINT, &mut text);
    put_varint(random.of_width(2), &mut text);
    put_payload(2, random.ascii(90, 90).as_bytes(), &mut text);
    put_tag(4, GROUP_END, &mut text);
    put_payload(5, random.ascii(250, 250).as_bytes(), &mut text);
    let rest = 997 - text.len() as u64;
    put_payload(6, random.ascii(rest, rest).as_bytes(), &mut text);
    text.repeat(times)
}

// A log of persons, each behind its length, and each with unknown fields where they are newer.
fn persons(seed: u64, are_newer: bool) -> Input {
    let mut random = Random(seed);
    let mut bytes = Vec::new();
    let units = 5000;
    for _ in 0..units {
        let mut person = person(&mut random);
        if are_newer {
            put_newer_fields(&mut random, &mut person);
        }
        put_delimited(&person, &mut bytes);
    }
    Input { bytes, units }
}

fn person(random: &mut Random) -> Vec<u8> {
    let mut text = Vec::new();
    put_tag(1, VARINT, &mut text);
    put_varint(random.between(1, 99_999), &mut text);
    put_payload(2, random.text(4, 20).as_bytes(), &mut text);
    let mut scores = Vec::new();
    for _ in 0..random.between(1, 8) {
        let score = random.between(0, 4000) as i64 - 100;
        put_varint(score as u64, &mut scores);
    }
    put_payload(3, &scores, &mut text);
    text
}

fn put_newer_fields(random: &mut Random, text: &mut Vec<u8>) {
    put_tag(4, VARINT, text);
    put_varint(random.mixed(), text);
    put_payload(5, random.ascii(4, 30).as_bytes(), text);
    if random.between(0, 1) == 1 {
        put_tag(20, FIXED64, text);
        text.extend(random.number().to_le_bytes());
    }
}

// A node with many children. The units are all nodes.
fn tree(seed: u64) -> Input {
    let mut random = Random(seed);
    let mut bytes = Vec::new();
    let mut units = 1;
    for _ in 0..40 {
        let mut child = Vec::new();
        units += put_node(&mut random, 7, true, &mut child);
        put_payload(3, &child, &mut bytes);
    }
    Input { bytes, units }
}

// Answers how many nodes there are, itself and those in it.
fn put_node(random: &mut Random, levels: u64, has_group: bool, text: &mut Vec<u8>) -> u64 {
    put_tag(1, VARINT, text);
    put_varint(random.mixed() | 1, text);
    if levels == 0 {
        return 1;
    }
    let mut units = 1;
    let mut embedded = vec![3; random.between(0, 2) as usize];
    if random.between(0, 1) == 1 {
        embedded.insert(0, 2);
    }
    for number in embedded {
        let mut node = Vec::new();
        units += put_node(random, levels - 1, true, &mut node);
        put_payload(number, &node, text);
    }
    if has_group && random.between(0, 3) == 0 {
        put_tag(4, GROUP_START, text);
        units += put_node(random, levels - 1, false, text);
        put_tag(4, GROUP_END, text);
    }
    units
}

/// A node that holds a node, and so on, so many levels deep.
pub fn nested(levels: u64) -> Vec<u8> {
    let mut random = Random(15);
    let mut bytes = Vec::new();
    for level in 0..=levels {
        let mut node = Vec::new();
        put_tag(1, VARINT, &mut node);
        put_varint(random.of_width(5), &mut node);
        if level > 0 {
            put_payload(3, &bytes, &mut node);
        }
        bytes = node;
    }
    bytes
}
