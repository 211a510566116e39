//! Logs of reports, each behind its length: of one kind of field, mixed, and of unknown fields.
use crate::inputs::{put_delimited, put_payload, put_tag, put_varint, Input, FIXED64, VARINT};
use crate::prost_reports::{Origin, Sample, TreeReport};
use crate::random::Random;
use prost::Message;
use Fill::{Many, One};

const WORDS: [&str; 24] = [
    "alpha", "beta", "gamma", "delta", "epsilon", "zeta", "eta", "theta", "iota", "kappa",
    "lambda", "mu", "nu", "xi", "omicron", "pi", "rho", "sigma", "tau", "upsilon", "phi", "chi",
    "psi", "omega",
];

// Fills in a report: with one unit of what its input is of, or with many.
enum Fill {
    One(fn(&mut Random, &mut TreeReport)),
    Many(fn(&mut Random, &mut TreeReport, usize), usize),
}

struct Log {
    input: &'static str,
    reports: u64,
    fill: Fill,
}

const fn log(input: &'static str, reports: u64, fill: Fill) -> Log {
    Log {
        input,
        reports,
        fill,
    }
}

const LOGS: &[Log] = &[
    log("report_mixed", 1000, One(mixed)),
    log("report_small", 4000, One(small)),
    log("report_empty", 10000, One(|_, _| ())),
    log("report_host", 4000, One(put_host)),
    log("report_sent_at", 4000, One(put_sent_at)),
    log("report_level", 4000, One(put_level)),
    log("report_load", 4000, One(put_load)),
    log("report_samples", 300, Many(put_samples, 20)),
    log("report_samples1", 3000, Many(put_samples, 1)),
    log("report_labels", 300, Many(put_labels, 20)),
    log("report_labels1", 3000, Many(put_labels, 1)),
    log("report_last", 300, Many(put_last, 20)),
    log("report_offsets", 300, Many(put_offsets, 100)),
    log("report_ports", 300, Many(put_ports, 100)),
    log("report_notes", 300, Many(put_notes, 20)),
    log("report_signature", 4000, One(put_signature)),
    log("report_worst", 4000, One(put_worst)),
    log("report_origin_file", 4000, One(put_file)),
    log("report_origin_dev", 4000, One(put_device)),
    log("report_origin_sample", 4000, One(put_sample)),
];

/// The inputs of the rows of reports, by name.
pub fn named(name: &str) -> Input {
    if name == "report_unknown" {
        return unknown(16);
    }
    let place = LOGS.iter().position(|log| log.input == name);
    let place = place.unwrap_or_else(|| unreachable!("no input {name}"));
    written(&LOGS[place], 17 + place as u64)
}

fn written(log: &Log, seed: u64) -> Input {
    let mut random = Random(seed);
    let mut bytes = Vec::new();
    let mut units = 0;
    for _ in 0..log.reports {
        let mut report = TreeReport::default();
        units += match log.fill {
            One(fill) => {
                fill(&mut random, &mut report);
                1
            }
            Many(fill, count) => {
                fill(&mut random, &mut report, count);
                count as u64
            }
        };
        put_delimited(&report.encode_to_vec(), &mut bytes);
    }
    Input { bytes, units }
}

// Reports of eight records each, all of fields that the type does not know.
fn unknown(seed: u64) -> Input {
    let mut random = Random(seed);
    let mut bytes = Vec::new();
    let units = 8000;
    for _ in 0..units / 8 {
        let mut text = Vec::new();
        for number in 20..28 {
            put_unknown(&mut random, number, &mut text);
        }
        put_delimited(&text, &mut bytes);
    }
    Input { bytes, units }
}

fn put_unknown(random: &mut Random, number: u64, text: &mut Vec<u8>) {
    match random.between(0, 2) {
        0 => {
            put_tag(number, VARINT, text);
            put_varint(random.between(0, (1 << 20) - 1), text);
        }
        1 => {
            put_tag(number, FIXED64, text);
            text.extend(random.number().to_le_bytes());
        }
        _ => put_payload(number, words(random, 2).as_bytes(), text),
    }
}

fn mixed(random: &mut Random, report: &mut TreeReport) {
    put_host(random, report);
    put_sent_at(random, report);
    put_level(random, report);
    put_samples(random, report, 4);
    put_labels(random, report, 3);
    put_last(random, report, 3);
    put_load(random, report);
    put_offsets(random, report, 12);
    put_ports(random, report, 4);
    put_notes(random, report, 3);
    put_signature(random, report);
    put_worst(random, report);
    let put_origin = [put_file, put_device, put_sample][random.between(0, 2) as usize];
    put_origin(random, report);
    report.type_ = true;
}

fn small(random: &mut Random, report: &mut TreeReport) {
    put_host(random, report);
    put_sent_at(random, report);
    put_level(random, report);
    put_load(random, report);
    put_device(random, report);
    report.type_ = true;
}

fn words(random: &mut Random, count: usize) -> String {
    let words: Vec<&str> = (0..count)
        .map(|_| WORDS[random.between(0, 23) as usize])
        .collect();
    words.join("-")
}

// A number from 0 up to 1.
fn fraction(random: &mut Random) -> f64 {
    (random.number() >> 11) as f64 / (1u64 << 53) as f64
}

// A number from the negative of the other up to it.
fn around_zero(random: &mut Random, most: u64) -> i32 {
    random.between(0, 2 * most) as i32 - most as i32
}

fn sample(random: &mut Random) -> Sample {
    let bits = [7, 20, 40][random.between(0, 2) as usize];
    let count = random.between(0, (1 << bits) - 1) as i64;
    Sample {
        name: words(random, 2),
        value: fraction(random) * 1000.0,
        count: (random.between(1, 10) <= 7).then_some(count),
    }
}

fn put_host(random: &mut Random, report: &mut TreeReport) {
    report.host = words(random, 3);
}

fn put_sent_at(random: &mut Random, report: &mut TreeReport) {
    report.sent_at = 1_700_000_000_000_000_000 + random.between(0, 999_999_999_999_999);
}

fn put_level(random: &mut Random, report: &mut TreeReport) {
    report.level = random.between(1, 2) as i32;
}

fn put_samples(random: &mut Random, report: &mut TreeReport, count: usize) {
    report.samples = (0..count).map(|_| sample(random)).collect();
}

fn put_labels(random: &mut Random, report: &mut TreeReport, count: usize) {
    while report.labels.len() < count {
        let key = words(random, 1) + &random.between(0, 99).to_string();
        report.labels.insert(key, words(random, 2));
    }
}

// No key is 0, which prost leaves out where others write it.
fn put_last(random: &mut Random, report: &mut TreeReport, count: usize) {
    while report.last.len() < count {
        let key = around_zero(random, 500);
        if key != 0 {
            report.last.insert(key, sample(random));
        }
    }
}

fn put_load(random: &mut Random, report: &mut TreeReport) {
    report.load = Some(fraction(random));
}

fn put_offsets(random: &mut Random, report: &mut TreeReport, count: usize) {
    for _ in 0..count {
        let most = [60, 5000, 1_000_000][random.between(0, 2) as usize];
        report.offsets.push(around_zero(random, most));
    }
}

fn put_ports(random: &mut Random, report: &mut TreeReport, count: usize) {
    report.ports = (0..count)
        .map(|_| random.between(1, 65535) as u32)
        .collect();
}

fn put_notes(random: &mut Random, report: &mut TreeReport, count: usize) {
    report.notes = (0..count).map(|_| words(random, 4)).collect();
}

fn put_signature(random: &mut Random, report: &mut TreeReport) {
    report.signature = (0..32).map(|_| random.between(0, 255) as u8).collect();
}

fn put_worst(random: &mut Random, report: &mut TreeReport) {
    report.worst = Some(sample(random));
}

fn put_file(random: &mut Random, report: &mut TreeReport) {
    report.origin = Some(Origin::File(words(random, 3)));
}

fn put_device(random: &mut Random, report: &mut TreeReport) {
    report.origin = Some(Origin::Device(random.between(0, (1 << 40) - 1)));
}

fn put_sample(random: &mut Random, report: &mut TreeReport) {
    report.origin = Some(Origin::Sample(sample(random)));
}
