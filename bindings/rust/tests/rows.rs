//! The rows of `rows/read.tsv`: what is read, whole and cut at each place, and what is written of
//! it again.

use gettavil::{shortest_to_vec, validate, Fault, Limits, PutError, Reader, Record, Room};
use gettavil::{Value, Writer};
use std::fmt::Write;

struct Row {
    name: String,
    bytes: Vec<u8>,
    limits: Limits,
    wanted: String,
}

fn read_row(line: &str) -> Row {
    let parts: Vec<&str> = line.split('\t').collect();
    let number = |at: usize| parts[at].parse::<u64>().unwrap();
    let depth = number(2).min(100) as u32;
    Row {
        name: parts[0].to_string(),
        bytes: parts[1].split_whitespace().map(|b| u8::from_str_radix(b, 16).unwrap()).collect(),
        limits: Limits::NONE
            .records(number(3) as usize)
            .payload_bytes(number(4) as usize)
            .depth(depth)
            .unwrap(),
        wanted: parts[5].to_string(),
    }
}

fn rows() -> Vec<Row> {
    let file = concat!(env!("CARGO_MANIFEST_DIR"), "/../../rows/read.tsv");
    let text = std::fs::read_to_string(file).unwrap();
    text.lines().filter(|line| !line.starts_with('#')).map(read_row).collect()
}

fn say_value(value: Value<'_>) -> String {
    match value {
        Value::Varint(number) => format!("varint {number}"),
        Value::Fixed64(number) => format!("fixed64 {number}"),
        Value::Fixed32(number) => format!("fixed32 {number}"),
        Value::Bytes(b"") => "bytes -".to_string(),
        Value::Bytes(payload) => payload.iter().fold("bytes ".to_string(), |mut said, byte| {
            write!(said, "{byte:02x}").unwrap();
            said
        }),
        Value::GroupStart => "start".to_string(),
        Value::GroupEnd => "end".to_string(),
    }
}

fn say_record(record: &Record<'_>) -> String {
    let Record { number, value, range, tag_len } = record;
    let behind = range.start + tag_len;
    format!("{number} {} {} {behind} {}; ", say_value(*value), range.start, range.end)
}

fn say_fault(fault: &Fault, groups: &[u32]) -> String {
    let Fault { error, record_place, part, part_place } = fault;
    format!("record {record_place} {part:?} {part_place} in {groups:?} {error:?}")
}

fn said(bytes: &[u8], limits: &Limits) -> (String, Option<Fault>) {
    let mut reader = Reader::within(bytes, limits);
    let mut said = String::new();
    while let Some(next) = reader.next() {
        match next {
            Ok(record) => said += &say_record(&record),
            Err(fault) => {
                said += &say_fault(&fault, reader.open_groups());
                return (said, Some(fault));
            }
        }
    }
    (said + "end", None)
}

fn write_again<R: Room>(row: &Row, writer: &mut Writer<R>) -> Result<(), PutError> {
    for record in Reader::within(&row.bytes, &row.limits) {
        let Record { number, value, .. } = record.unwrap();
        match value {
            Value::Varint(value) => writer.varint(number, value)?,
            Value::Fixed64(value) => writer.fixed64(number, value)?,
            Value::Fixed32(value) => writer.fixed32(number, value)?,
            Value::Bytes(payload) => writer.bytes(number, payload)?,
            Value::GroupStart => writer.group_start(number)?,
            Value::GroupEnd => writer.group_end(number)?,
        }
    }
    Ok(())
}

#[test]
fn rows_are_read() {
    for row in rows() {
        let (found, fault) = said(&row.bytes, &row.limits);
        assert_eq!(found, row.wanted, "{}", row.name);
        assert_eq!(validate(&row.bytes, &row.limits).err(), fault, "{}", row.name);
    }
}

#[test]
fn each_front_has_the_events_that_end_in_it() {
    for row in rows() {
        for len in 0..row.bytes.len() {
            let (found, _) = said(&row.bytes[..len], &row.limits);
            let events = found.rfind("; ").map_or(0, |at| at + 2);
            assert_eq!(found[..events], row.wanted[..events], "{} cut at {len}", row.name);
        }
    }
}

#[test]
fn what_is_read_is_written_again() {
    for row in rows().iter().filter(|row| row.wanted.ends_with("end")) {
        let shortest = shortest_to_vec(&row.bytes, &row.limits).unwrap();
        let mut writer = Writer::new(Vec::new());
        write_again(row, &mut writer).unwrap();
        assert_eq!(writer.into_vec(), shortest, "{}", row.name);
        let mut room = vec![0; shortest.len()];
        let mut writer = Writer::new(&mut room[..]);
        write_again(row, &mut writer).unwrap();
        assert_eq!(writer.written(), shortest, "{}", row.name);
        if let Some(less) = shortest.len().checked_sub(1) {
            let mut writer = Writer::new(&mut room[..less]);
            let refused = write_again(row, &mut writer);
            assert!(matches!(refused, Err(PutError::NoRoom(_))), "{}", row.name);
        }
    }
}
