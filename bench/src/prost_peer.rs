//! The same work by prost.
use prost::encoding::{self, DecodeContext, WireType};
use prost::{DecodeError, Message};
use std::hint::black_box;

#[derive(Clone, PartialEq, Message)]
struct Person {
    #[prost(int32, tag = "1")]
    id: i32,
    #[prost(string, tag = "2")]
    name: String,
    #[prost(int32, repeated, tag = "3")]
    scores: Vec<i32>,
}

#[derive(Clone, PartialEq, Message)]
struct Node {
    #[prost(sint64, tag = "1")]
    value: i64,
    #[prost(message, optional, boxed, tag = "2")]
    child: Option<Box<Node>>,
    #[prost(message, repeated, tag = "3")]
    children: Vec<Node>,
    #[prost(group, optional, boxed, tag = "4")]
    group: Option<Box<Node>>,
}

// The answer of the last round, and 0 where one was refused or there was none.
pub fn repeat<A>(rounds: u32, mut round: impl FnMut() -> Result<A, DecodeError>) -> u64
where
    A: TryInto<u64>,
{
    let mut answer = 0;
    for _ in 0..rounds {
        match round() {
            Ok(given) => answer = given.try_into().unwrap_or(0),
            Err(_) => return 0,
        }
    }
    answer
}

// The length of what each round writes into a vector that was cleared.
pub fn repeat_writing(rounds: u32, mut write: impl FnMut(&mut Vec<u8>)) -> u64 {
    let mut sink = Vec::new();
    repeat(rounds, || {
        sink.clear();
        write(&mut sink);
        Ok(black_box(&sink).len())
    })
}

fn numbers(bytes: &[u8]) -> Vec<u64> {
    let mut rest = bytes;
    let mut values = Vec::new();
    while !rest.is_empty() {
        values.push(encoding::decode_varint(&mut rest).unwrap());
    }
    values
}

pub fn payloads(bytes: &[u8]) -> Vec<&[u8]> {
    let mut rest = bytes;
    let mut payloads = Vec::new();
    while !rest.is_empty() {
        let len = prost::decode_length_delimiter(&mut rest).unwrap();
        let (payload, behind) = rest.split_at(len);
        payloads.push(payload);
        rest = behind;
    }
    payloads
}

pub fn varints(bytes: &[u8], rounds: u32) -> u64 {
    repeat(rounds, || {
        let mut rest = black_box(bytes);
        let mut xor = 0;
        while !rest.is_empty() {
            xor ^= encoding::decode_varint(&mut rest)?;
        }
        Ok(xor)
    })
}

pub fn packed(bytes: &[u8], rounds: u32) -> u64 {
    let mut delimited = Vec::new();
    encoding::encode_varint(bytes.len() as u64, &mut delimited);
    delimited.extend(bytes);
    let mut values = Vec::new();
    repeat(rounds, || {
        values.clear();
        let mut rest = black_box(delimited.as_slice());
        let context = DecodeContext::default();
        let wire_type = WireType::LengthDelimited;
        encoding::uint64::merge_repeated(wire_type, &mut values, &mut rest, context)?;
        Ok(values.len())
    })
}

pub fn skip(bytes: &[u8], rounds: u32) -> u64 {
    repeat(rounds, || {
        let mut rest = black_box(bytes);
        let mut count = 0u64;
        while !rest.is_empty() {
            let (number, wire_type) = encoding::decode_key(&mut rest)?;
            encoding::skip_field(wire_type, number, &mut rest, DecodeContext::default())?;
            count += 1;
        }
        Ok(count)
    })
}

fn read_string(text: &mut String, rest: &mut &[u8]) -> Result<(), DecodeError> {
    encoding::string::merge(
        WireType::LengthDelimited,
        text,
        rest,
        DecodeContext::default(),
    )
}

fn read_bytes(payload: &mut Vec<u8>, rest: &mut &[u8]) -> Result<(), DecodeError> {
    encoding::bytes::merge(
        WireType::LengthDelimited,
        payload,
        rest,
        DecodeContext::default(),
    )
}

pub fn decode_string(bytes: &[u8], rounds: u32) -> u64 {
    repeat(rounds, || {
        let mut rest = black_box(bytes);
        let mut sum = 0;
        while !rest.is_empty() {
            let mut text = String::new();
            read_string(&mut text, &mut rest)?;
            sum += black_box(&text).len();
        }
        Ok(sum)
    })
}

pub fn decode_bytes(bytes: &[u8], rounds: u32) -> u64 {
    repeat(rounds, || {
        let mut rest = black_box(bytes);
        let mut sum = 0;
        while !rest.is_empty() {
            let mut payload = Vec::new();
            read_bytes(&mut payload, &mut rest)?;
            sum += black_box(&payload).len();
        }
        Ok(sum)
    })
}

pub fn merge_string(bytes: &[u8], rounds: u32) -> u64 {
    let mut text = String::new();
    repeat(rounds, || {
        let mut rest = black_box(bytes);
        let mut sum = 0;
        while !rest.is_empty() {
            read_string(&mut text, &mut rest)?;
            sum += black_box(&text).len();
        }
        Ok(sum)
    })
}

pub fn encode_varint(bytes: &[u8], rounds: u32) -> u64 {
    let values = numbers(bytes);
    repeat_writing(rounds, |sink| {
        for value in &values {
            encoding::encode_varint(*value, sink);
        }
    })
}

pub fn put_uint64(bytes: &[u8], rounds: u32) -> u64 {
    let values = numbers(bytes);
    repeat_writing(rounds, |sink| {
        for value in &values {
            encoding::uint64::encode(5, value, sink);
        }
    })
}

pub fn put_sint64(bytes: &[u8], rounds: u32) -> u64 {
    let values = numbers(bytes);
    repeat_writing(rounds, |sink| {
        for value in &values {
            encoding::sint64::encode(5, &(*value as i64), sink);
        }
    })
}

pub fn put_bool(bytes: &[u8], rounds: u32) -> u64 {
    let values = numbers(bytes);
    repeat_writing(rounds, |sink| {
        for value in &values {
            encoding::bool::encode(300, &(value % 2 == 1), sink);
        }
    })
}

pub fn put_fixed64(bytes: &[u8], rounds: u32) -> u64 {
    let values = numbers(bytes);
    repeat_writing(rounds, |sink| {
        for value in &values {
            encoding::fixed64::encode(5, value, sink);
        }
    })
}

pub fn put_five(bytes: &[u8], rounds: u32) -> u64 {
    let values = numbers(bytes);
    repeat_writing(rounds, |sink| {
        for value in &values {
            let low = *value as u32;
            encoding::uint64::encode(1, value, sink);
            encoding::sint64::encode(2, &(*value as i64), sink);
            encoding::fixed32::encode(3, &low, sink);
            encoding::bool::encode(16, &(value % 2 == 1), sink);
            encoding::int32::encode(17, &(low as i32), sink);
        }
    })
}

pub fn put_string(bytes: &[u8], rounds: u32) -> u64 {
    let mut texts = Vec::new();
    for payload in payloads(bytes) {
        texts.push(String::from_utf8(payload.to_vec()).unwrap());
    }
    repeat_writing(rounds, |sink| {
        for text in &texts {
            encoding::string::encode(5, text, sink);
        }
    })
}

pub fn person_decode(bytes: &[u8], rounds: u32) -> u64 {
    let payloads = payloads(bytes);
    repeat(rounds, || {
        let mut xor = 0;
        for payload in &payloads {
            let person = Person::decode(*payload)?;
            xor ^= i64::from(black_box(&person).id) as u64;
        }
        Ok(xor)
    })
}

pub fn person_encode(bytes: &[u8], rounds: u32) -> u64 {
    let mut persons = Vec::new();
    for payload in payloads(bytes) {
        persons.push(Person::decode(payload).unwrap());
    }
    repeat_writing(rounds, |sink| {
        for person in &persons {
            person.encode_length_delimited(sink).unwrap();
        }
    })
}

pub fn node_decode(bytes: &[u8], rounds: u32) -> u64 {
    repeat(rounds, || {
        let node = Node::decode(black_box(bytes))?;
        Ok(black_box(&node).children.len())
    })
}

pub fn node_encode(bytes: &[u8], rounds: u32) -> u64 {
    let node = Node::decode(bytes).unwrap();
    repeat_writing(rounds, |sink| node.encode(sink).unwrap())
}
