//! A report as JSON by serde_json, whose type is derived: the same names and values as the mapping
//! of Protocol Buffers has them.
//!
//!     json_serde FILE WORK ROUNDS      FILE has a report as JSON, WORK is read or write

use serde::{Deserialize, Serialize};
use std::collections::BTreeMap;

#[derive(Serialize, Deserialize, Default)]
#[serde(rename_all = "camelCase", default)]
struct Report {
    #[serde(skip_serializing_if = "String::is_empty")]
    host: String,
    #[serde(with = "text", skip_serializing_if = "is_default")]
    sent_at: u64,
    #[serde(skip_serializing_if = "is_default")]
    level: Level,
    #[serde(skip_serializing_if = "Vec::is_empty")]
    samples: Vec<Sample>,
    #[serde(skip_serializing_if = "BTreeMap::is_empty")]
    labels: BTreeMap<String, String>,
    #[serde(skip_serializing_if = "BTreeMap::is_empty")]
    last: BTreeMap<i32, Sample>,
    #[serde(skip_serializing_if = "Option::is_none")]
    load: Option<f64>,
    #[serde(skip_serializing_if = "Vec::is_empty")]
    offsets: Vec<i32>,
    #[serde(skip_serializing_if = "Vec::is_empty")]
    ports: Vec<u32>,
    #[serde(skip_serializing_if = "Vec::is_empty")]
    notes: Vec<String>,
    #[serde(with = "bytes", skip_serializing_if = "Vec::is_empty")]
    signature: Vec<u8>,
    #[serde(skip_serializing_if = "Option::is_none")]
    worst: Option<Box<Sample>>,
    #[serde(skip_serializing_if = "Option::is_none")]
    file: Option<String>,
    #[serde(rename = "type", skip_serializing_if = "is_default")]
    kind: bool,
}

#[derive(Serialize, Deserialize, Default)]
#[serde(rename_all = "camelCase", default)]
struct Sample {
    #[serde(skip_serializing_if = "String::is_empty")]
    name: String,
    #[serde(skip_serializing_if = "is_default")]
    value: f64,
    #[serde(with = "some_text", skip_serializing_if = "Option::is_none")]
    count: Option<i64>,
}

#[derive(Serialize, Deserialize, Default, PartialEq)]
#[serde(rename_all = "SCREAMING_SNAKE_CASE")]
enum Level {
    #[default]
    Low,
    High,
    VeryHigh,
}

fn is_default<T: Default + PartialEq>(value: &T) -> bool {
    *value == T::default()
}

/// Integers of 64 bits are strings.
mod text {
    use serde::{de::Error, Deserialize, Deserializer, Serializer};

    pub fn serialize<S: Serializer>(value: &u64, to: S) -> Result<S::Ok, S::Error> {
        to.collect_str(value)
    }

    pub fn deserialize<'a, D: Deserializer<'a>>(from: D) -> Result<u64, D::Error> {
        <&str>::deserialize(from)?.parse().map_err(D::Error::custom)
    }
}

mod some_text {
    use serde::{de::Error, Deserialize, Deserializer, Serializer};

    pub fn serialize<S: Serializer>(value: &Option<i64>, to: S) -> Result<S::Ok, S::Error> {
        match value {
            Some(value) => to.collect_str(value),
            None => to.serialize_none(),
        }
    }

    pub fn deserialize<'a, D: Deserializer<'a>>(from: D) -> Result<Option<i64>, D::Error> {
        <&str>::deserialize(from)?.parse().map(Some).map_err(D::Error::custom)
    }
}

/// Bytes are base64.
mod bytes {
    use serde::{de::Error, Deserialize, Deserializer, Serializer};

    pub fn serialize<S: Serializer>(value: &[u8], to: S) -> Result<S::Ok, S::Error> {
        to.serialize_str(&base64::encode(value))
    }

    pub fn deserialize<'a, D: Deserializer<'a>>(from: D) -> Result<Vec<u8>, D::Error> {
        base64::decode(<&str>::deserialize(from)?).map_err(D::Error::custom)
    }
}

fn sum_of(report: &Report) -> u64 {
    1 + report.sent_at
        + report.host.len() as u64
        + report.samples.len() as u64
        + report.labels.len() as u64
        + report.last.len() as u64
        + report.offsets.len() as u64
        + report.ports.len() as u64
        + report.notes.len() as u64
        + report.signature.len() as u64
}

fn main() {
    let arguments: Vec<String> = std::env::args().collect();
    let text = std::fs::read_to_string(&arguments[1]).expect("a file");
    let rounds: u32 = arguments[3].parse().expect("a number");
    let mut answer = 0;
    if arguments[2] == "write" {
        let report: Report = serde_json::from_str(&text).expect("a report");
        for _ in 0..rounds {
            answer = serde_json::to_vec(&report).expect("JSON").len() as u64;
        }
    } else {
        for _ in 0..rounds {
            answer = sum_of(&serde_json::from_str(&text).expect("a report"));
        }
    }
    println!("{answer}");
}
