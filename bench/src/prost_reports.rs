//! Reports by prost, with its own maps and with trees for maps.
use crate::prost_peer::{payloads, repeat, repeat_writing};
use prost::{DecodeError, Enumeration, Message, Oneof};
use std::collections::{BTreeMap, HashMap};
use std::hint::black_box;

#[derive(Clone, Copy, Debug, PartialEq, Eq, Hash, PartialOrd, Ord, Enumeration)]
#[repr(i32)]
enum Level {
    Low = 0,
    High = 1,
    VeryHigh = 2,
}

#[derive(Clone, PartialEq, Message)]
pub struct Sample {
    #[prost(string, tag = "1")]
    pub name: String,
    #[prost(double, tag = "2")]
    pub value: f64,
    #[prost(int64, optional, tag = "3")]
    pub count: Option<i64>,
}

#[derive(Clone, PartialEq, Oneof)]
pub enum Origin {
    #[prost(string, tag = "13")]
    File(String),
    #[prost(uint64, tag = "14")]
    Device(u64),
    #[prost(message, tag = "16")]
    Sample(Sample),
}

/// A report, whatever its maps are.
pub trait Report: Message + Default {
    /// One, its time, and how long its strings, lists and maps are.
    fn sum(&self) -> u64;
}

macro_rules! report {
    ($name:ident, $kind:ident, $map:ident) => {
        #[derive(Clone, PartialEq, Message)]
        pub struct $name {
            #[prost(string, tag = "1")]
            pub host: String,
            #[prost(fixed64, tag = "2")]
            pub sent_at: u64,
            #[prost(enumeration = "Level", tag = "3")]
            pub level: i32,
            #[prost(message, repeated, tag = "4")]
            pub samples: Vec<Sample>,
            #[prost($kind = "string, string", tag = "5")]
            pub labels: $map<String, String>,
            #[prost($kind = "sint32, message", tag = "6")]
            pub last: $map<i32, Sample>,
            #[prost(double, optional, tag = "7")]
            pub load: Option<f64>,
            #[prost(sint32, repeated, tag = "8")]
            pub offsets: Vec<i32>,
            #[prost(uint32, repeated, packed = "false", tag = "9")]
            pub ports: Vec<u32>,
            #[prost(string, repeated, tag = "10")]
            pub notes: Vec<String>,
            #[prost(bytes = "vec", tag = "11")]
            pub signature: Vec<u8>,
            #[prost(message, optional, tag = "12")]
            pub worst: Option<Sample>,
            #[prost(oneof = "Origin", tags = "13, 14, 16")]
            pub origin: Option<Origin>,
            #[prost(bool, tag = "15")]
            pub type_: bool,
        }

        impl Report for $name {
            fn sum(&self) -> u64 {
                let mut len = self.host.len() + self.samples.len();
                len += self.labels.len() + self.last.len();
                len += self.offsets.len() + self.ports.len();
                len += self.notes.len() + self.signature.len();
                self.sent_at.wrapping_add(len as u64 + 1)
            }
        }
    };
}

report!(HashReport, map, HashMap);
report!(TreeReport, btree_map, BTreeMap);

pub fn decode<R: Report>(bytes: &[u8], rounds: u32) -> u64 {
    let payloads = payloads(bytes);
    repeat(rounds, || {
        let mut sum = 0u64;
        for payload in &payloads {
            let report = R::decode(*payload)?;
            sum = sum.wrapping_add(black_box(&report).sum());
        }
        Ok(sum)
    })
}

/// Decodes, and holds all reports of a round at once.
pub fn hold<R: Report>(bytes: &[u8], rounds: u32) -> u64 {
    let payloads = payloads(bytes);
    repeat(rounds, || {
        let mut held = Vec::with_capacity(payloads.len());
        let mut sum = 0u64;
        for payload in &payloads {
            let report = R::decode(*payload)?;
            sum = sum.wrapping_add(report.sum());
            held.push(report);
        }
        black_box(&held);
        Ok(sum)
    })
}

pub fn encode<R: Report>(bytes: &[u8], rounds: u32) -> u64 {
    let decoded: Result<Vec<R>, DecodeError> = payloads(bytes).into_iter().map(R::decode).collect();
    let reports = decoded.unwrap();
    repeat_writing(rounds, |sink| {
        for report in &reports {
            report.encode_length_delimited(sink).unwrap();
        }
    })
}
