//! The rows of the tables: each a piece of work, its input, and who can do it.
use crate::prost_peer as prost;
use crate::prost_reports::{self as reports, HashReport, TreeReport};

/// Does the work on the bytes so many times, and answers what the last round gave: 0 where it was
/// refused.
pub type Work = fn(&[u8], u32) -> u64;

/// Those who work, in the order of the tables: `tree` is prost with trees for maps.
const WORKERS: [&str; 4] = ["here", "prost", "tree", "cpp"];

type Works = [Option<Work>; 4];

pub struct Row {
    pub label: &'static str,
    pub input: &'static str,
    pub unit: &'static str,
    works: Works,
}

impl Row {
    pub fn all() -> impl Iterator<Item = &'static Row> {
        CALLS.iter().chain(REPORTS)
    }

    pub fn labelled(label: &str) -> Option<&'static Row> {
        Row::all().find(|row| row.label == label)
    }

    /// Those who have this work.
    pub fn works(&self) -> impl Iterator<Item = (&'static str, Work)> + '_ {
        let pairs = WORKERS.iter().zip(&self.works);
        pairs.filter_map(|(worker, work)| Some((*worker, (*work)?)))
    }

    pub fn work_of(&self, worker: &str) -> Option<Work> {
        self.works()
            .find(|(name, _)| *name == worker)
            .map(|(_, work)| work)
    }
}

// A function of a native library.
macro_rules! native {
    ($name:ident) => {{
        extern "C" {
            fn $name(at: *const u8, len: usize, rounds: u32) -> u64;
        }
        fn call(bytes: &[u8], rounds: u32) -> u64 {
            // SAFETY: the function reads the slice, and keeps nothing of it.
            unsafe { $name(bytes.as_ptr(), bytes.len(), rounds) }
        }
        Some(call as Work)
    }};
}

macro_rules! works {
    ($here:ident, -, $cpp:ident) => {
        [native!($here), None, None, native!($cpp)]
    };
    ($here:ident, $prost:path, $cpp:ident) => {
        [native!($here), Some($prost), None, native!($cpp)]
    };
    ($here:ident, $prost:path, $tree:path, $cpp:ident) => {
        [native!($here), Some($prost), Some($tree), native!($cpp)]
    };
}

const VARINTS: Works = works! { wb_varints, prost::varints, cpp_varints };
const PACKED: Works = works! { wb_packed, prost::packed, cpp_packed };
const SKIP: Works = works! { wb_skip, prost::skip, cpp_skip };
const UNKNOWN_DECODE: Works = works! { wb_unknown_decode, -, cpp_unknown_decode };
const UNKNOWN_WRITE: Works = works! { wb_unknown_write, -, cpp_unknown_write };
const UNKNOWN_LEN: Works = works! { wb_encoded_len, -, cpp_unknown_len };
const DECODE_STRING: Works = works! { wb_decode_string, prost::decode_string, cpp_decode_string };
const DECODE_BYTES: Works = works! { wb_decode_bytes, prost::decode_bytes, cpp_decode_bytes };
const MERGE_STRING: Works = works! { wb_merge_string, prost::merge_string, cpp_merge_string };
const BORROW_STR: Works = works! { wb_borrow_str, -, cpp_borrow_str };
const PUT_VARINT: Works = works! { wb_encode_varint, prost::encode_varint, cpp_encode_varint };
const PUT_UINT64: Works = works! { wb_put_uint64, prost::put_uint64, cpp_put_uint64 };
const PUT_SINT64: Works = works! { wb_put_sint64, prost::put_sint64, cpp_put_sint64 };
const PUT_BOOL: Works = works! { wb_put_bool, prost::put_bool, cpp_put_bool };
const PUT_FIXED64: Works = works! { wb_put_fixed64, prost::put_fixed64, cpp_put_fixed64 };
const PUT_FIVE: Works = works! { wb_put_five, prost::put_five, cpp_put_five };
const PUT_STRING: Works = works! { wb_put_string, prost::put_string, cpp_put_string };
const ROPE_VARINTS: Works = works! { wb_rope_varints, -, cpp_rope_varints };
const PERSON_DECODE: Works = works! { wb_person_decode, prost::person_decode, cpp_person_decode };
const PERSON_ENCODE: Works = works! { wb_person_encode, prost::person_encode, cpp_person_encode };
const NEWER_DECODE: Works = works! { wb_person_decode, -, cpp_person_decode };
const NEWER_ENCODE: Works = works! { wb_person_encode, -, cpp_person_encode };
const NODE_DECODE: Works = works! { wb_node_decode, prost::node_decode, cpp_node_decode };
const NODE_ENCODE: Works = works! { wb_node_encode, prost::node_encode, cpp_node_encode };
const REPORT_DECODE: Works = works! {
    wb_report_decode,
    reports::decode::<HashReport>, reports::decode::<TreeReport>,
    cpp_report_decode
};
const REPORT_ENCODE: Works = works! {
    wb_report_encode,
    reports::encode::<HashReport>, reports::encode::<TreeReport>,
    cpp_report_encode
};
const REPORT_HOLD: Works = works! {
    wb_report_hold,
    reports::hold::<HashReport>, reports::hold::<TreeReport>,
    cpp_report_hold
};
const REPORT_VIEW: Works = works! {
    wb_report_view,
    reports::decode::<HashReport>, reports::decode::<TreeReport>,
    cpp_report_decode
};
const UNKNOWN_REPORT_VIEW: Works = works! { wb_report_view, -, cpp_report_decode };
const UNKNOWN_REPORT_DECODE: Works = works! { wb_report_decode, -, cpp_report_decode };
const UNKNOWN_REPORT_ENCODE: Works = works! { wb_report_encode, -, cpp_report_encode };

const fn row(label: &'static str, input: &'static str, unit: &'static str, works: Works) -> Row {
    Row {
        label,
        input,
        unit,
        works,
    }
}

const CALLS: &[Row] = &[
    row("decode varint, 1 byte", "varint1", "varint", VARINTS),
    row("decode varint, 2 bytes", "varint2", "varint", VARINTS),
    row("decode varint, 5 bytes", "varint5", "varint", VARINTS),
    row("decode varint, 10 bytes", "varint10", "varint", VARINTS),
    row("decode varint, mixed", "varints", "varint", VARINTS),
    row("decode varint, rope", "varints", "varint", ROPE_VARINTS),
    row("decode packed, small", "small", "element", PACKED),
    row("decode packed, mixed", "varints", "element", PACKED),
    row("skip records", "records", "record", SKIP),
    row("decode unknown fields", "records", "record", UNKNOWN_DECODE),
    row("write unknown fields", "records", "record", UNKNOWN_WRITE),
    row("measure unknown fields", "records", "record", UNKNOWN_LEN),
    row("decode string, short", "short", "string", DECODE_STRING),
    row("decode string, long", "long", "string", DECODE_STRING),
    row("decode string, utf-8", "unicode", "string", DECODE_STRING),
    row("decode bytes, short", "short", "string", DECODE_BYTES),
    row("merge string, short", "short", "string", MERGE_STRING),
    row("borrow string, short", "short", "string", BORROW_STR),
    row("borrow string, utf-8", "unicode", "string", BORROW_STR),
    row("encode varint, 1 byte", "varint1", "varint", PUT_VARINT),
    row("encode varint, 10 bytes", "varint10", "varint", PUT_VARINT),
    row("encode varint, mixed", "varints", "varint", PUT_VARINT),
    row("put uint64", "varints", "field", PUT_UINT64),
    row("put sint64", "varints", "field", PUT_SINT64),
    row("put bool", "varints", "field", PUT_BOOL),
    row("put fixed64", "varints", "field", PUT_FIXED64),
    row("put five fields", "varints", "value", PUT_FIVE),
    row("put string", "short", "field", PUT_STRING),
    row("decode person", "persons", "person", PERSON_DECODE),
    row("encode person", "persons", "person", PERSON_ENCODE),
    row("decode newer person", "newer", "person", NEWER_DECODE),
    row("encode newer person", "newer", "person", NEWER_ENCODE),
    row("decode node", "tree", "node", NODE_DECODE),
    row("encode node", "tree", "node", NODE_ENCODE),
];

// The decoding, the reading as views and the encoding of the reports of each input.
macro_rules! report_rows {
    ($($input:literal: $unit:literal, $decode:ident, $view:ident, $encode:ident;)*) => {
        &[
            $(report_row!("decode", $input, $unit, $decode),)*
            $(report_row!("view", $input, $unit, $view),)*
            $(report_row!("encode", $input, $unit, $encode),)*
            report_row!("hold", "mixed", "report", REPORT_HOLD),
        ]
    };
}

macro_rules! report_row {
    ($work:literal, $input:literal, $unit:literal, $works:ident) => {
        row(
            concat!($work, " report, ", $input),
            concat!("report_", $input),
            $unit,
            $works,
        )
    };
}

const REPORTS: &[Row] = report_rows! {
    "mixed": "report", REPORT_DECODE, REPORT_VIEW, REPORT_ENCODE;
    "small": "report", REPORT_DECODE, REPORT_VIEW, REPORT_ENCODE;
    "empty": "report", REPORT_DECODE, REPORT_VIEW, REPORT_ENCODE;
    "host": "report", REPORT_DECODE, REPORT_VIEW, REPORT_ENCODE;
    "sent_at": "report", REPORT_DECODE, REPORT_VIEW, REPORT_ENCODE;
    "level": "report", REPORT_DECODE, REPORT_VIEW, REPORT_ENCODE;
    "load": "report", REPORT_DECODE, REPORT_VIEW, REPORT_ENCODE;
    "samples": "sample", REPORT_DECODE, REPORT_VIEW, REPORT_ENCODE;
    "samples1": "sample", REPORT_DECODE, REPORT_VIEW, REPORT_ENCODE;
    "labels": "entry", REPORT_DECODE, REPORT_VIEW, REPORT_ENCODE;
    "labels1": "entry", REPORT_DECODE, REPORT_VIEW, REPORT_ENCODE;
    "last": "entry", REPORT_DECODE, REPORT_VIEW, REPORT_ENCODE;
    "offsets": "number", REPORT_DECODE, REPORT_VIEW, REPORT_ENCODE;
    "ports": "number", REPORT_DECODE, REPORT_VIEW, REPORT_ENCODE;
    "notes": "string", REPORT_DECODE, REPORT_VIEW, REPORT_ENCODE;
    "signature": "report", REPORT_DECODE, REPORT_VIEW, REPORT_ENCODE;
    "worst": "report", REPORT_DECODE, REPORT_VIEW, REPORT_ENCODE;
    "origin_file": "report", REPORT_DECODE, REPORT_VIEW, REPORT_ENCODE;
    "origin_dev": "report", REPORT_DECODE, REPORT_VIEW, REPORT_ENCODE;
    "origin_sample": "report", REPORT_DECODE, REPORT_VIEW, REPORT_ENCODE;
    "unknown": "record", UNKNOWN_REPORT_DECODE, UNKNOWN_REPORT_VIEW,
        UNKNOWN_REPORT_ENCODE;
};
