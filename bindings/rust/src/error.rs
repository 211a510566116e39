//! Why bytes are refused.

use crate::ffi;
use std::fmt;

/// Why bytes are no records.
#[derive(Clone, Copy, Debug, PartialEq, Eq, Hash)]
#[non_exhaustive]
pub enum Error {
    /// The bytes end in a record, or in a group.
    UnexpectedEof,
    /// A varint goes on past ten bytes or 64 bits.
    VarintTooLong,
    /// The wire type 6 or 7, or an end tag (4) outside of a group.
    InvalidWireType(u32),
    /// A field number that is 0 or above 536,870,911.
    InvalidFieldNumber,
    /// More groups are open at once than the limit.
    RecursionLimitExceeded,
    /// The end tag of another number, which is given, than that of its group.
    InvalidEndGroup(u32),
    /// More records or bytes of payloads than the limit.
    UnknownFieldLimitExceeded,
    /// A status that this version has no name for.
    Other(u32),
}

impl Error {
    pub(crate) fn new(status: u32, detail: u32) -> Error {
        match status {
            2 => Error::UnexpectedEof,
            3 => Error::VarintTooLong,
            4 => Error::InvalidWireType(detail),
            5 => Error::InvalidFieldNumber,
            9 => Error::RecursionLimitExceeded,
            10 => Error::InvalidEndGroup(detail),
            12 => Error::UnknownFieldLimitExceeded,
            other => Error::Other(other),
        }
    }
}

impl fmt::Display for Error {
    fn fmt(&self, f: &mut fmt::Formatter<'_>) -> fmt::Result {
        match self {
            Error::UnexpectedEof => f.write_str("unexpected end of buffer"),
            Error::VarintTooLong => f.write_str("varint exceeded maximum length of 10 bytes"),
            Error::InvalidWireType(found) => write!(f, "invalid wire type: {found}"),
            Error::InvalidFieldNumber => f.write_str("invalid field number"),
            Error::RecursionLimitExceeded => f.write_str("recursion limit exceeded"),
            Error::InvalidEndGroup(number) => {
                write!(f, "invalid end-group tag: field number {number}")
            }
            Error::UnknownFieldLimitExceeded => f.write_str("unknown field limit exceeded"),
            Error::Other(status) => write!(f, "status {status}"),
        }
    }
}

impl std::error::Error for Error {}

/// The part of a record that is at fault.
#[derive(Clone, Copy, Debug, PartialEq, Eq, Hash)]
pub enum Part {
    /// No tag, or no slot or no level for its record.
    Tag,
    /// No varint, or a fixed-width value that is cut short.
    Value,
    /// The length of a payload is no varint.
    Length,
    /// A payload that is cut short, or that is more than the limit.
    Payload,
    /// An end tag of another number, or outside of a group.
    EndTag,
}

impl Part {
    fn new(part: u32) -> Part {
        match part {
            0 => Part::Tag,
            1 => Part::Value,
            2 => Part::Length,
            3 => Part::Payload,
            _ => Part::EndTag,
        }
    }
}

/// Where and why bytes do not go on as records. Places are offsets in the bytes.
#[derive(Clone, Copy, Debug, PartialEq, Eq, Hash)]
pub struct Fault {
    pub error: Error,
    /// Where the record begins, or the end tag.
    pub record_place: usize,
    pub part: Part,
    /// Where the part at fault begins.
    pub part_place: usize,
}

impl Fault {
    pub(crate) fn new(fault: &ffi::Fault) -> Fault {
        Fault {
            error: Error::new(fault.status, fault.detail),
            record_place: fault.record_place,
            part: Part::new(fault.part),
            part_place: fault.part_place,
        }
    }
}

impl fmt::Display for Fault {
    fn fmt(&self, f: &mut fmt::Formatter<'_>) -> fmt::Result {
        let Fault { error, record_place, part, part_place } = self;
        write!(f, "record at byte {record_place}, {part:?} at byte {part_place}: {error}")
    }
}

impl std::error::Error for Fault {
    fn source(&self) -> Option<&(dyn std::error::Error + 'static)> {
        Some(&self.error)
    }
}

/// Limits of more than 100 levels.
#[derive(Clone, Copy, Debug, PartialEq, Eq, Hash)]
pub struct DepthTooLarge;

impl fmt::Display for DepthTooLarge {
    fn fmt(&self, f: &mut fmt::Formatter<'_>) -> fmt::Result {
        f.write_str("a depth above 100")
    }
}

impl std::error::Error for DepthTooLarge {}
