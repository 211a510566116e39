//! What the messages of every schema share: text, bytes and lists that stay where they are, and
//! statuses.
use std::fmt;
use std::marker::PhantomData;
use std::mem::MaybeUninit;

/// Some of the bytes that were read, or of a program's own.
#[repr(C)]
#[derive(Clone, Copy)]
pub struct Bytes<'a> {
    data: *const u8,
    len: usize,
    read: PhantomData<&'a [u8]>,
}

impl<'a> Bytes<'a> {
    /// Those of a slice.
    pub fn new(bytes: &'a [u8]) -> Bytes<'a> {
        Bytes { data: bytes.as_ptr(), len: bytes.len(), read: PhantomData }
    }

    /// The bytes themselves.
    pub fn get(self) -> &'a [u8] {
        if self.len == 0 {
            return &[];
        }
        // SAFETY: both are those of a slice that lives for 'a, or the library set them to a place
        // in the bytes that it was handed, which do.
        unsafe { std::slice::from_raw_parts(self.data, self.len) }
    }
}

// SAFETY: they are those of a slice, which may be sent and shared.
unsafe impl Send for Bytes<'_> {}
unsafe impl Sync for Bytes<'_> {}

/// A string in the bytes that were read, or of a program's own.
#[repr(C)]
#[derive(Clone, Copy)]
pub struct Text<'a> {
    bytes: Bytes<'a>,
}

impl<'a> Text<'a> {
    /// That of a string.
    pub fn new(text: &'a str) -> Text<'a> {
        Text { bytes: Bytes::new(text.as_bytes()) }
    }

    /// The string itself.
    pub fn get(self) -> &'a str {
        // SAFETY: it was made of a string, or the library set it, to UTF-8 alone.
        unsafe { std::str::from_utf8_unchecked(self.bytes.get()) }
    }
}

/// A list that is written: a slice of a program's own.
#[repr(C)]
#[derive(Clone, Copy)]
pub struct List<'a, T> {
    data: *const T,
    len: usize,
    elements: PhantomData<&'a [T]>,
}

impl<'a, T> List<'a, T> {
    /// The elements of a slice.
    pub fn new(elements: &'a [T]) -> List<'a, T> {
        List { data: elements.as_ptr(), len: elements.len(), elements: PhantomData }
    }
}

// SAFETY: they are those of a slice, which may be sent and shared where its elements may be shared.
unsafe impl<T: Sync> Send for List<'_, T> {}
unsafe impl<T: Sync> Sync for List<'_, T> {}

/// The room is smaller than the encoding, which has so many bytes.
#[derive(Clone, Copy, Debug, PartialEq, Eq)]
pub struct NoRoom(pub usize);

impl fmt::Display for NoRoom {
    fn fmt(&self, f: &mut fmt::Formatter<'_>) -> fmt::Result {
        write!(f, "the room is too small for {} bytes", self.0)
    }
}

impl std::error::Error for NoRoom {}

/// Why nothing is written with unknown fields behind it.
#[derive(Clone, Copy, Debug, PartialEq, Eq)]
pub enum NotWritten {
    /// The room is smaller than the encoding, which has so many bytes.
    NoRoom(NoRoom),
    /// The bytes of the unknown fields are no records, or these nest more than 100 groups.
    Refused(Refusal),
}

impl fmt::Display for NotWritten {
    fn fmt(&self, f: &mut fmt::Formatter<'_>) -> fmt::Result {
        match self {
            NotWritten::NoRoom(cause) => cause.fmt(f),
            NotWritten::Refused(cause) => cause.fmt(f),
        }
    }
}

impl std::error::Error for NotWritten {}

/// What may be taken at most.
#[repr(C)]
#[derive(Clone, Copy, Debug)]
pub struct Limits {
    /// Unknown fields, those in groups counted.
    pub records: usize,
    /// Bytes of their length-delimited payloads.
    pub payload_bytes: usize,
    /// Levels of messages and groups, of which no more than 100 are given.
    pub depth: u32,
}

/// Why bytes are not the message, and where.
#[derive(Clone, Copy, Debug, PartialEq, Eq)]
pub struct Refusal {
    status: u32,
    place: Option<usize>,
}

impl Refusal {
    pub(crate) fn new(status: u32) -> Refusal {
        Refusal { status, place: None }
    }

    pub(crate) fn at(self, place: usize) -> Refusal {
        Refusal { place: Some(place), ..self }
    }

    /// The number of the error in `gettavil.h`.
    pub fn status(&self) -> u32 {
        self.status
    }

    /// The byte at which the first record begins that is not taken, where the bytes were read as a
    /// message whose library tells it: for an element of a list counted from the element's own first
    /// byte. A refusal is so read twice.
    pub fn place(&self) -> Option<usize> {
        self.place
    }

    /// The name of the error.
    pub fn name(&self) -> &'static str {
        match self.status {
            2 => "UnexpectedEof",
            3 => "VarintTooLong",
            4 => "InvalidWireType",
            5 => "InvalidFieldNumber",
            6 => "MessageTooLarge",
            7 => "WireTypeMismatch",
            8 => "InvalidUtf8",
            9 => "RecursionLimitExceeded",
            10 => "InvalidEndGroup",
            12 => "UnknownFieldLimitExceeded",
            13 => "ElementMemoryLimitExceeded",
            _ => "unknown",
        }
    }
}

impl fmt::Display for Refusal {
    fn fmt(&self, f: &mut fmt::Formatter<'_>) -> fmt::Result {
        match self.place {
            Some(place) => write!(f, "{} in the record at byte {place}", self.name()),
            None => f.write_str(self.name()),
        }
    }
}

impl std::error::Error for Refusal {}

// What a call of the library answered, and the struct that it was handed, which it sets whatever it
// answers.
pub(crate) fn told<T>(status: u32, it: MaybeUninit<T>) -> Result<T, Refusal> {
    if status != 0 {
        return Err(Refusal::new(status));
    }
    // SAFETY: it was handed to a call of the library, which set it.
    Ok(unsafe { it.assume_init() })
}

// The library tells the length of the encoding whatever it answers.
pub(crate) fn wrote(status: u32, len: usize) -> Result<usize, NoRoom> {
    if status == 0 {
        Ok(len)
    } else {
        Err(NoRoom(len))
    }
}

pub(crate) fn measured(status: u32, len: usize) -> Result<usize, Refusal> {
    if status == 0 { Ok(len) } else { Err(Refusal::new(status)) }
}

// 32 is the status of room that is too small.
pub(crate) fn kept(status: u32, len: usize) -> Result<usize, NotWritten> {
    match status {
        0 => Ok(len),
        32 => Err(NotWritten::NoRoom(NoRoom(len))),
        _ => Err(NotWritten::Refused(Refusal::new(status))),
    }
}
