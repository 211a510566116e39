//! Records read in place.

use crate::error::{DepthTooLarge, Fault};
use crate::ffi;
use std::iter::FusedIterator;
use std::ops::Range;

/// What may be taken at most. A count that is not set has no limit; the depth is 100.
#[derive(Clone, Copy, Debug, PartialEq, Eq, Hash)]
pub struct Limits {
    records: usize,
    payload_bytes: usize,
    depth: u32,
}

impl Limits {
    /// No limit but 100 levels.
    pub const NONE: Limits = Limits { records: usize::MAX, payload_bytes: usize::MAX, depth: 100 };

    /// At most so many records, groups and what stands in them counted.
    #[must_use]
    pub fn records(self, records: usize) -> Limits {
        Limits { records, ..self }
    }

    /// At most so many bytes in all length-delimited payloads together.
    #[must_use]
    pub fn payload_bytes(self, payload_bytes: usize) -> Limits {
        Limits { payload_bytes, ..self }
    }

    /// At most so many groups open at once, of 100 at most.
    pub fn depth(self, depth: u32) -> Result<Limits, DepthTooLarge> {
        if depth > 100 {
            return Err(DepthTooLarge);
        }
        Ok(Limits { depth, ..self })
    }

    pub(crate) fn in_c(&self) -> ffi::Limits {
        let Limits { records, payload_bytes, depth } = *self;
        ffi::Limits { records, payload_bytes, depth }
    }
}

impl Default for Limits {
    fn default() -> Limits {
        Limits::NONE
    }
}

/// What stands behind a tag, or the start or the end of a group.
#[derive(Clone, Copy, Debug, PartialEq, Eq, Hash)]
pub enum Value<'a> {
    Varint(u64),
    Fixed64(u64),
    Fixed32(u32),
    /// A payload, its length left out.
    Bytes(&'a [u8]),
    GroupStart,
    GroupEnd,
}

/// A record, or the start or the end of a group.
#[derive(Clone, Debug, PartialEq, Eq, Hash)]
pub struct Record<'a> {
    /// The field number.
    pub number: u32,
    pub value: Value<'a>,
    /// Its bytes, and how many of them are the tag.
    pub range: Range<usize>,
    pub tag_len: usize,
}

/// Goes over the records of bytes, in their order, the records in groups too. After a fault it has
/// no more.
#[derive(Clone, Debug)]
pub struct Reader<'a> {
    bytes: &'a [u8],
    state: ffi::Reader,
    is_done: bool,
}

impl<'a> Reader<'a> {
    /// Before the first byte, with no limit but 100 levels.
    #[must_use]
    pub fn new(bytes: &'a [u8]) -> Reader<'a> {
        Reader::within(bytes, &Limits::NONE)
    }

    /// Before the first byte, under these limits.
    #[must_use]
    pub fn within(bytes: &'a [u8], limits: &Limits) -> Reader<'a> {
        let mut state = ffi::Reader {
            place: 0,
            records_left: 0,
            payload_bytes_left: 0,
            depth: 0,
            group_count: 0,
            groups: [0; 100],
        };
        // SAFETY: both pointers are of references to structs as the header has them.
        let status = unsafe { ffi::gtv_reader_init(&mut state, &limits.in_c()) };
        debug_assert_eq!(status, ffi::OK);
        Reader { bytes, state, is_done: false }
    }

    /// How many bytes were read.
    #[must_use]
    pub fn place(&self) -> usize {
        self.state.place
    }

    /// The numbers of the groups that are open, the outermost first.
    #[must_use]
    pub fn open_groups(&self) -> &[u32] {
        &self.state.groups[..self.state.group_count as usize]
    }

    fn record(&self, event: &ffi::Event) -> Record<'a> {
        let end = event.payload + event.length;
        let value = match event.kind {
            0 => Value::Varint(event.value),
            1 => Value::Fixed64(event.value),
            2 => Value::Bytes(&self.bytes[event.payload..end]),
            3 => Value::GroupStart,
            4 => Value::GroupEnd,
            _ => Value::Fixed32(event.value as u32),
        };
        Record {
            number: event.number,
            value,
            range: event.start..end,
            tag_len: event.behind_tag - event.start,
        }
    }
}

impl<'a> Iterator for Reader<'a> {
    type Item = Result<Record<'a>, Fault>;

    fn next(&mut self) -> Option<Result<Record<'a>, Fault>> {
        if self.is_done {
            return None;
        }
        let (mut event, mut fault) = (ffi::Event::default(), ffi::Fault::default());
        let (bytes, len) = (self.bytes.as_ptr(), self.bytes.len());
        // SAFETY: the structs are as the header has them, and the bytes are those of a slice.
        let status = unsafe { ffi::gtv_next(&mut self.state, bytes, len, &mut event, &mut fault) };
        if status == ffi::OK {
            return Some(Ok(self.record(&event)));
        }
        self.is_done = true;
        (status != ffi::END).then(|| Err(Fault::new(&fault)))
    }
}

impl FusedIterator for Reader<'_> {}

/// Whether all of the bytes are records within the limits.
///
/// ```
/// use gettavil::{validate, Error, Limits};
///
/// assert_eq!(validate(&[0x08, 0x01], &Limits::NONE), Ok(()));
/// let fault = validate(&[0x08, 0x01, 0x12, 0x05, b'h'], &Limits::NONE).unwrap_err();
/// assert_eq!((fault.error, fault.record_place, fault.part_place), (Error::UnexpectedEof, 2, 4));
/// ```
pub fn validate(bytes: &[u8], limits: &Limits) -> Result<(), Fault> {
    let mut fault = ffi::Fault::default();
    // SAFETY: the structs are as the header has them, and the bytes are those of a slice.
    let status =
        unsafe { ffi::gtv_validate(bytes.as_ptr(), bytes.len(), &limits.in_c(), &mut fault) };
    if status == ffi::OK {
        return Ok(());
    }
    Err(Fault::new(&fault))
}

/// The last record of a field number, which is the one that counts where a field stands once; those
/// in groups are left out. All of the bytes are looked at, under 100 levels. Of a group the range
/// is all of it, its end tag too.
///
/// ```
/// use gettavil::{find_last, Value};
///
/// let last = find_last(&[0x08, 0x01, 0x08, 0x02], 1).unwrap().unwrap();
/// assert_eq!((last.value, last.range), (Value::Varint(2), 2..4));
/// assert_eq!(find_last(&[0x08, 0x01], 2), Ok(None));
/// assert_eq!(find_last(&[0x08, 0x01, 0x0E], 1).unwrap_err().record_place, 2);
/// ```
pub fn find_last(bytes: &[u8], number: u32) -> Result<Option<Record<'_>>, Fault> {
    let mut range = ffi::Range::default();
    // SAFETY: the struct is as the header has it, and the bytes are those of a slice.
    let status = unsafe { ffi::gtv_find(bytes.as_ptr(), bytes.len(), number, 100, &mut range) };
    match status {
        ffi::OK => {
            let mut reader = Reader::new(bytes);
            reader.state.place = range.start;
            let record = reader.next().and_then(Result::ok);
            Ok(record.map(|record| Record { range: range.start..range.end, ..record }))
        }
        ffi::NOT_FOUND => Ok(None),
        // The fault is that of all of the bytes, which this tells with its place.
        _ => validate(bytes, &Limits::NONE).map(|()| None),
    }
}
