//! The message `readings.Marks`.
use crate::gtv_ffi as ffi;
#[allow(unused_imports)]
use crate::gtv_structs::{Bytes, Limits, List, NoRoom, NotWritten, Refusal, Text};
use std::fmt;

/// The message `readings.Marks`.
///
/// Numbers alone, in a list.
#[repr(C)]
#[derive(Clone, Copy)]
pub struct Marks<'a> {
    marks_count: u64,
    no_bytes: Bytes<'a>,
}

impl<'a> Marks<'a> {
    /// The message of no records.
    pub fn new() -> Marks<'a> {
        ffi::zero()
    }

    /// The message that all of the bytes are.
    pub fn read(bytes: &'a [u8]) -> Result<Marks<'a>, Refusal> {
        ffi::read(bytes)
    }

    /// The same within these limits.
    pub fn read_within(bytes: &'a [u8], limits: &Limits) -> Result<Marks<'a>, Refusal> {
        ffi::read_within(bytes, limits)
    }

    /// The records of these bytes that no field of the message owns, one after another, each as it
    /// came, with its tag; in bytes that are no records they end where these are none.
    pub fn unknown_records(bytes: &'a [u8]) -> impl Iterator<Item = &'a [u8]> + 'a {
        ffi::unknown_of_marks(bytes)
    }

    /// How many bytes the encoding has, with these lists.
    pub fn size(&self, lists: &MarksLists<'_>) -> usize {
        ffi::size_with(self, lists)
    }

    /// Writes the encoding at the front of the room, and says how many bytes it has.
    pub fn write(&self, lists: &MarksLists<'_>, room: &mut [u8]) -> Result<usize, NoRoom> {
        ffi::write_with(self, lists, room)
    }

    /// The encoding.
    pub fn to_vec(&self, lists: &MarksLists<'_>) -> Vec<u8> {
        let mut bytes = vec![0; self.size(lists)];
        let _ = self.write(lists, &mut bytes);
        bytes
    }

    /// How many bytes the encoding has with the unknown fields of these bytes behind it:
    /// the records of other numbers, usually of the bytes that the message was read from.
    pub fn size_keeping(&self, lists: &MarksLists<'_>, bytes: &[u8]) -> Result<usize, Refusal> {
        ffi::size_keeping_with(self, lists, bytes)
    }

    /// Writes that encoding at the front of the room, and says how many bytes it has.
    pub fn write_keeping(
        &self,
        lists: &MarksLists<'_>,
        bytes: &[u8],
        room: &mut [u8],
    ) -> Result<usize, NotWritten> {
        ffi::write_keeping_with(self, lists, bytes, room)
    }

    /// That encoding.
    pub fn to_vec_keeping(
        &self,
        lists: &MarksLists<'_>,
        bytes: &[u8],
    ) -> Result<Vec<u8>, Refusal> {
        let mut room = vec![0; self.size_keeping(lists, bytes)?];
        let _ = self.write_keeping(lists, bytes, &mut room);
        Ok(room)
    }

    /// How many of `marks` there are.
    pub fn marks_count(&self) -> u64 {
        self.marks_count
    }

    /// The `marks` in bytes that were read as this message, one after another. In others they
    /// end where the bytes are no such message.
    pub fn marks(bytes: &'a [u8]) -> impl Iterator<Item = i64> + 'a {
        ffi::marks_of_marks(bytes)
    }
}

impl Default for Marks<'_> {
    fn default() -> Self {
        Marks::new()
    }
}

impl fmt::Debug for Marks<'_> {
    fn fmt(&self, f: &mut fmt::Formatter<'_>) -> fmt::Result {
        f.debug_struct("Marks")
            .field("marks_count", &self.marks_count())
            .finish()
    }
}

/// The lists of a [`Marks`] that is written, which has nothing of them itself.
#[repr(C)]
#[derive(Clone, Copy)]
pub struct MarksLists<'a> {
    marks: List<'a, i64>,
}

impl<'a> MarksLists<'a> {
    /// Each list in turn, in the order of the header, `&[]` where there is none; a string is
    /// made by `Text::new`, and `bytes` by `Bytes::new`.
    pub fn new(marks: &'a [i64]) -> MarksLists<'a> {
        MarksLists { marks: List::new(marks) }
    }
}
