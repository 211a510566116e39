//! The message `machines.Part`.
use crate::gtv_ffi as ffi;
#[allow(unused_imports)]
use crate::gtv_structs::{Bytes, Limits, List, NoRoom, NotWritten, Refusal, Text};
use std::fmt;

/// The message `machines.Part`.
///
/// Holds itself, once and as a list, each time as an encoding.
#[repr(C)]
#[derive(Clone, Copy)]
pub struct Part<'a> {
    has_name: bool,
    name: Text<'a>,
    has_inside: bool,
    inside: Bytes<'a>,
    parts_count: u64,
    has_count: bool,
    count: u32,
}

impl<'a> Part<'a> {
    /// The message of no records.
    pub fn new() -> Part<'a> {
        ffi::zero()
    }

    /// The message that all of the bytes are.
    pub fn read(bytes: &'a [u8]) -> Result<Part<'a>, Refusal> {
        ffi::read(bytes)
    }

    /// The same within these limits.
    pub fn read_within(bytes: &'a [u8], limits: &Limits) -> Result<Part<'a>, Refusal> {
        ffi::read_within(bytes, limits)
    }

    /// The records of these bytes that no field of the message owns, one after another, each as it
    /// came, with its tag; in bytes that are no records they end where these are none.
    pub fn unknown_records(bytes: &'a [u8]) -> impl Iterator<Item = &'a [u8]> + 'a {
        ffi::unknown_of_part(bytes)
    }

    /// How many bytes the encoding has, with these lists.
    pub fn size(&self, lists: &PartLists<'_>) -> usize {
        ffi::size_with(self, lists)
    }

    /// Writes the encoding at the front of the room, and says how many bytes it has.
    pub fn write(&self, lists: &PartLists<'_>, room: &mut [u8]) -> Result<usize, NoRoom> {
        ffi::write_with(self, lists, room)
    }

    /// The encoding.
    pub fn to_vec(&self, lists: &PartLists<'_>) -> Vec<u8> {
        let mut bytes = vec![0; self.size(lists)];
        let _ = self.write(lists, &mut bytes);
        bytes
    }

    /// How many bytes the encoding has with the unknown fields of these bytes behind it:
    /// the records of other numbers, usually of the bytes that the message was read from.
    pub fn size_keeping(&self, lists: &PartLists<'_>, bytes: &[u8]) -> Result<usize, Refusal> {
        ffi::size_keeping_with(self, lists, bytes)
    }

    /// Writes that encoding at the front of the room, and says how many bytes it has.
    pub fn write_keeping(
        &self,
        lists: &PartLists<'_>,
        bytes: &[u8],
        room: &mut [u8],
    ) -> Result<usize, NotWritten> {
        ffi::write_keeping_with(self, lists, bytes, room)
    }

    /// That encoding.
    pub fn to_vec_keeping(
        &self,
        lists: &PartLists<'_>,
        bytes: &[u8],
    ) -> Result<Vec<u8>, Refusal> {
        let mut room = vec![0; self.size_keeping(lists, bytes)?];
        let _ = self.write_keeping(lists, bytes, &mut room);
        Ok(room)
    }

    pub fn name(&self) -> Option<&'a str> {
        if self.has_name { Some(self.name.get()) } else { None }
    }

    pub fn set_name(&mut self, name: Option<&'a str>) {
        self.has_name = name.is_some();
        if let Some(name) = name {
            self.name = Text::new(name);
        }
    }

    /// Encodings of messages, not looked at: the calls of their type read and write them.
    pub fn inside(&self) -> Option<&'a [u8]> {
        if self.has_inside { Some(self.inside.get()) } else { None }
    }

    pub fn set_inside(&mut self, inside: Option<&'a [u8]>) {
        self.has_inside = inside.is_some();
        if let Some(inside) = inside {
            self.inside = Bytes::new(inside);
        }
    }

    /// How many of `parts` there are.
    pub fn parts_count(&self) -> u64 {
        self.parts_count
    }

    /// Encodings of messages, not looked at: the calls of their type read and write them.
    /// The `parts` in bytes that were read as this message, one after another. In others they
    /// end where the bytes are no such message.
    pub fn parts(bytes: &'a [u8]) -> impl Iterator<Item = &'a [u8]> + 'a {
        ffi::parts_of_part(bytes)
    }

    pub fn count(&self) -> Option<u32> {
        if self.has_count { Some(self.count) } else { None }
    }

    pub fn set_count(&mut self, count: Option<u32>) {
        self.has_count = count.is_some();
        if let Some(count) = count {
            self.count = count;
        }
    }
}

impl Default for Part<'_> {
    fn default() -> Self {
        Part::new()
    }
}

impl fmt::Debug for Part<'_> {
    fn fmt(&self, f: &mut fmt::Formatter<'_>) -> fmt::Result {
        f.debug_struct("Part")
            .field("name", &self.name())
            .field("inside", &self.inside())
            .field("parts_count", &self.parts_count())
            .field("count", &self.count())
            .finish()
    }
}

/// The lists of a [`Part`] that is written, which has nothing of them itself.
#[repr(C)]
#[derive(Clone, Copy)]
pub struct PartLists<'a> {
    parts: List<'a, Bytes<'a>>,
}

impl<'a> PartLists<'a> {
    /// Each list in turn, in the order of the header, `&[]` where there is none; a string is
    /// made by `Text::new`, and `bytes` by `Bytes::new`.
    pub fn new(parts: &'a [Bytes<'a>]) -> PartLists<'a> {
        PartLists { parts: List::new(parts) }
    }
}
