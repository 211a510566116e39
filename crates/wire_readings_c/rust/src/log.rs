//! The message `readings.Log`.
use crate::gtv_ffi as ffi;
#[allow(unused_imports)]
use crate::gtv_structs::{Bytes, Limits, List, NoRoom, NotWritten, Refusal, Text};
use crate::reading::Reading;
use crate::point::Point;
use std::fmt;

/// The message `readings.Log`.
///
/// What was read: each kind of list that a struct has.
#[repr(C)]
#[derive(Clone, Copy)]
pub struct Log<'a> {
    notes_count: u64,
    since: i64,
    readings_count: u64,
    has_at: bool,
    at: Point<'a>,
    frames_count: u64,
    path_count: u64,
    by: Text<'a>,
    is_whole: bool,
    more_count: u64,
    count: u32,
}

impl<'a> Log<'a> {
    /// The message of no records.
    pub fn new() -> Log<'a> {
        ffi::zero()
    }

    /// The message that all of the bytes are.
    pub fn read(bytes: &'a [u8]) -> Result<Log<'a>, Refusal> {
        ffi::read(bytes)
    }

    /// The same within these limits.
    pub fn read_within(bytes: &'a [u8], limits: &Limits) -> Result<Log<'a>, Refusal> {
        ffi::read_within(bytes, limits)
    }

    /// The records of these bytes that no field of the message owns, one after another, each as it
    /// came, with its tag; in bytes that are no records they end where these are none.
    pub fn unknown_records(bytes: &'a [u8]) -> impl Iterator<Item = &'a [u8]> + 'a {
        ffi::unknown_of_log(bytes)
    }

    /// How many bytes the encoding has, with these lists.
    pub fn size(&self, lists: &LogLists<'_>) -> usize {
        ffi::size_with(self, lists)
    }

    /// Writes the encoding at the front of the room, and says how many bytes it has.
    pub fn write(&self, lists: &LogLists<'_>, room: &mut [u8]) -> Result<usize, NoRoom> {
        ffi::write_with(self, lists, room)
    }

    /// The encoding.
    pub fn to_vec(&self, lists: &LogLists<'_>) -> Vec<u8> {
        let mut bytes = vec![0; self.size(lists)];
        let _ = self.write(lists, &mut bytes);
        bytes
    }

    /// How many bytes the encoding has with the unknown fields of these bytes behind it:
    /// the records of other numbers, usually of the bytes that the message was read from.
    pub fn size_keeping(&self, lists: &LogLists<'_>, bytes: &[u8]) -> Result<usize, Refusal> {
        ffi::size_keeping_with(self, lists, bytes)
    }

    /// Writes that encoding at the front of the room, and says how many bytes it has.
    pub fn write_keeping(
        &self,
        lists: &LogLists<'_>,
        bytes: &[u8],
        room: &mut [u8],
    ) -> Result<usize, NotWritten> {
        ffi::write_keeping_with(self, lists, bytes, room)
    }

    /// That encoding.
    pub fn to_vec_keeping(
        &self,
        lists: &LogLists<'_>,
        bytes: &[u8],
    ) -> Result<Vec<u8>, Refusal> {
        let mut room = vec![0; self.size_keeping(lists, bytes)?];
        let _ = self.write_keeping(lists, bytes, &mut room);
        Ok(room)
    }

    /// How many of `notes` there are.
    pub fn notes_count(&self) -> u64 {
        self.notes_count
    }

    /// The `notes` in bytes that were read as this message, one after another. In others they
    /// end where the bytes are no such message.
    pub fn notes(bytes: &'a [u8]) -> impl Iterator<Item = &'a str> + 'a {
        ffi::notes_of_log(bytes).filter_map(|it| std::str::from_utf8(it).ok())
    }

    pub fn since(&self) -> i64 {
        self.since
    }

    pub fn set_since(&mut self, since: i64) {
        self.since = since;
    }

    /// How many of `readings` there are.
    pub fn readings_count(&self) -> u64 {
        self.readings_count
    }

    /// The `readings` in bytes that were read as this message, one after another. In others they
    /// end where the bytes are no such message.
    pub fn readings(bytes: &'a [u8]) -> impl Iterator<Item = Result<Reading<'a>, Refusal>> + 'a {
        ffi::readings_of_log(bytes).map(Reading::read)
    }

    /// The same, each read within these limits, and not the default ones.
    pub fn readings_within(
        bytes: &'a [u8],
        limits: Limits,
    ) -> impl Iterator<Item = Result<Reading<'a>, Refusal>> + 'a {
        ffi::readings_of_log(bytes).map(move |it| Reading::read_within(it, &limits))
    }

    pub fn at(&self) -> Option<Point<'a>> {
        if self.has_at { Some(self.at) } else { None }
    }

    pub fn set_at(&mut self, at: Option<Point<'a>>) {
        self.has_at = at.is_some();
        if let Some(at) = at {
            self.at = at;
        }
    }

    /// How many of `frames` there are.
    pub fn frames_count(&self) -> u64 {
        self.frames_count
    }

    /// The `frames` in bytes that were read as this message, one after another. In others they
    /// end where the bytes are no such message.
    pub fn frames(bytes: &'a [u8]) -> impl Iterator<Item = &'a [u8]> + 'a {
        ffi::frames_of_log(bytes)
    }

    /// How many of `path` there are.
    pub fn path_count(&self) -> u64 {
        self.path_count
    }

    /// The `path` in bytes that were read as this message, one after another. In others they
    /// end where the bytes are no such message.
    pub fn path(bytes: &'a [u8]) -> impl Iterator<Item = Result<Point<'a>, Refusal>> + 'a {
        ffi::path_of_log(bytes).map(Point::read)
    }

    /// The same, each read within these limits, and not the default ones.
    pub fn path_within(
        bytes: &'a [u8],
        limits: Limits,
    ) -> impl Iterator<Item = Result<Point<'a>, Refusal>> + 'a {
        ffi::path_of_log(bytes).map(move |it| Point::read_within(it, &limits))
    }

    pub fn by(&self) -> &'a str {
        self.by.get()
    }

    pub fn set_by(&mut self, by: &'a str) {
        self.by = Text::new(by);
    }

    pub fn is_whole(&self) -> bool {
        self.is_whole
    }

    pub fn set_is_whole(&mut self, is_whole: bool) {
        self.is_whole = is_whole;
    }

    /// How many of `more` there are.
    pub fn more_count(&self) -> u64 {
        self.more_count
    }

    /// The `more` in bytes that were read as this message, one after another. In others they
    /// end where the bytes are no such message.
    pub fn more(bytes: &'a [u8]) -> impl Iterator<Item = &'a str> + 'a {
        ffi::more_of_log(bytes).filter_map(|it| std::str::from_utf8(it).ok())
    }

    pub fn count(&self) -> u32 {
        self.count
    }

    pub fn set_count(&mut self, count: u32) {
        self.count = count;
    }
}

impl Default for Log<'_> {
    fn default() -> Self {
        Log::new()
    }
}

impl fmt::Debug for Log<'_> {
    fn fmt(&self, f: &mut fmt::Formatter<'_>) -> fmt::Result {
        f.debug_struct("Log")
            .field("notes_count", &self.notes_count())
            .field("since", &self.since())
            .field("readings_count", &self.readings_count())
            .field("at", &self.at())
            .field("frames_count", &self.frames_count())
            .field("path_count", &self.path_count())
            .field("by", &self.by())
            .field("is_whole", &self.is_whole())
            .field("more_count", &self.more_count())
            .field("count", &self.count())
            .finish()
    }
}

/// The lists of a [`Log`] that is written, which has nothing of them itself.
#[repr(C)]
#[derive(Clone, Copy)]
pub struct LogLists<'a> {
    notes: List<'a, Text<'a>>,
    readings: List<'a, Reading<'a>>,
    frames: List<'a, Bytes<'a>>,
    path: List<'a, Point<'a>>,
    more: List<'a, Text<'a>>,
}

impl<'a> LogLists<'a> {
    /// Each list in turn, in the order of the header, `&[]` where there is none; a string is
    /// made by `Text::new`, and `bytes` by `Bytes::new`.
    pub fn new(notes: &'a [Text<'a>], readings: &'a [Reading<'a>], frames: &'a [Bytes<'a>], path: &'a [Point<'a>], more: &'a [Text<'a>]) -> LogLists<'a> {
        LogLists { notes: List::new(notes), readings: List::new(readings), frames: List::new(frames), path: List::new(path), more: List::new(more) }
    }
}
