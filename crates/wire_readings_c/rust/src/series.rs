//! The message `readings.Series`.
use crate::gtv_ffi as ffi;
#[allow(unused_imports)]
use crate::gtv_structs::{Bytes, Limits, List, NoRoom, NotWritten, Refusal, Text};
use std::fmt;

/// The message `readings.Series`.
///
/// What was measured one after another: lists of numbers, packed and not.
#[repr(C)]
#[derive(Clone, Copy)]
pub struct Series<'a> {
    values_count: u64,
    by: Text<'a>,
    weights_count: u64,
    marks_count: u64,
    states_count: u64,
    addresses_count: u64,
    factors_count: u64,
    serials_count: u64,
    notes_count: u64,
    worst_count: u64,
}

impl<'a> Series<'a> {
    /// The message of no records.
    pub fn new() -> Series<'a> {
        ffi::zero()
    }

    /// The message that all of the bytes are.
    pub fn read(bytes: &'a [u8]) -> Result<Series<'a>, Refusal> {
        ffi::read(bytes)
    }

    /// The same within these limits.
    pub fn read_within(bytes: &'a [u8], limits: &Limits) -> Result<Series<'a>, Refusal> {
        ffi::read_within(bytes, limits)
    }

    /// The records of these bytes that no field of the message owns, one after another, each as it
    /// came, with its tag; in bytes that are no records they end where these are none.
    pub fn unknown_records(bytes: &'a [u8]) -> impl Iterator<Item = &'a [u8]> + 'a {
        ffi::unknown_of_series(bytes)
    }

    /// How many bytes the encoding has, with these lists.
    pub fn size(&self, lists: &SeriesLists<'_>) -> usize {
        ffi::size_with(self, lists)
    }

    /// Writes the encoding at the front of the room, and says how many bytes it has.
    pub fn write(&self, lists: &SeriesLists<'_>, room: &mut [u8]) -> Result<usize, NoRoom> {
        ffi::write_with(self, lists, room)
    }

    /// The encoding.
    pub fn to_vec(&self, lists: &SeriesLists<'_>) -> Vec<u8> {
        let mut bytes = vec![0; self.size(lists)];
        let _ = self.write(lists, &mut bytes);
        bytes
    }

    /// How many bytes the encoding has with the unknown fields of these bytes behind it:
    /// the records of other numbers, usually of the bytes that the message was read from.
    pub fn size_keeping(&self, lists: &SeriesLists<'_>, bytes: &[u8]) -> Result<usize, Refusal> {
        ffi::size_keeping_with(self, lists, bytes)
    }

    /// Writes that encoding at the front of the room, and says how many bytes it has.
    pub fn write_keeping(
        &self,
        lists: &SeriesLists<'_>,
        bytes: &[u8],
        room: &mut [u8],
    ) -> Result<usize, NotWritten> {
        ffi::write_keeping_with(self, lists, bytes, room)
    }

    /// That encoding.
    pub fn to_vec_keeping(
        &self,
        lists: &SeriesLists<'_>,
        bytes: &[u8],
    ) -> Result<Vec<u8>, Refusal> {
        let mut room = vec![0; self.size_keeping(lists, bytes)?];
        let _ = self.write_keeping(lists, bytes, &mut room);
        Ok(room)
    }

    /// How many of `values` there are.
    pub fn values_count(&self) -> u64 {
        self.values_count
    }

    /// The `values` in bytes that were read as this message, one after another. In others they
    /// end where the bytes are no such message.
    pub fn values(bytes: &'a [u8]) -> impl Iterator<Item = i32> + 'a {
        ffi::values_of_series(bytes)
    }

    pub fn by(&self) -> &'a str {
        self.by.get()
    }

    pub fn set_by(&mut self, by: &'a str) {
        self.by = Text::new(by);
    }

    /// How many of `weights` there are.
    pub fn weights_count(&self) -> u64 {
        self.weights_count
    }

    /// The `weights` in bytes that were read as this message, one after another. In others they
    /// end where the bytes are no such message.
    pub fn weights(bytes: &'a [u8]) -> impl Iterator<Item = f64> + 'a {
        ffi::weights_of_series(bytes)
    }

    /// How many of `marks` there are.
    pub fn marks_count(&self) -> u64 {
        self.marks_count
    }

    /// The `marks` in bytes that were read as this message, one after another. In others they
    /// end where the bytes are no such message.
    pub fn marks(bytes: &'a [u8]) -> impl Iterator<Item = bool> + 'a {
        ffi::marks_of_series(bytes)
    }

    /// How many of `states` there are.
    pub fn states_count(&self) -> u64 {
        self.states_count
    }

    /// The `states` in bytes that were read as this message, one after another. In others they
    /// end where the bytes are no such message.
    pub fn states(bytes: &'a [u8]) -> impl Iterator<Item = i32> + 'a {
        ffi::states_of_series(bytes)
    }

    /// How many of `addresses` there are.
    pub fn addresses_count(&self) -> u64 {
        self.addresses_count
    }

    /// The `addresses` in bytes that were read as this message, one after another. In others they
    /// end where the bytes are no such message.
    pub fn addresses(bytes: &'a [u8]) -> impl Iterator<Item = u32> + 'a {
        ffi::addresses_of_series(bytes)
    }

    /// How many of `factors` there are.
    pub fn factors_count(&self) -> u64 {
        self.factors_count
    }

    /// The `factors` in bytes that were read as this message, one after another. In others they
    /// end where the bytes are no such message.
    pub fn factors(bytes: &'a [u8]) -> impl Iterator<Item = f32> + 'a {
        ffi::factors_of_series(bytes)
    }

    /// How many of `serials` there are.
    pub fn serials_count(&self) -> u64 {
        self.serials_count
    }

    /// The `serials` in bytes that were read as this message, one after another. In others they
    /// end where the bytes are no such message.
    pub fn serials(bytes: &'a [u8]) -> impl Iterator<Item = u64> + 'a {
        ffi::serials_of_series(bytes)
    }

    /// How many of `notes` there are.
    pub fn notes_count(&self) -> u64 {
        self.notes_count
    }

    /// The `notes` in bytes that were read as this message, one after another. In others they
    /// end where the bytes are no such message.
    pub fn notes(bytes: &'a [u8]) -> impl Iterator<Item = &'a str> + 'a {
        ffi::notes_of_series(bytes).filter_map(|it| std::str::from_utf8(it).ok())
    }

    /// How many of `worst` there are.
    pub fn worst_count(&self) -> u64 {
        self.worst_count
    }

    /// The `worst` in bytes that were read as this message, one after another. In others they
    /// end where the bytes are no such message.
    pub fn worst(bytes: &'a [u8]) -> impl Iterator<Item = i32> + 'a {
        ffi::worst_of_series(bytes)
    }
}

impl Default for Series<'_> {
    fn default() -> Self {
        Series::new()
    }
}

impl fmt::Debug for Series<'_> {
    fn fmt(&self, f: &mut fmt::Formatter<'_>) -> fmt::Result {
        f.debug_struct("Series")
            .field("values_count", &self.values_count())
            .field("by", &self.by())
            .field("weights_count", &self.weights_count())
            .field("marks_count", &self.marks_count())
            .field("states_count", &self.states_count())
            .field("addresses_count", &self.addresses_count())
            .field("factors_count", &self.factors_count())
            .field("serials_count", &self.serials_count())
            .field("notes_count", &self.notes_count())
            .field("worst_count", &self.worst_count())
            .finish()
    }
}

/// The lists of a [`Series`] that is written, which has nothing of them itself.
#[repr(C)]
#[derive(Clone, Copy)]
pub struct SeriesLists<'a> {
    values: List<'a, i32>,
    weights: List<'a, f64>,
    marks: List<'a, bool>,
    states: List<'a, i32>,
    addresses: List<'a, u32>,
    factors: List<'a, f32>,
    serials: List<'a, u64>,
    notes: List<'a, Text<'a>>,
    worst: List<'a, i32>,
}

impl<'a> SeriesLists<'a> {
    /// Each list in turn, in the order of the header, `&[]` where there is none; a string is
    /// made by `Text::new`, and `bytes` by `Bytes::new`.
    pub fn new(values: &'a [i32], weights: &'a [f64], marks: &'a [bool], states: &'a [i32], addresses: &'a [u32], factors: &'a [f32], serials: &'a [u64], notes: &'a [Text<'a>], worst: &'a [i32]) -> SeriesLists<'a> {
        SeriesLists { values: List::new(values), weights: List::new(weights), marks: List::new(marks), states: List::new(states), addresses: List::new(addresses), factors: List::new(factors), serials: List::new(serials), notes: List::new(notes), worst: List::new(worst) }
    }
}
