//! The message `readings.Totals`.
use crate::gtv_ffi as ffi;
#[allow(unused_imports)]
use crate::gtv_structs::{Bytes, Limits, List, NoRoom, NotWritten, Refusal, Text};
use crate::totals_sums_entry::TotalsSumsEntry;
use crate::totals_last_entry::TotalsLastEntry;
use crate::totals_states_entry::TotalsStatesEntry;
use std::fmt;

/// The message `readings.Totals`.
///
/// What was measured in all: a map of each kind that a struct has, among other fields.
#[repr(C)]
#[derive(Clone, Copy)]
pub struct Totals<'a> {
    sums_count: u64,
    by: Text<'a>,
    last_count: u64,
    states_count: u64,
}

impl<'a> Totals<'a> {
    /// The message of no records.
    pub fn new() -> Totals<'a> {
        ffi::zero()
    }

    /// The message that all of the bytes are.
    pub fn read(bytes: &'a [u8]) -> Result<Totals<'a>, Refusal> {
        ffi::read(bytes)
    }

    /// The same within these limits.
    pub fn read_within(bytes: &'a [u8], limits: &Limits) -> Result<Totals<'a>, Refusal> {
        ffi::read_within(bytes, limits)
    }

    /// The records of these bytes that no field of the message owns, one after another, each as it
    /// came, with its tag; in bytes that are no records they end where these are none.
    pub fn unknown_records(bytes: &'a [u8]) -> impl Iterator<Item = &'a [u8]> + 'a {
        ffi::unknown_of_totals(bytes)
    }

    /// How many bytes the encoding has, with these lists.
    pub fn size(&self, lists: &TotalsLists<'_>) -> usize {
        ffi::size_with(self, lists)
    }

    /// Writes the encoding at the front of the room, and says how many bytes it has.
    pub fn write(&self, lists: &TotalsLists<'_>, room: &mut [u8]) -> Result<usize, NoRoom> {
        ffi::write_with(self, lists, room)
    }

    /// The encoding.
    pub fn to_vec(&self, lists: &TotalsLists<'_>) -> Vec<u8> {
        let mut bytes = vec![0; self.size(lists)];
        let _ = self.write(lists, &mut bytes);
        bytes
    }

    /// How many bytes the encoding has with the unknown fields of these bytes behind it:
    /// the records of other numbers, usually of the bytes that the message was read from.
    pub fn size_keeping(&self, lists: &TotalsLists<'_>, bytes: &[u8]) -> Result<usize, Refusal> {
        ffi::size_keeping_with(self, lists, bytes)
    }

    /// Writes that encoding at the front of the room, and says how many bytes it has.
    pub fn write_keeping(
        &self,
        lists: &TotalsLists<'_>,
        bytes: &[u8],
        room: &mut [u8],
    ) -> Result<usize, NotWritten> {
        ffi::write_keeping_with(self, lists, bytes, room)
    }

    /// That encoding.
    pub fn to_vec_keeping(
        &self,
        lists: &TotalsLists<'_>,
        bytes: &[u8],
    ) -> Result<Vec<u8>, Refusal> {
        let mut room = vec![0; self.size_keeping(lists, bytes)?];
        let _ = self.write_keeping(lists, bytes, &mut room);
        Ok(room)
    }

    /// How many of `sums` there are.
    pub fn sums_count(&self) -> u64 {
        self.sums_count
    }

    /// The `sums` in bytes that were read as this message, one after another. In others they
    /// end where the bytes are no such message.
    pub fn sums(bytes: &'a [u8]) -> impl Iterator<Item = Result<TotalsSumsEntry<'a>, Refusal>> + 'a {
        ffi::sums_of_totals(bytes).map(TotalsSumsEntry::read)
    }

    /// The same, each read within these limits, and not the default ones.
    pub fn sums_within(
        bytes: &'a [u8],
        limits: Limits,
    ) -> impl Iterator<Item = Result<TotalsSumsEntry<'a>, Refusal>> + 'a {
        ffi::sums_of_totals(bytes).map(move |it| TotalsSumsEntry::read_within(it, &limits))
    }

    pub fn by(&self) -> &'a str {
        self.by.get()
    }

    pub fn set_by(&mut self, by: &'a str) {
        self.by = Text::new(by);
    }

    /// How many of `last` there are.
    pub fn last_count(&self) -> u64 {
        self.last_count
    }

    /// The last of each sensor, by its number.
    /// The `last` in bytes that were read as this message, one after another. In others they
    /// end where the bytes are no such message.
    pub fn last(bytes: &'a [u8]) -> impl Iterator<Item = Result<TotalsLastEntry<'a>, Refusal>> + 'a {
        ffi::last_of_totals(bytes).map(TotalsLastEntry::read)
    }

    /// The same, each read within these limits, and not the default ones.
    pub fn last_within(
        bytes: &'a [u8],
        limits: Limits,
    ) -> impl Iterator<Item = Result<TotalsLastEntry<'a>, Refusal>> + 'a {
        ffi::last_of_totals(bytes).map(move |it| TotalsLastEntry::read_within(it, &limits))
    }

    /// How many of `states` there are.
    pub fn states_count(&self) -> u64 {
        self.states_count
    }

    /// The `states` in bytes that were read as this message, one after another. In others they
    /// end where the bytes are no such message.
    pub fn states(bytes: &'a [u8]) -> impl Iterator<Item = Result<TotalsStatesEntry<'a>, Refusal>> + 'a {
        ffi::states_of_totals(bytes).map(TotalsStatesEntry::read)
    }

    /// The same, each read within these limits, and not the default ones.
    pub fn states_within(
        bytes: &'a [u8],
        limits: Limits,
    ) -> impl Iterator<Item = Result<TotalsStatesEntry<'a>, Refusal>> + 'a {
        ffi::states_of_totals(bytes).map(move |it| TotalsStatesEntry::read_within(it, &limits))
    }
}

impl Default for Totals<'_> {
    fn default() -> Self {
        Totals::new()
    }
}

impl fmt::Debug for Totals<'_> {
    fn fmt(&self, f: &mut fmt::Formatter<'_>) -> fmt::Result {
        f.debug_struct("Totals")
            .field("sums_count", &self.sums_count())
            .field("by", &self.by())
            .field("last_count", &self.last_count())
            .field("states_count", &self.states_count())
            .finish()
    }
}

/// The lists of a [`Totals`] that is written, which has nothing of them itself.
#[repr(C)]
#[derive(Clone, Copy)]
pub struct TotalsLists<'a> {
    sums: List<'a, TotalsSumsEntry<'a>>,
    last: List<'a, TotalsLastEntry<'a>>,
    states: List<'a, TotalsStatesEntry<'a>>,
}

impl<'a> TotalsLists<'a> {
    /// Each list in turn, in the order of the header, `&[]` where there is none; a string is
    /// made by `Text::new`, and `bytes` by `Bytes::new`.
    pub fn new(sums: &'a [TotalsSumsEntry<'a>], last: &'a [TotalsLastEntry<'a>], states: &'a [TotalsStatesEntry<'a>]) -> TotalsLists<'a> {
        TotalsLists { sums: List::new(sums), last: List::new(last), states: List::new(states) }
    }
}
