//! The message `report.Report.Sample`.
use crate::gtv_ffi as ffi;
use crate::gtv_structs::{Limits, NoRoom, NotWritten, Refusal, Text};
use std::fmt;

/// The message `report.Report.Sample`.
///
/// What was measured once.
#[repr(C)]
#[derive(Clone, Copy)]
pub struct ReportSample<'a> {
    name: Text<'a>,
    value: f64,
    has_count: bool,
    count: i64,
}

impl<'a> ReportSample<'a> {
    /// The message of no records.
    pub fn new() -> ReportSample<'a> {
        ffi::zero()
    }

    /// The message that all of the bytes are.
    pub fn read(bytes: &'a [u8]) -> Result<ReportSample<'a>, Refusal> {
        ffi::read(bytes)
    }

    /// The same within these limits.
    pub fn read_within(bytes: &'a [u8], limits: &Limits) -> Result<ReportSample<'a>, Refusal> {
        ffi::read_within(bytes, limits)
    }

    /// The records of these bytes that no field of the message owns, one after another, each as it
    /// came, with its tag; in bytes that are no records they end where these are none.
    pub fn unknown_records(bytes: &'a [u8]) -> impl Iterator<Item = &'a [u8]> + 'a {
        ffi::unknown_of_report_sample(bytes)
    }

    /// How many bytes the encoding has.
    pub fn size(&self) -> usize {
        ffi::size(self)
    }

    /// Writes the encoding at the front of the room, and says how many bytes it has.
    pub fn write(&self, room: &mut [u8]) -> Result<usize, NoRoom> {
        ffi::write(self, room)
    }

    /// The encoding.
    pub fn to_vec(&self) -> Vec<u8> {
        let mut bytes = vec![0; self.size()];
        let _ = self.write(&mut bytes);
        bytes
    }

    /// How many bytes the encoding has with the unknown fields of these bytes behind it:
    /// the records of other numbers, usually of the bytes that the message was read from.
    pub fn size_keeping(&self, bytes: &[u8]) -> Result<usize, Refusal> {
        ffi::size_keeping(self, bytes)
    }

    /// Writes that encoding at the front of the room, and says how many bytes it has.
    pub fn write_keeping(&self, bytes: &[u8], room: &mut [u8]) -> Result<usize, NotWritten> {
        ffi::write_keeping(self, bytes, room)
    }

    /// That encoding.
    pub fn to_vec_keeping(&self, bytes: &[u8]) -> Result<Vec<u8>, Refusal> {
        let mut room = vec![0; self.size_keeping(bytes)?];
        let _ = self.write_keeping(bytes, &mut room);
        Ok(room)
    }

    pub fn name(&self) -> &'a str {
        self.name.get()
    }

    pub fn set_name(&mut self, name: &'a str) {
        self.name = Text::new(name);
    }

    pub fn value(&self) -> f64 {
        self.value
    }

    pub fn set_value(&mut self, value: f64) {
        self.value = value;
    }

    pub fn count(&self) -> Option<i64> {
        if self.has_count { Some(self.count) } else { None }
    }

    pub fn set_count(&mut self, count: Option<i64>) {
        self.has_count = count.is_some();
        if let Some(count) = count {
            self.count = count;
        }
    }
}

impl Default for ReportSample<'_> {
    fn default() -> Self {
        ReportSample::new()
    }
}

impl fmt::Debug for ReportSample<'_> {
    fn fmt(&self, f: &mut fmt::Formatter<'_>) -> fmt::Result {
        f.debug_struct("ReportSample")
            .field("name", &self.name())
            .field("value", &self.value())
            .field("count", &self.count())
            .finish()
    }
}
