//! The message `readings.Reading`.
use crate::gtv_ffi as ffi;
use crate::gtv_structs::{Limits, NoRoom, NotWritten, Refusal, Text};
use std::fmt;

/// The message `readings.Reading`.
///
/// What a sensor measured once.
#[repr(C)]
#[derive(Clone, Copy)]
pub struct Reading<'a> {
    sensor: Text<'a>,
    celsius: f64,
    has_offset: bool,
    offset: i64,
    state: i32,
}

impl<'a> Reading<'a> {
    /// The message of no records.
    pub fn new() -> Reading<'a> {
        ffi::zero()
    }

    /// The message that all of the bytes are.
    pub fn read(bytes: &'a [u8]) -> Result<Reading<'a>, Refusal> {
        ffi::read(bytes)
    }

    /// The same within these limits.
    pub fn read_within(bytes: &'a [u8], limits: &Limits) -> Result<Reading<'a>, Refusal> {
        ffi::read_within(bytes, limits)
    }

    /// The records of these bytes that no field of the message owns, one after another, each as it
    /// came, with its tag; in bytes that are no records they end where these are none.
    pub fn unknown_records(bytes: &'a [u8]) -> impl Iterator<Item = &'a [u8]> + 'a {
        ffi::unknown_of_reading(bytes)
    }

    /// How many bytes the encoding has.
    pub fn size(&self) -> usize {
        ffi::size(self)
    }

    /// Writes the encoding at the front of the room, and says how many bytes it has.
    pub fn write(&self, room: &mut [u8]) -> Result<usize, NoRoom> {
        ffi::write(self, room)
    }

    /// The encoding.
    pub fn to_vec(&self) -> Vec<u8> {
        let mut bytes = vec![0; self.size()];
        let _ = self.write(&mut bytes);
        bytes
    }

    /// How many bytes the encoding has with the unknown fields of these bytes behind it:
    /// the records of other numbers, usually of the bytes that the message was read from.
    pub fn size_keeping(&self, bytes: &[u8]) -> Result<usize, Refusal> {
        ffi::size_keeping(self, bytes)
    }

    /// Writes that encoding at the front of the room, and says how many bytes it has.
    pub fn write_keeping(&self, bytes: &[u8], room: &mut [u8]) -> Result<usize, NotWritten> {
        ffi::write_keeping(self, bytes, room)
    }

    /// That encoding.
    pub fn to_vec_keeping(&self, bytes: &[u8]) -> Result<Vec<u8>, Refusal> {
        let mut room = vec![0; self.size_keeping(bytes)?];
        let _ = self.write_keeping(bytes, &mut room);
        Ok(room)
    }

    pub fn sensor(&self) -> &'a str {
        self.sensor.get()
    }

    pub fn set_sensor(&mut self, sensor: &'a str) {
        self.sensor = Text::new(sensor);
    }

    /// In degrees Celsius.
    pub fn celsius(&self) -> f64 {
        self.celsius
    }

    pub fn set_celsius(&mut self, celsius: f64) {
        self.celsius = celsius;
    }

    pub fn offset(&self) -> Option<i64> {
        if self.has_offset { Some(self.offset) } else { None }
    }

    pub fn set_offset(&mut self, offset: Option<i64>) {
        self.has_offset = offset.is_some();
        if let Some(offset) = offset {
            self.offset = offset;
        }
    }

    pub fn state(&self) -> i32 {
        self.state
    }

    pub fn set_state(&mut self, state: i32) {
        self.state = state;
    }
}

impl Default for Reading<'_> {
    fn default() -> Self {
        Reading::new()
    }
}

impl fmt::Debug for Reading<'_> {
    fn fmt(&self, f: &mut fmt::Formatter<'_>) -> fmt::Result {
        f.debug_struct("Reading")
            .field("sensor", &self.sensor())
            .field("celsius", &self.celsius())
            .field("offset", &self.offset())
            .field("state", &self.state())
            .finish()
    }
}
