//! The message `readings.Sensor`.
use crate::gtv_ffi as ffi;
use crate::gtv_structs::{Bytes, Limits, NoRoom, NotWritten, Refusal, Text};
use crate::point::Point;
use crate::reading::Reading;
use crate::settings::Settings;
use std::fmt;

/// The message `readings.Sensor`.
///
/// A sensor, with messages inside.
#[repr(C)]
#[derive(Clone, Copy)]
pub struct Sensor<'a> {
    name: Text<'a>,
    has_at: bool,
    at: Point<'a>,
    has_last: bool,
    last: Reading<'a>,
    has_count: bool,
    count: u32,
    has_settings: bool,
    settings: Settings<'a>,
    key: Bytes<'a>,
    turned: i32,
    state: i32,
    weight: f64,
    has_next: bool,
    next: Point<'a>,
}

impl<'a> Sensor<'a> {
    /// The message of no records.
    pub fn new() -> Sensor<'a> {
        ffi::zero()
    }

    /// The message that all of the bytes are.
    pub fn read(bytes: &'a [u8]) -> Result<Sensor<'a>, Refusal> {
        ffi::read(bytes)
    }

    /// The same within these limits.
    pub fn read_within(bytes: &'a [u8], limits: &Limits) -> Result<Sensor<'a>, Refusal> {
        ffi::read_within(bytes, limits)
    }

    /// The records of these bytes that no field of the message owns, one after another, each as it
    /// came, with its tag; in bytes that are no records they end where these are none.
    pub fn unknown_records(bytes: &'a [u8]) -> impl Iterator<Item = &'a [u8]> + 'a {
        ffi::unknown_of_sensor(bytes)
    }

    /// How many bytes the encoding has.
    pub fn size(&self) -> usize {
        ffi::size(self)
    }

    /// Writes the encoding at the front of the room, and says how many bytes it has.
    pub fn write(&self, room: &mut [u8]) -> Result<usize, NoRoom> {
        ffi::write(self, room)
    }

    /// The encoding.
    pub fn to_vec(&self) -> Vec<u8> {
        let mut bytes = vec![0; self.size()];
        let _ = self.write(&mut bytes);
        bytes
    }

    /// How many bytes the encoding has with the unknown fields of these bytes behind it:
    /// the records of other numbers, usually of the bytes that the message was read from.
    pub fn size_keeping(&self, bytes: &[u8]) -> Result<usize, Refusal> {
        ffi::size_keeping(self, bytes)
    }

    /// Writes that encoding at the front of the room, and says how many bytes it has.
    pub fn write_keeping(&self, bytes: &[u8], room: &mut [u8]) -> Result<usize, NotWritten> {
        ffi::write_keeping(self, bytes, room)
    }

    /// That encoding.
    pub fn to_vec_keeping(&self, bytes: &[u8]) -> Result<Vec<u8>, Refusal> {
        let mut room = vec![0; self.size_keeping(bytes)?];
        let _ = self.write_keeping(bytes, &mut room);
        Ok(room)
    }

    pub fn name(&self) -> &'a str {
        self.name.get()
    }

    pub fn set_name(&mut self, name: &'a str) {
        self.name = Text::new(name);
    }

    /// Where it stands.
    pub fn at(&self) -> Option<Point<'a>> {
        if self.has_at { Some(self.at) } else { None }
    }

    pub fn set_at(&mut self, at: Option<Point<'a>>) {
        self.has_at = at.is_some();
        if let Some(at) = at {
            self.at = at;
        }
    }

    pub fn last(&self) -> Option<Reading<'a>> {
        if self.has_last { Some(self.last) } else { None }
    }

    pub fn set_last(&mut self, last: Option<Reading<'a>>) {
        self.has_last = last.is_some();
        if let Some(last) = last {
            self.last = last;
        }
    }

    pub fn count(&self) -> Option<u32> {
        if self.has_count { Some(self.count) } else { None }
    }

    pub fn set_count(&mut self, count: Option<u32>) {
        self.has_count = count.is_some();
        if let Some(count) = count {
            self.count = count;
        }
    }

    pub fn settings(&self) -> Option<Settings<'a>> {
        if self.has_settings { Some(self.settings) } else { None }
    }

    pub fn set_settings(&mut self, settings: Option<Settings<'a>>) {
        self.has_settings = settings.is_some();
        if let Some(settings) = settings {
            self.settings = settings;
        }
    }

    pub fn key(&self) -> &'a [u8] {
        self.key.get()
    }

    pub fn set_key(&mut self, key: &'a [u8]) {
        self.key = Bytes::new(key);
    }

    pub fn turned(&self) -> i32 {
        self.turned
    }

    pub fn set_turned(&mut self, turned: i32) {
        self.turned = turned;
    }

    pub fn state(&self) -> i32 {
        self.state
    }

    pub fn set_state(&mut self, state: i32) {
        self.state = state;
    }

    pub fn weight(&self) -> f64 {
        self.weight
    }

    pub fn set_weight(&mut self, weight: f64) {
        self.weight = weight;
    }

    pub fn next(&self) -> Option<Point<'a>> {
        if self.has_next { Some(self.next) } else { None }
    }

    pub fn set_next(&mut self, next: Option<Point<'a>>) {
        self.has_next = next.is_some();
        if let Some(next) = next {
            self.next = next;
        }
    }
}

impl Default for Sensor<'_> {
    fn default() -> Self {
        Sensor::new()
    }
}

impl fmt::Debug for Sensor<'_> {
    fn fmt(&self, f: &mut fmt::Formatter<'_>) -> fmt::Result {
        f.debug_struct("Sensor")
            .field("name", &self.name())
            .field("at", &self.at())
            .field("last", &self.last())
            .field("count", &self.count())
            .field("settings", &self.settings())
            .field("key", &self.key())
            .field("turned", &self.turned())
            .field("state", &self.state())
            .field("weight", &self.weight())
            .field("next", &self.next())
            .finish()
    }
}
