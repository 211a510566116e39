//! The message `readings.Settings`.
use crate::gtv_ffi as ffi;
use crate::gtv_structs::{Bytes, Limits, NoRoom, NotWritten, Refusal, Text};
use std::fmt;

/// The message `readings.Settings`.
///
/// What a sensor is set to: each kind of field that a struct has.
#[repr(C)]
#[derive(Clone, Copy)]
pub struct Settings<'a> {
    least: i32,
    since: i64,
    each_seconds: u32,
    serial: u64,
    shift: i32,
    address: u32,
    key: u64,
    low: i32,
    high: i64,
    factor: f32,
    is_on: bool,
    register: Bytes<'a>,
    has_label: bool,
    label: Text<'a>,
    has_token: bool,
    token: Bytes<'a>,
    has_limit: bool,
    limit: f64,
    has_gain: bool,
    gain: f32,
    has_is_loud: bool,
    is_loud: bool,
    has_worst: bool,
    worst: i32,
    has_mask: bool,
    mask: u32,
    has_count: bool,
    count: u64,
}

impl<'a> Settings<'a> {
    /// The message of no records.
    pub fn new() -> Settings<'a> {
        ffi::zero()
    }

    /// The message that all of the bytes are.
    pub fn read(bytes: &'a [u8]) -> Result<Settings<'a>, Refusal> {
        ffi::read(bytes)
    }

    /// The same within these limits.
    pub fn read_within(bytes: &'a [u8], limits: &Limits) -> Result<Settings<'a>, Refusal> {
        ffi::read_within(bytes, limits)
    }

    /// The records of these bytes that no field of the message owns, one after another, each as it
    /// came, with its tag; in bytes that are no records they end where these are none.
    pub fn unknown_records(bytes: &'a [u8]) -> impl Iterator<Item = &'a [u8]> + 'a {
        ffi::unknown_of_settings(bytes)
    }

    /// How many bytes the encoding has.
    pub fn size(&self) -> usize {
        ffi::size(self)
    }

    /// Writes the encoding at the front of the room, and says how many bytes it has.
    pub fn write(&self, room: &mut [u8]) -> Result<usize, NoRoom> {
        ffi::write(self, room)
    }

    /// The encoding.
    pub fn to_vec(&self) -> Vec<u8> {
        let mut bytes = vec![0; self.size()];
        let _ = self.write(&mut bytes);
        bytes
    }

    /// How many bytes the encoding has with the unknown fields of these bytes behind it:
    /// the records of other numbers, usually of the bytes that the message was read from.
    pub fn size_keeping(&self, bytes: &[u8]) -> Result<usize, Refusal> {
        ffi::size_keeping(self, bytes)
    }

    /// Writes that encoding at the front of the room, and says how many bytes it has.
    pub fn write_keeping(&self, bytes: &[u8], room: &mut [u8]) -> Result<usize, NotWritten> {
        ffi::write_keeping(self, bytes, room)
    }

    /// That encoding.
    pub fn to_vec_keeping(&self, bytes: &[u8]) -> Result<Vec<u8>, Refusal> {
        let mut room = vec![0; self.size_keeping(bytes)?];
        let _ = self.write_keeping(bytes, &mut room);
        Ok(room)
    }

    pub fn least(&self) -> i32 {
        self.least
    }

    pub fn set_least(&mut self, least: i32) {
        self.least = least;
    }

    pub fn since(&self) -> i64 {
        self.since
    }

    pub fn set_since(&mut self, since: i64) {
        self.since = since;
    }

    pub fn each_seconds(&self) -> u32 {
        self.each_seconds
    }

    pub fn set_each_seconds(&mut self, each_seconds: u32) {
        self.each_seconds = each_seconds;
    }

    pub fn serial(&self) -> u64 {
        self.serial
    }

    pub fn set_serial(&mut self, serial: u64) {
        self.serial = serial;
    }

    pub fn shift(&self) -> i32 {
        self.shift
    }

    pub fn set_shift(&mut self, shift: i32) {
        self.shift = shift;
    }

    pub fn address(&self) -> u32 {
        self.address
    }

    pub fn set_address(&mut self, address: u32) {
        self.address = address;
    }

    pub fn key(&self) -> u64 {
        self.key
    }

    pub fn set_key(&mut self, key: u64) {
        self.key = key;
    }

    pub fn low(&self) -> i32 {
        self.low
    }

    pub fn set_low(&mut self, low: i32) {
        self.low = low;
    }

    pub fn high(&self) -> i64 {
        self.high
    }

    pub fn set_high(&mut self, high: i64) {
        self.high = high;
    }

    pub fn factor(&self) -> f32 {
        self.factor
    }

    pub fn set_factor(&mut self, factor: f32) {
        self.factor = factor;
    }

    pub fn is_on(&self) -> bool {
        self.is_on
    }

    pub fn set_is_on(&mut self, is_on: bool) {
        self.is_on = is_on;
    }

    pub fn register(&self) -> &'a [u8] {
        self.register.get()
    }

    pub fn set_register(&mut self, register: &'a [u8]) {
        self.register = Bytes::new(register);
    }

    pub fn label(&self) -> Option<&'a str> {
        if self.has_label { Some(self.label.get()) } else { None }
    }

    pub fn set_label(&mut self, label: Option<&'a str>) {
        self.has_label = label.is_some();
        if let Some(label) = label {
            self.label = Text::new(label);
        }
    }

    pub fn token(&self) -> Option<&'a [u8]> {
        if self.has_token { Some(self.token.get()) } else { None }
    }

    pub fn set_token(&mut self, token: Option<&'a [u8]>) {
        self.has_token = token.is_some();
        if let Some(token) = token {
            self.token = Bytes::new(token);
        }
    }

    pub fn limit(&self) -> Option<f64> {
        if self.has_limit { Some(self.limit) } else { None }
    }

    pub fn set_limit(&mut self, limit: Option<f64>) {
        self.has_limit = limit.is_some();
        if let Some(limit) = limit {
            self.limit = limit;
        }
    }

    pub fn gain(&self) -> Option<f32> {
        if self.has_gain { Some(self.gain) } else { None }
    }

    pub fn set_gain(&mut self, gain: Option<f32>) {
        self.has_gain = gain.is_some();
        if let Some(gain) = gain {
            self.gain = gain;
        }
    }

    pub fn is_loud(&self) -> Option<bool> {
        if self.has_is_loud { Some(self.is_loud) } else { None }
    }

    pub fn set_is_loud(&mut self, is_loud: Option<bool>) {
        self.has_is_loud = is_loud.is_some();
        if let Some(is_loud) = is_loud {
            self.is_loud = is_loud;
        }
    }

    pub fn worst(&self) -> Option<i32> {
        if self.has_worst { Some(self.worst) } else { None }
    }

    pub fn set_worst(&mut self, worst: Option<i32>) {
        self.has_worst = worst.is_some();
        if let Some(worst) = worst {
            self.worst = worst;
        }
    }

    pub fn mask(&self) -> Option<u32> {
        if self.has_mask { Some(self.mask) } else { None }
    }

    pub fn set_mask(&mut self, mask: Option<u32>) {
        self.has_mask = mask.is_some();
        if let Some(mask) = mask {
            self.mask = mask;
        }
    }

    pub fn count(&self) -> Option<u64> {
        if self.has_count { Some(self.count) } else { None }
    }

    pub fn set_count(&mut self, count: Option<u64>) {
        self.has_count = count.is_some();
        if let Some(count) = count {
            self.count = count;
        }
    }
}

impl Default for Settings<'_> {
    fn default() -> Self {
        Settings::new()
    }
}

impl fmt::Debug for Settings<'_> {
    fn fmt(&self, f: &mut fmt::Formatter<'_>) -> fmt::Result {
        f.debug_struct("Settings")
            .field("least", &self.least())
            .field("since", &self.since())
            .field("each_seconds", &self.each_seconds())
            .field("serial", &self.serial())
            .field("shift", &self.shift())
            .field("address", &self.address())
            .field("key", &self.key())
            .field("low", &self.low())
            .field("high", &self.high())
            .field("factor", &self.factor())
            .field("is_on", &self.is_on())
            .field("register", &self.register())
            .field("label", &self.label())
            .field("token", &self.token())
            .field("limit", &self.limit())
            .field("gain", &self.gain())
            .field("is_loud", &self.is_loud())
            .field("worst", &self.worst())
            .field("mask", &self.mask())
            .field("count", &self.count())
            .finish()
    }
}
