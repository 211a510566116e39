//! The message `machines.Motor`.
use crate::gtv_ffi as ffi;
use crate::gtv_structs::{Bytes, Limits, NoRoom, NotWritten, Refusal, Text};
use crate::axis::Axis;
use std::fmt;

/// The message `machines.Motor`.
///
/// What turns an axis: fields of each kind that have to be there, may be there, or have a default.
#[repr(C)]
#[derive(Clone, Copy)]
pub struct Motor<'a> {
    has_name: bool,
    name: Text<'a>,
    has_maker: bool,
    maker: Text<'a>,
    has_key: bool,
    key: Bytes<'a>,
    has_seal: bool,
    seal: Bytes<'a>,
    has_mode: bool,
    mode: i32,
    has_least: bool,
    least: i32,
    has_axis: bool,
    axis: Axis<'a>,
    has_spare: bool,
    spare: Axis<'a>,
    has_is_on: bool,
    is_on: bool,
    has_load: bool,
    load: f64,
    has_heat: bool,
    heat: f32,
    has_drift: bool,
    drift: i64,
    has_offset: bool,
    offset: i32,
}

impl<'a> Motor<'a> {
    /// The message of no records.
    pub fn new() -> Motor<'a> {
        ffi::zero()
    }

    /// The message that all of the bytes are.
    pub fn read(bytes: &'a [u8]) -> Result<Motor<'a>, Refusal> {
        ffi::read(bytes)
    }

    /// The same within these limits.
    pub fn read_within(bytes: &'a [u8], limits: &Limits) -> Result<Motor<'a>, Refusal> {
        ffi::read_within(bytes, limits)
    }

    /// The records of these bytes that no field of the message owns, one after another, each as it
    /// came, with its tag; in bytes that are no records they end where these are none.
    pub fn unknown_records(bytes: &'a [u8]) -> impl Iterator<Item = &'a [u8]> + 'a {
        ffi::unknown_of_motor(bytes)
    }

    /// How many bytes the encoding has.
    pub fn size(&self) -> usize {
        ffi::size(self)
    }

    /// Writes the encoding at the front of the room, and says how many bytes it has.
    pub fn write(&self, room: &mut [u8]) -> Result<usize, NoRoom> {
        ffi::write(self, room)
    }

    /// The encoding.
    pub fn to_vec(&self) -> Vec<u8> {
        let mut bytes = vec![0; self.size()];
        let _ = self.write(&mut bytes);
        bytes
    }

    /// How many bytes the encoding has with the unknown fields of these bytes behind it:
    /// the records of other numbers, usually of the bytes that the message was read from.
    pub fn size_keeping(&self, bytes: &[u8]) -> Result<usize, Refusal> {
        ffi::size_keeping(self, bytes)
    }

    /// Writes that encoding at the front of the room, and says how many bytes it has.
    pub fn write_keeping(&self, bytes: &[u8], room: &mut [u8]) -> Result<usize, NotWritten> {
        ffi::write_keeping(self, bytes, room)
    }

    /// That encoding.
    pub fn to_vec_keeping(&self, bytes: &[u8]) -> Result<Vec<u8>, Refusal> {
        let mut room = vec![0; self.size_keeping(bytes)?];
        let _ = self.write_keeping(bytes, &mut room);
        Ok(room)
    }

    pub fn name(&self) -> Option<&'a str> {
        if self.has_name { Some(self.name.get()) } else { None }
    }

    pub fn set_name(&mut self, name: Option<&'a str>) {
        self.has_name = name.is_some();
        if let Some(name) = name {
            self.name = Text::new(name);
        }
    }

    pub fn maker(&self) -> Option<&'a str> {
        if self.has_maker { Some(self.maker.get()) } else { None }
    }

    pub fn set_maker(&mut self, maker: Option<&'a str>) {
        self.has_maker = maker.is_some();
        if let Some(maker) = maker {
            self.maker = Text::new(maker);
        }
    }

    pub fn key(&self) -> Option<&'a [u8]> {
        if self.has_key { Some(self.key.get()) } else { None }
    }

    pub fn set_key(&mut self, key: Option<&'a [u8]>) {
        self.has_key = key.is_some();
        if let Some(key) = key {
            self.key = Bytes::new(key);
        }
    }

    pub fn seal(&self) -> Option<&'a [u8]> {
        if self.has_seal { Some(self.seal.get()) } else { None }
    }

    pub fn set_seal(&mut self, seal: Option<&'a [u8]>) {
        self.has_seal = seal.is_some();
        if let Some(seal) = seal {
            self.seal = Bytes::new(seal);
        }
    }

    pub fn mode(&self) -> Option<i32> {
        if self.has_mode { Some(self.mode) } else { None }
    }

    pub fn set_mode(&mut self, mode: Option<i32>) {
        self.has_mode = mode.is_some();
        if let Some(mode) = mode {
            self.mode = mode;
        }
    }

    pub fn least(&self) -> Option<i32> {
        if self.has_least { Some(self.least) } else { None }
    }

    pub fn set_least(&mut self, least: Option<i32>) {
        self.has_least = least.is_some();
        if let Some(least) = least {
            self.least = least;
        }
    }

    pub fn axis(&self) -> Option<Axis<'a>> {
        if self.has_axis { Some(self.axis) } else { None }
    }

    pub fn set_axis(&mut self, axis: Option<Axis<'a>>) {
        self.has_axis = axis.is_some();
        if let Some(axis) = axis {
            self.axis = axis;
        }
    }

    pub fn spare(&self) -> Option<Axis<'a>> {
        if self.has_spare { Some(self.spare) } else { None }
    }

    pub fn set_spare(&mut self, spare: Option<Axis<'a>>) {
        self.has_spare = spare.is_some();
        if let Some(spare) = spare {
            self.spare = spare;
        }
    }

    pub fn is_on(&self) -> Option<bool> {
        if self.has_is_on { Some(self.is_on) } else { None }
    }

    pub fn set_is_on(&mut self, is_on: Option<bool>) {
        self.has_is_on = is_on.is_some();
        if let Some(is_on) = is_on {
            self.is_on = is_on;
        }
    }

    pub fn load(&self) -> Option<f64> {
        if self.has_load { Some(self.load) } else { None }
    }

    pub fn set_load(&mut self, load: Option<f64>) {
        self.has_load = load.is_some();
        if let Some(load) = load {
            self.load = load;
        }
    }

    pub fn heat(&self) -> Option<f32> {
        if self.has_heat { Some(self.heat) } else { None }
    }

    pub fn set_heat(&mut self, heat: Option<f32>) {
        self.has_heat = heat.is_some();
        if let Some(heat) = heat {
            self.heat = heat;
        }
    }

    pub fn drift(&self) -> Option<i64> {
        if self.has_drift { Some(self.drift) } else { None }
    }

    pub fn set_drift(&mut self, drift: Option<i64>) {
        self.has_drift = drift.is_some();
        if let Some(drift) = drift {
            self.drift = drift;
        }
    }

    /// The last number that a field can have.
    pub fn offset(&self) -> Option<i32> {
        if self.has_offset { Some(self.offset) } else { None }
    }

    pub fn set_offset(&mut self, offset: Option<i32>) {
        self.has_offset = offset.is_some();
        if let Some(offset) = offset {
            self.offset = offset;
        }
    }
}

impl Default for Motor<'_> {
    fn default() -> Self {
        Motor::new()
    }
}

impl fmt::Debug for Motor<'_> {
    fn fmt(&self, f: &mut fmt::Formatter<'_>) -> fmt::Result {
        f.debug_struct("Motor")
            .field("name", &self.name())
            .field("maker", &self.maker())
            .field("key", &self.key())
            .field("seal", &self.seal())
            .field("mode", &self.mode())
            .field("least", &self.least())
            .field("axis", &self.axis())
            .field("spare", &self.spare())
            .field("is_on", &self.is_on())
            .field("load", &self.load())
            .field("heat", &self.heat())
            .field("drift", &self.drift())
            .field("offset", &self.offset())
            .finish()
    }
}
