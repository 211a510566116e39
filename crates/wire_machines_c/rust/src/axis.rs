//! The message `machines.Axis`.
use crate::gtv_ffi as ffi;
use crate::gtv_structs::{Bytes, Limits, NoRoom, NotWritten, Refusal};
use std::fmt;

/// The message `machines.Axis`.
///
/// Numbers alone, two of which have to be there.
#[repr(C)]
#[derive(Clone, Copy)]
pub struct Axis<'a> {
    has_turns: bool,
    turns: i32,
    has_teeth: bool,
    teeth: u32,
    has_serial: bool,
    serial: u64,
    no_bytes: Bytes<'a>,
}

impl<'a> Axis<'a> {
    /// The message of no records.
    pub fn new() -> Axis<'a> {
        ffi::zero()
    }

    /// The message that all of the bytes are.
    pub fn read(bytes: &'a [u8]) -> Result<Axis<'a>, Refusal> {
        ffi::read(bytes)
    }

    /// The same within these limits.
    pub fn read_within(bytes: &'a [u8], limits: &Limits) -> Result<Axis<'a>, Refusal> {
        ffi::read_within(bytes, limits)
    }

    /// The records of these bytes that no field of the message owns, one after another, each as it
    /// came, with its tag; in bytes that are no records they end where these are none.
    pub fn unknown_records(bytes: &'a [u8]) -> impl Iterator<Item = &'a [u8]> + 'a {
        ffi::unknown_of_axis(bytes)
    }

    /// How many bytes the encoding has.
    pub fn size(&self) -> usize {
        ffi::size(self)
    }

    /// Writes the encoding at the front of the room, and says how many bytes it has.
    pub fn write(&self, room: &mut [u8]) -> Result<usize, NoRoom> {
        ffi::write(self, room)
    }

    /// The encoding.
    pub fn to_vec(&self) -> Vec<u8> {
        let mut bytes = vec![0; self.size()];
        let _ = self.write(&mut bytes);
        bytes
    }

    /// How many bytes the encoding has with the unknown fields of these bytes behind it:
    /// the records of other numbers, usually of the bytes that the message was read from.
    pub fn size_keeping(&self, bytes: &[u8]) -> Result<usize, Refusal> {
        ffi::size_keeping(self, bytes)
    }

    /// Writes that encoding at the front of the room, and says how many bytes it has.
    pub fn write_keeping(&self, bytes: &[u8], room: &mut [u8]) -> Result<usize, NotWritten> {
        ffi::write_keeping(self, bytes, room)
    }

    /// That encoding.
    pub fn to_vec_keeping(&self, bytes: &[u8]) -> Result<Vec<u8>, Refusal> {
        let mut room = vec![0; self.size_keeping(bytes)?];
        let _ = self.write_keeping(bytes, &mut room);
        Ok(room)
    }

    pub fn turns(&self) -> Option<i32> {
        if self.has_turns { Some(self.turns) } else { None }
    }

    pub fn set_turns(&mut self, turns: Option<i32>) {
        self.has_turns = turns.is_some();
        if let Some(turns) = turns {
            self.turns = turns;
        }
    }

    pub fn teeth(&self) -> Option<u32> {
        if self.has_teeth { Some(self.teeth) } else { None }
    }

    pub fn set_teeth(&mut self, teeth: Option<u32>) {
        self.has_teeth = teeth.is_some();
        if let Some(teeth) = teeth {
            self.teeth = teeth;
        }
    }

    pub fn serial(&self) -> Option<u64> {
        if self.has_serial { Some(self.serial) } else { None }
    }

    pub fn set_serial(&mut self, serial: Option<u64>) {
        self.has_serial = serial.is_some();
        if let Some(serial) = serial {
            self.serial = serial;
        }
    }
}

impl Default for Axis<'_> {
    fn default() -> Self {
        Axis::new()
    }
}

impl fmt::Debug for Axis<'_> {
    fn fmt(&self, f: &mut fmt::Formatter<'_>) -> fmt::Result {
        f.debug_struct("Axis")
            .field("turns", &self.turns())
            .field("teeth", &self.teeth())
            .field("serial", &self.serial())
            .finish()
    }
}
