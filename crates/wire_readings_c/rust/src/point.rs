//! The message `readings.Point`.
use crate::gtv_ffi as ffi;
use crate::gtv_structs::{Bytes, Limits, NoRoom, NotWritten, Refusal};
use std::fmt;

/// The message `readings.Point`.
///
/// Numbers alone.
#[repr(C)]
#[derive(Clone, Copy)]
pub struct Point<'a> {
    x: i32,
    y: i32,
    no_bytes: Bytes<'a>,
}

impl<'a> Point<'a> {
    /// The message of no records.
    pub fn new() -> Point<'a> {
        ffi::zero()
    }

    /// The message that all of the bytes are.
    pub fn read(bytes: &'a [u8]) -> Result<Point<'a>, Refusal> {
        ffi::read(bytes)
    }

    /// The same within these limits.
    pub fn read_within(bytes: &'a [u8], limits: &Limits) -> Result<Point<'a>, Refusal> {
        ffi::read_within(bytes, limits)
    }

    /// The records of these bytes that no field of the message owns, one after another, each as it
    /// came, with its tag; in bytes that are no records they end where these are none.
    pub fn unknown_records(bytes: &'a [u8]) -> impl Iterator<Item = &'a [u8]> + 'a {
        ffi::unknown_of_point(bytes)
    }

    /// How many bytes the encoding has.
    pub fn size(&self) -> usize {
        ffi::size(self)
    }

    /// Writes the encoding at the front of the room, and says how many bytes it has.
    pub fn write(&self, room: &mut [u8]) -> Result<usize, NoRoom> {
        ffi::write(self, room)
    }

    /// The encoding.
    pub fn to_vec(&self) -> Vec<u8> {
        let mut bytes = vec![0; self.size()];
        let _ = self.write(&mut bytes);
        bytes
    }

    /// How many bytes the encoding has with the unknown fields of these bytes behind it:
    /// the records of other numbers, usually of the bytes that the message was read from.
    pub fn size_keeping(&self, bytes: &[u8]) -> Result<usize, Refusal> {
        ffi::size_keeping(self, bytes)
    }

    /// Writes that encoding at the front of the room, and says how many bytes it has.
    pub fn write_keeping(&self, bytes: &[u8], room: &mut [u8]) -> Result<usize, NotWritten> {
        ffi::write_keeping(self, bytes, room)
    }

    /// That encoding.
    pub fn to_vec_keeping(&self, bytes: &[u8]) -> Result<Vec<u8>, Refusal> {
        let mut room = vec![0; self.size_keeping(bytes)?];
        let _ = self.write_keeping(bytes, &mut room);
        Ok(room)
    }

    pub fn x(&self) -> i32 {
        self.x
    }

    pub fn set_x(&mut self, x: i32) {
        self.x = x;
    }

    pub fn y(&self) -> i32 {
        self.y
    }

    pub fn set_y(&mut self, y: i32) {
        self.y = y;
    }
}

impl Default for Point<'_> {
    fn default() -> Self {
        Point::new()
    }
}

impl fmt::Debug for Point<'_> {
    fn fmt(&self, f: &mut fmt::Formatter<'_>) -> fmt::Result {
        f.debug_struct("Point")
            .field("x", &self.x())
            .field("y", &self.y())
            .finish()
    }
}
