//! Records written one by one.

use crate::ffi;
use std::fmt;

/// Why a record is not written.
#[derive(Clone, Copy, Debug, PartialEq, Eq, Hash)]
pub enum PutError {
    /// The field number is 0 or above 536,870,911.
    InvalidFieldNumber,
    /// The record takes so many bytes, and the room has fewer left.
    NoRoom(usize),
}

impl fmt::Display for PutError {
    fn fmt(&self, f: &mut fmt::Formatter<'_>) -> fmt::Result {
        match self {
            PutError::InvalidFieldNumber => f.write_str("invalid field number"),
            PutError::NoRoom(wanted) => write!(f, "no room for {wanted} bytes"),
        }
    }
}

impl std::error::Error for PutError {}

/// Where records are written: a slice, or a `Vec` that grows.
pub trait Room {
    /// All of the room.
    fn room(&mut self) -> &mut [u8];

    /// Makes room for so many bytes from a place on, where it can.
    fn grow(&mut self, place: usize, wanted: usize) -> bool;
}

impl Room for &mut [u8] {
    fn room(&mut self) -> &mut [u8] {
        self
    }

    fn grow(&mut self, _place: usize, _wanted: usize) -> bool {
        false
    }
}

impl Room for Vec<u8> {
    fn room(&mut self) -> &mut [u8] {
        self
    }

    fn grow(&mut self, place: usize, wanted: usize) -> bool {
        let len = place.saturating_add(wanted).max(self.len().saturating_mul(2));
        self.resize(len, 0);
        true
    }
}

/// Writes records one behind the other, each in the fewest bytes. A refusal writes nothing.
///
/// ```
/// let mut writer = gettavil::Writer::new(Vec::new());
/// writer.bytes(1, b"Ada")?;
/// writer.varint(2, 1815)?;
/// assert_eq!(writer.written(), [0x0A, 0x03, b'A', b'd', b'a', 0x10, 0x97, 0x0E]);
/// # Ok::<(), gettavil::PutError>(())
/// ```
#[derive(Clone, Debug)]
pub struct Writer<R> {
    room: R,
    state: ffi::Writer,
}

impl<R: Room> Writer<R> {
    /// At the front of the room, which is written over.
    pub fn new(room: R) -> Writer<R> {
        Writer { room, state: ffi::Writer::default() }
    }

    /// The bytes that are written.
    pub fn written(&mut self) -> &[u8] {
        let len = self.state.place;
        &self.room.room()[..len]
    }

    pub fn varint(&mut self, number: u32, value: u64) -> Result<(), PutError> {
        // SAFETY: `put` hands on the parts of references.
        self.put(|state, room, len| unsafe { ffi::gtv_put_varint(state, room, len, number, value) })
    }

    /// As `sint64` and `sint32` are written.
    pub fn sint(&mut self, number: u32, value: i64) -> Result<(), PutError> {
        // SAFETY: `put` hands on the parts of references.
        self.put(|state, room, len| unsafe { ffi::gtv_put_sint(state, room, len, number, value) })
    }

    pub fn fixed32(&mut self, number: u32, value: u32) -> Result<(), PutError> {
        // SAFETY: `put` hands on the parts of references.
        self.put(|state, room, len| unsafe {
            ffi::gtv_put_fixed32(state, room, len, number, value)
        })
    }

    pub fn fixed64(&mut self, number: u32, value: u64) -> Result<(), PutError> {
        // SAFETY: `put` hands on the parts of references.
        self.put(|state, room, len| unsafe {
            ffi::gtv_put_fixed64(state, room, len, number, value)
        })
    }

    /// A string, bytes, an embedded message or a packed list: the payload behind its length.
    pub fn bytes(&mut self, number: u32, payload: &[u8]) -> Result<(), PutError> {
        // SAFETY: `put` hands on the parts of references, and the payload is a slice.
        self.put(|state, room, len| unsafe {
            ffi::gtv_put_bytes(state, room, len, number, payload.as_ptr(), payload.len())
        })
    }

    pub fn group_start(&mut self, number: u32) -> Result<(), PutError> {
        // SAFETY: `put` hands on the parts of references.
        self.put(|state, room, len| unsafe { ffi::gtv_put_group_start(state, room, len, number) })
    }

    pub fn group_end(&mut self, number: u32) -> Result<(), PutError> {
        // SAFETY: `put` hands on the parts of references.
        self.put(|state, room, len| unsafe { ffi::gtv_put_group_end(state, room, len, number) })
    }

    // Calls with the state and the room, and once more where the room could grow.
    fn put(
        &mut self,
        mut call: impl FnMut(*mut ffi::Writer, *mut u8, usize) -> u32,
    ) -> Result<(), PutError> {
        let mut has_grown = false;
        loop {
            let room = self.room.room();
            match call(&mut self.state, room.as_mut_ptr(), room.len()) {
                ffi::OK => return Ok(()),
                ffi::NO_ROOM => {
                    let wanted = self.state.wanted;
                    if has_grown || !self.room.grow(self.state.place, wanted) {
                        return Err(PutError::NoRoom(wanted));
                    }
                    has_grown = true;
                }
                _ => return Err(PutError::InvalidFieldNumber),
            }
        }
    }
}

impl Writer<Vec<u8>> {
    /// The bytes that are written, and no more.
    #[must_use]
    pub fn into_vec(mut self) -> Vec<u8> {
        self.room.truncate(self.state.place);
        self.room
    }
}
