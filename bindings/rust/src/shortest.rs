//! The shortest encoding of the same records.

use crate::error::Fault;
use crate::ffi;
use crate::reader::Limits;
use std::fmt;

/// Why a shortest encoding is not written.
#[derive(Clone, Copy, Debug, PartialEq, Eq, Hash)]
pub enum ShortestError {
    /// The bytes are no records within the limits.
    Fault(Fault),
    /// The encoding takes so many bytes, and the room has fewer.
    NoRoom(usize),
}

impl fmt::Display for ShortestError {
    fn fmt(&self, f: &mut fmt::Formatter<'_>) -> fmt::Result {
        match self {
            ShortestError::Fault(fault) => fault.fmt(f),
            ShortestError::NoRoom(wanted) => write!(f, "no room for {wanted} bytes"),
        }
    }
}

impl std::error::Error for ShortestError {}

/// How many bytes the shortest encoding has: tags, lengths and numbers without padding, in groups
/// too, and payloads as they are.
pub fn shortest_len(bytes: &[u8], limits: &Limits) -> Result<usize, Fault> {
    let (mut len, mut fault) = (0, ffi::Fault::default());
    let (first, count) = (bytes.as_ptr(), bytes.len());
    // SAFETY: the structs are as the header has them, and the bytes are those of a slice.
    let status =
        unsafe { ffi::gtv_shortest_len(first, count, &limits.in_c(), &mut len, &mut fault) };
    if status == ffi::OK {
        return Ok(len);
    }
    Err(Fault::new(&fault))
}

/// Writes the shortest encoding at the front of the room, and answers its length.
pub fn shortest(bytes: &[u8], limits: &Limits, room: &mut [u8]) -> Result<usize, ShortestError> {
    let (mut len, mut fault) = (0, ffi::Fault::default());
    // SAFETY: the structs are as the header has them, and bytes and room are those of slices.
    let status = unsafe {
        ffi::gtv_shortest(
            bytes.as_ptr(),
            bytes.len(),
            &limits.in_c(),
            room.as_mut_ptr(),
            room.len(),
            &mut len,
            &mut fault,
        )
    };
    match status {
        ffi::OK => Ok(len),
        ffi::NO_ROOM => Err(ShortestError::NoRoom(len)),
        _ => Err(ShortestError::Fault(Fault::new(&fault))),
    }
}

/// The shortest encoding.
///
/// ```
/// use gettavil::{shortest_to_vec, Limits};
///
/// assert_eq!(shortest_to_vec(&[0x88, 0x00, 0x80, 0x00], &Limits::NONE), Ok(vec![0x08, 0x00]));
/// ```
pub fn shortest_to_vec(bytes: &[u8], limits: &Limits) -> Result<Vec<u8>, Fault> {
    let mut room = vec![0; shortest_len(bytes, limits)?];
    match shortest(bytes, limits, &mut room) {
        Ok(_) => Ok(room),
        Err(ShortestError::Fault(fault)) => Err(fault),
        Err(ShortestError::NoRoom(_)) => unreachable!("the length is that of the same bytes"),
    }
}
