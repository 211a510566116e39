//! Records of the Protocol Buffers wire format, read and written in place.
//!
//! Safe types over the library that `crates/wire_c` proves: for all bytes each call ends, touches
//! only what it is handed, and answers as is said here. The Rust of this crate is tested, not
//! proved. No call asks for memory but those that grow a `Vec`, which abort where it is refused. See
//! <https://protobuf.dev/programming-guides/encoding/> for the format.
//!
//! ```
//! use gettavil::{Reader, Value};
//!
//! let message = [0x0A, 0x03, b'A', b'd', b'a', 0x10, 0x97, 0x0E];
//! let records: Result<Vec<_>, _> = Reader::new(&message).collect();
//! let records = records.unwrap();
//! assert_eq!((records[0].number, records[0].value), (1, Value::Bytes(b"Ada")));
//! assert_eq!((records[1].number, records[1].value), (2, Value::Varint(1815)));
//! ```

mod error;
mod ffi;
mod reader;
mod shortest;
mod writer;

pub use error::{DepthTooLarge, Error, Fault, Part};
pub use reader::{find_last, validate, Limits, Reader, Record, Value};
pub use shortest::{shortest, shortest_len, shortest_to_vec, ShortestError};
pub use writer::{PutError, Room, Writer};

/// The number of a value of type `sint64` or `sint32`: 0, -1, 1, -2, 2 .. as 0, 1, 2, 3, 4 ..
///
/// ```
/// assert_eq!(gettavil::zigzag(-2), 3);
/// ```
#[must_use]
pub fn zigzag(value: i64) -> u64 {
    // SAFETY: the call takes a number and answers one.
    unsafe { ffi::gtv_zigzag(value) }
}

/// The value of type `sint64` that a number stands for.
///
/// ```
/// assert_eq!(gettavil::unzigzag(3), -2);
/// ```
#[must_use]
pub fn unzigzag(number: u64) -> i64 {
    // SAFETY: the call takes a number and answers one.
    unsafe { ffi::gtv_unzigzag(number) }
}

/// How many bytes the shortest varint of a number has: 1 to 10.
#[must_use]
pub fn varint_len(value: u64) -> usize {
    // SAFETY: the call takes a number and answers one.
    unsafe { ffi::gtv_varint_len(value) }
}
