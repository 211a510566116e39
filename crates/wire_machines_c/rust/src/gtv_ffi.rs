//! The calls of the library: with `gtv_structs`, all that is `unsafe` here.
#![allow(dead_code)]
use crate::gtv_structs::{kept, measured, told, wrote};
use crate::gtv_structs::{Bytes, Limits, NoRoom, NotWritten, Refusal};
use crate::part::Part;
use crate::part::PartLists;
use crate::axis::Axis;
use crate::motor::Motor;
use std::mem::MaybeUninit;

pub(crate) type ReadCall<T> = unsafe extern "C" fn(*const u8, usize, *mut T) -> u32;
pub(crate) type ReadWithinCall<T> =
    unsafe extern "C" fn(*const u8, usize, *const Limits, *mut T) -> u32;
pub(crate) type FaultCall = unsafe extern "C" fn(*const u8, usize, *mut usize) -> u32;
pub(crate) type FaultWithinCall =
    unsafe extern "C" fn(*const u8, usize, *const Limits, *mut usize) -> u32;
pub(crate) type NextCall = for<'a> unsafe extern "C" fn(*mut Bytes<'a>, *mut Bytes<'a>) -> u32;
pub(crate) type NextNumberCall<T> =
    for<'a> unsafe extern "C" fn(*mut NumbersWalk<'a>, *mut T) -> u32;
pub(crate) type SizeCall<T> = unsafe extern "C" fn(*const T) -> usize;
pub(crate) type WriteCall<T> = unsafe extern "C" fn(*const T, *mut u8, usize, *mut usize) -> u32;
pub(crate) type SizeKeepingCall<T> =
    unsafe extern "C" fn(*const T, *const u8, usize, *mut usize) -> u32;
pub(crate) type WriteKeepingCall<T> =
    unsafe extern "C" fn(*const T, *const u8, usize, *mut u8, usize, *mut usize) -> u32;
pub(crate) type SizeWithCall<T, L> = unsafe extern "C" fn(*const T, *const L) -> usize;
pub(crate) type WriteWithCall<T, L> =
    unsafe extern "C" fn(*const T, *const L, *mut u8, usize, *mut usize) -> u32;
pub(crate) type SizeKeepingWithCall<T, L> =
    unsafe extern "C" fn(*const T, *const L, *const u8, usize, *mut usize) -> u32;
pub(crate) type WriteKeepingWithCall<T, L> =
    unsafe extern "C" fn(*const T, *const L, *const u8, usize, *mut u8, usize, *mut usize) -> u32;

/// A struct of the header. All zero is one, of no records, and what is read borrows from the bytes
/// for `'a`.
///
/// # Safety
///
/// The struct lies in memory as the header says, and the calls are those of its message.
pub(crate) unsafe trait Struct<'a>: Copy {
    const READ: ReadCall<Self>;
    const READ_WITHIN: ReadWithinCall<Self>;
    const FAULT: FaultCall;
    const FAULT_WITHIN: FaultWithinCall;
}

/// One that is written alone.
///
/// # Safety
///
/// As of [`Struct`].
pub(crate) unsafe trait Written: Copy {
    const SIZE: SizeCall<Self>;
    const WRITE: WriteCall<Self>;
    const SIZE_KEEPING: SizeKeepingCall<Self>;
    const WRITE_KEEPING: WriteKeepingCall<Self>;
}

/// One that is written with lists.
///
/// # Safety
///
/// As of [`Struct`], and the lists are those of its message.
pub(crate) unsafe trait WrittenWith<L>: Copy {
    const SIZE: SizeWithCall<Self, L>;
    const WRITE: WriteWithCall<Self, L>;
    const SIZE_KEEPING: SizeKeepingWithCall<Self, L>;
    const WRITE_KEEPING: WriteKeepingWithCall<Self, L>;
}

pub(crate) fn zero<'a, T: Struct<'a>>() -> T {
    // SAFETY: numbers, flags, and pointers to no bytes may be zero.
    unsafe { MaybeUninit::zeroed().assume_init() }
}

pub(crate) fn read<'a, T: Struct<'a>>(bytes: &'a [u8]) -> Result<T, Refusal> {
    let mut it = MaybeUninit::zeroed();
    // SAFETY: the library reads these bytes and sets the struct, of which all zero is one.
    let status = unsafe { T::READ(bytes.as_ptr(), bytes.len(), it.as_mut_ptr()) };
    told(status, it).map_err(|refusal| {
        let mut place = 0;
        // SAFETY: the library reads these bytes and sets the place.
        unsafe { T::FAULT(bytes.as_ptr(), bytes.len(), &mut place) };
        refusal.at(place)
    })
}

pub(crate) fn read_within<'a, T: Struct<'a>>(
    bytes: &'a [u8],
    limits: &Limits,
) -> Result<T, Refusal> {
    let mut it = MaybeUninit::zeroed();
    // SAFETY: as of `read`, and it reads the limits.
    let status = unsafe { T::READ_WITHIN(bytes.as_ptr(), bytes.len(), limits, it.as_mut_ptr()) };
    told(status, it).map_err(|refusal| {
        let mut place = 0;
        // SAFETY: as of `read`, and it reads the limits.
        unsafe { T::FAULT_WITHIN(bytes.as_ptr(), bytes.len(), limits, &mut place) };
        refusal.at(place)
    })
}

pub(crate) fn size<T: Written>(it: &T) -> usize {
    // SAFETY: the struct is one that was read or made here.
    unsafe { T::SIZE(it) }
}

pub(crate) fn write<T: Written>(it: &T, room: &mut [u8]) -> Result<usize, NoRoom> {
    let mut len = 0;
    // SAFETY: as of `size`, and the room is the caller's alone.
    let status = unsafe { T::WRITE(it, room.as_mut_ptr(), room.len(), &mut len) };
    wrote(status, len)
}

pub(crate) fn size_keeping<T: Written>(it: &T, bytes: &[u8]) -> Result<usize, Refusal> {
    let mut len = 0;
    // SAFETY: as of `size`, and it reads these bytes.
    let status = unsafe { T::SIZE_KEEPING(it, bytes.as_ptr(), bytes.len(), &mut len) };
    measured(status, len)
}

pub(crate) fn write_keeping<T: Written>(
    it: &T,
    bytes: &[u8],
    room: &mut [u8],
) -> Result<usize, NotWritten> {
    let mut len = 0;
    let (data, place) = (bytes.as_ptr(), room.as_mut_ptr());
    // SAFETY: as of `size_keeping` and `write`.
    let status =
        unsafe { T::WRITE_KEEPING(it, data, bytes.len(), place, room.len(), &mut len) };
    kept(status, len)
}

pub(crate) fn size_with<L, T: WrittenWith<L>>(it: &T, lists: &L) -> usize {
    // SAFETY: the struct is one that was read or made here, and so are the lists.
    unsafe { T::SIZE(it, lists) }
}

pub(crate) fn write_with<L, T: WrittenWith<L>>(
    it: &T,
    lists: &L,
    room: &mut [u8],
) -> Result<usize, NoRoom> {
    let mut len = 0;
    // SAFETY: as of `size_with`, and the room is the caller's alone.
    let status = unsafe { T::WRITE(it, lists, room.as_mut_ptr(), room.len(), &mut len) };
    wrote(status, len)
}

pub(crate) fn size_keeping_with<L, T: WrittenWith<L>>(
    it: &T,
    lists: &L,
    bytes: &[u8],
) -> Result<usize, Refusal> {
    let mut len = 0;
    // SAFETY: as of `size_with`, and it reads these bytes.
    let status = unsafe { T::SIZE_KEEPING(it, lists, bytes.as_ptr(), bytes.len(), &mut len) };
    measured(status, len)
}

pub(crate) fn write_keeping_with<L, T: WrittenWith<L>>(
    it: &T,
    lists: &L,
    bytes: &[u8],
    room: &mut [u8],
) -> Result<usize, NotWritten> {
    let mut len = 0;
    let (data, place) = (bytes.as_ptr(), room.as_mut_ptr());
    // SAFETY: as of `size_keeping_with` and `write_with`.
    let status =
        unsafe { T::WRITE_KEEPING(it, lists, data, bytes.len(), place, room.len(), &mut len) };
    kept(status, len)
}

/// The elements of a list in bytes that were read, each as its bytes.
pub(crate) struct Walk<'a> {
    rest: Bytes<'a>,
    next: NextCall,
}

impl<'a> Walk<'a> {
    fn new(bytes: &'a [u8], next: NextCall) -> Walk<'a> {
        Walk { rest: Bytes::new(bytes), next }
    }
}

impl<'a> Iterator for Walk<'a> {
    type Item = &'a [u8];

    fn next(&mut self) -> Option<&'a [u8]> {
        let mut element = Bytes::new(&[]);
        // SAFETY: the library sets both to places in the bytes of `'a`.
        let status = unsafe { (self.next)(&mut self.rest, &mut element) };
        if status == 0 {
            Some(element.get())
        } else {
            None
        }
    }
}

/// What is left of a list of numbers: of the message, and in front of it of a packed payload.
#[repr(C)]
pub(crate) struct NumbersWalk<'a> {
    bytes: Bytes<'a>,
    payload: Bytes<'a>,
}

/// The numbers of a list in bytes that were read.
pub(crate) struct Numbers<'a, T> {
    walk: NumbersWalk<'a>,
    next: NextNumberCall<T>,
}

impl<'a, T> Numbers<'a, T> {
    fn new(bytes: &'a [u8], next: NextNumberCall<T>) -> Numbers<'a, T> {
        let walk = NumbersWalk { bytes: Bytes::new(bytes), payload: Bytes::new(&[]) };
        Numbers { walk, next }
    }
}

impl<T: Copy + Default> Iterator for Numbers<'_, T> {
    type Item = T;

    fn next(&mut self) -> Option<T> {
        let mut number = T::default();
        // SAFETY: the library sets the walk to places in the bytes of its lifetime, and the number.
        let status = unsafe { (self.next)(&mut self.walk, &mut number) };
        if status == 0 {
            Some(number)
        } else {
            None
        }
    }
}

pub(crate) fn unknown_of_part(bytes: &[u8]) -> Walk<'_> {
    Walk::new(bytes, machines_part_unknown_record)
}

// SAFETY: the struct is that of the header, and the calls are its own.
unsafe impl<'a> Struct<'a> for Part<'a> {
    const READ: ReadCall<Self> = machines_part_read;
    const READ_WITHIN: ReadWithinCall<Self> = machines_part_read_within;
    const FAULT: FaultCall = machines_part_fault;
    const FAULT_WITHIN: FaultWithinCall = machines_part_fault_within;
}

// SAFETY: as above, and the lists are those of the header.
unsafe impl<'a, 'h> WrittenWith<PartLists<'h>> for Part<'a> {
    const SIZE: SizeWithCall<Self, PartLists<'h>> = machines_part_size;
    const WRITE: WriteWithCall<Self, PartLists<'h>> = machines_part_write;
    const SIZE_KEEPING: SizeKeepingWithCall<Self, PartLists<'h>> = machines_part_size_keeping;
    const WRITE_KEEPING: WriteKeepingWithCall<Self, PartLists<'h>> = machines_part_write_keeping;
}

const _: () = assert!(std::mem::size_of::<Part<'static>>() == 64);

extern "C" {
    fn machines_part_read<'a>(bytes: *const u8, len: usize, it: *mut Part<'a>) -> u32;
    fn machines_part_read_within<'a>(
        bytes: *const u8,
        len: usize,
        limits: *const Limits,
        it: *mut Part<'a>,
    ) -> u32;
    fn machines_part_unknown_record<'a>(walk: *mut Bytes<'a>, element: *mut Bytes<'a>) -> u32;
    fn machines_part_fault(bytes: *const u8, len: usize, place: *mut usize) -> u32;
    fn machines_part_fault_within(
        bytes: *const u8,
        len: usize,
        limits: *const Limits,
        place: *mut usize,
    ) -> u32;
    fn machines_part_size<'a, 'h>(it: *const Part<'a>, lists: *const PartLists<'h>) -> usize;
    fn machines_part_write<'a, 'h>(
        it: *const Part<'a>,
        lists: *const PartLists<'h>,
        room: *mut u8,
        room_len: usize,
        len: *mut usize,
    ) -> u32;
    fn machines_part_size_keeping<'a, 'h>(
        it: *const Part<'a>,
        lists: *const PartLists<'h>,
        bytes: *const u8,
        bytes_len: usize,
        len: *mut usize,
    ) -> u32;
    fn machines_part_write_keeping<'a, 'h>(
        it: *const Part<'a>,
        lists: *const PartLists<'h>,
        bytes: *const u8,
        bytes_len: usize,
        room: *mut u8,
        room_len: usize,
        len: *mut usize,
    ) -> u32;
}

pub(crate) fn parts_of_part(bytes: &[u8]) -> Walk<'_> {
    Walk::new(bytes, machines_part_next_parts)
}

extern "C" {
    fn machines_part_next_parts<'a>(walk: *mut Bytes<'a>, element: *mut Bytes<'a>) -> u32;
}

pub(crate) fn unknown_of_axis(bytes: &[u8]) -> Walk<'_> {
    Walk::new(bytes, machines_axis_unknown_record)
}

// SAFETY: the struct is that of the header, and the calls are its own.
unsafe impl<'a> Struct<'a> for Axis<'a> {
    const READ: ReadCall<Self> = machines_axis_read;
    const READ_WITHIN: ReadWithinCall<Self> = machines_axis_read_within;
    const FAULT: FaultCall = machines_axis_fault;
    const FAULT_WITHIN: FaultWithinCall = machines_axis_fault_within;
}

// SAFETY: as above.
unsafe impl<'a> Written for Axis<'a> {
    const SIZE: SizeCall<Self> = machines_axis_size;
    const WRITE: WriteCall<Self> = machines_axis_write;
    const SIZE_KEEPING: SizeKeepingCall<Self> = machines_axis_size_keeping;
    const WRITE_KEEPING: WriteKeepingCall<Self> = machines_axis_write_keeping;
}

const _: () = assert!(std::mem::size_of::<Axis<'static>>() == 48);

extern "C" {
    fn machines_axis_read<'a>(bytes: *const u8, len: usize, it: *mut Axis<'a>) -> u32;
    fn machines_axis_read_within<'a>(
        bytes: *const u8,
        len: usize,
        limits: *const Limits,
        it: *mut Axis<'a>,
    ) -> u32;
    fn machines_axis_unknown_record<'a>(walk: *mut Bytes<'a>, element: *mut Bytes<'a>) -> u32;
    fn machines_axis_fault(bytes: *const u8, len: usize, place: *mut usize) -> u32;
    fn machines_axis_fault_within(
        bytes: *const u8,
        len: usize,
        limits: *const Limits,
        place: *mut usize,
    ) -> u32;
    fn machines_axis_size<'a>(it: *const Axis<'a>) -> usize;
    fn machines_axis_write<'a>(
        it: *const Axis<'a>,
        room: *mut u8,
        room_len: usize,
        len: *mut usize,
    ) -> u32;
    fn machines_axis_size_keeping<'a>(
        it: *const Axis<'a>,
        bytes: *const u8,
        bytes_len: usize,
        len: *mut usize,
    ) -> u32;
    fn machines_axis_write_keeping<'a>(
        it: *const Axis<'a>,
        bytes: *const u8,
        bytes_len: usize,
        room: *mut u8,
        room_len: usize,
        len: *mut usize,
    ) -> u32;
}

pub(crate) fn unknown_of_motor(bytes: &[u8]) -> Walk<'_> {
    Walk::new(bytes, machines_motor_unknown_record)
}

// SAFETY: the struct is that of the header, and the calls are its own.
unsafe impl<'a> Struct<'a> for Motor<'a> {
    const READ: ReadCall<Self> = machines_motor_read;
    const READ_WITHIN: ReadWithinCall<Self> = machines_motor_read_within;
    const FAULT: FaultCall = machines_motor_fault;
    const FAULT_WITHIN: FaultWithinCall = machines_motor_fault_within;
}

// SAFETY: as above.
unsafe impl<'a> Written for Motor<'a> {
    const SIZE: SizeCall<Self> = machines_motor_size;
    const WRITE: WriteCall<Self> = machines_motor_write;
    const SIZE_KEEPING: SizeKeepingCall<Self> = machines_motor_size_keeping;
    const WRITE_KEEPING: WriteKeepingCall<Self> = machines_motor_write_keeping;
}

const _: () = assert!(std::mem::size_of::<Motor<'static>>() == 272);

extern "C" {
    fn machines_motor_read<'a>(bytes: *const u8, len: usize, it: *mut Motor<'a>) -> u32;
    fn machines_motor_read_within<'a>(
        bytes: *const u8,
        len: usize,
        limits: *const Limits,
        it: *mut Motor<'a>,
    ) -> u32;
    fn machines_motor_unknown_record<'a>(walk: *mut Bytes<'a>, element: *mut Bytes<'a>) -> u32;
    fn machines_motor_fault(bytes: *const u8, len: usize, place: *mut usize) -> u32;
    fn machines_motor_fault_within(
        bytes: *const u8,
        len: usize,
        limits: *const Limits,
        place: *mut usize,
    ) -> u32;
    fn machines_motor_size<'a>(it: *const Motor<'a>) -> usize;
    fn machines_motor_write<'a>(
        it: *const Motor<'a>,
        room: *mut u8,
        room_len: usize,
        len: *mut usize,
    ) -> u32;
    fn machines_motor_size_keeping<'a>(
        it: *const Motor<'a>,
        bytes: *const u8,
        bytes_len: usize,
        len: *mut usize,
    ) -> u32;
    fn machines_motor_write_keeping<'a>(
        it: *const Motor<'a>,
        bytes: *const u8,
        bytes_len: usize,
        room: *mut u8,
        room_len: usize,
        len: *mut usize,
    ) -> u32;
}
