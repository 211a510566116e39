//! The calls of the library: with `gtv_structs`, all that is `unsafe` here.
#![allow(dead_code)]
use crate::gtv_structs::{kept, measured, told, wrote};
use crate::gtv_structs::{Bytes, Limits, NoRoom, NotWritten, Refusal};
use crate::marks::Marks;
use crate::marks::MarksLists;
use crate::series::Series;
use crate::series::SeriesLists;
use crate::point::Point;
use crate::settings::Settings;
use crate::reading::Reading;
use crate::totals_states_entry::TotalsStatesEntry;
use crate::totals_last_entry::TotalsLastEntry;
use crate::totals_sums_entry::TotalsSumsEntry;
use crate::totals::Totals;
use crate::totals::TotalsLists;
use crate::visit::Visit;
use crate::log::Log;
use crate::log::LogLists;
use crate::sensor::Sensor;
use crate::plan::Plan;
use crate::plan::PlanLists;
use std::mem::MaybeUninit;

pub(crate) type ReadCall<T> = unsafe extern "C" fn(*const u8, usize, *mut T) -> u32;
pub(crate) type ReadWithinCall<T> =
    unsafe extern "C" fn(*const u8, usize, *const Limits, *mut T) -> u32;
pub(crate) type FaultCall = unsafe extern "C" fn(*const u8, usize, *mut usize) -> u32;
pub(crate) type FaultWithinCall =
    unsafe extern "C" fn(*const u8, usize, *const Limits, *mut usize) -> u32;
pub(crate) type NextCall = for<'a> unsafe extern "C" fn(*mut Bytes<'a>, *mut Bytes<'a>) -> u32;
pub(crate) type NextNumberCall<T> =
    for<'a> unsafe extern "C" fn(*mut NumbersWalk<'a>, *mut T) -> u32;
pub(crate) type SizeCall<T> = unsafe extern "C" fn(*const T) -> usize;
pub(crate) type WriteCall<T> = unsafe extern "C" fn(*const T, *mut u8, usize, *mut usize) -> u32;
pub(crate) type SizeKeepingCall<T> =
    unsafe extern "C" fn(*const T, *const u8, usize, *mut usize) -> u32;
pub(crate) type WriteKeepingCall<T> =
    unsafe extern "C" fn(*const T, *const u8, usize, *mut u8, usize, *mut usize) -> u32;
pub(crate) type SizeWithCall<T, L> = unsafe extern "C" fn(*const T, *const L) -> usize;
pub(crate) type WriteWithCall<T, L> =
    unsafe extern "C" fn(*const T, *const L, *mut u8, usize, *mut usize) -> u32;
pub(crate) type SizeKeepingWithCall<T, L> =
    unsafe extern "C" fn(*const T, *const L, *const u8, usize, *mut usize) -> u32;
pub(crate) type WriteKeepingWithCall<T, L> =
    unsafe extern "C" fn(*const T, *const L, *const u8, usize, *mut u8, usize, *mut usize) -> u32;

/// A struct of the header. All zero is one, of no records, and what is read borrows from the bytes
/// for `'a`.
///
/// # Safety
///
/// The struct lies in memory as the header says, and the calls are those of its message.
pub(crate) unsafe trait Struct<'a>: Copy {
    const READ: ReadCall<Self>;
    const READ_WITHIN: ReadWithinCall<Self>;
    const FAULT: FaultCall;
    const FAULT_WITHIN: FaultWithinCall;
}

/// One that is written alone.
///
/// # Safety
///
/// As of [`Struct`].
pub(crate) unsafe trait Written: Copy {
    const SIZE: SizeCall<Self>;
    const WRITE: WriteCall<Self>;
    const SIZE_KEEPING: SizeKeepingCall<Self>;
    const WRITE_KEEPING: WriteKeepingCall<Self>;
}

/// One that is written with lists.
///
/// # Safety
///
/// As of [`Struct`], and the lists are those of its message.
pub(crate) unsafe trait WrittenWith<L>: Copy {
    const SIZE: SizeWithCall<Self, L>;
    const WRITE: WriteWithCall<Self, L>;
    const SIZE_KEEPING: SizeKeepingWithCall<Self, L>;
    const WRITE_KEEPING: WriteKeepingWithCall<Self, L>;
}

pub(crate) fn zero<'a, T: Struct<'a>>() -> T {
    // SAFETY: numbers, flags, and pointers to no bytes may be zero.
    unsafe { MaybeUninit::zeroed().assume_init() }
}

pub(crate) fn read<'a, T: Struct<'a>>(bytes: &'a [u8]) -> Result<T, Refusal> {
    let mut it = MaybeUninit::zeroed();
    // SAFETY: the library reads these bytes and sets the struct, of which all zero is one.
    let status = unsafe { T::READ(bytes.as_ptr(), bytes.len(), it.as_mut_ptr()) };
    told(status, it).map_err(|refusal| {
        let mut place = 0;
        // SAFETY: the library reads these bytes and sets the place.
        unsafe { T::FAULT(bytes.as_ptr(), bytes.len(), &mut place) };
        refusal.at(place)
    })
}

pub(crate) fn read_within<'a, T: Struct<'a>>(
    bytes: &'a [u8],
    limits: &Limits,
) -> Result<T, Refusal> {
    let mut it = MaybeUninit::zeroed();
    // SAFETY: as of `read`, and it reads the limits.
    let status = unsafe { T::READ_WITHIN(bytes.as_ptr(), bytes.len(), limits, it.as_mut_ptr()) };
    told(status, it).map_err(|refusal| {
        let mut place = 0;
        // SAFETY: as of `read`, and it reads the limits.
        unsafe { T::FAULT_WITHIN(bytes.as_ptr(), bytes.len(), limits, &mut place) };
        refusal.at(place)
    })
}

pub(crate) fn size<T: Written>(it: &T) -> usize {
    // SAFETY: the struct is one that was read or made here.
    unsafe { T::SIZE(it) }
}

pub(crate) fn write<T: Written>(it: &T, room: &mut [u8]) -> Result<usize, NoRoom> {
    let mut len = 0;
    // SAFETY: as of `size`, and the room is the caller's alone.
    let status = unsafe { T::WRITE(it, room.as_mut_ptr(), room.len(), &mut len) };
    wrote(status, len)
}

pub(crate) fn size_keeping<T: Written>(it: &T, bytes: &[u8]) -> Result<usize, Refusal> {
    let mut len = 0;
    // SAFETY: as of `size`, and it reads these bytes.
    let status = unsafe { T::SIZE_KEEPING(it, bytes.as_ptr(), bytes.len(), &mut len) };
    measured(status, len)
}

pub(crate) fn write_keeping<T: Written>(
    it: &T,
    bytes: &[u8],
    room: &mut [u8],
) -> Result<usize, NotWritten> {
    let mut len = 0;
    let (data, place) = (bytes.as_ptr(), room.as_mut_ptr());
    // SAFETY: as of `size_keeping` and `write`.
    let status =
        unsafe { T::WRITE_KEEPING(it, data, bytes.len(), place, room.len(), &mut len) };
    kept(status, len)
}

pub(crate) fn size_with<L, T: WrittenWith<L>>(it: &T, lists: &L) -> usize {
    // SAFETY: the struct is one that was read or made here, and so are the lists.
    unsafe { T::SIZE(it, lists) }
}

pub(crate) fn write_with<L, T: WrittenWith<L>>(
    it: &T,
    lists: &L,
    room: &mut [u8],
) -> Result<usize, NoRoom> {
    let mut len = 0;
    // SAFETY: as of `size_with`, and the room is the caller's alone.
    let status = unsafe { T::WRITE(it, lists, room.as_mut_ptr(), room.len(), &mut len) };
    wrote(status, len)
}

pub(crate) fn size_keeping_with<L, T: WrittenWith<L>>(
    it: &T,
    lists: &L,
    bytes: &[u8],
) -> Result<usize, Refusal> {
    let mut len = 0;
    // SAFETY: as of `size_with`, and it reads these bytes.
    let status = unsafe { T::SIZE_KEEPING(it, lists, bytes.as_ptr(), bytes.len(), &mut len) };
    measured(status, len)
}

pub(crate) fn write_keeping_with<L, T: WrittenWith<L>>(
    it: &T,
    lists: &L,
    bytes: &[u8],
    room: &mut [u8],
) -> Result<usize, NotWritten> {
    let mut len = 0;
    let (data, place) = (bytes.as_ptr(), room.as_mut_ptr());
    // SAFETY: as of `size_keeping_with` and `write_with`.
    let status =
        unsafe { T::WRITE_KEEPING(it, lists, data, bytes.len(), place, room.len(), &mut len) };
    kept(status, len)
}

/// The elements of a list in bytes that were read, each as its bytes.
pub(crate) struct Walk<'a> {
    rest: Bytes<'a>,
    next: NextCall,
}

impl<'a> Walk<'a> {
    fn new(bytes: &'a [u8], next: NextCall) -> Walk<'a> {
        Walk { rest: Bytes::new(bytes), next }
    }
}

impl<'a> Iterator for Walk<'a> {
    type Item = &'a [u8];

    fn next(&mut self) -> Option<&'a [u8]> {
        let mut element = Bytes::new(&[]);
        // SAFETY: the library sets both to places in the bytes of `'a`.
        let status = unsafe { (self.next)(&mut self.rest, &mut element) };
        if status == 0 {
            Some(element.get())
        } else {
            None
        }
    }
}

/// What is left of a list of numbers: of the message, and in front of it of a packed payload.
#[repr(C)]
pub(crate) struct NumbersWalk<'a> {
    bytes: Bytes<'a>,
    payload: Bytes<'a>,
}

/// The numbers of a list in bytes that were read.
pub(crate) struct Numbers<'a, T> {
    walk: NumbersWalk<'a>,
    next: NextNumberCall<T>,
}

impl<'a, T> Numbers<'a, T> {
    fn new(bytes: &'a [u8], next: NextNumberCall<T>) -> Numbers<'a, T> {
        let walk = NumbersWalk { bytes: Bytes::new(bytes), payload: Bytes::new(&[]) };
        Numbers { walk, next }
    }
}

impl<T: Copy + Default> Iterator for Numbers<'_, T> {
    type Item = T;

    fn next(&mut self) -> Option<T> {
        let mut number = T::default();
        // SAFETY: the library sets the walk to places in the bytes of its lifetime, and the number.
        let status = unsafe { (self.next)(&mut self.walk, &mut number) };
        if status == 0 {
            Some(number)
        } else {
            None
        }
    }
}

pub(crate) fn unknown_of_marks(bytes: &[u8]) -> Walk<'_> {
    Walk::new(bytes, readings_marks_unknown_record)
}

// SAFETY: the struct is that of the header, and the calls are its own.
unsafe impl<'a> Struct<'a> for Marks<'a> {
    const READ: ReadCall<Self> = readings_marks_read;
    const READ_WITHIN: ReadWithinCall<Self> = readings_marks_read_within;
    const FAULT: FaultCall = readings_marks_fault;
    const FAULT_WITHIN: FaultWithinCall = readings_marks_fault_within;
}

// SAFETY: as above, and the lists are those of the header.
unsafe impl<'a, 'h> WrittenWith<MarksLists<'h>> for Marks<'a> {
    const SIZE: SizeWithCall<Self, MarksLists<'h>> = readings_marks_size;
    const WRITE: WriteWithCall<Self, MarksLists<'h>> = readings_marks_write;
    const SIZE_KEEPING: SizeKeepingWithCall<Self, MarksLists<'h>> = readings_marks_size_keeping;
    const WRITE_KEEPING: WriteKeepingWithCall<Self, MarksLists<'h>> = readings_marks_write_keeping;
}

const _: () = assert!(std::mem::size_of::<Marks<'static>>() == 24);

extern "C" {
    fn readings_marks_read<'a>(bytes: *const u8, len: usize, it: *mut Marks<'a>) -> u32;
    fn readings_marks_read_within<'a>(
        bytes: *const u8,
        len: usize,
        limits: *const Limits,
        it: *mut Marks<'a>,
    ) -> u32;
    fn readings_marks_unknown_record<'a>(walk: *mut Bytes<'a>, element: *mut Bytes<'a>) -> u32;
    fn readings_marks_fault(bytes: *const u8, len: usize, place: *mut usize) -> u32;
    fn readings_marks_fault_within(
        bytes: *const u8,
        len: usize,
        limits: *const Limits,
        place: *mut usize,
    ) -> u32;
    fn readings_marks_size<'a, 'h>(it: *const Marks<'a>, lists: *const MarksLists<'h>) -> usize;
    fn readings_marks_write<'a, 'h>(
        it: *const Marks<'a>,
        lists: *const MarksLists<'h>,
        room: *mut u8,
        room_len: usize,
        len: *mut usize,
    ) -> u32;
    fn readings_marks_size_keeping<'a, 'h>(
        it: *const Marks<'a>,
        lists: *const MarksLists<'h>,
        bytes: *const u8,
        bytes_len: usize,
        len: *mut usize,
    ) -> u32;
    fn readings_marks_write_keeping<'a, 'h>(
        it: *const Marks<'a>,
        lists: *const MarksLists<'h>,
        bytes: *const u8,
        bytes_len: usize,
        room: *mut u8,
        room_len: usize,
        len: *mut usize,
    ) -> u32;
}

pub(crate) fn marks_of_marks(bytes: &[u8]) -> Numbers<'_, i64> {
    Numbers::new(bytes, readings_marks_next_marks)
}

extern "C" {
    fn readings_marks_next_marks<'a>(walk: *mut NumbersWalk<'a>, number: *mut i64) -> u32;
}

pub(crate) fn unknown_of_series(bytes: &[u8]) -> Walk<'_> {
    Walk::new(bytes, readings_series_unknown_record)
}

// SAFETY: the struct is that of the header, and the calls are its own.
unsafe impl<'a> Struct<'a> for Series<'a> {
    const READ: ReadCall<Self> = readings_series_read;
    const READ_WITHIN: ReadWithinCall<Self> = readings_series_read_within;
    const FAULT: FaultCall = readings_series_fault;
    const FAULT_WITHIN: FaultWithinCall = readings_series_fault_within;
}

// SAFETY: as above, and the lists are those of the header.
unsafe impl<'a, 'h> WrittenWith<SeriesLists<'h>> for Series<'a> {
    const SIZE: SizeWithCall<Self, SeriesLists<'h>> = readings_series_size;
    const WRITE: WriteWithCall<Self, SeriesLists<'h>> = readings_series_write;
    const SIZE_KEEPING: SizeKeepingWithCall<Self, SeriesLists<'h>> = readings_series_size_keeping;
    const WRITE_KEEPING: WriteKeepingWithCall<Self, SeriesLists<'h>> = readings_series_write_keeping;
}

const _: () = assert!(std::mem::size_of::<Series<'static>>() == 88);

extern "C" {
    fn readings_series_read<'a>(bytes: *const u8, len: usize, it: *mut Series<'a>) -> u32;
    fn readings_series_read_within<'a>(
        bytes: *const u8,
        len: usize,
        limits: *const Limits,
        it: *mut Series<'a>,
    ) -> u32;
    fn readings_series_unknown_record<'a>(walk: *mut Bytes<'a>, element: *mut Bytes<'a>) -> u32;
    fn readings_series_fault(bytes: *const u8, len: usize, place: *mut usize) -> u32;
    fn readings_series_fault_within(
        bytes: *const u8,
        len: usize,
        limits: *const Limits,
        place: *mut usize,
    ) -> u32;
    fn readings_series_size<'a, 'h>(it: *const Series<'a>, lists: *const SeriesLists<'h>) -> usize;
    fn readings_series_write<'a, 'h>(
        it: *const Series<'a>,
        lists: *const SeriesLists<'h>,
        room: *mut u8,
        room_len: usize,
        len: *mut usize,
    ) -> u32;
    fn readings_series_size_keeping<'a, 'h>(
        it: *const Series<'a>,
        lists: *const SeriesLists<'h>,
        bytes: *const u8,
        bytes_len: usize,
        len: *mut usize,
    ) -> u32;
    fn readings_series_write_keeping<'a, 'h>(
        it: *const Series<'a>,
        lists: *const SeriesLists<'h>,
        bytes: *const u8,
        bytes_len: usize,
        room: *mut u8,
        room_len: usize,
        len: *mut usize,
    ) -> u32;
}

pub(crate) fn values_of_series(bytes: &[u8]) -> Numbers<'_, i32> {
    Numbers::new(bytes, readings_series_next_values)
}

extern "C" {
    fn readings_series_next_values<'a>(walk: *mut NumbersWalk<'a>, number: *mut i32) -> u32;
}

pub(crate) fn weights_of_series(bytes: &[u8]) -> Numbers<'_, f64> {
    Numbers::new(bytes, readings_series_next_weights)
}

extern "C" {
    fn readings_series_next_weights<'a>(walk: *mut NumbersWalk<'a>, number: *mut f64) -> u32;
}

pub(crate) fn marks_of_series(bytes: &[u8]) -> Numbers<'_, bool> {
    Numbers::new(bytes, readings_series_next_marks)
}

extern "C" {
    fn readings_series_next_marks<'a>(walk: *mut NumbersWalk<'a>, number: *mut bool) -> u32;
}

pub(crate) fn states_of_series(bytes: &[u8]) -> Numbers<'_, i32> {
    Numbers::new(bytes, readings_series_next_states)
}

extern "C" {
    fn readings_series_next_states<'a>(walk: *mut NumbersWalk<'a>, number: *mut i32) -> u32;
}

pub(crate) fn addresses_of_series(bytes: &[u8]) -> Numbers<'_, u32> {
    Numbers::new(bytes, readings_series_next_addresses)
}

extern "C" {
    fn readings_series_next_addresses<'a>(walk: *mut NumbersWalk<'a>, number: *mut u32) -> u32;
}

pub(crate) fn factors_of_series(bytes: &[u8]) -> Numbers<'_, f32> {
    Numbers::new(bytes, readings_series_next_factors)
}

extern "C" {
    fn readings_series_next_factors<'a>(walk: *mut NumbersWalk<'a>, number: *mut f32) -> u32;
}

pub(crate) fn serials_of_series(bytes: &[u8]) -> Numbers<'_, u64> {
    Numbers::new(bytes, readings_series_next_serials)
}

extern "C" {
    fn readings_series_next_serials<'a>(walk: *mut NumbersWalk<'a>, number: *mut u64) -> u32;
}

pub(crate) fn notes_of_series(bytes: &[u8]) -> Walk<'_> {
    Walk::new(bytes, readings_series_next_notes)
}

extern "C" {
    fn readings_series_next_notes<'a>(walk: *mut Bytes<'a>, element: *mut Bytes<'a>) -> u32;
}

pub(crate) fn worst_of_series(bytes: &[u8]) -> Numbers<'_, i32> {
    Numbers::new(bytes, readings_series_next_worst)
}

extern "C" {
    fn readings_series_next_worst<'a>(walk: *mut NumbersWalk<'a>, number: *mut i32) -> u32;
}

pub(crate) fn unknown_of_point(bytes: &[u8]) -> Walk<'_> {
    Walk::new(bytes, readings_point_unknown_record)
}

// SAFETY: the struct is that of the header, and the calls are its own.
unsafe impl<'a> Struct<'a> for Point<'a> {
    const READ: ReadCall<Self> = readings_point_read;
    const READ_WITHIN: ReadWithinCall<Self> = readings_point_read_within;
    const FAULT: FaultCall = readings_point_fault;
    const FAULT_WITHIN: FaultWithinCall = readings_point_fault_within;
}

// SAFETY: as above.
unsafe impl<'a> Written for Point<'a> {
    const SIZE: SizeCall<Self> = readings_point_size;
    const WRITE: WriteCall<Self> = readings_point_write;
    const SIZE_KEEPING: SizeKeepingCall<Self> = readings_point_size_keeping;
    const WRITE_KEEPING: WriteKeepingCall<Self> = readings_point_write_keeping;
}

const _: () = assert!(std::mem::size_of::<Point<'static>>() == 24);

extern "C" {
    fn readings_point_read<'a>(bytes: *const u8, len: usize, it: *mut Point<'a>) -> u32;
    fn readings_point_read_within<'a>(
        bytes: *const u8,
        len: usize,
        limits: *const Limits,
        it: *mut Point<'a>,
    ) -> u32;
    fn readings_point_unknown_record<'a>(walk: *mut Bytes<'a>, element: *mut Bytes<'a>) -> u32;
    fn readings_point_fault(bytes: *const u8, len: usize, place: *mut usize) -> u32;
    fn readings_point_fault_within(
        bytes: *const u8,
        len: usize,
        limits: *const Limits,
        place: *mut usize,
    ) -> u32;
    fn readings_point_size<'a>(it: *const Point<'a>) -> usize;
    fn readings_point_write<'a>(
        it: *const Point<'a>,
        room: *mut u8,
        room_len: usize,
        len: *mut usize,
    ) -> u32;
    fn readings_point_size_keeping<'a>(
        it: *const Point<'a>,
        bytes: *const u8,
        bytes_len: usize,
        len: *mut usize,
    ) -> u32;
    fn readings_point_write_keeping<'a>(
        it: *const Point<'a>,
        bytes: *const u8,
        bytes_len: usize,
        room: *mut u8,
        room_len: usize,
        len: *mut usize,
    ) -> u32;
}

pub(crate) fn unknown_of_settings(bytes: &[u8]) -> Walk<'_> {
    Walk::new(bytes, readings_settings_unknown_record)
}

// SAFETY: the struct is that of the header, and the calls are its own.
unsafe impl<'a> Struct<'a> for Settings<'a> {
    const READ: ReadCall<Self> = readings_settings_read;
    const READ_WITHIN: ReadWithinCall<Self> = readings_settings_read_within;
    const FAULT: FaultCall = readings_settings_fault;
    const FAULT_WITHIN: FaultWithinCall = readings_settings_fault_within;
}

// SAFETY: as above.
unsafe impl<'a> Written for Settings<'a> {
    const SIZE: SizeCall<Self> = readings_settings_size;
    const WRITE: WriteCall<Self> = readings_settings_write;
    const SIZE_KEEPING: SizeKeepingCall<Self> = readings_settings_size_keeping;
    const WRITE_KEEPING: WriteKeepingCall<Self> = readings_settings_write_keeping;
}

const _: () = assert!(std::mem::size_of::<Settings<'static>>() == 192);

extern "C" {
    fn readings_settings_read<'a>(bytes: *const u8, len: usize, it: *mut Settings<'a>) -> u32;
    fn readings_settings_read_within<'a>(
        bytes: *const u8,
        len: usize,
        limits: *const Limits,
        it: *mut Settings<'a>,
    ) -> u32;
    fn readings_settings_unknown_record<'a>(walk: *mut Bytes<'a>, element: *mut Bytes<'a>) -> u32;
    fn readings_settings_fault(bytes: *const u8, len: usize, place: *mut usize) -> u32;
    fn readings_settings_fault_within(
        bytes: *const u8,
        len: usize,
        limits: *const Limits,
        place: *mut usize,
    ) -> u32;
    fn readings_settings_size<'a>(it: *const Settings<'a>) -> usize;
    fn readings_settings_write<'a>(
        it: *const Settings<'a>,
        room: *mut u8,
        room_len: usize,
        len: *mut usize,
    ) -> u32;
    fn readings_settings_size_keeping<'a>(
        it: *const Settings<'a>,
        bytes: *const u8,
        bytes_len: usize,
        len: *mut usize,
    ) -> u32;
    fn readings_settings_write_keeping<'a>(
        it: *const Settings<'a>,
        bytes: *const u8,
        bytes_len: usize,
        room: *mut u8,
        room_len: usize,
        len: *mut usize,
    ) -> u32;
}

pub(crate) fn unknown_of_reading(bytes: &[u8]) -> Walk<'_> {
    Walk::new(bytes, readings_reading_unknown_record)
}

// SAFETY: the struct is that of the header, and the calls are its own.
unsafe impl<'a> Struct<'a> for Reading<'a> {
    const READ: ReadCall<Self> = readings_reading_read;
    const READ_WITHIN: ReadWithinCall<Self> = readings_reading_read_within;
    const FAULT: FaultCall = readings_reading_fault;
    const FAULT_WITHIN: FaultWithinCall = readings_reading_fault_within;
}

// SAFETY: as above.
unsafe impl<'a> Written for Reading<'a> {
    const SIZE: SizeCall<Self> = readings_reading_size;
    const WRITE: WriteCall<Self> = readings_reading_write;
    const SIZE_KEEPING: SizeKeepingCall<Self> = readings_reading_size_keeping;
    const WRITE_KEEPING: WriteKeepingCall<Self> = readings_reading_write_keeping;
}

const _: () = assert!(std::mem::size_of::<Reading<'static>>() == 48);

extern "C" {
    fn readings_reading_read<'a>(bytes: *const u8, len: usize, it: *mut Reading<'a>) -> u32;
    fn readings_reading_read_within<'a>(
        bytes: *const u8,
        len: usize,
        limits: *const Limits,
        it: *mut Reading<'a>,
    ) -> u32;
    fn readings_reading_unknown_record<'a>(walk: *mut Bytes<'a>, element: *mut Bytes<'a>) -> u32;
    fn readings_reading_fault(bytes: *const u8, len: usize, place: *mut usize) -> u32;
    fn readings_reading_fault_within(
        bytes: *const u8,
        len: usize,
        limits: *const Limits,
        place: *mut usize,
    ) -> u32;
    fn readings_reading_size<'a>(it: *const Reading<'a>) -> usize;
    fn readings_reading_write<'a>(
        it: *const Reading<'a>,
        room: *mut u8,
        room_len: usize,
        len: *mut usize,
    ) -> u32;
    fn readings_reading_size_keeping<'a>(
        it: *const Reading<'a>,
        bytes: *const u8,
        bytes_len: usize,
        len: *mut usize,
    ) -> u32;
    fn readings_reading_write_keeping<'a>(
        it: *const Reading<'a>,
        bytes: *const u8,
        bytes_len: usize,
        room: *mut u8,
        room_len: usize,
        len: *mut usize,
    ) -> u32;
}

pub(crate) fn unknown_of_totals_states_entry(bytes: &[u8]) -> Walk<'_> {
    Walk::new(bytes, readings_totals_states_entry_unknown_record)
}

// SAFETY: the struct is that of the header, and the calls are its own.
unsafe impl<'a> Struct<'a> for TotalsStatesEntry<'a> {
    const READ: ReadCall<Self> = readings_totals_states_entry_read;
    const READ_WITHIN: ReadWithinCall<Self> = readings_totals_states_entry_read_within;
    const FAULT: FaultCall = readings_totals_states_entry_fault;
    const FAULT_WITHIN: FaultWithinCall = readings_totals_states_entry_fault_within;
}

// SAFETY: as above.
unsafe impl<'a> Written for TotalsStatesEntry<'a> {
    const SIZE: SizeCall<Self> = readings_totals_states_entry_size;
    const WRITE: WriteCall<Self> = readings_totals_states_entry_write;
    const SIZE_KEEPING: SizeKeepingCall<Self> = readings_totals_states_entry_size_keeping;
    const WRITE_KEEPING: WriteKeepingCall<Self> = readings_totals_states_entry_write_keeping;
}

const _: () = assert!(std::mem::size_of::<TotalsStatesEntry<'static>>() == 32);

extern "C" {
    fn readings_totals_states_entry_read<'a>(bytes: *const u8, len: usize, it: *mut TotalsStatesEntry<'a>) -> u32;
    fn readings_totals_states_entry_read_within<'a>(
        bytes: *const u8,
        len: usize,
        limits: *const Limits,
        it: *mut TotalsStatesEntry<'a>,
    ) -> u32;
    fn readings_totals_states_entry_unknown_record<'a>(walk: *mut Bytes<'a>, element: *mut Bytes<'a>) -> u32;
    fn readings_totals_states_entry_fault(bytes: *const u8, len: usize, place: *mut usize) -> u32;
    fn readings_totals_states_entry_fault_within(
        bytes: *const u8,
        len: usize,
        limits: *const Limits,
        place: *mut usize,
    ) -> u32;
    fn readings_totals_states_entry_size<'a>(it: *const TotalsStatesEntry<'a>) -> usize;
    fn readings_totals_states_entry_write<'a>(
        it: *const TotalsStatesEntry<'a>,
        room: *mut u8,
        room_len: usize,
        len: *mut usize,
    ) -> u32;
    fn readings_totals_states_entry_size_keeping<'a>(
        it: *const TotalsStatesEntry<'a>,
        bytes: *const u8,
        bytes_len: usize,
        len: *mut usize,
    ) -> u32;
    fn readings_totals_states_entry_write_keeping<'a>(
        it: *const TotalsStatesEntry<'a>,
        bytes: *const u8,
        bytes_len: usize,
        room: *mut u8,
        room_len: usize,
        len: *mut usize,
    ) -> u32;
}

pub(crate) fn unknown_of_totals_last_entry(bytes: &[u8]) -> Walk<'_> {
    Walk::new(bytes, readings_totals_last_entry_unknown_record)
}

// SAFETY: the struct is that of the header, and the calls are its own.
unsafe impl<'a> Struct<'a> for TotalsLastEntry<'a> {
    const READ: ReadCall<Self> = readings_totals_last_entry_read;
    const READ_WITHIN: ReadWithinCall<Self> = readings_totals_last_entry_read_within;
    const FAULT: FaultCall = readings_totals_last_entry_fault;
    const FAULT_WITHIN: FaultWithinCall = readings_totals_last_entry_fault_within;
}

// SAFETY: as above.
unsafe impl<'a> Written for TotalsLastEntry<'a> {
    const SIZE: SizeCall<Self> = readings_totals_last_entry_size;
    const WRITE: WriteCall<Self> = readings_totals_last_entry_write;
    const SIZE_KEEPING: SizeKeepingCall<Self> = readings_totals_last_entry_size_keeping;
    const WRITE_KEEPING: WriteKeepingCall<Self> = readings_totals_last_entry_write_keeping;
}

const _: () = assert!(std::mem::size_of::<TotalsLastEntry<'static>>() == 56);

extern "C" {
    fn readings_totals_last_entry_read<'a>(bytes: *const u8, len: usize, it: *mut TotalsLastEntry<'a>) -> u32;
    fn readings_totals_last_entry_read_within<'a>(
        bytes: *const u8,
        len: usize,
        limits: *const Limits,
        it: *mut TotalsLastEntry<'a>,
    ) -> u32;
    fn readings_totals_last_entry_unknown_record<'a>(walk: *mut Bytes<'a>, element: *mut Bytes<'a>) -> u32;
    fn readings_totals_last_entry_fault(bytes: *const u8, len: usize, place: *mut usize) -> u32;
    fn readings_totals_last_entry_fault_within(
        bytes: *const u8,
        len: usize,
        limits: *const Limits,
        place: *mut usize,
    ) -> u32;
    fn readings_totals_last_entry_size<'a>(it: *const TotalsLastEntry<'a>) -> usize;
    fn readings_totals_last_entry_write<'a>(
        it: *const TotalsLastEntry<'a>,
        room: *mut u8,
        room_len: usize,
        len: *mut usize,
    ) -> u32;
    fn readings_totals_last_entry_size_keeping<'a>(
        it: *const TotalsLastEntry<'a>,
        bytes: *const u8,
        bytes_len: usize,
        len: *mut usize,
    ) -> u32;
    fn readings_totals_last_entry_write_keeping<'a>(
        it: *const TotalsLastEntry<'a>,
        bytes: *const u8,
        bytes_len: usize,
        room: *mut u8,
        room_len: usize,
        len: *mut usize,
    ) -> u32;
}

pub(crate) fn unknown_of_totals_sums_entry(bytes: &[u8]) -> Walk<'_> {
    Walk::new(bytes, readings_totals_sums_entry_unknown_record)
}

// SAFETY: the struct is that of the header, and the calls are its own.
unsafe impl<'a> Struct<'a> for TotalsSumsEntry<'a> {
    const READ: ReadCall<Self> = readings_totals_sums_entry_read;
    const READ_WITHIN: ReadWithinCall<Self> = readings_totals_sums_entry_read_within;
    const FAULT: FaultCall = readings_totals_sums_entry_fault;
    const FAULT_WITHIN: FaultWithinCall = readings_totals_sums_entry_fault_within;
}

// SAFETY: as above.
unsafe impl<'a> Written for TotalsSumsEntry<'a> {
    const SIZE: SizeCall<Self> = readings_totals_sums_entry_size;
    const WRITE: WriteCall<Self> = readings_totals_sums_entry_write;
    const SIZE_KEEPING: SizeKeepingCall<Self> = readings_totals_sums_entry_size_keeping;
    const WRITE_KEEPING: WriteKeepingCall<Self> = readings_totals_sums_entry_write_keeping;
}

const _: () = assert!(std::mem::size_of::<TotalsSumsEntry<'static>>() == 24);

extern "C" {
    fn readings_totals_sums_entry_read<'a>(bytes: *const u8, len: usize, it: *mut TotalsSumsEntry<'a>) -> u32;
    fn readings_totals_sums_entry_read_within<'a>(
        bytes: *const u8,
        len: usize,
        limits: *const Limits,
        it: *mut TotalsSumsEntry<'a>,
    ) -> u32;
    fn readings_totals_sums_entry_unknown_record<'a>(walk: *mut Bytes<'a>, element: *mut Bytes<'a>) -> u32;
    fn readings_totals_sums_entry_fault(bytes: *const u8, len: usize, place: *mut usize) -> u32;
    fn readings_totals_sums_entry_fault_within(
        bytes: *const u8,
        len: usize,
        limits: *const Limits,
        place: *mut usize,
    ) -> u32;
    fn readings_totals_sums_entry_size<'a>(it: *const TotalsSumsEntry<'a>) -> usize;
    fn readings_totals_sums_entry_write<'a>(
        it: *const TotalsSumsEntry<'a>,
        room: *mut u8,
        room_len: usize,
        len: *mut usize,
    ) -> u32;
    fn readings_totals_sums_entry_size_keeping<'a>(
        it: *const TotalsSumsEntry<'a>,
        bytes: *const u8,
        bytes_len: usize,
        len: *mut usize,
    ) -> u32;
    fn readings_totals_sums_entry_write_keeping<'a>(
        it: *const TotalsSumsEntry<'a>,
        bytes: *const u8,
        bytes_len: usize,
        room: *mut u8,
        room_len: usize,
        len: *mut usize,
    ) -> u32;
}

pub(crate) fn unknown_of_totals(bytes: &[u8]) -> Walk<'_> {
    Walk::new(bytes, readings_totals_unknown_record)
}

// SAFETY: the struct is that of the header, and the calls are its own.
unsafe impl<'a> Struct<'a> for Totals<'a> {
    const READ: ReadCall<Self> = readings_totals_read;
    const READ_WITHIN: ReadWithinCall<Self> = readings_totals_read_within;
    const FAULT: FaultCall = readings_totals_fault;
    const FAULT_WITHIN: FaultWithinCall = readings_totals_fault_within;
}

// SAFETY: as above, and the lists are those of the header.
unsafe impl<'a, 'h> WrittenWith<TotalsLists<'h>> for Totals<'a> {
    const SIZE: SizeWithCall<Self, TotalsLists<'h>> = readings_totals_size;
    const WRITE: WriteWithCall<Self, TotalsLists<'h>> = readings_totals_write;
    const SIZE_KEEPING: SizeKeepingWithCall<Self, TotalsLists<'h>> = readings_totals_size_keeping;
    const WRITE_KEEPING: WriteKeepingWithCall<Self, TotalsLists<'h>> = readings_totals_write_keeping;
}

const _: () = assert!(std::mem::size_of::<Totals<'static>>() == 40);

extern "C" {
    fn readings_totals_read<'a>(bytes: *const u8, len: usize, it: *mut Totals<'a>) -> u32;
    fn readings_totals_read_within<'a>(
        bytes: *const u8,
        len: usize,
        limits: *const Limits,
        it: *mut Totals<'a>,
    ) -> u32;
    fn readings_totals_unknown_record<'a>(walk: *mut Bytes<'a>, element: *mut Bytes<'a>) -> u32;
    fn readings_totals_fault(bytes: *const u8, len: usize, place: *mut usize) -> u32;
    fn readings_totals_fault_within(
        bytes: *const u8,
        len: usize,
        limits: *const Limits,
        place: *mut usize,
    ) -> u32;
    fn readings_totals_size<'a, 'h>(it: *const Totals<'a>, lists: *const TotalsLists<'h>) -> usize;
    fn readings_totals_write<'a, 'h>(
        it: *const Totals<'a>,
        lists: *const TotalsLists<'h>,
        room: *mut u8,
        room_len: usize,
        len: *mut usize,
    ) -> u32;
    fn readings_totals_size_keeping<'a, 'h>(
        it: *const Totals<'a>,
        lists: *const TotalsLists<'h>,
        bytes: *const u8,
        bytes_len: usize,
        len: *mut usize,
    ) -> u32;
    fn readings_totals_write_keeping<'a, 'h>(
        it: *const Totals<'a>,
        lists: *const TotalsLists<'h>,
        bytes: *const u8,
        bytes_len: usize,
        room: *mut u8,
        room_len: usize,
        len: *mut usize,
    ) -> u32;
}

pub(crate) fn sums_of_totals(bytes: &[u8]) -> Walk<'_> {
    Walk::new(bytes, readings_totals_next_sums)
}

extern "C" {
    fn readings_totals_next_sums<'a>(walk: *mut Bytes<'a>, element: *mut Bytes<'a>) -> u32;
}

pub(crate) fn last_of_totals(bytes: &[u8]) -> Walk<'_> {
    Walk::new(bytes, readings_totals_next_last)
}

extern "C" {
    fn readings_totals_next_last<'a>(walk: *mut Bytes<'a>, element: *mut Bytes<'a>) -> u32;
}

pub(crate) fn states_of_totals(bytes: &[u8]) -> Walk<'_> {
    Walk::new(bytes, readings_totals_next_states)
}

extern "C" {
    fn readings_totals_next_states<'a>(walk: *mut Bytes<'a>, element: *mut Bytes<'a>) -> u32;
}

pub(crate) fn unknown_of_visit(bytes: &[u8]) -> Walk<'_> {
    Walk::new(bytes, readings_visit_unknown_record)
}

// SAFETY: the struct is that of the header, and the calls are its own.
unsafe impl<'a> Struct<'a> for Visit<'a> {
    const READ: ReadCall<Self> = readings_visit_read;
    const READ_WITHIN: ReadWithinCall<Self> = readings_visit_read_within;
    const FAULT: FaultCall = readings_visit_fault;
    const FAULT_WITHIN: FaultWithinCall = readings_visit_fault_within;
}

// SAFETY: as above.
unsafe impl<'a> Written for Visit<'a> {
    const SIZE: SizeCall<Self> = readings_visit_size;
    const WRITE: WriteCall<Self> = readings_visit_write;
    const SIZE_KEEPING: SizeKeepingCall<Self> = readings_visit_size_keeping;
    const WRITE_KEEPING: WriteKeepingCall<Self> = readings_visit_write_keeping;
}

const _: () = assert!(std::mem::size_of::<Visit<'static>>() == 184);

extern "C" {
    fn readings_visit_read<'a>(bytes: *const u8, len: usize, it: *mut Visit<'a>) -> u32;
    fn readings_visit_read_within<'a>(
        bytes: *const u8,
        len: usize,
        limits: *const Limits,
        it: *mut Visit<'a>,
    ) -> u32;
    fn readings_visit_unknown_record<'a>(walk: *mut Bytes<'a>, element: *mut Bytes<'a>) -> u32;
    fn readings_visit_fault(bytes: *const u8, len: usize, place: *mut usize) -> u32;
    fn readings_visit_fault_within(
        bytes: *const u8,
        len: usize,
        limits: *const Limits,
        place: *mut usize,
    ) -> u32;
    fn readings_visit_size<'a>(it: *const Visit<'a>) -> usize;
    fn readings_visit_write<'a>(
        it: *const Visit<'a>,
        room: *mut u8,
        room_len: usize,
        len: *mut usize,
    ) -> u32;
    fn readings_visit_size_keeping<'a>(
        it: *const Visit<'a>,
        bytes: *const u8,
        bytes_len: usize,
        len: *mut usize,
    ) -> u32;
    fn readings_visit_write_keeping<'a>(
        it: *const Visit<'a>,
        bytes: *const u8,
        bytes_len: usize,
        room: *mut u8,
        room_len: usize,
        len: *mut usize,
    ) -> u32;
}

pub(crate) fn unknown_of_log(bytes: &[u8]) -> Walk<'_> {
    Walk::new(bytes, readings_log_unknown_record)
}

// SAFETY: the struct is that of the header, and the calls are its own.
unsafe impl<'a> Struct<'a> for Log<'a> {
    const READ: ReadCall<Self> = readings_log_read;
    const READ_WITHIN: ReadWithinCall<Self> = readings_log_read_within;
    const FAULT: FaultCall = readings_log_fault;
    const FAULT_WITHIN: FaultWithinCall = readings_log_fault_within;
}

// SAFETY: as above, and the lists are those of the header.
unsafe impl<'a, 'h> WrittenWith<LogLists<'h>> for Log<'a> {
    const SIZE: SizeWithCall<Self, LogLists<'h>> = readings_log_size;
    const WRITE: WriteWithCall<Self, LogLists<'h>> = readings_log_write;
    const SIZE_KEEPING: SizeKeepingWithCall<Self, LogLists<'h>> = readings_log_size_keeping;
    const WRITE_KEEPING: WriteKeepingWithCall<Self, LogLists<'h>> = readings_log_write_keeping;
}

const _: () = assert!(std::mem::size_of::<Log<'static>>() == 112);

extern "C" {
    fn readings_log_read<'a>(bytes: *const u8, len: usize, it: *mut Log<'a>) -> u32;
    fn readings_log_read_within<'a>(
        bytes: *const u8,
        len: usize,
        limits: *const Limits,
        it: *mut Log<'a>,
    ) -> u32;
    fn readings_log_unknown_record<'a>(walk: *mut Bytes<'a>, element: *mut Bytes<'a>) -> u32;
    fn readings_log_fault(bytes: *const u8, len: usize, place: *mut usize) -> u32;
    fn readings_log_fault_within(
        bytes: *const u8,
        len: usize,
        limits: *const Limits,
        place: *mut usize,
    ) -> u32;
    fn readings_log_size<'a, 'h>(it: *const Log<'a>, lists: *const LogLists<'h>) -> usize;
    fn readings_log_write<'a, 'h>(
        it: *const Log<'a>,
        lists: *const LogLists<'h>,
        room: *mut u8,
        room_len: usize,
        len: *mut usize,
    ) -> u32;
    fn readings_log_size_keeping<'a, 'h>(
        it: *const Log<'a>,
        lists: *const LogLists<'h>,
        bytes: *const u8,
        bytes_len: usize,
        len: *mut usize,
    ) -> u32;
    fn readings_log_write_keeping<'a, 'h>(
        it: *const Log<'a>,
        lists: *const LogLists<'h>,
        bytes: *const u8,
        bytes_len: usize,
        room: *mut u8,
        room_len: usize,
        len: *mut usize,
    ) -> u32;
}

pub(crate) fn notes_of_log(bytes: &[u8]) -> Walk<'_> {
    Walk::new(bytes, readings_log_next_notes)
}

extern "C" {
    fn readings_log_next_notes<'a>(walk: *mut Bytes<'a>, element: *mut Bytes<'a>) -> u32;
}

pub(crate) fn readings_of_log(bytes: &[u8]) -> Walk<'_> {
    Walk::new(bytes, readings_log_next_readings)
}

extern "C" {
    fn readings_log_next_readings<'a>(walk: *mut Bytes<'a>, element: *mut Bytes<'a>) -> u32;
}

pub(crate) fn frames_of_log(bytes: &[u8]) -> Walk<'_> {
    Walk::new(bytes, readings_log_next_frames)
}

extern "C" {
    fn readings_log_next_frames<'a>(walk: *mut Bytes<'a>, element: *mut Bytes<'a>) -> u32;
}

pub(crate) fn path_of_log(bytes: &[u8]) -> Walk<'_> {
    Walk::new(bytes, readings_log_next_path)
}

extern "C" {
    fn readings_log_next_path<'a>(walk: *mut Bytes<'a>, element: *mut Bytes<'a>) -> u32;
}

pub(crate) fn more_of_log(bytes: &[u8]) -> Walk<'_> {
    Walk::new(bytes, readings_log_next_more)
}

extern "C" {
    fn readings_log_next_more<'a>(walk: *mut Bytes<'a>, element: *mut Bytes<'a>) -> u32;
}

pub(crate) fn unknown_of_sensor(bytes: &[u8]) -> Walk<'_> {
    Walk::new(bytes, readings_sensor_unknown_record)
}

// SAFETY: the struct is that of the header, and the calls are its own.
unsafe impl<'a> Struct<'a> for Sensor<'a> {
    const READ: ReadCall<Self> = readings_sensor_read;
    const READ_WITHIN: ReadWithinCall<Self> = readings_sensor_read_within;
    const FAULT: FaultCall = readings_sensor_fault;
    const FAULT_WITHIN: FaultWithinCall = readings_sensor_fault_within;
}

// SAFETY: as above.
unsafe impl<'a> Written for Sensor<'a> {
    const SIZE: SizeCall<Self> = readings_sensor_size;
    const WRITE: WriteCall<Self> = readings_sensor_write;
    const SIZE_KEEPING: SizeKeepingCall<Self> = readings_sensor_size_keeping;
    const WRITE_KEEPING: WriteKeepingCall<Self> = readings_sensor_write_keeping;
}

const _: () = assert!(std::mem::size_of::<Sensor<'static>>() == 376);

extern "C" {
    fn readings_sensor_read<'a>(bytes: *const u8, len: usize, it: *mut Sensor<'a>) -> u32;
    fn readings_sensor_read_within<'a>(
        bytes: *const u8,
        len: usize,
        limits: *const Limits,
        it: *mut Sensor<'a>,
    ) -> u32;
    fn readings_sensor_unknown_record<'a>(walk: *mut Bytes<'a>, element: *mut Bytes<'a>) -> u32;
    fn readings_sensor_fault(bytes: *const u8, len: usize, place: *mut usize) -> u32;
    fn readings_sensor_fault_within(
        bytes: *const u8,
        len: usize,
        limits: *const Limits,
        place: *mut usize,
    ) -> u32;
    fn readings_sensor_size<'a>(it: *const Sensor<'a>) -> usize;
    fn readings_sensor_write<'a>(
        it: *const Sensor<'a>,
        room: *mut u8,
        room_len: usize,
        len: *mut usize,
    ) -> u32;
    fn readings_sensor_size_keeping<'a>(
        it: *const Sensor<'a>,
        bytes: *const u8,
        bytes_len: usize,
        len: *mut usize,
    ) -> u32;
    fn readings_sensor_write_keeping<'a>(
        it: *const Sensor<'a>,
        bytes: *const u8,
        bytes_len: usize,
        room: *mut u8,
        room_len: usize,
        len: *mut usize,
    ) -> u32;
}

pub(crate) fn unknown_of_plan(bytes: &[u8]) -> Walk<'_> {
    Walk::new(bytes, readings_plan_unknown_record)
}

// SAFETY: the struct is that of the header, and the calls are its own.
unsafe impl<'a> Struct<'a> for Plan<'a> {
    const READ: ReadCall<Self> = readings_plan_read;
    const READ_WITHIN: ReadWithinCall<Self> = readings_plan_read_within;
    const FAULT: FaultCall = readings_plan_fault;
    const FAULT_WITHIN: FaultWithinCall = readings_plan_fault_within;
}

// SAFETY: as above, and the lists are those of the header.
unsafe impl<'a, 'h> WrittenWith<PlanLists<'h>> for Plan<'a> {
    const SIZE: SizeWithCall<Self, PlanLists<'h>> = readings_plan_size;
    const WRITE: WriteWithCall<Self, PlanLists<'h>> = readings_plan_write;
    const SIZE_KEEPING: SizeKeepingWithCall<Self, PlanLists<'h>> = readings_plan_size_keeping;
    const WRITE_KEEPING: WriteKeepingWithCall<Self, PlanLists<'h>> = readings_plan_write_keeping;
}

const _: () = assert!(std::mem::size_of::<Plan<'static>>() == 456);

extern "C" {
    fn readings_plan_read<'a>(bytes: *const u8, len: usize, it: *mut Plan<'a>) -> u32;
    fn readings_plan_read_within<'a>(
        bytes: *const u8,
        len: usize,
        limits: *const Limits,
        it: *mut Plan<'a>,
    ) -> u32;
    fn readings_plan_unknown_record<'a>(walk: *mut Bytes<'a>, element: *mut Bytes<'a>) -> u32;
    fn readings_plan_fault(bytes: *const u8, len: usize, place: *mut usize) -> u32;
    fn readings_plan_fault_within(
        bytes: *const u8,
        len: usize,
        limits: *const Limits,
        place: *mut usize,
    ) -> u32;
    fn readings_plan_size<'a, 'h>(it: *const Plan<'a>, lists: *const PlanLists<'h>) -> usize;
    fn readings_plan_write<'a, 'h>(
        it: *const Plan<'a>,
        lists: *const PlanLists<'h>,
        room: *mut u8,
        room_len: usize,
        len: *mut usize,
    ) -> u32;
    fn readings_plan_size_keeping<'a, 'h>(
        it: *const Plan<'a>,
        lists: *const PlanLists<'h>,
        bytes: *const u8,
        bytes_len: usize,
        len: *mut usize,
    ) -> u32;
    fn readings_plan_write_keeping<'a, 'h>(
        it: *const Plan<'a>,
        lists: *const PlanLists<'h>,
        bytes: *const u8,
        bytes_len: usize,
        room: *mut u8,
        room_len: usize,
        len: *mut usize,
    ) -> u32;
}

pub(crate) fn done_of_plan(bytes: &[u8]) -> Walk<'_> {
    Walk::new(bytes, readings_plan_next_done)
}

extern "C" {
    fn readings_plan_next_done<'a>(walk: *mut Bytes<'a>, element: *mut Bytes<'a>) -> u32;
}
