//! The message `report.Report.Sample`, read in place and written.
use crate::structs::{Limits, NoRoom, NotWritten, Refusal, Text};
use crate::structs::{kept, measured, told, wrote};
use std::mem::MaybeUninit;

/// `report.Report.Sample`: what was measured once.
#[repr(C)]
#[derive(Clone, Copy)]
pub struct ReportSample<'a> {
    name: Text<'a>,
    value: f64,
    has_count: bool,
    count: i64,
}

impl<'a> ReportSample<'a> {
    pub fn new(name: &'a str, value: f64, count: Option<i64>) -> ReportSample<'a> {
        ReportSample {
            name: Text::new(name),
            value,
            has_count: count.is_some(),
            count: count.unwrap_or(0),
        }
    }

    /// The sample that all of the bytes are.
    pub fn read(bytes: &'a [u8]) -> Result<ReportSample<'a>, Refusal> {
        let mut it = MaybeUninit::uninit();
        let status = unsafe { report_sample_read(bytes.as_ptr(), bytes.len(), it.as_mut_ptr()) };
        told(status, it)
    }

    /// The same within these limits.
    pub fn read_within(bytes: &'a [u8], limits: &Limits) -> Result<ReportSample<'a>, Refusal> {
        let mut it = MaybeUninit::uninit();
        let (data, len) = (bytes.as_ptr(), bytes.len());
        let status = unsafe { report_sample_read_within(data, len, limits, it.as_mut_ptr()) };
        told(status, it)
    }

    pub fn name(&self) -> &'a str {
        self.name.get()
    }

    pub fn value(&self) -> f64 {
        self.value
    }

    pub fn count(&self) -> Option<i64> {
        self.has_count.then_some(self.count)
    }

    /// How many bytes the shortest encoding has.
    pub fn size(&self) -> usize {
        // SAFETY: the struct is one that was read or made here.
        unsafe { report_sample_size(self) }
    }

    /// Writes the shortest encoding at the front of the room, and says how many bytes it has.
    pub fn write(&self, room: &mut [u8]) -> Result<usize, NoRoom> {
        let mut len = 0;
        // SAFETY: as of `size`, and the room is the caller's alone.
        let status =
            unsafe { report_sample_write(self, room.as_mut_ptr(), room.len(), &mut len) };
        wrote(status, len)
    }

    /// How many bytes the shortest encoding has with the unknown fields of these bytes behind it:
    /// the records of other numbers, usually of the bytes that the sample was read from.
    pub fn size_keeping(&self, bytes: &[u8]) -> Result<usize, Refusal> {
        let mut len = 0;
        let (data, bytes_len) = (bytes.as_ptr(), bytes.len());
        // SAFETY: as of `size`.
        let status = unsafe { report_sample_size_keeping(self, data, bytes_len, &mut len) };
        measured(status, len)
    }

    /// Writes that encoding at the front of the room, and says how many bytes it has.
    pub fn write_keeping(&self, bytes: &[u8], room: &mut [u8]) -> Result<usize, NotWritten> {
        let mut len = 0;
        let (data, bytes_len) = (bytes.as_ptr(), bytes.len());
        let (place, room_len) = (room.as_mut_ptr(), room.len());
        // SAFETY: as of `write`.
        let status = unsafe {
            report_sample_write_keeping(self, data, bytes_len, place, room_len, &mut len)
        };
        kept(status, len)
    }
}

extern "C" {
    fn report_sample_read<'a>(bytes: *const u8, len: usize, it: *mut ReportSample<'a>) -> u32;
    fn report_sample_read_within<'a>(
        bytes: *const u8,
        len: usize,
        limits: *const Limits,
        it: *mut ReportSample<'a>,
    ) -> u32;
    fn report_sample_size(it: *const ReportSample<'_>) -> usize;
    fn report_sample_write(
        it: *const ReportSample<'_>,
        room: *mut u8,
        room_len: usize,
        len: *mut usize,
    ) -> u32;
    fn report_sample_size_keeping(
        it: *const ReportSample<'_>,
        bytes: *const u8,
        bytes_len: usize,
        len: *mut usize,
    ) -> u32;
    fn report_sample_write_keeping(
        it: *const ReportSample<'_>,
        bytes: *const u8,
        bytes_len: usize,
        room: *mut u8,
        room_len: usize,
        len: *mut usize,
    ) -> u32;
}

const _: () = assert!(size_of::<ReportSample>() == 40);
