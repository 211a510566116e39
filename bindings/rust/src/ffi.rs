//! The library's calls, as `bindings/c/gettavil.h` has them, which says what each asks and answers.

pub(crate) const OK: u32 = 0;
pub(crate) const END: u32 = 1;
pub(crate) const NO_ROOM: u32 = 32;
pub(crate) const NOT_FOUND: u32 = 34;

#[repr(C)]
pub(crate) struct Limits {
    pub(crate) records: usize,
    pub(crate) payload_bytes: usize,
    pub(crate) depth: u32,
}

#[repr(C)]
#[derive(Clone, Debug)]
pub(crate) struct Reader {
    pub(crate) place: usize,
    pub(crate) records_left: usize,
    pub(crate) payload_bytes_left: usize,
    pub(crate) depth: u32,
    pub(crate) group_count: u32,
    pub(crate) groups: [u32; 100],
}

#[repr(C)]
#[derive(Default)]
pub(crate) struct Event {
    pub(crate) kind: u32,
    pub(crate) number: u32,
    pub(crate) value: u64,
    pub(crate) start: usize,
    pub(crate) behind_tag: usize,
    pub(crate) payload: usize,
    pub(crate) length: usize,
}

#[repr(C)]
#[derive(Default)]
pub(crate) struct Fault {
    pub(crate) status: u32,
    pub(crate) detail: u32,
    pub(crate) part: u32,
    pub(crate) record_place: usize,
    pub(crate) part_place: usize,
}

#[repr(C)]
#[derive(Default)]
pub(crate) struct Range {
    pub(crate) wire_type: u32,
    pub(crate) start: usize,
    pub(crate) behind_tag: usize,
    pub(crate) end: usize,
}

#[repr(C)]
#[derive(Clone, Debug, Default)]
pub(crate) struct Writer {
    pub(crate) place: usize,
    pub(crate) wanted: usize,
}

#[rustfmt::skip]
extern "C" {
    pub(crate) fn gtv_reader_init(reader: *mut Reader, limits: *const Limits) -> u32;
    pub(crate) fn gtv_next(
        reader: *mut Reader, bytes: *const u8, len: usize, event: *mut Event, fault: *mut Fault,
    ) -> u32;
    pub(crate) fn gtv_validate(
        bytes: *const u8, len: usize, limits: *const Limits, fault: *mut Fault,
    ) -> u32;
    pub(crate) fn gtv_find(
        bytes: *const u8, len: usize, number: u32, depth: u32, range: *mut Range,
    ) -> u32;
    pub(crate) fn gtv_put_varint(
        writer: *mut Writer, room: *mut u8, room_len: usize, number: u32, value: u64,
    ) -> u32;
    pub(crate) fn gtv_put_sint(
        writer: *mut Writer, room: *mut u8, room_len: usize, number: u32, value: i64,
    ) -> u32;
    pub(crate) fn gtv_put_fixed32(
        writer: *mut Writer, room: *mut u8, room_len: usize, number: u32, value: u32,
    ) -> u32;
    pub(crate) fn gtv_put_fixed64(
        writer: *mut Writer, room: *mut u8, room_len: usize, number: u32, value: u64,
    ) -> u32;
    pub(crate) fn gtv_put_bytes(
        writer: *mut Writer, room: *mut u8, room_len: usize, number: u32,
        payload: *const u8, payload_len: usize,
    ) -> u32;
    pub(crate) fn gtv_put_group_start(
        writer: *mut Writer, room: *mut u8, room_len: usize, number: u32,
    ) -> u32;
    pub(crate) fn gtv_put_group_end(
        writer: *mut Writer, room: *mut u8, room_len: usize, number: u32,
    ) -> u32;
    pub(crate) fn gtv_shortest_len(
        bytes: *const u8, len: usize, limits: *const Limits, shortest: *mut usize,
        fault: *mut Fault,
    ) -> u32;
    pub(crate) fn gtv_shortest(
        bytes: *const u8, len: usize, limits: *const Limits, room: *mut u8, room_len: usize,
        shortest: *mut usize, fault: *mut Fault,
    ) -> u32;
    pub(crate) fn gtv_varint_len(value: u64) -> usize;
    pub(crate) fn gtv_zigzag(value: i64) -> u64;
    pub(crate) fn gtv_unzigzag(number: u64) -> i64;
}
