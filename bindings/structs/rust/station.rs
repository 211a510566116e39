//! The message `station.Station`, read in place and written.
use crate::report_sample::ReportSample;
use crate::structs::{Bytes, Limits, List, NoRoom, NotWritten, Refusal, Text};
use crate::structs::{kept, measured, told, wrote};
use std::mem::MaybeUninit;

#[repr(C)]
#[derive(Clone, Copy)]
struct PowerInC<'a> {
    which: u32,
    volts: f32,
    grid: Text<'a>,
    backup: ReportSample<'a>,
}

impl<'a> PowerInC<'a> {
    fn of(power: Option<StationPower<'a>>) -> PowerInC<'a> {
        let mut it = PowerInC {
            which: 0,
            volts: 0.0,
            grid: Text::new(""),
            backup: ReportSample::new("", 0.0, None),
        };
        match power {
            Some(StationPower::Volts(volts)) => (it.which, it.volts) = (8, volts),
            Some(StationPower::Grid(grid)) => (it.which, it.grid) = (9, Text::new(grid)),
            Some(StationPower::Backup(backup)) => (it.which, it.backup) = (10, backup),
            None => {}
        }
        it
    }
}

/// The oneof `power` of `station.Station`: what it runs on.
#[derive(Clone, Copy)]
pub enum StationPower<'a> {
    Volts(f32),
    Grid(&'a str),
    Backup(ReportSample<'a>),
}

/// `station.Station`: what a measuring station tells of itself.
#[repr(C)]
#[derive(Clone, Copy)]
pub struct Station<'a> {
    name: Text<'a>,
    level: i32,
    has_height: bool,
    height: i32,
    has_note: bool,
    note: Text<'a>,
    has_last: bool,
    last: ReportSample<'a>,
    key: Bytes<'a>,
    staffed: bool,
    power: PowerInC<'a>,
    tags_count: u64,
    samples_count: u64,
}

impl<'a> Station<'a> {
    /// The station of no fields.
    pub fn new() -> Station<'a> {
        Station {
            name: Text::new(""),
            level: 0,
            has_height: false,
            height: 0,
            has_note: false,
            note: Text::new(""),
            has_last: false,
            last: ReportSample::new("", 0.0, None),
            key: Bytes::new(&[]),
            staffed: false,
            power: PowerInC::of(None),
            tags_count: 0,
            samples_count: 0,
        }
    }

    /// The station that all of the bytes are.
    pub fn read(bytes: &'a [u8]) -> Result<Station<'a>, Refusal> {
        let mut it = MaybeUninit::uninit();
        let status = unsafe { station_read(bytes.as_ptr(), bytes.len(), it.as_mut_ptr()) };
        told(status, it)
    }

    /// The same within these limits.
    pub fn read_within(bytes: &'a [u8], limits: &Limits) -> Result<Station<'a>, Refusal> {
        let mut it = MaybeUninit::uninit();
        let (data, len) = (bytes.as_ptr(), bytes.len());
        let status = unsafe { station_read_within(data, len, limits, it.as_mut_ptr()) };
        told(status, it)
    }

    pub fn name(&self) -> &'a str {
        self.name.get()
    }

    /// The number of the level, also one that the schema does not know.
    pub fn level(&self) -> i32 {
        self.level
    }

    /// In metres above the sea.
    pub fn height(&self) -> Option<i32> {
        self.has_height.then_some(self.height)
    }

    pub fn note(&self) -> Option<&'a str> {
        self.has_note.then(|| self.note.get())
    }

    pub fn last(&self) -> Option<ReportSample<'a>> {
        self.has_last.then_some(self.last)
    }

    pub fn key(&self) -> &'a [u8] {
        self.key.get()
    }

    pub fn staffed(&self) -> bool {
        self.staffed
    }

    pub fn set_name(&mut self, name: &'a str) {
        self.name = Text::new(name);
    }

    /// Sets the number of the level, also to one that the schema does not know.
    pub fn set_level(&mut self, level: i32) {
        self.level = level;
    }

    /// Sets the metres above the sea.
    pub fn set_height(&mut self, height: Option<i32>) {
        (self.has_height, self.height) = (height.is_some(), height.unwrap_or(0));
    }

    pub fn set_note(&mut self, note: Option<&'a str>) {
        (self.has_note, self.note) = (note.is_some(), Text::new(note.unwrap_or("")));
    }

    pub fn set_last(&mut self, last: Option<ReportSample<'a>>) {
        self.has_last = last.is_some();
        self.last = last.unwrap_or_else(|| ReportSample::new("", 0.0, None));
    }

    pub fn set_key(&mut self, key: &'a [u8]) {
        self.key = Bytes::new(key);
    }

    pub fn set_staffed(&mut self, staffed: bool) {
        self.staffed = staffed;
    }

    pub fn set_power(&mut self, power: Option<StationPower<'a>>) {
        self.power = PowerInC::of(power);
    }

    /// How many bytes the shortest encoding has, with these lists.
    pub fn size(&self, lists: &StationLists<'_>) -> usize {
        // SAFETY: the structs are ones that were read or made here.
        unsafe { station_size(self, lists) }
    }

    /// Writes the shortest encoding, with these lists, at the front of the room, and says how many
    /// bytes it has.
    pub fn write(&self, lists: &StationLists<'_>, room: &mut [u8]) -> Result<usize, NoRoom> {
        let mut len = 0;
        let (data, room_len) = (room.as_mut_ptr(), room.len());
        // SAFETY: as of `size`, and the room is the caller's alone.
        let status = unsafe { station_write(self, lists, data, room_len, &mut len) };
        wrote(status, len)
    }

    /// How many bytes the shortest encoding has, with these lists, and with the unknown fields of
    /// these bytes behind it: the records of other numbers, usually of the bytes that the station
    /// was read from.
    pub fn size_keeping(&self, lists: &StationLists<'_>, bytes: &[u8]) -> Result<usize, Refusal> {
        let mut len = 0;
        let (data, bytes_len) = (bytes.as_ptr(), bytes.len());
        // SAFETY: as of `size`.
        let status = unsafe { station_size_keeping(self, lists, data, bytes_len, &mut len) };
        measured(status, len)
    }

    /// Writes that encoding at the front of the room, and says how many bytes it has.
    pub fn write_keeping(
        &self,
        lists: &StationLists<'_>,
        bytes: &[u8],
        room: &mut [u8],
    ) -> Result<usize, NotWritten> {
        let mut len = 0;
        let (data, bytes_len) = (bytes.as_ptr(), bytes.len());
        let (place, room_len) = (room.as_mut_ptr(), room.len());
        // SAFETY: as of `write`.
        let status = unsafe {
            station_write_keeping(self, lists, data, bytes_len, place, room_len, &mut len)
        };
        kept(status, len)
    }

    /// How many tags there are.
    pub fn tags_count(&self) -> u64 {
        self.tags_count
    }

    /// How many samples there are.
    pub fn samples_count(&self) -> u64 {
        self.samples_count
    }

    pub fn power(&self) -> Option<StationPower<'a>> {
        match self.power.which {
            8 => Some(StationPower::Volts(self.power.volts)),
            9 => Some(StationPower::Grid(self.power.grid.get())),
            10 => Some(StationPower::Backup(self.power.backup)),
            _ => None,
        }
    }
}

impl Default for Station<'_> {
    fn default() -> Self {
        Station::new()
    }
}

/// The lists of a station that is written.
#[repr(C)]
#[derive(Clone, Copy)]
pub struct StationLists<'a> {
    tags: List<'a, Text<'a>>,
    samples: List<'a, ReportSample<'a>>,
}

impl<'a> StationLists<'a> {
    pub fn new(tags: &'a [Text<'a>], samples: &'a [ReportSample<'a>]) -> StationLists<'a> {
        StationLists { tags: List::new(tags), samples: List::new(samples) }
    }
}

/// The tags of a station, in order, in the bytes that it was read from.
#[derive(Clone)]
pub struct Tags<'a> {
    walk: Bytes<'a>,
}

impl<'a> Tags<'a> {
    pub fn new(bytes: &'a [u8]) -> Tags<'a> {
        Tags { walk: Bytes::new(bytes) }
    }
}

impl<'a> Iterator for Tags<'a> {
    type Item = &'a str;

    /// Ends where the bytes are no station, too.
    fn next(&mut self) -> Option<&'a str> {
        let mut tag = Text::new("");
        // SAFETY: both are structs that nothing else has.
        let status = unsafe { station_next_tag(&mut self.walk, &mut tag) };
        (status == 0).then(|| tag.get())
    }
}

/// The samples of a station, in order, in the bytes that it was read from.
#[derive(Clone)]
pub struct Samples<'a> {
    walk: Bytes<'a>,
}

impl<'a> Samples<'a> {
    pub fn new(bytes: &'a [u8]) -> Samples<'a> {
        Samples { walk: Bytes::new(bytes) }
    }
}

impl<'a> Iterator for Samples<'a> {
    type Item = Result<ReportSample<'a>, Refusal>;

    /// Ends where the bytes are no station, too.
    fn next(&mut self) -> Option<Result<ReportSample<'a>, Refusal>> {
        let mut one = Bytes::new(&[]);
        // SAFETY: both are structs that nothing else has.
        let status = unsafe { station_next_sample(&mut self.walk, &mut one) };
        (status == 0).then(|| ReportSample::read(one.get()))
    }
}

extern "C" {
    fn station_read<'a>(bytes: *const u8, len: usize, it: *mut Station<'a>) -> u32;
    fn station_read_within<'a>(
        bytes: *const u8,
        len: usize,
        limits: *const Limits,
        it: *mut Station<'a>,
    ) -> u32;
    fn station_size(it: *const Station<'_>, lists: *const StationLists<'_>) -> usize;
    fn station_write(
        it: *const Station<'_>,
        lists: *const StationLists<'_>,
        room: *mut u8,
        room_len: usize,
        len: *mut usize,
    ) -> u32;
    fn station_size_keeping(
        it: *const Station<'_>,
        lists: *const StationLists<'_>,
        bytes: *const u8,
        bytes_len: usize,
        len: *mut usize,
    ) -> u32;
    fn station_write_keeping(
        it: *const Station<'_>,
        lists: *const StationLists<'_>,
        bytes: *const u8,
        bytes_len: usize,
        room: *mut u8,
        room_len: usize,
        len: *mut usize,
    ) -> u32;
    fn station_next_sample<'a>(walk: *mut Bytes<'a>, sample: *mut Bytes<'a>) -> u32;
    fn station_next_tag<'a>(walk: *mut Bytes<'a>, tag: *mut Text<'a>) -> u32;
}

const _: () = assert!(size_of::<PowerInC>() == 64);
const _: () = assert!(size_of::<Station>() == 200);
const _: () = assert!(size_of::<StationLists>() == 32);
