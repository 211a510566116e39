//! The message `report.Report`.
use crate::gtv_ffi as ffi;
#[allow(unused_imports)]
use crate::gtv_structs::{Bytes, Limits, List, NoRoom, NotWritten, Refusal, Text};
use crate::report_sample::ReportSample;
use crate::report_labels_entry::ReportLabelsEntry;
use crate::report_last_entry::ReportLastEntry;
use std::fmt;

/// The message `report.Report`.
///
/// A report, with fields of each common kind.
#[repr(C)]
#[derive(Clone, Copy)]
pub struct Report<'a> {
    host: Text<'a>,
    sent_at: u64,
    level: i32,
    samples_count: u64,
    labels_count: u64,
    last_count: u64,
    has_load: bool,
    load: f64,
    offsets_count: u64,
    ports_count: u64,
    notes_count: u64,
    signature: Bytes<'a>,
    has_worst: bool,
    worst: ReportSample<'a>,
    origin: ReportOriginHeld<'a>,
    type_: bool,
}

impl<'a> Report<'a> {
    /// The message of no records.
    pub fn new() -> Report<'a> {
        ffi::zero()
    }

    /// The message that all of the bytes are.
    pub fn read(bytes: &'a [u8]) -> Result<Report<'a>, Refusal> {
        ffi::read(bytes)
    }

    /// The same within these limits.
    pub fn read_within(bytes: &'a [u8], limits: &Limits) -> Result<Report<'a>, Refusal> {
        ffi::read_within(bytes, limits)
    }

    /// The records of these bytes that no field of the message owns, one after another, each as it
    /// came, with its tag; in bytes that are no records they end where these are none.
    pub fn unknown_records(bytes: &'a [u8]) -> impl Iterator<Item = &'a [u8]> + 'a {
        ffi::unknown_of_report(bytes)
    }

    /// How many bytes the encoding has, with these lists.
    pub fn size(&self, lists: &ReportLists<'_>) -> usize {
        ffi::size_with(self, lists)
    }

    /// Writes the encoding at the front of the room, and says how many bytes it has.
    pub fn write(&self, lists: &ReportLists<'_>, room: &mut [u8]) -> Result<usize, NoRoom> {
        ffi::write_with(self, lists, room)
    }

    /// The encoding.
    pub fn to_vec(&self, lists: &ReportLists<'_>) -> Vec<u8> {
        let mut bytes = vec![0; self.size(lists)];
        let _ = self.write(lists, &mut bytes);
        bytes
    }

    /// How many bytes the encoding has with the unknown fields of these bytes behind it:
    /// the records of other numbers, usually of the bytes that the message was read from.
    pub fn size_keeping(&self, lists: &ReportLists<'_>, bytes: &[u8]) -> Result<usize, Refusal> {
        ffi::size_keeping_with(self, lists, bytes)
    }

    /// Writes that encoding at the front of the room, and says how many bytes it has.
    pub fn write_keeping(
        &self,
        lists: &ReportLists<'_>,
        bytes: &[u8],
        room: &mut [u8],
    ) -> Result<usize, NotWritten> {
        ffi::write_keeping_with(self, lists, bytes, room)
    }

    /// That encoding.
    pub fn to_vec_keeping(
        &self,
        lists: &ReportLists<'_>,
        bytes: &[u8],
    ) -> Result<Vec<u8>, Refusal> {
        let mut room = vec![0; self.size_keeping(lists, bytes)?];
        let _ = self.write_keeping(lists, bytes, &mut room);
        Ok(room)
    }

    pub fn host(&self) -> &'a str {
        self.host.get()
    }

    pub fn set_host(&mut self, host: &'a str) {
        self.host = Text::new(host);
    }

    /// In nanoseconds since 1970.
    pub fn sent_at(&self) -> u64 {
        self.sent_at
    }

    pub fn set_sent_at(&mut self, sent_at: u64) {
        self.sent_at = sent_at;
    }

    pub fn level(&self) -> i32 {
        self.level
    }

    pub fn set_level(&mut self, level: i32) {
        self.level = level;
    }

    /// How many of `samples` there are.
    pub fn samples_count(&self) -> u64 {
        self.samples_count
    }

    /// The `samples` in bytes that were read as this message, one after another. In others they
    /// end where the bytes are no such message.
    pub fn samples(bytes: &'a [u8]) -> impl Iterator<Item = Result<ReportSample<'a>, Refusal>> + 'a {
        ffi::samples_of_report(bytes).map(ReportSample::read)
    }

    /// The same, each read within these limits, and not the default ones.
    pub fn samples_within(
        bytes: &'a [u8],
        limits: Limits,
    ) -> impl Iterator<Item = Result<ReportSample<'a>, Refusal>> + 'a {
        ffi::samples_of_report(bytes).map(move |it| ReportSample::read_within(it, &limits))
    }

    /// How many of `labels` there are.
    pub fn labels_count(&self) -> u64 {
        self.labels_count
    }

    /// The `labels` in bytes that were read as this message, one after another. In others they
    /// end where the bytes are no such message.
    pub fn labels(bytes: &'a [u8]) -> impl Iterator<Item = Result<ReportLabelsEntry<'a>, Refusal>> + 'a {
        ffi::labels_of_report(bytes).map(ReportLabelsEntry::read)
    }

    /// The same, each read within these limits, and not the default ones.
    pub fn labels_within(
        bytes: &'a [u8],
        limits: Limits,
    ) -> impl Iterator<Item = Result<ReportLabelsEntry<'a>, Refusal>> + 'a {
        ffi::labels_of_report(bytes).map(move |it| ReportLabelsEntry::read_within(it, &limits))
    }

    /// How many of `last` there are.
    pub fn last_count(&self) -> u64 {
        self.last_count
    }

    /// The `last` in bytes that were read as this message, one after another. In others they
    /// end where the bytes are no such message.
    pub fn last(bytes: &'a [u8]) -> impl Iterator<Item = Result<ReportLastEntry<'a>, Refusal>> + 'a {
        ffi::last_of_report(bytes).map(ReportLastEntry::read)
    }

    /// The same, each read within these limits, and not the default ones.
    pub fn last_within(
        bytes: &'a [u8],
        limits: Limits,
    ) -> impl Iterator<Item = Result<ReportLastEntry<'a>, Refusal>> + 'a {
        ffi::last_of_report(bytes).map(move |it| ReportLastEntry::read_within(it, &limits))
    }

    pub fn load(&self) -> Option<f64> {
        if self.has_load { Some(self.load) } else { None }
    }

    pub fn set_load(&mut self, load: Option<f64>) {
        self.has_load = load.is_some();
        if let Some(load) = load {
            self.load = load;
        }
    }

    /// How many of `offsets` there are.
    pub fn offsets_count(&self) -> u64 {
        self.offsets_count
    }

    /// The `offsets` in bytes that were read as this message, one after another. In others they
    /// end where the bytes are no such message.
    pub fn offsets(bytes: &'a [u8]) -> impl Iterator<Item = i32> + 'a {
        ffi::offsets_of_report(bytes)
    }

    /// How many of `ports` there are.
    pub fn ports_count(&self) -> u64 {
        self.ports_count
    }

    /// The `ports` in bytes that were read as this message, one after another. In others they
    /// end where the bytes are no such message.
    pub fn ports(bytes: &'a [u8]) -> impl Iterator<Item = u32> + 'a {
        ffi::ports_of_report(bytes)
    }

    /// How many of `notes` there are.
    pub fn notes_count(&self) -> u64 {
        self.notes_count
    }

    /// The `notes` in bytes that were read as this message, one after another. In others they
    /// end where the bytes are no such message.
    pub fn notes(bytes: &'a [u8]) -> impl Iterator<Item = &'a str> + 'a {
        ffi::notes_of_report(bytes).filter_map(|it| std::str::from_utf8(it).ok())
    }

    pub fn signature(&self) -> &'a [u8] {
        self.signature.get()
    }

    pub fn set_signature(&mut self, signature: &'a [u8]) {
        self.signature = Bytes::new(signature);
    }

    pub fn worst(&self) -> Option<ReportSample<'a>> {
        if self.has_worst { Some(self.worst) } else { None }
    }

    pub fn set_worst(&mut self, worst: Option<ReportSample<'a>>) {
        self.has_worst = worst.is_some();
        if let Some(worst) = worst {
            self.worst = worst;
        }
    }

    /// What the report is of.
    /// Which of `origin` stands, where one does.
    pub fn origin(&self) -> Option<ReportOrigin<'a>> {
        self.origin.get()
    }

    /// Has this one stand, or none.
    pub fn set_origin(&mut self, origin: Option<ReportOrigin<'a>>) {
        self.origin.set(origin);
    }

    /// A word of the language, as a name.
    pub fn type_(&self) -> bool {
        self.type_
    }

    pub fn set_type_(&mut self, type_: bool) {
        self.type_ = type_;
    }
}

impl Default for Report<'_> {
    fn default() -> Self {
        Report::new()
    }
}

impl fmt::Debug for Report<'_> {
    fn fmt(&self, f: &mut fmt::Formatter<'_>) -> fmt::Result {
        f.debug_struct("Report")
            .field("host", &self.host())
            .field("sent_at", &self.sent_at())
            .field("level", &self.level())
            .field("samples_count", &self.samples_count())
            .field("labels_count", &self.labels_count())
            .field("last_count", &self.last_count())
            .field("load", &self.load())
            .field("offsets_count", &self.offsets_count())
            .field("ports_count", &self.ports_count())
            .field("notes_count", &self.notes_count())
            .field("signature", &self.signature())
            .field("worst", &self.worst())
            .field("origin", &self.origin())
            .field("type_", &self.type_())
            .finish()
    }
}

/// The oneof `report.Report.origin`: the field that stands.
#[derive(Clone, Copy, Debug)]
pub enum ReportOrigin<'a> {
    File(&'a str),
    Device(u64),
    Sample(ReportSample<'a>),
}

// The same as the struct holds it.
#[repr(C)]
#[derive(Clone, Copy)]
struct ReportOriginHeld<'a> {
    which: u32,
    file: Text<'a>,
    device: u64,
    sample: ReportSample<'a>,
}

impl<'a> ReportOriginHeld<'a> {
    fn get(&self) -> Option<ReportOrigin<'a>> {
        match self.which {
            13 => Some(ReportOrigin::File(self.file.get())),
            14 => Some(ReportOrigin::Device(self.device)),
            16 => Some(ReportOrigin::Sample(self.sample)),
            _ => None,
        }
    }

    fn set(&mut self, one: Option<ReportOrigin<'a>>) {
        match one {
            Some(ReportOrigin::File(file)) => {
                self.which = 13;
                self.file = Text::new(file);
            }
            Some(ReportOrigin::Device(device)) => {
                self.which = 14;
                self.device = device;
            }
            Some(ReportOrigin::Sample(sample)) => {
                self.which = 16;
                self.sample = sample;
            }
            None => self.which = 0,
        }
    }
}

/// The lists of a [`Report`] that is written, which has nothing of them itself.
#[repr(C)]
#[derive(Clone, Copy)]
pub struct ReportLists<'a> {
    samples: List<'a, ReportSample<'a>>,
    labels: List<'a, ReportLabelsEntry<'a>>,
    last: List<'a, ReportLastEntry<'a>>,
    offsets: List<'a, i32>,
    ports: List<'a, u32>,
    notes: List<'a, Text<'a>>,
}

impl<'a> ReportLists<'a> {
    /// Each list in turn, in the order of the header, `&[]` where there is none; a string is
    /// made by `Text::new`, and `bytes` by `Bytes::new`.
    pub fn new(samples: &'a [ReportSample<'a>], labels: &'a [ReportLabelsEntry<'a>], last: &'a [ReportLastEntry<'a>], offsets: &'a [i32], ports: &'a [u32], notes: &'a [Text<'a>]) -> ReportLists<'a> {
        ReportLists { samples: List::new(samples), labels: List::new(labels), last: List::new(last), offsets: List::new(offsets), ports: List::new(ports), notes: List::new(notes) }
    }
}
