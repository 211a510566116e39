//! The message `readings.Visit`.
use crate::gtv_ffi as ffi;
use crate::gtv_structs::{Bytes, Limits, NoRoom, NotWritten, Refusal, Text};
use crate::reading::Reading;
use crate::point::Point;
use std::fmt;

/// The message `readings.Visit`.
///
/// Why somebody goes to a sensor: a oneof of several kinds, among other fields, and one of one.
#[repr(C)]
#[derive(Clone, Copy)]
pub struct Visit<'a> {
    by: Text<'a>,
    cause: VisitCauseHeld<'a>,
    has_minutes: bool,
    minutes: u32,
    outcome: VisitOutcomeHeld<'a>,
    has_at: bool,
    at: Point<'a>,
}

impl<'a> Visit<'a> {
    /// The message of no records.
    pub fn new() -> Visit<'a> {
        ffi::zero()
    }

    /// The message that all of the bytes are.
    pub fn read(bytes: &'a [u8]) -> Result<Visit<'a>, Refusal> {
        ffi::read(bytes)
    }

    /// The same within these limits.
    pub fn read_within(bytes: &'a [u8], limits: &Limits) -> Result<Visit<'a>, Refusal> {
        ffi::read_within(bytes, limits)
    }

    /// The records of these bytes that no field of the message owns, one after another, each as it
    /// came, with its tag; in bytes that are no records they end where these are none.
    pub fn unknown_records(bytes: &'a [u8]) -> impl Iterator<Item = &'a [u8]> + 'a {
        ffi::unknown_of_visit(bytes)
    }

    /// How many bytes the encoding has.
    pub fn size(&self) -> usize {
        ffi::size(self)
    }

    /// Writes the encoding at the front of the room, and says how many bytes it has.
    pub fn write(&self, room: &mut [u8]) -> Result<usize, NoRoom> {
        ffi::write(self, room)
    }

    /// The encoding.
    pub fn to_vec(&self) -> Vec<u8> {
        let mut bytes = vec![0; self.size()];
        let _ = self.write(&mut bytes);
        bytes
    }

    /// How many bytes the encoding has with the unknown fields of these bytes behind it:
    /// the records of other numbers, usually of the bytes that the message was read from.
    pub fn size_keeping(&self, bytes: &[u8]) -> Result<usize, Refusal> {
        ffi::size_keeping(self, bytes)
    }

    /// Writes that encoding at the front of the room, and says how many bytes it has.
    pub fn write_keeping(&self, bytes: &[u8], room: &mut [u8]) -> Result<usize, NotWritten> {
        ffi::write_keeping(self, bytes, room)
    }

    /// That encoding.
    pub fn to_vec_keeping(&self, bytes: &[u8]) -> Result<Vec<u8>, Refusal> {
        let mut room = vec![0; self.size_keeping(bytes)?];
        let _ = self.write_keeping(bytes, &mut room);
        Ok(room)
    }

    pub fn by(&self) -> &'a str {
        self.by.get()
    }

    pub fn set_by(&mut self, by: &'a str) {
        self.by = Text::new(by);
    }

    /// What it is for.
    /// Which of `cause` stands, where one does.
    pub fn cause(&self) -> Option<VisitCause<'a>> {
        self.cause.get()
    }

    /// Has this one stand, or none.
    pub fn set_cause(&mut self, cause: Option<VisitCause<'a>>) {
        self.cause.set(cause);
    }

    pub fn minutes(&self) -> Option<u32> {
        if self.has_minutes { Some(self.minutes) } else { None }
    }

    pub fn set_minutes(&mut self, minutes: Option<u32>) {
        self.has_minutes = minutes.is_some();
        if let Some(minutes) = minutes {
            self.minutes = minutes;
        }
    }

    /// Which of `outcome` stands, where one does.
    pub fn outcome(&self) -> Option<VisitOutcome> {
        self.outcome.get()
    }

    /// Has this one stand, or none.
    pub fn set_outcome(&mut self, outcome: Option<VisitOutcome>) {
        self.outcome.set(outcome);
    }

    pub fn at(&self) -> Option<Point<'a>> {
        if self.has_at { Some(self.at) } else { None }
    }

    pub fn set_at(&mut self, at: Option<Point<'a>>) {
        self.has_at = at.is_some();
        if let Some(at) = at {
            self.at = at;
        }
    }
}

impl Default for Visit<'_> {
    fn default() -> Self {
        Visit::new()
    }
}

impl fmt::Debug for Visit<'_> {
    fn fmt(&self, f: &mut fmt::Formatter<'_>) -> fmt::Result {
        f.debug_struct("Visit")
            .field("by", &self.by())
            .field("cause", &self.cause())
            .field("minutes", &self.minutes())
            .field("outcome", &self.outcome())
            .field("at", &self.at())
            .finish()
    }
}

/// The oneof `readings.Visit.cause`: the field that stands.
#[derive(Clone, Copy, Debug)]
pub enum VisitCause<'a> {
    State_(i32),
    Limit(f64),
    Complaint(&'a str),
    Reading(Reading<'a>),
    Order(&'a [u8]),
    Shift(i32),
}

// The same as the struct holds it.
#[repr(C)]
#[derive(Clone, Copy)]
struct VisitCauseHeld<'a> {
    which: u32,
    state: i32,
    limit: f64,
    complaint: Text<'a>,
    reading: Reading<'a>,
    order: Bytes<'a>,
    shift: i32,
}

impl<'a> VisitCauseHeld<'a> {
    fn get(&self) -> Option<VisitCause<'a>> {
        match self.which {
            2 => Some(VisitCause::State_(self.state)),
            3 => Some(VisitCause::Limit(self.limit)),
            4 => Some(VisitCause::Complaint(self.complaint.get())),
            6 => Some(VisitCause::Reading(self.reading)),
            8 => Some(VisitCause::Order(self.order.get())),
            10 => Some(VisitCause::Shift(self.shift)),
            _ => None,
        }
    }

    fn set(&mut self, one: Option<VisitCause<'a>>) {
        match one {
            Some(VisitCause::State_(state)) => {
                self.which = 2;
                self.state = state;
            }
            Some(VisitCause::Limit(limit)) => {
                self.which = 3;
                self.limit = limit;
            }
            Some(VisitCause::Complaint(complaint)) => {
                self.which = 4;
                self.complaint = Text::new(complaint);
            }
            Some(VisitCause::Reading(reading)) => {
                self.which = 6;
                self.reading = reading;
            }
            Some(VisitCause::Order(order)) => {
                self.which = 8;
                self.order = Bytes::new(order);
            }
            Some(VisitCause::Shift(shift)) => {
                self.which = 10;
                self.shift = shift;
            }
            None => self.which = 0,
        }
    }
}

/// The oneof `readings.Visit.outcome`: the field that stands.
#[derive(Clone, Copy, Debug)]
pub enum VisitOutcome {
    IsDone(bool),
}

// The same as the struct holds it.
#[repr(C)]
#[derive(Clone, Copy)]
struct VisitOutcomeHeld<'a> {
    which: u32,
    is_done: bool,
    no_bytes: Bytes<'a>,
}

impl<'a> VisitOutcomeHeld<'a> {
    fn get(&self) -> Option<VisitOutcome> {
        match self.which {
            7 => Some(VisitOutcome::IsDone(self.is_done)),
            _ => None,
        }
    }

    fn set(&mut self, one: Option<VisitOutcome>) {
        match one {
            Some(VisitOutcome::IsDone(is_done)) => {
                self.which = 7;
                self.is_done = is_done;
            }
            None => self.which = 0,
        }
    }
}
