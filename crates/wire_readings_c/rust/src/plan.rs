//! The message `readings.Plan`.
use crate::gtv_ffi as ffi;
#[allow(unused_imports)]
use crate::gtv_structs::{Bytes, Limits, List, NoRoom, NotWritten, Refusal, Text};
use crate::visit::Visit;
use crate::point::Point;
use std::fmt;

/// The message `readings.Plan`.
///
/// Visits, which have oneofs, inside and in a list; and a oneof of messages alone.
#[repr(C)]
#[derive(Clone, Copy)]
pub struct Plan<'a> {
    has_next: bool,
    next: Visit<'a>,
    done_count: u64,
    last: PlanLastHeld<'a>,
    count: PlanCountHeld<'a>,
}

impl<'a> Plan<'a> {
    /// The message of no records.
    pub fn new() -> Plan<'a> {
        ffi::zero()
    }

    /// The message that all of the bytes are.
    pub fn read(bytes: &'a [u8]) -> Result<Plan<'a>, Refusal> {
        ffi::read(bytes)
    }

    /// The same within these limits.
    pub fn read_within(bytes: &'a [u8], limits: &Limits) -> Result<Plan<'a>, Refusal> {
        ffi::read_within(bytes, limits)
    }

    /// The records of these bytes that no field of the message owns, one after another, each as it
    /// came, with its tag; in bytes that are no records they end where these are none.
    pub fn unknown_records(bytes: &'a [u8]) -> impl Iterator<Item = &'a [u8]> + 'a {
        ffi::unknown_of_plan(bytes)
    }

    /// How many bytes the encoding has, with these lists.
    pub fn size(&self, lists: &PlanLists<'_>) -> usize {
        ffi::size_with(self, lists)
    }

    /// Writes the encoding at the front of the room, and says how many bytes it has.
    pub fn write(&self, lists: &PlanLists<'_>, room: &mut [u8]) -> Result<usize, NoRoom> {
        ffi::write_with(self, lists, room)
    }

    /// The encoding.
    pub fn to_vec(&self, lists: &PlanLists<'_>) -> Vec<u8> {
        let mut bytes = vec![0; self.size(lists)];
        let _ = self.write(lists, &mut bytes);
        bytes
    }

    /// How many bytes the encoding has with the unknown fields of these bytes behind it:
    /// the records of other numbers, usually of the bytes that the message was read from.
    pub fn size_keeping(&self, lists: &PlanLists<'_>, bytes: &[u8]) -> Result<usize, Refusal> {
        ffi::size_keeping_with(self, lists, bytes)
    }

    /// Writes that encoding at the front of the room, and says how many bytes it has.
    pub fn write_keeping(
        &self,
        lists: &PlanLists<'_>,
        bytes: &[u8],
        room: &mut [u8],
    ) -> Result<usize, NotWritten> {
        ffi::write_keeping_with(self, lists, bytes, room)
    }

    /// That encoding.
    pub fn to_vec_keeping(
        &self,
        lists: &PlanLists<'_>,
        bytes: &[u8],
    ) -> Result<Vec<u8>, Refusal> {
        let mut room = vec![0; self.size_keeping(lists, bytes)?];
        let _ = self.write_keeping(lists, bytes, &mut room);
        Ok(room)
    }

    pub fn next(&self) -> Option<Visit<'a>> {
        if self.has_next { Some(self.next) } else { None }
    }

    pub fn set_next(&mut self, next: Option<Visit<'a>>) {
        self.has_next = next.is_some();
        if let Some(next) = next {
            self.next = next;
        }
    }

    /// How many of `done` there are.
    pub fn done_count(&self) -> u64 {
        self.done_count
    }

    /// The `done` in bytes that were read as this message, one after another. In others they
    /// end where the bytes are no such message.
    pub fn done(bytes: &'a [u8]) -> impl Iterator<Item = Result<Visit<'a>, Refusal>> + 'a {
        ffi::done_of_plan(bytes).map(Visit::read)
    }

    /// The same, each read within these limits, and not the default ones.
    pub fn done_within(
        bytes: &'a [u8],
        limits: Limits,
    ) -> impl Iterator<Item = Result<Visit<'a>, Refusal>> + 'a {
        ffi::done_of_plan(bytes).map(move |it| Visit::read_within(it, &limits))
    }

    /// Which of `last` stands, where one does.
    pub fn last(&self) -> Option<PlanLast<'a>> {
        self.last.get()
    }

    /// Has this one stand, or none.
    pub fn set_last(&mut self, last: Option<PlanLast<'a>>) {
        self.last.set(last);
    }

    /// Which of `count` stands, where one does.
    pub fn count(&self) -> Option<PlanCount> {
        self.count.get()
    }

    /// Has this one stand, or none.
    pub fn set_count(&mut self, count: Option<PlanCount>) {
        self.count.set(count);
    }
}

impl Default for Plan<'_> {
    fn default() -> Self {
        Plan::new()
    }
}

impl fmt::Debug for Plan<'_> {
    fn fmt(&self, f: &mut fmt::Formatter<'_>) -> fmt::Result {
        f.debug_struct("Plan")
            .field("next", &self.next())
            .field("done_count", &self.done_count())
            .field("last", &self.last())
            .field("count", &self.count())
            .finish()
    }
}

/// The oneof `readings.Plan.last`: the field that stands.
#[derive(Clone, Copy, Debug)]
pub enum PlanLast<'a> {
    Visit(Visit<'a>),
    Place(Point<'a>),
}

// The same as the struct holds it.
#[repr(C)]
#[derive(Clone, Copy)]
struct PlanLastHeld<'a> {
    which: u32,
    visit: Visit<'a>,
    place: Point<'a>,
}

impl<'a> PlanLastHeld<'a> {
    fn get(&self) -> Option<PlanLast<'a>> {
        match self.which {
            3 => Some(PlanLast::Visit(self.visit)),
            4 => Some(PlanLast::Place(self.place)),
            _ => None,
        }
    }

    fn set(&mut self, one: Option<PlanLast<'a>>) {
        match one {
            Some(PlanLast::Visit(visit)) => {
                self.which = 3;
                self.visit = visit;
            }
            Some(PlanLast::Place(place)) => {
                self.which = 4;
                self.place = place;
            }
            None => self.which = 0,
        }
    }
}

/// The oneof `readings.Plan.count`: the field that stands.
#[derive(Clone, Copy, Debug)]
pub enum PlanCount {
    Exactly(i64),
    About(u32),
}

// The same as the struct holds it.
#[repr(C)]
#[derive(Clone, Copy)]
struct PlanCountHeld<'a> {
    which: u32,
    exactly: i64,
    about: u32,
    no_bytes: Bytes<'a>,
}

impl<'a> PlanCountHeld<'a> {
    fn get(&self) -> Option<PlanCount> {
        match self.which {
            5 => Some(PlanCount::Exactly(self.exactly)),
            6 => Some(PlanCount::About(self.about)),
            _ => None,
        }
    }

    fn set(&mut self, one: Option<PlanCount>) {
        match one {
            Some(PlanCount::Exactly(exactly)) => {
                self.which = 5;
                self.exactly = exactly;
            }
            Some(PlanCount::About(about)) => {
                self.which = 6;
                self.about = about;
            }
            None => self.which = 0,
        }
    }
}

/// The lists of a [`Plan`] that is written, which has nothing of them itself.
#[repr(C)]
#[derive(Clone, Copy)]
pub struct PlanLists<'a> {
    done: List<'a, Visit<'a>>,
}

impl<'a> PlanLists<'a> {
    /// Each list in turn, in the order of the header, `&[]` where there is none; a string is
    /// made by `Text::new`, and `bytes` by `Bytes::new`.
    pub fn new(done: &'a [Visit<'a>]) -> PlanLists<'a> {
        PlanLists { done: List::new(done) }
    }
}
