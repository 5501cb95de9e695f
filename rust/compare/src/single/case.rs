use cetskobi::raw::{Message, Replica, RECORD_BYTES};
use model::engine::Record;

use crate::bytes::Bytes;
use crate::crossing::Fields;

/// An event of document 01 or of document 02's Wish 5, with what it takes along.
#[derive(Clone, Debug, PartialEq)]
pub enum Event {
    Start,
    View { epoch: u32, set: u16 },
    Read,
    Write { value: Bytes },
    Ask,
    Commit { opened: (u32, u8), value: Bytes },
    Replay,
    Deliver { message: Message, value: Bytes },
    Validate,
    Resend,
}

/// The kinds of events as they are counted.
#[derive(Clone, Copy, Debug, PartialEq, Eq, PartialOrd, Ord)]
pub enum Kind {
    Start,
    View,
    Read,
    Write,
    Ask,
    Commit,
    Replay,
    Inv,
    Ack,
    Val,
    /// A delivery of no known kind.
    Unknown,
    Validate,
    Resend,
}

impl Event {
    /// The value that comes with the event.
    pub fn value(&self) -> Option<&Bytes> {
        match self {
            Event::Write { value } | Event::Commit { value, .. } => Some(value),
            Event::Deliver { value, .. } => Some(value),
            _ => None,
        }
    }

    pub fn value_mut(&mut self) -> Option<&mut Bytes> {
        match self {
            Event::Write { value } | Event::Commit { value, .. } => Some(value),
            Event::Deliver { value, .. } => Some(value),
            _ => None,
        }
    }
}

impl Kind {
    pub const ALL: [Kind; 13] = [
        Kind::Start,
        Kind::View,
        Kind::Read,
        Kind::Write,
        Kind::Ask,
        Kind::Commit,
        Kind::Replay,
        Kind::Inv,
        Kind::Ack,
        Kind::Val,
        Kind::Unknown,
        Kind::Validate,
        Kind::Resend,
    ];

    /// The numbers that this event can answer (01, "The questions, in order", and
    /// 02, Wish 5).
    pub fn answers(self) -> &'static [usize] {
        match self {
            Kind::Start => &[0, 1, 2, 3],
            Kind::View => &[0, 1, 3, 18, 19],
            Kind::Read => &[0, 1, 2, 3, 4, 5, 6],
            Kind::Write => &[0, 1, 2, 3, 4, 5, 7, 8, 9],
            Kind::Ask => &[0, 1, 2, 3, 4, 5, 6],
            Kind::Commit => &[0, 1, 2, 3, 4, 5, 26, 8, 9],
            Kind::Replay => &[0, 1, 2, 3, 4, 5, 16],
            Kind::Inv => &[0, 1, 2, 3, 4, 5, 10, 11, 12],
            Kind::Ack => &[0, 1, 2, 3, 4, 5, 10, 11, 12, 13],
            Kind::Val => &[0, 1, 2, 3, 4, 5, 10, 11, 12, 14],
            Kind::Unknown => &[1, 2, 3, 4, 5, 10, 11, 12],
            Kind::Validate => &[0, 1, 2, 3, 4, 5, 15],
            Kind::Resend => &[0, 1, 2, 3, 4, 5, 17],
        }
    }
}

/// An event, and what is lent to it.
#[derive(Clone, Debug, PartialEq)]
pub struct Case {
    pub me: Replica,
    /// How many bytes are lent, as table and as store.
    pub table: usize,
    pub store: usize,
    /// The part of the pool that lies in the other records.
    pub part: usize,
    /// The named record, its fields and its 192 bytes, if it is there.
    pub i: usize,
    pub record: Fields,
    pub slot: Bytes,
    pub event: Event,
}

impl Case {
    /// An event on memory that is laid out elsewhere.
    pub fn on(me: Replica, i: usize, event: Event) -> Case {
        Case {
            me,
            table: 0,
            store: 0,
            part: 0,
            i,
            record: Fields::default(),
            slot: Bytes::default(),
            event,
        }
    }

    pub fn kind(&self) -> Kind {
        match &self.event {
            Event::Start => Kind::Start,
            Event::View { .. } => Kind::View,
            Event::Read => Kind::Read,
            Event::Write { .. } => Kind::Write,
            Event::Ask => Kind::Ask,
            Event::Commit { .. } => Kind::Commit,
            Event::Replay => Kind::Replay,
            Event::Deliver { message, .. } => match message.kind {
                1 => Kind::Inv,
                2 => Kind::Ack,
                3 => Kind::Val,
                _ => Kind::Unknown,
            },
            Event::Validate => Kind::Validate,
            Event::Resend => Kind::Resend,
        }
    }

    /// Memory for so many records.
    pub fn lend(&mut self, records: usize) {
        self.table = RECORD_BYTES * records;
        self.store = Record::VALUE_LIMIT * records;
    }
}
