//! The last events on each record, for the report of a failed check.

use std::collections::VecDeque;
use std::fmt;

use cetskobi::{Envelope, Members, Message, Record, Refusal};

use crate::Tick;

/// The kinds of events.
#[derive(Clone, Copy, Debug, PartialEq, Eq)]
pub(crate) enum Kind {
    Ask,
    Commit,
    Write,
    Deliver,
    Validate,
    Replay,
    Resend,
    View,
}

impl Kind {
    pub const ALL: [Kind; 8] = [
        Kind::Ask,
        Kind::Commit,
        Kind::Write,
        Kind::Deliver,
        Kind::Validate,
        Kind::Replay,
        Kind::Resend,
        Kind::View,
    ];

    pub const fn name(self) -> &'static str {
        match self {
            Kind::Ask => "ask",
            Kind::Commit => "commit",
            Kind::Write => "write",
            Kind::Deliver => "deliver",
            Kind::Validate => "validate",
            Kind::Replay => "replay",
            Kind::Resend => "resend",
            Kind::View => "view",
        }
    }
}

/// What an event answered.
pub(crate) type Answer = Result<Option<Envelope>, Refusal>;

/// An event on a record, or a view.
#[derive(Clone, Copy, Debug)]
pub(crate) struct Event {
    pub tick: Tick,
    pub laptop: u8,
    pub kind: Kind,
    /// The message that was delivered.
    pub came: Option<Envelope>,
    pub answer: Answer,
    /// The laptop's epoch and view after it.
    pub epoch: u32,
    pub view: Members,
    /// The record after it.
    pub after: Option<Record>,
}

impl fmt::Display for Event {
    fn fmt(&self, f: &mut fmt::Formatter<'_>) -> fmt::Result {
        write!(
            f,
            "tick {:>5}  laptop {:>2}  {}",
            self.tick,
            self.laptop,
            self.kind.name()
        )?;
        if let Some(e) = self.came {
            write!(f, " {} of epoch {} from {}", e.message, e.epoch, e.sender)?;
        }
        match &self.answer {
            Err(refusal) => write!(f, ": refused by {}", refusal.number())?,
            Ok(_) if self.kind == Kind::View => write!(f, ": epoch {} {}", self.epoch, self.view)?,
            Ok(None) => write!(f, ": accepted")?,
            Ok(Some(left)) => write!(f, ": {} leaves", left.message)?,
        }
        match self.after {
            Some(r) => write!(f, "; now {} {}", r.state, r.timestamp),
            None => Ok(()),
        }
    }
}

/// The last events on each record.
pub(crate) struct History {
    records: Vec<VecDeque<Event>>,
    views: Vec<Event>,
}

/// So many events are kept for a record.
const KEPT: usize = 40;

impl History {
    pub fn new(records: usize) -> History {
        History {
            records: vec![VecDeque::new(); records],
            views: Vec::new(),
        }
    }

    pub fn on_record(&mut self, record: usize, event: Event) {
        let Some(events) = self.records.get_mut(record) else {
            return;
        };
        // Repeats of a message that change nothing would push the rest out.
        let stale = matches!(event.answer, Err(Refusal::StrayAck | Refusal::StrayVal));
        if stale {
            return;
        }
        if events.len() == KEPT {
            events.pop_front();
        }
        events.push_back(event);
    }

    pub fn on_view(&mut self, event: Event) {
        self.views.push(event);
    }

    /// The last events on the record and the views among them, in order, as lines.
    pub fn of(&self, record: usize) -> Vec<String> {
        let Some(events) = self.records.get(record) else {
            return Vec::new();
        };
        let from = events.front().map_or(0, |e| e.tick);
        let views = self.views.iter().filter(|v| v.tick >= from);
        let mut all: Vec<&Event> = views.chain(events).collect();
        all.sort_by_key(|e| e.tick);
        all.iter().map(ToString::to_string).collect()
    }
}

/// Which of three a message is, for counting: INV, ACK, VAL.
pub(crate) const fn kind_of(message: Message) -> usize {
    message.kind() as usize - 1
}
