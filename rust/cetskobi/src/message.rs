//! Messages between the laptops of a group.

use std::fmt;

use crate::sys;
use crate::Timestamp;

/// A message: one of three kinds, with its timestamp. Later versions may have
/// more kinds.
#[derive(Clone, Copy, Debug, PartialEq, Eq, Hash)]
#[non_exhaustive]
pub enum Message {
    /// Invalidation: a value was written or is replayed. It takes the record's
    /// value along, and goes to all others in the view.
    Inv(Timestamp),
    /// Acknowledgement of an invalidation, for its sender.
    Ack(Timestamp),
    /// Validation: every laptop in the sender's view has the value. It goes to
    /// all others in the view.
    Val(Timestamp),
}

impl Message {
    /// Its timestamp.
    pub const fn timestamp(self) -> Timestamp {
        match self {
            Message::Inv(t) | Message::Ack(t) | Message::Val(t) => t,
        }
    }

    /// Its kind as it stands in packets: 1 INV, 2 ACK, 3 VAL.
    pub const fn kind(self) -> u8 {
        match self {
            Message::Inv(_) => 1,
            Message::Ack(_) => 2,
            Message::Val(_) => 3,
        }
    }

    /// The name of its kind: INV, ACK or VAL.
    pub const fn name(self) -> &'static str {
        match self {
            Message::Inv(_) => "INV",
            Message::Ack(_) => "ACK",
            Message::Val(_) => "VAL",
        }
    }

    /// The message of this kind; the kind 0, and any unknown one, is none.
    pub(crate) const fn of(kind: u8, version: u32, tie: u8) -> Option<Message> {
        let timestamp = Timestamp { version, tie };
        match kind {
            1 => Some(Message::Inv(timestamp)),
            2 => Some(Message::Ack(timestamp)),
            3 => Some(Message::Val(timestamp)),
            _ => None,
        }
    }
}

impl fmt::Display for Message {
    /// As in document 01: `INV (1,5)`.
    fn fmt(&self, f: &mut fmt::Formatter<'_>) -> fmt::Result {
        write!(f, "{} {}", self.name(), self.timestamp())
    }
}

/// A message on its way, without the bytes that an INV takes along:
/// [`Leaving`](crate::Leaving) and [`Arriving`](crate::Arriving) have both together.
#[derive(Clone, Copy, Debug, PartialEq, Eq, Hash)]
pub struct Envelope {
    /// The number of the laptop that sent it.
    pub sender: u8,
    /// The sender's epoch when it was sent.
    pub epoch: u32,
    /// The number of the record that it is about.
    pub record: usize,
    /// The message.
    pub message: Message,
}

impl Envelope {
    pub(crate) const fn to_raw(self) -> sys::Message {
        let timestamp = self.message.timestamp();
        sys::Message {
            kind: self.message.kind(),
            sender: self.sender,
            tie: timestamp.tie,
            epoch: self.epoch,
            version: timestamp.version,
        }
    }
}
