use super::{Record, Replica, Timestamp};

/// A message: one of three kinds with its own stamp.
#[derive(Clone, Copy, Debug, PartialEq, Eq, Hash)]
pub enum Message {
    /// Invalidation. Its body is the record's value.
    Inv(Timestamp),
    /// Acknowledgement of an invalidation.
    Ack(Timestamp),
    /// Validation.
    Val(Timestamp),
}

impl Message {
    pub const fn timestamp(self) -> Timestamp {
        match self {
            Message::Inv(timestamp) | Message::Ack(timestamp) | Message::Val(timestamp) => {
                timestamp
            }
        }
    }

    /// 01, question 12, and its like in 22 and 24: tie-breaker at most 15, and
    /// at most 192 body bytes for an INV, none otherwise.
    pub(crate) fn is_well_formed(self, body_len: usize) -> bool {
        let limit = match self {
            Message::Inv(_) => Record::VALUE_LIMIT,
            Message::Ack(_) | Message::Val(_) => 0,
        };
        self.timestamp().tie <= Replica::NUMBER_LIMIT && body_len <= limit
    }
}

/// A message with what it carries on its way: its sender's number and epoch,
/// and the record's number. The body travels beside it.
#[derive(Clone, Copy, Debug, PartialEq, Eq, Hash)]
pub struct Envelope {
    pub sender: u8,
    pub epoch: u32,
    pub record: usize,
    pub message: Message,
}
