use super::{bit, has, Replica, State, Timestamp};

/// The 192 store bytes of one record.
pub type Slot = [u8; Record::VALUE_LIMIT];

/// A ring record. Its value lies in the store.
#[derive(Clone, Copy, Debug, PartialEq, Eq, Hash)]
pub struct Record {
    pub state: State,
    pub timestamp: Timestamp,
    pub last_writer: u8,
    pub last_write: Timestamp,
    /// The replicas whose acknowledgement has come.
    pub acks: u16,
    /// Length of the value.
    pub len: u8,
}

impl Record {
    /// A value holds at most this many bytes.
    pub const VALUE_LIMIT: usize = 192;
    /// A replica has at most this many records.
    pub const COUNT_LIMIT: usize = 4096;

    /// The record after a fresh start, given the lowest number in the view.
    pub const fn fresh(lowest: u8) -> Record {
        let timestamp = Timestamp::new(0, lowest);
        Record {
            state: State::Valid,
            timestamp,
            last_writer: lowest,
            last_write: timestamp,
            acks: 0,
            len: 0,
        }
    }

    /// 01, question 5, for the replica of this number.
    pub fn is_sound(&self, number: u8) -> bool {
        usize::from(self.len) <= Record::VALUE_LIMIT
            && self.timestamp.tie <= Replica::NUMBER_LIMIT
            && self.last_write.tie <= Replica::NUMBER_LIMIT
            && self.last_writer <= Replica::NUMBER_LIMIT
            && !has(self.acks, number)
    }

    /// The value, as a part of the record's slot. Decision: a length above 192
    /// gives the empty part.
    pub fn value<'a>(&self, slot: &'a Slot) -> &'a [u8] {
        slot.get(..usize::from(self.len)).unwrap_or_default()
    }

    // The moves, each on the record's own value. Their questions are asked in
    // `steps`.

    /// 01, "Write", also that of a commit, for a value of this length. The version is not the last.
    pub(super) fn written(self, number: u8, len: u8) -> Record {
        let timestamp = Timestamp::new(self.timestamp.version + 1, number);
        Record {
            state: State::Write,
            timestamp,
            last_writer: number,
            last_write: timestamp,
            acks: 0,
            len,
        }
    }

    /// 01, "Replay". From invalid-write it gives up the overtaken write of this
    /// replica's (02, Wish 2): its stamp and its acknowledgements are gone.
    pub(super) fn replayed(self, number: u8) -> Record {
        Record {
            state: State::Replay,
            last_writer: number,
            last_write: self.timestamp,
            acks: 0,
            ..self
        }
    }

    /// 01, "Deliver INV", for a greater stamp.
    pub(super) fn invalidated(self, sender: u8, timestamp: Timestamp, len: u8) -> Record {
        Record {
            state: self.state.invalidated(),
            timestamp,
            last_writer: sender,
            len,
            ..self
        }
    }

    /// 01, "Deliver ACK". The last one validates as well: see `steps`.
    pub(super) fn acknowledged(self, sender: u8) -> Record {
        Record {
            acks: self.acks | bit(sender),
            ..self
        }
    }

    /// 01, "Deliver VAL" and "Validate".
    pub(super) fn validated(self) -> Record {
        Record {
            state: State::Valid,
            ..self
        }
    }
}
