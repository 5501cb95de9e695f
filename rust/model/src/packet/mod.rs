//! Packets (01, "Packets"): several messages with their bodies in at most
//! 1,400 bytes, big-endian, contents first. Byte 0 names the group's rule of
//! ties (02, Wish 6), so reading and writing take that rule.

mod read;
mod write;

pub use read::{accept, deliver, fetch, Accepted};
pub use write::write;

use crate::engine::{Envelope, Record, Replica};

/// A packet has at most this many bytes.
pub const PACKET_LIMIT: usize = 1400;
/// A packet has at most this many messages.
pub const COUNT_LIMIT: usize = 64;

/// Bytes before the contents.
const HEAD: usize = 4;
/// Bytes of one message in the contents.
const ENTRY: usize = 16;

/// One line of the contents: a message and the length of its body.
#[derive(Clone, Copy, Debug, PartialEq, Eq, Hash)]
pub struct Entry {
    pub envelope: Envelope,
    pub len: u8,
}

impl Entry {
    /// 01, question 22, but for the kind and the offset: sender and tie-breaker
    /// at most 15, record at most 4,095, length at most 192 and 0 unless INV.
    fn is_good(&self) -> bool {
        self.envelope.sender <= Replica::NUMBER_LIMIT
            && self.envelope.record < Record::COUNT_LIMIT
            && self.envelope.message.is_well_formed(usize::from(self.len))
    }
}
