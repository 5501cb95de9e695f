//! Refusals: the questions of document 01, and of document 02's Wishes, by number.

use std::fmt;

use super::Message;

/// The question that an event or a packet fails. The discriminant is its
/// number in the documents.
#[derive(Clone, Copy, Debug, PartialEq, Eq, Hash)]
#[repr(u8)]
pub enum Refusal {
    /// Number above 15, or fewer than two replicas in the view.
    NoGroup = 1,
    /// Not 1 to 4,096 records with 192 store bytes for each.
    LentMemory = 2,
    /// The replica is not in its own view.
    StruckOff = 3,
    /// The record number is not below the count.
    StrayRecord = 4,
    /// The record is unsound.
    UnsoundRecord = 5,
    /// Read of a record that is not valid.
    NotReadable = 6,
    /// Write to a record that is neither valid nor invalid.
    NotWritable = 7,
    /// Write of more than 192 bytes.
    ValueTooLong = 8,
    /// Write at the last version.
    LastVersion = 9,
    /// The message is of another epoch.
    OtherEpoch = 10,
    /// The sender is outside the view, or this replica itself.
    OtherSender = 11,
    /// Tie-breaker above 15, or a body of the wrong length for the kind.
    IllFormed = 12,
    /// The acknowledgement is not awaited.
    StrayAck = 13,
    /// The validation does not fit the record.
    StrayVal = 14,
    /// Validate without all acknowledgements, or in the wrong state.
    NotFinished = 15,
    /// Replay while neither invalid nor invalid-write, or with the last writer
    /// still in the view.
    NotReplayable = 16,
    /// Nothing of this replica's to resend.
    NotResendable = 17,
    /// The new epoch is not greater.
    OldEpoch = 18,
    /// The new view is not within the old, or too small.
    ViewNotWithin = 19,
    /// Packet's first four bytes.
    PacketHead = 20,
    /// Packet's contents table is cut short.
    PacketContents = 21,
    /// Some entry of the packet's contents is not good.
    PacketEntry = 22,
    /// The packet has no message of that index.
    PacketIndex = 23,
    /// The messages to write do not make a packet.
    PacketMessages = 24,
    /// The packet to write is too long.
    PacketRoom = 25,
    /// Commit on a record that is not valid, or not with the stamp that it was
    /// opened with (02, Wish 5).
    NotAsOpened = 26,
    /// The packet is of the rule of ties that the group does not have (02, Wish
    /// 6).
    OtherRule = 27,
}

impl Refusal {
    /// Its number in the documents.
    pub const fn number(self) -> u8 {
        self as u8
    }
}

impl fmt::Display for Refusal {
    fn fmt(&self, f: &mut fmt::Formatter<'_>) -> fmt::Result {
        write!(f, "refused by question {}", self.number())
    }
}

impl std::error::Error for Refusal {}

/// An event's answer: accepted with the message that leaves, or refused.
pub type Answer = Result<Option<Message>, Refusal>;

/// The answer as document 01 counts it: 0, or the number of the refusal.
pub fn number<T>(answer: &Result<T, Refusal>) -> u8 {
    match answer {
        Ok(_) => 0,
        Err(refusal) => refusal.number(),
    }
}

/// Asks one question: a "no" ends the event with its refusal.
pub(crate) fn ask(yes: bool, refusal: Refusal) -> Result<(), Refusal> {
    if yes {
        Ok(())
    } else {
        Err(refusal)
    }
}
