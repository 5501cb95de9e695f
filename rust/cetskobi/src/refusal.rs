//! Refusals: the questions of documents 01 and 02 by number.

use std::error::Error;
use std::fmt;

/// Why an event or a packet was refused: the first question of document 01, or
/// from 26 on of document 02, whose answer is no. A refused event has changed
/// nothing. Later versions may have more: document 02 announces 28 to 37.
#[derive(Clone, Copy, Debug, PartialEq, Eq, Hash, PartialOrd, Ord)]
#[non_exhaustive]
#[repr(u8)]
pub enum Refusal {
    /// 1: the laptop's number is above 15, or its view has fewer than two.
    NoGroup = 1,
    /// 2: not 1 to 4,096 records, or not exactly 192 bytes of store for each.
    LentMemory = 2,
    /// 3: the laptop is not in its own view: struck off, or left out of its first.
    StruckOff = 3,
    /// 4: no record has that number.
    StrayRecord = 4,
    /// 5: what stands in the table there is no sound record.
    UnsoundRecord = 5,
    /// 6: a read of a record that is not valid, or an ask for it.
    NotReadable = 6,
    /// 7: a write to a record that is neither valid nor invalid.
    NotWritable = 7,
    /// 8: a write or commit of more than 192 bytes.
    ValueTooLong = 8,
    /// 9: a write or commit to a record at the last version.
    LastVersion = 9,
    /// 10: a message of another epoch.
    OtherEpoch = 10,
    /// 11: a message from outside the view, or from the laptop itself.
    OtherSender = 11,
    /// 12: a message of none of the three kinds (only [`raw`](crate::raw) takes
    /// one), with a tie-breaker above 15, or with bytes that do not fit its kind.
    IllFormed = 12,
    /// 13: an acknowledgement that is not awaited.
    StrayAck = 13,
    /// 14: a validation of a valid record, or of another timestamp.
    StrayVal = 14,
    /// 15: a validation of a record that is not in write or replay, as after its
    /// last acknowledgement, or before every other laptop of the view has
    /// acknowledged.
    NotFinished = 15,
    /// 16: a replay of a record that is neither invalid nor invalid-write, or whose
    /// last writer is in the view.
    NotReplayable = 16,
    /// 17: a resend where the laptop has nothing of its own to send again.
    NotResendable = 17,
    /// 18: a view whose epoch is not greater.
    OldEpoch = 18,
    /// 19: a view that is not within the old one, or has fewer than two.
    ViewNotWithin = 19,
    /// 20: the first four bytes are no packet's, or its length is another.
    PacketHead = 20,
    /// 21: the packet's contents table is cut short.
    PacketContents = 21,
    /// 22: a message of the packet is not good.
    PacketEntry = 22,
    /// 23: the packet has no message of that number.
    PacketIndex = 23,
    /// 24: the messages do not make a packet.
    PacketMessages = 24,
    /// 25: the packet is longer than 1,400 bytes or than its room.
    PacketRoom = 25,
    /// 26: a commit on a record that is not valid, or whose timestamp is another
    /// than the one that it was opened with.
    NotAsOpened = 26,
    /// 27: the packet is of a group with the other rule of ties.
    OtherRule = 27,
    /// A script that is longer than the player takes, or has too little room to
    /// print. No question of document 01, so its number, 255, is none there.
    PlayerRoom = 255,
}

impl Refusal {
    /// Every refusal, in the order of the numbers.
    pub const ALL: &[Refusal] = &[
        Refusal::NoGroup,
        Refusal::LentMemory,
        Refusal::StruckOff,
        Refusal::StrayRecord,
        Refusal::UnsoundRecord,
        Refusal::NotReadable,
        Refusal::NotWritable,
        Refusal::ValueTooLong,
        Refusal::LastVersion,
        Refusal::OtherEpoch,
        Refusal::OtherSender,
        Refusal::IllFormed,
        Refusal::StrayAck,
        Refusal::StrayVal,
        Refusal::NotFinished,
        Refusal::NotReplayable,
        Refusal::NotResendable,
        Refusal::OldEpoch,
        Refusal::ViewNotWithin,
        Refusal::PacketHead,
        Refusal::PacketContents,
        Refusal::PacketEntry,
        Refusal::PacketIndex,
        Refusal::PacketMessages,
        Refusal::PacketRoom,
        Refusal::NotAsOpened,
        Refusal::OtherRule,
        Refusal::PlayerRoom,
    ];

    /// Its number in document 01 or 02.
    pub const fn number(self) -> u8 {
        self as u8
    }

    /// The refusal with this number; 0, an accepted event's, is none.
    pub fn from_number(number: u8) -> Option<Refusal> {
        Refusal::ALL.iter().copied().find(|r| r.number() == number)
    }

    /// Passes an accepted event's 0 on.
    pub(crate) fn check(number: u8) -> Result<(), Refusal> {
        if number == 0 {
            return Ok(());
        }
        Err(Refusal::from_number(number).expect("the engine answers with a number of these"))
    }

    /// What is wrong, in a few plain words.
    pub const fn meaning(self) -> &'static str {
        match self {
            Refusal::NoGroup => {
                "the laptop's number is above 15, or its view has fewer than two laptops"
            }
            Refusal::LentMemory => {
                "there are not 1 to 4,096 records, or not exactly 192 bytes of store \
                 for each record"
            }
            Refusal::StruckOff => {
                "this laptop is not in its own view: struck off, or left out of its first view"
            }
            Refusal::StrayRecord => "there is no record of that number",
            Refusal::UnsoundRecord => "the record in the table is damaged",
            Refusal::NotReadable => "the record is not valid now, so it cannot be shown",
            Refusal::NotWritable => {
                "an earlier write or replay of the record is still under way here"
            }
            Refusal::ValueTooLong => "the value is longer than 192 bytes",
            Refusal::LastVersion => "the record has used up its versions",
            Refusal::OtherEpoch => "the message is of another epoch than this laptop",
            Refusal::OtherSender => "the message's sender is not another laptop of the view",
            Refusal::IllFormed => {
                "the message is no INV, ACK or VAL, its tie-breaker is above 15, \
                 or its bytes do not fit it"
            }
            Refusal::StrayAck => "no such acknowledgement is awaited, or it is counted already",
            Refusal::StrayVal => {
                "the record is valid already, or the validation is for another timestamp"
            }
            Refusal::NotFinished => {
                "nothing waits to be validated, or an acknowledgement is still missing"
            }
            Refusal::NotReplayable => {
                "the record is neither invalid nor invalid-write, \
                 or its last writer is still in the view"
            }
            Refusal::NotResendable => {
                "this laptop has nothing of its own to send again for the record"
            }
            Refusal::OldEpoch => "the new epoch is not greater than this laptop's",
            Refusal::ViewNotWithin => {
                "the new view is not within the old one, or has fewer than two laptops"
            }
            Refusal::PacketHead => "these bytes do not begin as a packet of their length",
            Refusal::PacketContents => "the packet's contents table is cut short",
            Refusal::PacketEntry => "a message in the packet's contents table is broken",
            Refusal::PacketIndex => "the packet has no message of that number",
            Refusal::PacketMessages => {
                "there are not 1 to 64 messages, or the numbers or bytes of one do not fit"
            }
            Refusal::PacketRoom => "the packet would be longer than 1,400 bytes or than its room",
            Refusal::NotAsOpened => {
                "the record is not valid now, or no longer has the timestamp that \
                 it was opened with"
            }
            Refusal::OtherRule => "the packet is of a group with the other rule of ties",
            Refusal::PlayerRoom => "the script is longer than 65,536 bytes or lacks room to print",
        }
    }
}

impl fmt::Display for Refusal {
    fn fmt(&self, f: &mut fmt::Formatter<'_>) -> fmt::Result {
        write!(f, "refused ({}): {}", self.number(), self.meaning())
    }
}

impl Error for Refusal {}
