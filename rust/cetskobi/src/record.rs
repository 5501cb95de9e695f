//! Records as the engine keeps them.

use std::cmp::Ordering;
use std::fmt;

use crate::sys::RECORD_BYTES;
use crate::{Members, Rule};

/// The state of a record. Later versions may have more.
#[derive(Clone, Copy, Debug, PartialEq, Eq, Hash)]
#[non_exhaustive]
#[repr(u8)]
pub enum State {
    /// The record may be shown.
    Valid,
    /// A newer value is known, but not that every laptop has it.
    Invalid,
    /// Overtaken while writing: another laptop's write has a later timestamp.
    InvalidWrite,
    /// This laptop's write waits for acknowledgements.
    Write,
    /// This laptop's replay, for a writer that was struck off, waits for
    /// acknowledgements.
    Replay,
}

impl State {
    /// The states in the order of their numbers in the table.
    pub const ALL: &[State] = &[
        State::Valid,
        State::Invalid,
        State::InvalidWrite,
        State::Write,
        State::Replay,
    ];

    /// Its number in the table.
    pub const fn number(self) -> u8 {
        self as u8
    }

    /// Its name, as document 01 has it.
    pub const fn name(self) -> &'static str {
        match self {
            State::Valid => "valid",
            State::Invalid => "invalid",
            State::InvalidWrite => "invalid-write",
            State::Write => "write",
            State::Replay => "replay",
        }
    }

    /// The letter that the playing program prints: V, I, X, W or R.
    pub const fn letter(self) -> char {
        match self {
            State::Valid => 'V',
            State::Invalid => 'I',
            State::InvalidWrite => 'X',
            State::Write => 'W',
            State::Replay => 'R',
        }
    }
}

impl fmt::Display for State {
    fn fmt(&self, f: &mut fmt::Formatter<'_>) -> fmt::Result {
        f.write_str(self.name())
    }
}

/// When a value was written. The later of two has the greater version or, versions
/// equal, the tie-breaker that wins by the group's [`Rule`].
///
/// ```
/// use cetskobi::{Rule, Timestamp};
/// let saved = Timestamp { version: 1, tie: 5 };
/// assert!(saved.later(Timestamp { version: 0, tie: 9 }, Rule::Lower));
/// assert!(saved.later(Timestamp { version: 1, tie: 2 }, Rule::Higher));
/// assert!(saved.later(Timestamp { version: 1, tie: 9 }, Rule::Lower));
/// ```
///
/// So timestamps have no order of their own, and `<` or `max` does not compile:
///
/// ```compile_fail,E0369
/// # use cetskobi::Timestamp;
/// let saved = Timestamp { version: 1, tie: 5 };
/// assert!(saved > Timestamp { version: 1, tie: 2 });
/// ```
#[derive(Clone, Copy, Debug, Default, PartialEq, Eq, Hash)]
pub struct Timestamp {
    /// Counts the writes.
    pub version: u32,
    /// The number of the laptop that wrote, 0 to 15.
    pub tie: u8,
}

impl Timestamp {
    /// Whether it is later than the other, by this rule of ties: the engine takes an
    /// INV's value where its timestamp is later than the record's.
    pub fn later(self, other: Timestamp, rule: Rule) -> bool {
        self.compare(other, rule).is_gt()
    }

    /// The order of the two by this rule of ties, the later being the greater: of many
    /// the latest is that of `max_by(|a, b| a.compare(*b, rule))`.
    pub fn compare(self, other: Timestamp, rule: Rule) -> Ordering {
        let ties = match rule {
            Rule::Higher => self.tie.cmp(&other.tie),
            Rule::Lower => other.tie.cmp(&self.tie),
        };
        self.version.cmp(&other.version).then(ties)
    }
}

impl fmt::Display for Timestamp {
    /// As in document 01: version and tie-breaker, `(1,5)`.
    fn fmt(&self, f: &mut fmt::Formatter<'_>) -> fmt::Result {
        write!(f, "({},{})", self.version, self.tie)
    }
}

/// One record, without its bytes.
#[derive(Clone, Copy, Debug, PartialEq, Eq, Hash)]
pub struct Record {
    /// Its state.
    pub state: State,
    /// The timestamp of its value.
    pub timestamp: Timestamp,
    /// The last writer: whose INV was taken last; this laptop since its own write or
    /// replay; at first the lowest number in the view.
    pub writer: u8,
    /// The last-write timestamp: what this laptop itself last wrote or replayed.
    pub written: Timestamp,
    /// The laptops whose acknowledgement has come.
    pub acks: Members,
    /// The length of its value in bytes.
    pub len: u8,
}

impl Record {
    /// The most bytes of a value, and the room of each record in the store.
    pub const VALUE_MAX: usize = 192;
    /// The most records of a laptop.
    pub const COUNT_MAX: usize = 4096;
    /// The bytes of one record in the table.
    pub const BYTES: usize = RECORD_BYTES;

    /// The record that these bytes of the table are. None where the state is
    /// none of the five: every event on such bytes is refused as
    /// [`UnsoundRecord`](crate::Refusal::UnsoundRecord). Byte 15 is not looked at.
    pub fn from_bytes(bytes: [u8; RECORD_BYTES]) -> Option<Record> {
        #[rustfmt::skip]
        let [
            state, tie, writer, written_tie,
            v0, v1, v2, v3,
            w0, w1, w2, w3,
            a0, a1, len, _,
        ] = bytes;
        Some(Record {
            state: *State::ALL.get(usize::from(state))?,
            timestamp: Timestamp {
                version: u32::from_le_bytes([v0, v1, v2, v3]),
                tie,
            },
            writer,
            written: Timestamp {
                version: u32::from_le_bytes([w0, w1, w2, w3]),
                tie: written_tie,
            },
            acks: Members::from_bits(u16::from_le_bytes([a0, a1])),
            len,
        })
    }

    /// The record as bytes of the table. Byte 15, which is nobody's, is 0.
    pub const fn to_bytes(self) -> [u8; RECORD_BYTES] {
        let [v0, v1, v2, v3] = self.timestamp.version.to_le_bytes();
        let [w0, w1, w2, w3] = self.written.version.to_le_bytes();
        let [a0, a1] = self.acks.bits().to_le_bytes();
        #[rustfmt::skip]
        let bytes = [
            self.state.number(), self.timestamp.tie, self.writer, self.written.tie,
            v0, v1, v2, v3,
            w0, w1, w2, w3,
            a0, a1, self.len, 0,
        ];
        bytes
    }
}
