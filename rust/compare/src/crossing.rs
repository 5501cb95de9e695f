//! Records as sixteen bytes (include/cetskobi.h), messages as numbers and rules as
//! bytes, for the model's side.

use cetskobi::raw::{Settings, RECORD_BYTES};
use model::engine::{self, Message, Record, Rule, State, Timestamp};

/// The bytes of one record, or any others.
pub type RecordBytes = [u8; RECORD_BYTES];

/// The same by their fields. Any sixteen bytes have fields, and any fields bytes.
#[derive(Clone, Copy, Debug, PartialEq, Eq, Default)]
pub struct Fields {
    pub state: u8,
    pub tie: u8,
    pub writer: u8,
    pub written_tie: u8,
    pub version: u32,
    pub written_version: u32,
    pub acks: u16,
    pub len: u8,
    /// Byte 15, which is nobody's.
    pub unused: u8,
}

impl Fields {
    pub fn of(bytes: &RecordBytes) -> Fields {
        let number = |from: usize, to: usize| {
            let bytes = bytes[from..to].iter().rev();
            bytes.fold(0, |number, &byte| number << 8 | u32::from(byte))
        };
        Fields {
            state: bytes[0],
            tie: bytes[1],
            writer: bytes[2],
            written_tie: bytes[3],
            version: number(4, 8),
            written_version: number(8, 12),
            acks: number(12, 14) as u16,
            len: bytes[14],
            unused: bytes[15],
        }
    }

    pub fn bytes(&self) -> RecordBytes {
        let mut bytes = [0; RECORD_BYTES];
        bytes[0] = self.state;
        bytes[1] = self.tie;
        bytes[2] = self.writer;
        bytes[3] = self.written_tie;
        for k in 0..4 {
            bytes[4 + k] = (self.version >> (8 * k)) as u8;
            bytes[8 + k] = (self.written_version >> (8 * k)) as u8;
        }
        bytes[12] = self.acks as u8;
        bytes[13] = (self.acks >> 8) as u8;
        bytes[14] = self.len;
        bytes[15] = self.unused;
        bytes
    }

    /// The model's record; none where the state is none of the five.
    pub fn record(&self) -> Option<Record> {
        Some(Record {
            state: *State::ALL.get(usize::from(self.state))?,
            timestamp: Timestamp::new(self.version, self.tie),
            last_writer: self.writer,
            last_write: Timestamp::new(self.written_version, self.written_tie),
            acks: self.acks,
            len: self.len,
        })
    }

    /// Of the model's record, with this byte 15.
    pub fn of_record(record: &Record, unused: u8) -> Fields {
        let state = State::ALL.iter().position(|&state| state == record.state);
        Fields {
            state: state.expect("one of all") as u8,
            tie: record.timestamp.tie,
            writer: record.last_writer,
            written_tie: record.last_write.tie,
            version: record.timestamp.version,
            written_version: record.last_write.version,
            acks: record.acks,
            len: record.len,
            unused,
        }
    }

    /// Version and tie-breaker of the timestamp.
    pub fn stamp(&self) -> (u32, u8) {
        (self.version, self.tie)
    }

    /// The same of the last-write timestamp.
    pub fn written(&self) -> (u32, u8) {
        (self.written_version, self.written_tie)
    }
}

/// The rule of ties that this byte of a group's settings is (02, Wish 6): by the
/// header every byte is one, 2 the new rule and every other the old.
pub fn rule_of(settings: Settings) -> Rule {
    match settings.rule {
        2 => Rule::Lower,
        _ => Rule::Higher,
    }
}

/// The model's settings.
pub fn model_of(settings: Settings) -> engine::Settings {
    let rule = rule_of(settings);
    engine::Settings { rule }
}

/// The settings of a group with this rule, by its number.
pub fn settings_of(rule: Rule) -> Settings {
    let rule = rule.byte();
    Settings { rule }
}

/// The rule that the group does not have.
pub fn other_rule(rule: Rule) -> Rule {
    match rule {
        Rule::Higher => Rule::Lower,
        Rule::Lower => Rule::Higher,
    }
}

/// Is the first stamp, version and tie-breaker, the greater by this rule?
pub fn is_after(one: (u32, u8), other: (u32, u8), rule: Rule) -> bool {
    Timestamp::new(one.0, one.1).is_after(Timestamp::new(other.0, other.1), rule)
}

/// The model's table of these bytes. Sixteen that are no record count as an
/// unsound one (question 5); a length that is no multiple of sixteen as a table
/// without records (question 2).
pub fn table_of(bytes: &[u8]) -> Vec<Record> {
    let unsound = Record {
        len: u8::MAX,
        ..Record::fresh(0)
    };
    match bytes.as_chunks() {
        (records, []) => records
            .iter()
            .map(|bytes| Fields::of(bytes).record().unwrap_or(unsound))
            .collect(),
        _ => Vec::new(),
    }
}

/// Kind, tie-breaker and version of a message; zeros for none.
pub fn sent_of(message: Option<Message>) -> (u8, u8, u32) {
    let kind = match message {
        None => return (0, 0, 0),
        Some(Message::Inv(_)) => 1,
        Some(Message::Ack(_)) => 2,
        Some(Message::Val(_)) => 3,
    };
    let timestamp = message.map(Message::timestamp);
    let Timestamp { version, tie } = timestamp.expect("there is a message");
    (kind, tie, version)
}

/// A message of this kind. An unknown kind is one that question 12 refuses.
pub fn message_of(kind: u8, version: u32, tie: u8) -> Message {
    match kind {
        1 => Message::Inv(Timestamp::new(version, tie)),
        2 => Message::Ack(Timestamp::new(version, tie)),
        3 => Message::Val(Timestamp::new(version, tie)),
        _ => Message::Val(Timestamp::new(version, u8::MAX)),
    }
}
