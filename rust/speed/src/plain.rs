//! The model's side.

use model::engine::{self, Envelope, Message, Record, Refusal, Replica, State, Timestamp};
use model::engine::{Rule, Settings};

use crate::side::{Answers, Told};

/// A replica with its lent memory, and what its calls are given.
pub struct Plain<I> {
    pub replica: Replica,
    pub table: Vec<Record>,
    pub store: Vec<u8>,
    pub input: I,
}

impl<I> Plain<I> {
    pub fn new(
        me: cetskobi::Replica,
        records: usize,
        record: cetskobi::Record,
        input: I,
    ) -> Plain<I> {
        Plain {
            replica: replica(me),
            table: vec![self::record(record); records],
            store: vec![7; 192 * records],
            input,
        }
    }
}

pub fn replica(me: cetskobi::Replica) -> Replica {
    Replica {
        number: me.number,
        epoch: me.epoch,
        view: me.view,
        settings: settings(me.settings),
    }
}

/// As the header reads their byte.
pub fn settings(settings: cetskobi::sys::Settings) -> Settings {
    let rule = match settings.rule {
        2 => Rule::Lower,
        _ => Rule::Higher,
    };
    Settings { rule }
}

pub fn record(r: cetskobi::Record) -> Record {
    let stamp = |t: cetskobi::Timestamp| Timestamp::new(t.version, t.tie);
    Record {
        state: State::ALL[r.state as usize],
        timestamp: stamp(r.timestamp),
        last_writer: r.writer,
        last_write: stamp(r.written),
        acks: r.acks.bits(),
        len: r.len,
    }
}

pub fn envelope(m: cetskobi::sys::Message, record: usize) -> Envelope {
    let timestamp = Timestamp::new(m.version, m.tie);
    Envelope {
        sender: m.sender,
        epoch: m.epoch,
        record,
        message: match m.kind {
            1 => Message::Inv(timestamp),
            2 => Message::Ack(timestamp),
            _ => Message::Val(timestamp),
        },
    }
}

impl Answers for engine::Answer {
    fn told(&self) -> Told {
        let kind = match self {
            Ok(None) | Err(_) => return (engine::number(self), [0; 3]),
            Ok(Some(Message::Inv(_))) => 1,
            Ok(Some(Message::Ack(_))) => 2,
            Ok(Some(Message::Val(_))) => 3,
        };
        let Timestamp { version, tie } = self
            .ok()
            .flatten()
            .map(Message::timestamp)
            .unwrap_or(Timestamp::new(0, 0));
        (0, [kind, tie.into(), version as usize])
    }
}

impl Answers for Result<(Envelope, engine::Answer), Refusal> {
    fn told(&self) -> Told {
        match self {
            Ok((_, answer)) => answer.told(),
            Err(refusal) => (refusal.number(), [0; 3]),
        }
    }
}

impl Answers for Result<(Envelope, &[u8]), Refusal> {
    fn told(&self) -> Told {
        let Ok((envelope, body)) = self else {
            return (engine::number(self), [0; 3]);
        };
        let version = envelope.message.timestamp().version as usize;
        (0, [envelope.record, version, body.len()])
    }
}

impl Answers for Result<usize, Refusal> {
    fn told(&self) -> Told {
        let len = self.unwrap_or(0);
        (engine::number(self), [len, 0, 0])
    }
}

/// The length of the value, and the stamp.
impl Answers for Result<(usize, Timestamp), Refusal> {
    fn told(&self) -> Told {
        let Ok((len, opened)) = *self else {
            return (engine::number(self), [0; 3]);
        };
        (0, [len, opened.tie.into(), opened.version as usize])
    }
}

impl Answers for Result<Replica, Refusal> {
    fn told(&self) -> Told {
        let identity = match self {
            Ok(me) => {
                let named = u16::from_be_bytes([me.settings.rule.byte(), me.number]);
                [named.into(), me.view.into(), me.epoch as usize]
            }
            Err(_) => [0; 3],
        };
        (engine::number(self), identity)
    }
}
