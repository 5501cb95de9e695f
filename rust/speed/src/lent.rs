//! The side of lent bytes: the engine's and the C peer's.

use std::array::from_fn;

use cetskobi::sys::{self, Admission, Answer, Arrival, Asked, Fetched, Message, Reading};
use cetskobi::sys::{Replica, Written};
use cetskobi::Record;

use crate::side::{Answers, Told};

/// The same side twice: by the engine's functions and by those of the C peer.
macro_rules! both {
    ($by:ident => $side:expr) => {
        (
            || {
                use speed::engine as $by;
                $side
            },
            Some(|| {
                use speed::peer as $by;
                $side
            }),
        )
    };
}
pub(crate) use both;

/// A replica with its lent memory, and what its calls are given.
pub struct Lent<I> {
    pub me: Replica,
    pub table: Vec<u8>,
    pub store: Vec<u8>,
    pub input: I,
}

impl<I> Lent<I> {
    pub fn new(me: Replica, records: usize, record: Record, input: I) -> Lent<I> {
        Lent {
            me,
            table: record.to_bytes().repeat(records),
            store: vec![7; 192 * records],
            input,
        }
    }

    pub fn set(&mut self, i: usize, record: Record) {
        self.table[Record::BYTES * i..][..Record::BYTES].copy_from_slice(&record.to_bytes());
    }
}

impl Answers for Answer {
    fn told(&self) -> Told {
        let sent = [self.kind.into(), self.tie.into(), self.version as usize];
        (self.number, sent)
    }
}

impl Answers for Arrival {
    fn told(&self) -> Told {
        self.answer.told()
    }
}

impl Answers for Fetched {
    fn told(&self) -> Told {
        (self.number, [self.index, self.version as usize, self.len])
    }
}

impl Answers for Reading {
    fn told(&self) -> Told {
        (self.number, [self.len, 0, 0])
    }
}

impl Answers for Asked {
    fn told(&self) -> Told {
        let handed_out = [self.len, self.tie.into(), self.version as usize];
        (self.number, handed_out)
    }
}

impl Answers for Written {
    fn told(&self) -> Told {
        (self.number, [self.len, 0, 0])
    }
}

impl Answers for Admission {
    fn told(&self) -> Told {
        let me = self.replica;
        // A refused one tells its number alone, as the model's does.
        let identity = match self.number {
            0 => {
                let named = u16::from_be_bytes([me.settings.rule, me.number]);
                [named.into(), me.view.into(), me.epoch as usize]
            }
            _ => [0; 3],
        };
        (self.number, identity)
    }
}

impl Answers for usize {
    fn told(&self) -> Told {
        (0, [*self, 0, 0])
    }
}

impl Answers for u16 {
    fn told(&self) -> Told {
        (0, [(*self).into(), 0, 0])
    }
}

/// The words of a message that goes into a packet.
pub fn entry(m: Message, record: usize, len: usize) -> [u32; sys::MESSAGE_WORDS] {
    let all = [
        m.kind.into(),
        m.sender.into(),
        m.epoch as usize,
        record,
        m.version as usize,
        m.tie.into(),
        len,
    ];
    from_fn(|k| all[k] as u32)
}
