//! What the tests share.

use model::engine::{
    Answer, Envelope, Message, Record, Refusal, Replica, Rule, Settings, Timestamp,
};
use model::packet::{self, Entry};
use model::rng::Rng;

/// The generator of one random test. What it prints is shown on failure alone.
pub fn rng() -> Rng {
    let seed = match std::env::var("MODEL_SEED") {
        Ok(text) => text.parse().expect("MODEL_SEED is a number of 64 bits"),
        Err(_) => 20_240_901,
    };
    println!("MODEL_SEED={seed}");
    Rng::new(seed)
}

pub const fn ts(version: u32, tie: u8) -> Timestamp {
    Timestamp::new(version, tie)
}

pub fn inv(version: u32, tie: u8) -> Message {
    Message::Inv(ts(version, tie))
}

pub fn ack(version: u32, tie: u8) -> Message {
    Message::Ack(ts(version, tie))
}

pub fn val(version: u32, tie: u8) -> Message {
    Message::Val(ts(version, tie))
}

/// A set of replica numbers.
pub fn set(numbers: &[u8]) -> u16 {
    numbers.iter().fold(0, |set, number| set | 1 << number)
}

/// Record 0's message of this sender at epoch 0.
pub fn from(sender: u8, message: Message) -> Envelope {
    Envelope {
        sender,
        epoch: 0,
        record: 0,
        message,
    }
}

/// The one of these numbers that wins a tie by this rule (02, Wish 6).
pub fn winner(rule: Rule, numbers: &[u8]) -> u8 {
    let mut sorted = numbers.to_vec();
    sorted.sort_unstable();
    let won = match rule {
        Rule::Higher => sorted.last(),
        Rule::Lower => sorted.first(),
    };
    *won.expect("a number")
}

/// The other rule of ties.
pub fn other(rule: Rule) -> Rule {
    match rule {
        Rule::Higher => Rule::Lower,
        Rule::Lower => Rule::Higher,
    }
}

/// A replica with the memory that is lent for it.
#[derive(Clone, Debug, PartialEq)]
pub struct Member {
    pub replica: Replica,
    pub table: Vec<Record>,
    pub store: Vec<u8>,
}

impl Member {
    /// Started fresh, in memory that was not clean before, in a group with this
    /// rule of ties.
    pub fn start(rule: Rule, number: u8, view: u16, count: usize) -> Member {
        let mut table = vec![Record::fresh(9); count];
        let mut store = vec![0xee; Record::VALUE_LIMIT * count];
        let answer = Replica::start(number, view, Settings { rule }, &mut table, &mut store);
        let replica = answer.expect("accepted");
        Member {
            replica,
            table,
            store,
        }
    }

    /// The ringing table's: laptop 2, view {1,2,5}, epoch 0, one record, the old
    /// rule of ties.
    pub fn ringing() -> Member {
        Member::ringing_by(Rule::Higher)
    }

    /// The same with this rule of ties.
    pub fn ringing_by(rule: Rule) -> Member {
        Member::start(rule, 2, set(&[1, 2, 5]), 1)
    }

    pub fn rule(&self) -> Rule {
        self.replica.settings.rule
    }

    pub fn slot(&self, record: usize) -> &[u8] {
        &self.store[Record::VALUE_LIMIT * record..][..Record::VALUE_LIMIT]
    }

    pub fn read(&self, record: usize) -> Result<&[u8], Refusal> {
        self.replica.read(&self.table, &self.store, record)
    }

    pub fn write(&mut self, record: usize, value: &[u8]) -> Answer {
        self.replica
            .write(&mut self.table, &mut self.store, record, value)
    }

    pub fn ask(&self, record: usize) -> Result<(&[u8], Timestamp), Refusal> {
        self.replica.ask(&self.table, &self.store, record)
    }

    pub fn commit(&mut self, record: usize, opened: Timestamp, value: &[u8]) -> Answer {
        self.replica
            .commit(&mut self.table, &mut self.store, record, opened, value)
    }

    pub fn replay(&mut self, record: usize) -> Answer {
        self.replica.replay(&mut self.table, &self.store, record)
    }

    pub fn deliver(&mut self, envelope: &Envelope, body: &[u8]) -> Answer {
        self.replica
            .deliver(&mut self.table, &mut self.store, envelope, body)
    }

    pub fn deliver_packet(&mut self, bytes: &[u8], index: usize) -> Answer {
        packet::deliver(
            &self.replica,
            &mut self.table,
            &mut self.store,
            bytes,
            index,
        )
    }

    pub fn validate(&mut self, record: usize) -> Answer {
        self.replica.validate(&mut self.table, &self.store, record)
    }

    pub fn resend(&self, record: usize) -> Answer {
        self.replica.resend(&self.table, &self.store, record)
    }

    pub fn view(&mut self, epoch: u32, view: u16) -> Answer {
        self.replica.change_view(epoch, view)
    }
}

/// The packet of these messages and bodies, in a group with this rule of ties.
pub fn packet_of(rule: Rule, messages: &[(Envelope, &[u8])]) -> Result<Vec<u8>, Refusal> {
    let entries: Vec<Entry> = messages
        .iter()
        .map(|&(envelope, body)| Entry {
            envelope,
            len: u8::try_from(body.len()).expect("a body of at most 255 bytes"),
        })
        .collect();
    let bodies = messages.iter().map(|(_, body)| *body).collect::<Vec<_>>();
    let mut out = vec![0xee; 1500];
    let total = packet::write(rule, &entries, &bodies.concat(), &mut out)?;
    assert!(out[total..].iter().all(|&byte| byte == 0xee));
    out.truncate(total);
    Ok(out)
}

/// All messages of a packet.
pub fn messages_of(rule: Rule, bytes: &[u8]) -> Result<Vec<(Envelope, &[u8])>, Refusal> {
    packet::fetch(rule, bytes, 0)?;
    (0..usize::from(bytes[1]))
        .map(|i| packet::fetch(rule, bytes, i))
        .collect()
}

/// The same in one pass: the packet is judged once.
pub fn in_one_pass(rule: Rule, bytes: &[u8]) -> Result<Vec<(Envelope, &[u8])>, Refusal> {
    let accepted = packet::accept(rule, bytes)?;
    (0..accepted.count()).map(|i| accepted.message(i)).collect()
}
