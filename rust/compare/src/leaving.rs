//! What leaves: who gets a message, and the bytes that it takes along.

use cetskobi::raw::{self, Answer, Replica, GONE};
use model::engine::{body, Record, Timestamp};
use model::rng::Rng;

use crate::crossing::{message_of, table_of};
use crate::memory::Memory;
use crate::settings::Settings;
use crate::shrink::{less, shrink, Found, Smaller};
use crate::single::{self, by_engine, replica_of, some_case, some_number, some_word};
use crate::single::{Event, Kind};

/// An event, and the message that is asked about after it, for this sender.
#[derive(Clone, Debug, PartialEq)]
pub struct Case {
    pub event: single::Case,
    pub kind: u8,
    /// In which bits its version and tie-breaker differ from the record's after
    /// the event: in none for what left there.
    pub version: u32,
    pub tie: u8,
    pub sender: u8,
}

/// Who gets what left an event with this answer, and how many bytes of record
/// `i` it takes along. The memory may be any.
pub type Leaving = fn(Replica, &Memory, usize, Answer, u8) -> (u16, usize);

pub fn by_the_engine(
    me: Replica,
    memory: &Memory,
    i: usize,
    left: Answer,
    sender: u8,
) -> (u16, usize) {
    (
        raw::recipients(me, left.kind, sender),
        raw::body(memory.table(), memory.store(), i, left),
    )
}

/// Nobody gets a message of no known kind, and it takes nothing along.
pub fn by_model(me: Replica, memory: &Memory, i: usize, left: Answer, sender: u8) -> (u16, usize) {
    if !(1..=3).contains(&left.kind) {
        return (0, 0);
    }
    let message = message_of(left.kind, left.version, left.tie);
    let table = table_of(memory.table());
    let len = match left.kind == 1 && is_gone(&table, memory.store(), i, message.timestamp()) {
        true => GONE,
        false => body(message, &table, memory.store(), i).len(),
    };
    (replica_of(me).recipients(message, sender), len)
}

/// An INV left with the value that its timestamp stands for. It is gone once the
/// record has another timestamp; and from memory that no event left, where the
/// record or its room is not there, or its length is no value's.
fn is_gone(table: &[Record], store: &[u8], i: usize, left: Timestamp) -> bool {
    let room = store.as_chunks::<{ Record::VALUE_LIMIT }>().0.get(i);
    let has = |record: &Record| {
        record.timestamp == left && usize::from(record.len) <= Record::VALUE_LIMIT
    };
    room.is_none() || !table.get(i).is_some_and(has)
}

#[derive(Clone, Debug, Default)]
pub struct Tally {
    /// Compared, by the kind.
    pub kinds: [u64; 4],
    /// Of these the very message that the event sent.
    pub sent: [u64; 4],
    /// Bodies that were not empty.
    pub bodies: u64,
    /// INVs whose text is gone: from a sound record, and from any other memory.
    pub gone: [u64; 2],
    /// VALs that an ACK sent, being the last.
    pub last: u64,
    /// INVs that a replay sent: from invalid, and from invalid-write.
    pub replayed: [u64; 2],
    /// INVs that a write sent, and a commit (02, Wish 5), with their bytes.
    pub saved: [u64; 2],
}

/// Random events of the usual count.
const EVENTS: usize = 370_000;

pub fn compare(settings: &Settings, other: Leaving) -> Result<Tally, Box<Found<Case>>> {
    let mut rng = settings.rng("leaving");
    let mut bench = single::Bench::new(&mut rng);
    let mut tally = Tally::default();
    let mut difference = |case: &Case| difference(&mut bench, case, other);
    for _ in 0..EVENTS * settings.times {
        let case = some_leaving(&mut rng);
        match difference(&case) {
            Ok(seen) => {
                let kind = usize::from(case.kind).min(3);
                tally.kinds[kind] += 1;
                tally.sent[kind] += u64::from(kind > 0 && seen.was_sent);
                tally.bodies += u64::from(seen.len > 0 && seen.len != GONE);
                tally.gone[usize::from(!seen.sound)] += u64::from(seen.len == GONE);
                let delivered = matches!(case.event.event, Event::Deliver { .. });
                tally.last += u64::from(case.kind == 3 && delivered && seen.was_sent);
                let state = case.event.record.state;
                if case.event.event == Event::Replay && case.kind == 1 && seen.was_sent {
                    tally.replayed[usize::from(state == 2)] += 1;
                }
                let by = [Kind::Write, Kind::Commit];
                let by = by.iter().position(|&kind| kind == case.event.kind());
                let bytes = case.event.event.value().map(|value| value.len());
                if let (Some(by), 1, true) = (by, case.kind, seen.was_sent) {
                    tally.saved[by] += u64::from(bytes == Some(seen.len));
                }
            }
            Err(what) => return Err(Box::new(shrink(case, what, |case| difference(case).err()))),
        }
    }
    Ok(tally)
}

/// What a comparison saw.
struct Seen {
    len: usize,
    was_sent: bool,
    sound: bool,
}

/// Plays the event, then asks.
fn difference(bench: &mut single::Bench, case: &Case, other: Leaving) -> Result<Seen, String> {
    let memory = bench.lay(&case.event);
    let outcome = by_engine(&case.event, memory);
    let (me, i) = (outcome.me, case.event.i);
    let record = table_of(memory.table()).get(i).copied();
    let now = record.map_or(Timestamp::new(0, 0), |record| record.timestamp);
    let left = Answer {
        number: 0,
        kind: case.kind,
        tie: now.tie ^ case.tie,
        version: now.version ^ case.version,
    };
    let a = by_the_engine(me, memory, i, left, case.sender);
    let b = other(me, memory, i, left, case.sender);
    if a != b {
        return Err(format!(
            "engine {a:?}, other {b:?}, of {left:?} after {outcome:?}"
        ));
    }
    Ok(Seen {
        len: a.1,
        was_sent: outcome.sent == (left.kind, left.tie, left.version),
        sound: record.is_some_and(|record| record.is_sound(me.number))
            && memory.store().len() == 12 * memory.table().len(),
    })
}

fn some_leaving(rng: &mut Rng) -> Case {
    let event = some_case(rng);
    let sender = match &event.event {
        Event::Deliver { message, .. } => message.sender,
        _ => some_number(rng),
    };
    let kinds = [0, 1, 2, 3, 4, 255];
    // Mostly the kind that this event sends.
    let kind = match &event.event {
        Event::Deliver { message, .. } => [2, 3][usize::from(message.kind == 2)],
        Event::Validate => 3,
        _ => 1,
    };
    // Mostly the timestamp that the record has, else one beside it or any.
    let (version, tie) = match rng.below(8) {
        0 => (1 << rng.below(32), 0),
        1 => (0, 1 << rng.below(8)),
        2 => (some_word(rng), some_number(rng)),
        _ => (0, 0),
    };
    Case {
        event,
        kind: [kind, kind, kinds[rng.below(6)]][rng.below(3)],
        version,
        tie,
        sender,
    }
}

impl Smaller for Case {
    fn smaller(&self) -> Box<dyn Iterator<Item = Case> + '_> {
        let events = self.event.smaller().map(|event| Case {
            event,
            ..self.clone()
        });
        let kinds = less(self.kind.into()).map(|kind| Case {
            kind: kind as u8,
            ..self.clone()
        });
        let senders = less(self.sender.into()).map(|sender| Case {
            sender: sender as u8,
            ..self.clone()
        });
        let versions = less(self.version.into()).map(|version| Case {
            version: version as u32,
            ..self.clone()
        });
        let ties = less(self.tie.into()).map(|tie| Case {
            tie: tie as u8,
            ..self.clone()
        });
        let numbers = kinds.chain(versions).chain(ties).chain(senders);
        Box::new(numbers.chain(events))
    }
}
