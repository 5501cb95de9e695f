//! Facts of a packet, its own or foreign, and what is answered with them: by the
//! text of include/cetskobi.h alone.

use std::ops::Range;

use cetskobi::raw::{Accepted, Fetched, Message, Settings};
use model::engine::{number, Refusal, Rule};
use model::packet::{self, COUNT_LIMIT};
use model::rng::Rng;

use super::fetch::refused;
use crate::crossing::{other_rule, rule_of};
use crate::shrink::less;

/// What the header says of message i, where the facts are not the packet's own.
#[derive(Clone, Copy, Debug, PartialEq, Eq)]
pub enum Told {
    /// The number of the facts: i is not below their count.
    Number,
    /// 23: neither is it, and their number is 0.
    NoMessage,
    /// 21: the entry does not lie within the packet.
    NoEntry,
    /// 22: its bytes do not.
    NoBytes,
    /// The entry as it stands there.
    Entry,
}

impl Told {
    pub const ALL: [Told; 5] = [
        Told::Number,
        Told::NoMessage,
        Told::NoEntry,
        Told::NoBytes,
        Told::Entry,
    ];

    pub fn of(packet: &[u8], facts: Accepted, i: usize) -> Told {
        match entry_of(packet, facts, i) {
            Ok(_) => Told::Entry,
            // The number of the facts may be any, also 21 to 23.
            Err(_) if i >= facts.count.into() && facts.number != 0 => Told::Number,
            Err(23) => Told::NoMessage,
            Err(21) => Told::NoEntry,
            Err(_) => Told::NoBytes,
        }
    }
}

/// Entry i as it stands in the packet, and the place of its bytes; or the number
/// that refuses it.
pub fn entry_of(packet: &[u8], facts: Accepted, i: usize) -> Result<(&[u8; 16], Range<usize>), u8> {
    if i >= usize::from(facts.count) {
        return Err(if facts.number == 0 { 23 } else { facts.number });
    }
    let contents = packet.get(4..).unwrap_or_default();
    let entry = contents.as_chunks().0.get(i).ok_or(21)?;
    let at = usize::from(entry[13]) << 8 | usize::from(entry[14]);
    let place = at..at + usize::from(entry[15]);
    match packet.get(place.clone()) {
        Some(_) => Ok((entry, place)),
        None => Err(22),
    }
}

/// The message of an entry, and the record that it is about.
pub fn message_of(entry: &[u8; 16]) -> (Message, usize) {
    let number = |from: usize, to: usize| {
        let bytes = entry[from..to].iter();
        bytes.fold(0, |number, &byte| number << 8 | u32::from(byte))
    };
    let message = Message {
        kind: entry[0],
        sender: entry[1],
        tie: entry[12],
        epoch: number(2, 6),
        version: number(8, 12),
    };
    (message, number(6, 8) as usize)
}

/// What a fetch gives with these facts.
pub fn fetched_of(packet: &[u8], facts: Accepted, i: usize) -> Fetched {
    match entry_of(packet, facts, i) {
        Ok((entry, place)) => {
            let (message, index) = message_of(entry);
            Fetched {
                number: 0,
                kind: message.kind,
                sender: message.sender,
                tie: message.tie,
                epoch: message.epoch,
                version: message.version,
                index,
                at: place.start,
                len: place.len(),
            }
        }
        Err(number) => refused(number),
    }
}

/// The packet's own facts in a group with these settings, by the model.
pub fn by_model(settings: Settings, packet: &[u8]) -> Accepted {
    by_rule(rule_of(settings), packet)
}

fn by_rule(rule: Rule, packet: &[u8]) -> Accepted {
    numbers_of(&packet::accept(rule, packet))
}

/// What the model knows of a packet, as numbers.
pub fn numbers_of(accepted: &Result<packet::Accepted, Refusal>) -> Accepted {
    Accepted {
        number: number(accepted),
        count: accepted.map_or(0, |accepted| accepted.count() as u8),
    }
}

/// Facts that are mostly not the packet's own: of the packet that it was before it
/// was damaged, those that a group with the other rule has of it, such as another
/// packet has, or such as none has.
pub fn some_facts(rng: &mut Rng, settings: Settings, packet: &[u8], whole: &[u8]) -> Accepted {
    let byte = |rng: &mut Rng| rng.next_u64() as u8;
    let (number, count) = match rng.below(9) {
        0 | 1 => return by_model(settings, whole),
        8 => return by_rule(other_rule(rule_of(settings)), packet),
        // Of another that was accepted, and of one that was refused.
        2 | 3 => (0, 1 + rng.below(COUNT_LIMIT) as u8),
        4 => ([20, 21, 22, 27][rng.below(4)], 0),
        // As the packet says itself, and about that.
        5 => {
            let count = packet.get(1).copied().unwrap_or(1);
            (0, count.wrapping_add([0, 1, 255][rng.below(3)]))
        }
        6 => (0, [0, 65, 128, 255, byte(rng)][rng.below(5)]),
        _ => (
            [0, 23, byte(rng)][rng.below(3)],
            [0, byte(rng)][rng.below(2)],
        ),
    };
    Accepted { number, count }
}

/// A message that is asked for with these facts: often the last that they have, or
/// that the packet has room for, and the one behind it.
pub fn some_index(rng: &mut Rng, packet: &[u8], facts: Accepted) -> usize {
    let count = usize::from(facts.count);
    let room = packet.len().saturating_sub(4) / 16;
    match rng.below(10) {
        0 => [usize::MAX, usize::MAX / 16, usize::MAX / 16 + 1, 1 << 32][rng.below(4)],
        1 => count,
        2 => count.saturating_sub(1),
        3 => room,
        4 => room.saturating_sub(1),
        5 => rng.below(300),
        _ => rng.below(count.min(room + 1)),
    }
}

/// Lesser facts.
pub fn lesser(facts: Accepted) -> impl Iterator<Item = Accepted> {
    let numbers = less(facts.number.into()).map(move |number| Accepted {
        number: number as u8,
        ..facts
    });
    let counts = less(facts.count.into()).map(move |count| Accepted {
        count: count as u8,
        ..facts
    });
    numbers.chain(counts)
}
