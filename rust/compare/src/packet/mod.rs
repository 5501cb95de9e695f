//! Packets, whole and damaged: fetching, packing, delivering; and in one pass.

pub mod accept;
pub mod arrive;
pub mod deliver;
pub mod facts;
pub mod fetch;
mod heads;
pub mod pack;
mod some;

pub use heads::Heads;
pub use some::{damage, set_total, some_packet, some_rule_for};

use model::engine::{Envelope, Rule};
use model::packet::Entry;

use crate::crossing::message_of;

/// The words of one message that goes into a packet: kind, sender, epoch,
/// record, version, tie-breaker, length.
pub type EntryWords = [u32; 7];

/// The message of these words; none where a word is too great for its field,
/// or the kind is unknown.
pub fn entry_of(words: &EntryWords) -> Option<Entry> {
    let [kind, sender, epoch, record, version, tie, len] = *words;
    let kind = u8::try_from(kind)
        .ok()
        .filter(|kind| (1..=3).contains(kind))?;
    Some(Entry {
        envelope: Envelope {
            sender: sender.try_into().ok()?,
            epoch,
            record: record as usize,
            message: message_of(kind, version, tie.try_into().ok()?),
        },
        len: len.try_into().ok()?,
    })
}

/// A message with the bytes that it takes along.
#[derive(Clone, Debug, PartialEq)]
pub struct Letter {
    pub words: EntryWords,
    pub body: Vec<u8>,
}

/// The packet of these messages in a group with this rule of ties, by the model.
pub fn packet_of(rule: Rule, letters: &[Letter]) -> Option<Vec<u8>> {
    let entries: Option<Vec<Entry>> = letters
        .iter()
        .map(|letter| entry_of(&letter.words))
        .collect();
    let bodies: Vec<&[u8]> = letters.iter().map(|letter| &letter.body[..]).collect();
    let mut out = vec![0; model::packet::PACKET_LIMIT];
    let total = model::packet::write(rule, &entries?, &bodies.concat(), &mut out).ok()?;
    out.truncate(total);
    Some(out)
}
