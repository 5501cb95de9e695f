//! Delivering message i of a packet, on lent memory of any kind.

use cetskobi::raw;
use model::engine::{number, Message};
use model::packet;
use model::rng::Rng;

use super::some::{some_letter, some_rule_for};
use super::{damage, packet_of, Heads, Letter};
use crate::bytes::Bytes;
use crate::crossing::{rule_of, sent_of};
use crate::memory::Memory;
use crate::settings::Settings;
use crate::shrink::{drops, less, shrink, Found, Smaller};
use crate::single::{self, last_ack, on_memory, replica_of, some_case, tie};
use crate::single::{Event, Kind, Outcome};

/// A packet, the message that is delivered from it, and what is lent. The
/// case's own event tells which message was meant.
#[derive(Clone, Debug, PartialEq)]
pub struct Case {
    pub lent: single::Case,
    pub packet: Bytes,
    pub i: usize,
}

/// Delivers a message of a packet.
pub type Deliver = fn(&Case, &mut Memory) -> Outcome;

pub fn by_engine(case: &Case, memory: &mut Memory) -> Outcome {
    let (table, store) = memory.lend();
    let me = case.lent.me;
    let answer = raw::deliver_packet(me, table, store, &case.packet, case.i);
    Outcome::of(me, answer)
}

pub fn by_model(case: &Case, memory: &mut Memory) -> Outcome {
    let me = case.lent.me;
    on_memory(memory, |table, store| {
        let answer = packet::deliver(&replica_of(me), table, store, &case.packet, case.i);
        Outcome {
            number: number(&answer),
            sent: sent_of(answer.unwrap_or_default()),
            part: (0, 0),
            opened: (0, 0),
            me,
        }
    })
}

/// How often each answer came.
#[derive(Clone, Debug, Default)]
pub struct Tally {
    pub answers: [u64; 28],
    pub heads: Heads,
    /// Ties, as `tie` has them: by the rule, not taken and taken.
    pub ties: [[u64; 2]; 2],
    /// Accepted ACKs that were the last, as `last_ack` has them.
    pub last: [u64; 3],
}

impl Tally {
    fn count(&mut self, case: &Case, outcome: &Outcome) {
        let Case { lent, packet, i } = case;
        self.answers[usize::from(outcome.number)] += 1;
        self.heads
            .count(lent.me.settings, packet, *i, outcome.number);
        let rule = rule_of(lent.me.settings);
        if let Some(taken) = case.tie(outcome) {
            self.ties[rule as usize][usize::from(taken)] += 1;
        }
        let Ok((envelope, _)) = packet::fetch(rule, packet, *i) else {
            return;
        };
        if matches!(envelope.message, Message::Ack(_)) && envelope.record == lent.i {
            let at = last_ack(lent.me, &lent.record, envelope.sender, outcome);
            at.into_iter().for_each(|at| self.last[at] += 1);
        }
    }
}

/// Random deliveries of the usual count.
const DELIVERIES: usize = 400_000;

pub fn compare(settings: &Settings, other: Deliver) -> Result<Tally, Box<Found<Case>>> {
    let mut rng = settings.rng("deliver");
    let mut bench = single::Bench::new(&mut rng);
    let mut tally = Tally::default();
    let mut difference = |case: &Case| {
        let engine = |memory: &mut Memory| by_engine(case, memory);
        bench.compare(&case.lent, engine, |memory| other(case, memory))
    };
    for _ in 0..DELIVERIES * settings.times {
        let case = some_delivery(&mut rng);
        match difference(&case) {
            Ok(outcome) => tally.count(&case, &outcome),
            Err(what) => return Err(Box::new(shrink(case, what, |case| difference(case).err()))),
        }
    }
    Ok(tally)
}

/// The message of a random delivery among others; sometimes the packet is
/// damaged, or another message is asked for.
pub(super) fn some_delivery(rng: &mut Rng) -> Case {
    loop {
        let lent = some_case(rng);
        let Some((letters, mut i)) = some_letters_with(rng, &lent) else {
            continue;
        };
        let rule = some_rule_for(rng, lent.me.settings, 1, 12);
        // What no writer makes stands for itself in a damaged packet.
        let Some(mut packet) = packet_of(rule, &letters) else {
            continue;
        };
        if rng.chance(1, 6) {
            damage(rng, &mut packet);
        }
        if rng.chance(1, 12) {
            i = [letters.len(), rng.below(letters.len()), usize::MAX][rng.below(3)];
        }
        let packet = Bytes(packet);
        return Case { lent, packet, i };
    }
}

/// The message of this case among others, and its place there; none if the case is
/// no delivery.
pub(super) fn some_letters_with(
    rng: &mut Rng,
    lent: &single::Case,
) -> Option<(Vec<Letter>, usize)> {
    let Event::Deliver { message, value } = &lent.event else {
        return None;
    };
    let letter = Letter {
        words: [
            message.kind.into(),
            message.sender.into(),
            message.epoch,
            u32::try_from(lent.i).unwrap_or(u32::MAX),
            message.version,
            message.tie.into(),
            value.len() as u32,
        ],
        body: value.to_vec(),
    };
    let mut letters: Vec<Letter> = (0..rng.below(6)).map(|_| some_letter(rng, 192)).collect();
    let i = rng.below(letters.len() + 1);
    letters.insert(i, letter);
    Some((letters, i))
}

impl Case {
    /// A tie of the record that is meant, as `single::tie` has it.
    pub(super) fn tie(&self, outcome: &Outcome) -> Option<bool> {
        let lent = &self.lent;
        let fetched = packet::fetch(rule_of(lent.me.settings), &self.packet, self.i);
        let envelope = fetched.ok()?.0;
        match envelope.message {
            Message::Inv(stamp) if envelope.record == lent.i => {
                tie(lent.me, &lent.record, (stamp.version, stamp.tie), outcome)
            }
            _ => None,
        }
    }

    /// The answers that a delivery from a packet can give. 12 is none of them:
    /// question 22 has seen to what it asks.
    pub fn answers() -> Vec<usize> {
        let delivery = [Kind::Ack, Kind::Val, Kind::Inv]
            .map(Kind::answers)
            .concat();
        let mut all: Vec<usize> = delivery
            .into_iter()
            .filter(|&answer| answer != 12)
            .collect();
        all.extend([20, 21, 22, 23, 27]);
        all.sort_unstable();
        all.dedup();
        all
    }
}

impl Smaller for Case {
    fn smaller(&self) -> Box<dyn Iterator<Item = Case> + '_> {
        let lent = self.lent.smaller().map(|lent| Case {
            lent,
            ..self.clone()
        });
        let packets = drops(&self.packet).map(|packet| Case {
            packet: Bytes(packet),
            ..self.clone()
        });
        let index = less(self.i as u64).map(|i| Case {
            i: i as usize,
            ..self.clone()
        });
        Box::new(lent.chain(packets).chain(index))
    }
}
