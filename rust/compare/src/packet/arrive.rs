//! Delivering message i of a packet that is accepted once, on lent memory of any
//! kind: with the packet's own facts, and with any others.

use cetskobi::raw::{self, Accepted, Answer, Arrival};
use model::engine::Rule;
use model::packet;
use model::rng::Rng;

use super::deliver::{self, some_delivery, some_letters_with};
use super::facts::{self, entry_of, lesser, message_of, some_facts, some_index, Told};
use super::{damage, set_total, some_rule_for, Heads, Letter};
use crate::bytes::Bytes;
use crate::crossing::{rule_of, sent_of, settings_of};
use crate::memory::Memory;
use crate::settings::Settings;
use crate::shrink::{shrink, Found, Smaller};
use crate::single::{self, on_memory, on_table, replica_of, some_case, Event};

/// A delivery out of a packet, and what is thought to be known of the packet.
#[derive(Clone, Debug, PartialEq)]
pub struct Case {
    pub delivery: deliver::Case,
    /// None for its own.
    pub facts: Option<Accepted>,
}

/// Accepts the packet, if the facts are to be its own, and delivers its message.
pub type Arrive = fn(&Case, &mut Memory) -> Arrival;

pub fn by_engine(case: &Case, memory: &mut Memory) -> Arrival {
    let deliver::Case { lent, packet, i } = &case.delivery;
    let facts = case.facts;
    let facts = facts.unwrap_or_else(|| raw::accept(lent.me.settings, packet));
    let (table, store) = memory.lend();
    raw::deliver_accepted(lent.me, table, store, packet, facts, *i)
}

/// By the model, and where the facts are not the packet's own by the header's text
/// and then the model's delivery.
pub fn by_model(case: &Case, memory: &mut Memory) -> Arrival {
    let deliver::Case { lent, packet, i } = &case.delivery;
    let own = facts::by_model(lent.me.settings, packet);
    match case.facts.filter(|&facts| facts != own) {
        None => by_own(lent, packet, *i, memory),
        Some(facts) => by_text(lent, packet, facts, *i, memory),
    }
}

fn by_own(lent: &single::Case, packet: &[u8], i: usize, memory: &mut Memory) -> Arrival {
    let replica = replica_of(lent.me);
    let arrived = on_memory(memory, |table, store| {
        packet::accept(replica.settings.rule, packet)?.deliver(&replica, table, store, i)
    });
    match arrived {
        Ok((envelope, answer)) => {
            let (kind, tie, version) = sent_of(answer.unwrap_or_default());
            Arrival {
                answer: Answer {
                    number: model::engine::number(&answer),
                    kind,
                    tie,
                    version,
                },
                epoch: envelope.epoch,
                sender: envelope.sender,
                index: envelope.record,
            }
        }
        Err(refusal) => nothing(refusal.number()),
    }
}

fn by_text(
    lent: &single::Case,
    packet: &[u8],
    facts: Accepted,
    i: usize,
    memory: &mut Memory,
) -> Arrival {
    let (entry, place) = match entry_of(packet, facts, i) {
        Ok(found) => found,
        Err(number) => return nothing(number),
    };
    let (message, index) = message_of(entry);
    let value = Bytes(packet[place].to_vec());
    let event = Event::Deliver { message, value };
    let case = single::Case::on(lent.me, index, event);
    let outcome = on_memory(memory, |table, store| on_table(&case, table, store));
    let (kind, tie, version) = outcome.sent;
    Arrival {
        answer: Answer {
            number: outcome.number,
            kind,
            tie,
            version,
        },
        epoch: message.epoch,
        sender: message.sender,
        index,
    }
}

/// There was no message to deliver.
fn nothing(number: u8) -> Arrival {
    Arrival {
        answer: Answer {
            number,
            kind: 0,
            tie: 0,
            version: 0,
        },
        epoch: 0,
        sender: 0,
        index: 0,
    }
}

#[derive(Clone, Debug, Default)]
pub struct Tally {
    /// With the packet's own facts, by the answer.
    pub own: [u64; 28],
    /// The same by byte 0 of the packet.
    pub heads: Heads,
    /// Ties, as `single::tie` has them: by the rule, not taken and taken.
    pub ties: [[u64; 2]; 2],
    /// With other facts, by what the header says, in the order of `Told::ALL`.
    pub foreign: [u64; 5],
    /// Of these the entries, by the answer of their delivery.
    pub entries: [u64; 28],
    /// Of these, entries of packets that question 22 refuses, and that 27 does.
    pub unasked: u64,
    pub unruled: u64,
    /// Refused by question 10, with the packet's own facts, for a later epoch.
    pub later: u64,
}

impl Tally {
    fn count(&mut self, case: &Case, arrival: &Arrival) {
        let deliver::Case { lent, packet, i } = &case.delivery;
        let own = facts::by_model(lent.me.settings, packet);
        let answer = usize::from(arrival.answer.number);
        let facts = case.facts.unwrap_or(own);
        if facts == own {
            self.own[answer] += 1;
            let number = arrival.answer.number;
            self.heads.count(lent.me.settings, packet, *i, number);
            let outcome = single::Outcome::of(lent.me, arrival.answer);
            if let Some(taken) = case.delivery.tie(&outcome) {
                let rule = rule_of(lent.me.settings) as usize;
                self.ties[rule][usize::from(taken)] += 1;
            }
            let later = answer == 10 && arrival.epoch > lent.me.epoch;
            self.later += u64::from(later);
            return;
        }
        let told = Told::of(packet, facts, *i);
        self.foreign[told as usize] += 1;
        if told == Told::Entry {
            self.entries[answer] += 1;
            self.unasked += u64::from(own.number == 22);
            self.unruled += u64::from(own.number == 27);
        }
    }
}

/// Random deliveries of the usual count.
const DELIVERIES: usize = 400_000;

pub fn compare(settings: &Settings, other: Arrive) -> Result<Tally, Box<Found<Case>>> {
    let mut rng = settings.rng("arrive");
    let mut bench = single::Bench::new(&mut rng);
    let mut tally = Tally::default();
    let mut difference = |case: &Case| difference(&mut bench, case, other);
    for _ in 0..DELIVERIES * settings.times {
        let case = match rng.below(2) {
            0 => Case {
                delivery: some_delivery(&mut rng),
                facts: None,
            },
            _ => some_foreign(&mut rng),
        };
        match difference(&case) {
            Ok(arrival) => tally.count(&case, &arrival),
            Err(what) => return Err(Box::new(shrink(case, what, |case| difference(case).err()))),
        }
    }
    Ok(tally)
}

/// By the engine and by the other; with the packet's own facts also by the engine's
/// delivery from a packet.
fn difference(bench: &mut single::Bench, case: &Case, other: Arrive) -> Result<Arrival, String> {
    let lent = &case.delivery.lent;
    let arrival = bench.compare(
        lent,
        |memory| by_engine(case, memory),
        |memory| other(case, memory),
    )?;
    if case.facts.is_none() {
        bench
            .compare(
                lent,
                |memory| single::Outcome::of(lent.me, by_engine(case, memory).answer),
                |memory| deliver::by_engine(&case.delivery, memory),
            )
            .map_err(|what| format!("{what}: by deliver_packet"))?;
    }
    Ok(arrival)
}

/// A packet that nobody asked after, of messages good and bad, with other facts.
fn some_foreign(rng: &mut Rng) -> Case {
    loop {
        let lent = some_case(rng);
        let Some((letters, mut i)) = some_letters_with(rng, &lent) else {
            continue;
        };
        let rule = some_rule_for(rng, lent.me.settings, 1, 6);
        let whole = unasked_packet(rule, &letters);
        let mut packet = whole.clone();
        match rng.below(8) {
            0 => damage(rng, &mut packet),
            // Cut off, in the contents or in the bodies.
            1 => packet.truncate(rng.below(packet.len() + 1)),
            2 => packet.truncate(rng.below(4 + 16 * letters.len())),
            _ => {}
        }
        // Mostly as if it had been accepted.
        let mut facts = Accepted {
            number: 0,
            count: letters.len() as u8,
        };
        if rng.chance(1, 3) {
            facts = some_facts(rng, lent.me.settings, &packet, &whole);
        }
        if rng.chance(1, 6) {
            i = some_index(rng, &packet, facts);
        }
        let packet = Bytes(packet);
        return Case {
            delivery: deliver::Case { lent, packet, i },
            facts: Some(facts),
        };
    }
}

/// The packet of these messages, each number cut to its width: of good ones a
/// whole packet.
fn unasked_packet(rule: Rule, letters: &[Letter]) -> Vec<u8> {
    let mut packet = vec![settings_of(rule).rule, letters.len() as u8, 0, 0];
    let mut at = 4 + 16 * letters.len();
    for letter in letters {
        let [kind, sender, epoch, record, version, tie, len] = letter.words;
        packet.extend([kind as u8, sender as u8]);
        packet.extend(epoch.to_be_bytes());
        packet.extend((record as u16).to_be_bytes());
        packet.extend(version.to_be_bytes());
        packet.push(tie as u8);
        packet.extend((at as u16).to_be_bytes());
        packet.push(len as u8);
        at += letter.body.len();
    }
    for letter in letters {
        packet.extend(&letter.body);
    }
    set_total(&mut packet);
    packet
}

impl Smaller for Case {
    fn smaller(&self) -> Box<dyn Iterator<Item = Case> + '_> {
        let own = self.facts.map(|_| Case {
            facts: None,
            ..self.clone()
        });
        let deliveries = self.delivery.smaller().map(|delivery| Case {
            delivery,
            facts: self.facts,
        });
        let lesser = self.facts.into_iter().flat_map(lesser).map(|facts| Case {
            facts: Some(facts),
            ..self.clone()
        });
        Box::new(own.into_iter().chain(deliveries).chain(lesser))
    }
}
