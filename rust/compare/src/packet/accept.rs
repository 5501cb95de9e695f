//! A packet of any bytes accepted once, and message i of it taken: with the
//! packet's own facts, and with any others.

use cetskobi::raw::{self, Accepted, Fetched};
use model::packet;
use model::rng::Rng;

use super::facts::{self, fetched_of, lesser, numbers_of, some_facts, some_index, Told};
use super::fetch::{self, each_packet, fetched, Look};
use super::Heads;
use crate::bytes::Bytes;
use crate::crossing::rule_of;
use crate::settings::Settings;
use crate::shrink::{shrink, Found, Smaller};

/// A packet, what is thought to be known of it, and the message that is asked for.
#[derive(Clone, Debug, PartialEq)]
pub struct Case {
    /// Those of the group.
    pub settings: raw::Settings,
    pub packet: Bytes,
    /// None for its own.
    pub facts: Option<Accepted>,
    pub i: usize,
}

/// Message i with these facts. By the engine and the header's text the settings do not
/// matter: the facts were had by them.
pub type Fetch = fn(raw::Settings, &[u8], Accepted, usize) -> Fetched;

/// The functions of one side.
#[derive(Clone, Copy)]
pub struct Side {
    pub accept: fn(raw::Settings, &[u8]) -> Accepted,
    pub fetch: Fetch,
}

/// The model, and the header's text where the facts are not the packet's own.
pub const BY_MODEL: Side = Side {
    accept: facts::by_model,
    fetch: by_model,
};

pub fn by_model(settings: raw::Settings, packet: &[u8], facts: Accepted, i: usize) -> Fetched {
    let accepted = packet::accept(rule_of(settings), packet);
    if facts == numbers_of(&accepted) {
        fetched(packet, accepted.and_then(|accepted| accepted.message(i)))
    } else {
        fetched_of(packet, facts, i)
    }
}

#[derive(Clone, Debug, Default)]
pub struct Tally {
    /// Packets by the number that they were accepted or refused with.
    pub packets: [u64; 28],
    /// The same by their byte 0.
    pub heads: Heads,
    /// Messages of a packet, with its own facts, by the answer.
    pub own: [u64; 28],
    /// With other facts, by what the header says, in the order of `Told::ALL`.
    pub foreign: [u64; 5],
    /// Of the entries that came with other facts, those of packets that question 22
    /// refuses; and those of packets that 27 refuses.
    pub unasked: u64,
    pub unruled: u64,
}

/// Whole and damaged packets, by the engine and by `other`.
struct Bench {
    other: Side,
    tally: Tally,
    rng: Rng,
}

type Differs = Result<(), Box<Found<Case>>>;

/// Foreign facts that a packet is looked at with, if all of it is looked at.
const FOREIGN: usize = 4;

impl Bench {
    fn packet(&mut self, look: &Look) -> Differs {
        let Look {
            settings, packet, ..
        } = *look;
        let own = raw::accept(settings, packet);
        let other = (self.other.accept)(settings, packet);
        if own != other {
            let what = format!("accept: engine {own:?}, other {other:?}");
            return Err(self.found(look, None, 0, what));
        }
        self.tally.packets[usize::from(own.number)] += 1;
        self.tally.heads.count(settings, packet, 0, own.number);
        let count = usize::from(own.count);
        let past = [count, [usize::MAX, 256, count + 1][self.rng.below(3)]];
        for i in (0..count).filter(|i| look.all || i % 8 == 0).chain(past) {
            self.fetch(look, own, own, i)?;
        }
        for _ in 0..if look.all { FOREIGN } else { 1 } {
            let facts = some_facts(&mut self.rng, settings, packet, look.whole);
            let i = some_index(&mut self.rng, packet, facts);
            self.fetch(look, own, facts, i)?;
        }
        Ok(())
    }

    fn fetch(&mut self, look: &Look, own: Accepted, facts: Accepted, i: usize) -> Differs {
        let Look {
            settings, packet, ..
        } = *look;
        match differs(settings, packet, own, facts, i, self.other.fetch) {
            Ok(fetched) if facts == own => self.tally.own[usize::from(fetched.number)] += 1,
            Ok(_) => {
                let told = Told::of(packet, facts, i);
                self.tally.foreign[told as usize] += 1;
                self.tally.unasked += u64::from(told == Told::Entry && own.number == 22);
                self.tally.unruled += u64::from(told == Told::Entry && own.number == 27);
            }
            Err(what) => {
                let facts = Some(facts).filter(|&facts| facts != own);
                return Err(self.found(look, facts, i, what));
            }
        }
        Ok(())
    }

    fn found(
        &self,
        look: &Look,
        facts: Option<Accepted>,
        i: usize,
        what: String,
    ) -> Box<Found<Case>> {
        let case = Case {
            settings: look.settings,
            packet: Bytes(look.packet.to_vec()),
            facts,
            i,
        };
        Box::new(shrink(case, what, |case| difference(case, self.other)))
    }
}

/// Message i with these facts, by the engine and by the other. With the packet's
/// own it is what a fetch gives.
fn differs(
    settings: raw::Settings,
    packet: &[u8],
    own: Accepted,
    facts: Accepted,
    i: usize,
    other: Fetch,
) -> Result<Fetched, String> {
    let (a, b) = (
        raw::fetch_accepted(packet, facts, i),
        other(settings, packet, facts, i),
    );
    if a != b {
        return Err(format!("with {facts:?}: engine {a:?}, other {b:?}"));
    }
    if facts == own {
        let c = raw::fetch(settings, packet, i);
        if a != c {
            return Err(format!("accepted {a:?}, fetched {c:?}"));
        }
        // The text says the same of the packet's own facts.
        let d = fetched_of(packet, facts, i);
        if a != d {
            return Err(format!("accepted {a:?}, by the text {d:?}"));
        }
    }
    Ok(a)
}

fn difference(case: &Case, other: Side) -> Option<String> {
    let Case {
        settings, packet, ..
    } = case;
    let own = raw::accept(*settings, packet);
    let by_other = (other.accept)(*settings, packet);
    if own != by_other {
        return Some(format!("accept: engine {own:?}, other {by_other:?}"));
    }
    let facts = case.facts.unwrap_or(own);
    differs(*settings, packet, own, facts, case.i, other.fetch).err()
}

pub fn compare(settings: &Settings, other: Side) -> Result<Tally, Box<Found<Case>>> {
    let mut bench = Bench {
        other,
        tally: Tally::default(),
        rng: settings.rng("facts"),
    };
    each_packet(settings, &mut settings.rng("accept"), |look| {
        bench.packet(&look)
    })?;
    Ok(bench.tally)
}

impl Smaller for Case {
    fn smaller(&self) -> Box<dyn Iterator<Item = Case> + '_> {
        let fetch = fetch::Case {
            settings: self.settings,
            packet: self.packet.clone(),
            i: self.i,
        };
        let fetches: Vec<fetch::Case> = fetch.smaller().collect();
        let fetches = fetches.into_iter().map(|fetch| Case {
            settings: fetch.settings,
            packet: fetch.packet,
            i: fetch.i,
            facts: self.facts,
        });
        let own = self.facts.map(|_| Case {
            facts: None,
            ..self.clone()
        });
        let lesser = self.facts.into_iter().flat_map(lesser).map(|facts| Case {
            facts: Some(facts),
            ..self.clone()
        });
        Box::new(own.into_iter().chain(fetches).chain(lesser))
    }
}
