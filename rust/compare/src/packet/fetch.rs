//! Fetching message i of a packet of any bytes.

use cetskobi::raw::{self, Fetched};
use model::engine::{Envelope, Refusal, Rule};
use model::packet;
use model::rng::Rng;

use super::{damage, packet_of, set_total, some_packet, some_rule_for, Heads, Letter};
use crate::bytes::Bytes;
use crate::crossing::{rule_of, sent_of, settings_of};
use crate::settings::Settings;
use crate::shrink::{drops, less, plainer, shrink, Found, Smaller};
use crate::single::some_settings;

/// How often each answer came: 0, 20 to 23, and 27.
#[derive(Clone, Debug, Default)]
pub struct Tally {
    pub answers: [u64; 28],
    pub heads: Heads,
    pub packets: u64,
    /// Of these, whose bytes are not those of the whole packet they came from.
    pub damaged: u64,
}

#[derive(Clone, Debug, PartialEq)]
pub struct Case {
    /// Those of the group.
    pub settings: raw::Settings,
    pub packet: Bytes,
    pub i: usize,
}

/// What a fetch gives.
pub type Fetch = fn(raw::Settings, &[u8], usize) -> Fetched;

pub fn by_engine(settings: raw::Settings, packet: &[u8], i: usize) -> Fetched {
    raw::fetch(settings, packet, i)
}

pub fn by_model(settings: raw::Settings, packet: &[u8], i: usize) -> Fetched {
    fetched(packet, packet::fetch(rule_of(settings), packet, i))
}

/// What the model gives of this packet, as numbers.
pub(super) fn fetched(packet: &[u8], got: Result<(Envelope, &[u8]), Refusal>) -> Fetched {
    match got {
        Ok((envelope, body)) => {
            let (kind, tie, version) = sent_of(Some(envelope.message));
            Fetched {
                number: 0,
                kind,
                sender: envelope.sender,
                tie,
                epoch: envelope.epoch,
                version,
                index: envelope.record,
                at: body.as_ptr() as usize - packet.as_ptr() as usize,
                len: body.len(),
            }
        }
        Err(refusal) => refused(refusal.number()),
    }
}

/// A refused fetch has no message, and the empty part.
pub(super) fn refused(number: u8) -> Fetched {
    Fetched {
        number,
        kind: 0,
        sender: 0,
        tie: 0,
        epoch: 0,
        version: 0,
        index: 0,
        at: 0,
        len: 0,
    }
}

fn difference(case: &Case, other: Fetch) -> Option<String> {
    let [a, b] = [by_engine, other].map(|by| by(case.settings, &case.packet, case.i));
    (a != b).then(|| format!("engine {a:?}, other {b:?}"))
}

/// Whole and damaged packets, by the engine and by `other`.
struct Bench {
    other: Fetch,
    tally: Tally,
}

type Differs = Result<(), Box<Found<Case>>>;

impl Bench {
    /// Messages of the packet, the last, and the places past it.
    fn packet(&mut self, look: &Look) -> Differs {
        let packet = look.packet;
        let count = look.count();
        if look.all || count <= FEW {
            let within = if by_engine(look.settings, packet, 0).number == 0 {
                count
            } else {
                1
            };
            for i in 0..within {
                self.fetch(look, i)?;
            }
        } else {
            let turn = self.tally.packets as usize % count;
            for i in [0, turn, count - 1] {
                self.fetch(look, i)?;
            }
        }
        self.tally.packets += 1;
        self.tally.damaged += u64::from(packet != look.whole);
        for i in [count.wrapping_sub(1), count, count + 1, usize::MAX] {
            self.fetch(look, i)?;
        }
        Ok(())
    }

    fn fetch(&mut self, look: &Look, i: usize) -> Differs {
        let Look {
            settings, packet, ..
        } = *look;
        let [a, b] = [by_engine, self.other].map(|by| by(settings, packet, i));
        if a == b {
            self.tally.answers[usize::from(a.number)] += 1;
            self.tally.heads.count(settings, packet, i, a.number);
            return Ok(());
        }
        let packet = Bytes(packet.to_vec());
        let case = Case {
            settings,
            packet,
            i,
        };
        let what = format!("engine {a:?}, other {b:?}");
        let again = |case: &Case| difference(case, self.other);
        Err(Box::new(shrink(case, what, again)))
    }
}

/// A packet of more messages than this has many.
const FEW: usize = 8;

pub fn compare(settings: &Settings, other: Fetch) -> Result<Tally, Box<Found<Case>>> {
    let tally = Tally::default();
    let mut bench = Bench { other, tally };
    each_packet(settings, &mut settings.rng("fetch"), |look| {
        bench.packet(&look)
    })?;
    Ok(bench.tally)
}

/// A packet that is looked at.
pub(super) struct Look<'a> {
    /// Those of the group that it comes to.
    pub settings: raw::Settings,
    pub packet: &'a [u8],
    /// The packet that it was before it was damaged.
    pub whole: &'a [u8],
    /// Every message is to be looked at, else some where there are many.
    pub all: bool,
}

impl Look<'_> {
    /// How many messages it says that it has.
    pub fn count(&self) -> usize {
        self.packet.get(1).map_or(0, |&count| usize::from(count))
    }
}

/// Random damaged packets of the usual count.
const DAMAGED: usize = 650_000;

/// Packets of every kind, whole and damaged, half of them in groups with each rule; of
/// these some are of the other rule (02, Wish 6).
pub(super) fn each_packet<E>(
    settings: &Settings,
    rng: &mut Rng,
    mut look: impl FnMut(Look) -> Result<(), E>,
) -> Result<(), E> {
    for group in Rule::ALL.map(settings_of) {
        for rule in Rule::ALL {
            let ringing = packet_of(rule, &ringing()).expect("the paper's packet");
            around(group, &ringing, &mut look)?;
            let three = packet_of(rule, &three()).expect("three messages");
            around(group, &three, &mut look)?;
        }
        around(group, &full(rule_of(group)), &mut look)?;
    }
    for _ in 0..6 * settings.times {
        let group = some_settings(rng);
        around(group, &some_packet(rng, rule_of(group)), &mut look)?;
    }
    for _ in 0..DAMAGED * settings.times {
        let group = some_settings(rng);
        let rule = some_rule_for(rng, group, 1, 6);
        let whole = some_packet(rng, rule);
        let mut packet = whole.clone();
        for _ in 0..1 + rng.below(3) {
            damage(rng, &mut packet);
        }
        look(Look {
            settings: group,
            packet: &packet,
            whole: &whole,
            all: true,
        })?;
    }
    Ok(())
}

/// Every byte with every value; every length, with and without its total; and
/// more bytes behind.
fn around<E>(
    settings: raw::Settings,
    whole: &[u8],
    mut look: impl FnMut(Look) -> Result<(), E>,
) -> Result<(), E> {
    let mut of = |packet: &[u8], all: bool| {
        look(Look {
            settings,
            packet,
            whole,
            all,
        })
    };
    of(whole, true)?;
    let mut packet = whole.to_vec();
    for at in 0..whole.len() {
        for value in 0..=255 {
            packet[at] = value;
            of(&packet, false)?;
        }
        packet[at] = whole[at];
    }
    for len in 0..whole.len() {
        of(&whole[..len], true)?;
        let mut packet = whole[..len].to_vec();
        set_total(&mut packet);
        of(&packet, true)?;
    }
    for more in 1..40 {
        let mut packet = whole.to_vec();
        packet.resize(whole.len() + more, 1);
        of(&packet, true)?;
        set_total(&mut packet);
        of(&packet, true)?;
    }
    Ok(())
}

/// 01: ACK of (1,2) for record 7 from 5 at epoch 0.
pub fn ringing() -> [Letter; 1] {
    [Letter {
        words: [2, 5, 0, 7, 1, 2, 0],
        body: vec![],
    }]
}

fn three() -> [Letter; 3] {
    let letter = |words, body: &[u8]| Letter {
        words,
        body: body.to_vec(),
    };
    [
        letter([1, 15, 3, 4095, u32::MAX, 15, 5], b"first"),
        letter([3, 0, 3, 0, 1, 0, 0], b""),
        letter([1, 1, 3, 9, 2, 7, 4], b"last"),
    ]
}

/// A packet of 1,400 bytes: 4 + 7 * 16 + 6 * 192 + 132.
pub fn full(rule: Rule) -> Vec<u8> {
    let letter = |len: usize| Letter {
        words: [1, 5, 0, 0, 1, 5, len as u32],
        body: vec![7; len],
    };
    let mut letters = vec![letter(192); 6];
    letters.push(letter(132));
    packet_of(rule, &letters).expect("1,400 bytes")
}

impl Smaller for Case {
    fn smaller(&self) -> Box<dyn Iterator<Item = Case> + '_> {
        let with = |packet: Vec<u8>| Case {
            packet: Bytes(packet),
            ..*self
        };
        let fewer = drops(&self.packet);
        // With the total of what is left, and without.
        let fewer = fewer.flat_map(|packet| {
            let mut whole = packet.clone();
            set_total(&mut whole);
            [whole, packet]
        });
        let plain = plainer(&self.packet).filter(|packet| *packet != *self.packet);
        let index = less(self.i as u64).map(|i| Case {
            i: i as usize,
            ..self.clone()
        });
        let rules = lesser_rule(self.settings).map(|settings| Case {
            settings,
            ..self.clone()
        });
        Box::new(fewer.chain(plain).map(with).chain(index).chain(rules))
    }
}

/// Settings with a lesser byte of the rule.
pub(super) fn lesser_rule(settings: raw::Settings) -> impl Iterator<Item = raw::Settings> {
    let lesser = less(settings.rule.into());
    lesser.map(|rule| raw::Settings { rule: rule as u8 })
}
