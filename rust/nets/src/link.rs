//! The radio link: each listener hears a packet, or not, or twice, sooner or
//! later.

use std::collections::BTreeMap;
use std::rc::Rc;

use cetskobi::Members;
use model::rng::Rng;

use crate::fault;
use crate::settings::{Part, Settings};
use crate::Tick;

/// A packet as one listener hears it.
#[derive(Clone, Debug)]
pub(crate) struct Heard {
    pub from: u8,
    pub to: u8,
    pub bytes: Rc<[u8]>,
    /// The packet's place among all that were sent.
    sent: u64,
}

/// What the link did, in copies: one for each packet and listener.
#[derive(Clone, Copy, Debug, Default, PartialEq, Eq)]
pub(crate) struct LinkCounts {
    pub packets: u64,
    pub bytes: u64,
    pub copies: u64,
    pub lost: u64,
    pub repeated: u64,
    /// Heard after a packet that was sent later, on the same way.
    pub late: u64,
}

/// The link, with what is in the air.
pub(crate) struct Link {
    settings: Settings,
    rng: Rng,
    /// By the tick of arrival; at one tick in the order of sending.
    air: BTreeMap<(Tick, u64), Heard>,
    healed: bool,
    serial: u64,
    /// The latest sent packet that was heard, for each way.
    latest: BTreeMap<(u8, u8), u64>,
    pub counts: LinkCounts,
}

/// Of 100 packets of a weak radio so many are lost.
const WEAK_LOSS: usize = 85;
/// Of 100 packets so many are held back, for up to `HELD` times the delay.
const HELD_BACK: usize = 5;
const HELD: Tick = 20;

impl Link {
    pub fn new(settings: &Settings) -> Link {
        Link {
            settings: settings.clone(),
            rng: settings.rng(Part::Link),
            air: BTreeMap::new(),
            healed: false,
            serial: 0,
            latest: BTreeMap::new(),
            counts: LinkCounts::default(),
        }
    }

    /// From now on nothing is lost, repeated or held back.
    pub fn heal(&mut self) {
        self.healed = true;
    }

    /// No packet is longer on its way, in ticks.
    pub fn longest(&self) -> Tick {
        HELD * self.settings.delay
    }

    /// A packet goes on air.
    pub fn send(&mut self, now: Tick, from: u8, to: Members, bytes: &[u8], weak: bool) {
        self.counts.packets += 1;
        self.counts.bytes += bytes.len() as u64;
        let sent = self.counts.packets;
        let bytes: Rc<[u8]> = bytes.into();
        for to in to {
            self.counts.copies += 1;
            if self.loses(weak) {
                self.counts.lost += 1;
                continue;
            }
            let bytes = self.handed_on(&bytes);
            let heard = Heard {
                from,
                to,
                bytes,
                sent,
            };
            if !self.healed && self.rng.chance(self.settings.repeat.into(), 100) {
                self.counts.repeated += 1;
                self.fly(now, heard.clone());
            }
            self.fly(now, heard);
        }
    }

    /// What is heard at this tick.
    pub fn arrivals(&mut self, now: Tick) -> Vec<Heard> {
        let later = self.air.split_off(&(now + 1, 0));
        let heard: Vec<Heard> = std::mem::replace(&mut self.air, later)
            .into_values()
            .collect();
        for h in &heard {
            let latest = self.latest.entry((h.from, h.to)).or_default();
            if h.sent < *latest {
                self.counts.late += 1;
            }
            *latest = h.sent.max(*latest);
        }
        heard
    }

    fn loses(&mut self, weak: bool) -> bool {
        let loss = if weak {
            WEAK_LOSS
        } else {
            self.settings.loss.into()
        };
        !self.healed && self.rng.chance(loss, 100)
    }

    fn fly(&mut self, now: Tick, heard: Heard) {
        let held = !self.healed && self.rng.chance(HELD_BACK, 100);
        let most = if held {
            self.longest()
        } else {
            self.settings.delay
        };
        let tick = now + 1 + self.rng.below(most as usize) as Tick;
        self.serial += 1;
        self.air.insert((tick, self.serial), heard);
    }

    /// The packet unaltered, unless the link is to be broken.
    fn handed_on(&mut self, bytes: &Rc<[u8]>) -> Rc<[u8]> {
        let (rule, laptops) = (self.settings.rule, self.settings.laptops);
        let broken = self
            .settings
            .fault
            .and_then(|f| fault::in_flight(f, rule, bytes, laptops, &mut self.rng));
        broken.map_or_else(|| bytes.clone(), Rc::from)
    }
}

#[cfg(test)]
mod tests {
    use super::*;

    /// A thousand packets for three listeners, and how many copies were heard.
    fn sent(link: &mut Link, weak: bool) -> usize {
        for n in 0..1000 {
            link.send(n, 0, Members::from(0b1110), &[1, 2, 3], weak);
        }
        (0..2000).map(|tick| link.arrivals(tick).len()).sum()
    }

    #[test]
    fn it_loses_repeats_and_reorders() {
        let mut link = Link::new(&Settings::default());
        let heard = sent(&mut link, false) as u64;
        let c = link.counts;
        assert_eq!((c.packets, c.bytes, c.copies), (1000, 3000, 3000));
        assert_eq!(heard, c.copies - c.lost + c.repeated);
        assert!((800..1000).contains(&c.lost) && (170..250).contains(&c.repeated) && c.late > 500);
        assert!(link.air.is_empty());
    }

    #[test]
    fn a_weak_radio_is_heard_by_few() {
        assert!(sent(&mut Link::new(&Settings::default()), true) < 700);
    }

    #[test]
    fn healed_it_loses_nothing() {
        let mut link = Link::new(&Settings::default());
        link.heal();
        assert_eq!(sent(&mut link, false), 3000);
    }
}
