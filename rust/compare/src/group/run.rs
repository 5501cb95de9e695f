use model::engine::Rule;

use super::{Carry, Group, OnTable, Tally};
use crate::shrink::{drops, Smaller};
use crate::single::Event;

/// One entry of the list, and the place of the laptop that it comes to.
#[derive(Clone, Debug, PartialEq)]
pub struct Entry {
    /// Stays with the entry when others are dropped.
    pub id: usize,
    pub at: usize,
    pub what: What,
}

#[derive(Clone, Debug, PartialEq)]
pub enum What {
    /// Any event but a delivery.
    Own { i: usize, event: Event },
    /// The message that left the entry of this id; nothing if none did.
    Deliver { of: usize },
    /// The same for one of these, which come in one packet: entries of the same
    /// packet, one behind the other, take it in one pass.
    Packet { of: Vec<usize>, k: usize },
    /// The same message in a packet of a group with the other rule of ties, which
    /// question 27 refuses (02, Wish 6): by a delivery, or accepted at once.
    OtherRule { of: usize, accepted: bool },
}

/// A group that has just started fresh, and the list of its entries.
#[derive(Clone, Debug, PartialEq)]
pub struct Run {
    /// The rule of ties of all its laptops.
    pub rule: Rule,
    pub numbers: Vec<u8>,
    pub view: u16,
    pub records: usize,
    pub entries: Vec<Entry>,
}

impl Run {
    /// Plays the whole list.
    pub fn play(&self, carry: Carry, other: OnTable) -> Result<Tally, String> {
        let mut group = Group::start(self, carry, other)?;
        let mut tally = Tally::new();
        for entry in &self.entries {
            group.play(entry, &mut tally)?;
        }
        group.check_all()?;
        Ok(tally)
    }

    fn with(&self, change: impl FnOnce(&mut Run)) -> Run {
        let mut run = self.clone();
        change(&mut run);
        run
    }
}

impl Smaller for Run {
    fn smaller(&self) -> Box<dyn Iterator<Item = Run> + '_> {
        let fewer = drops(&self.entries).map(|entries| Run {
            entries,
            ..self.clone()
        });
        let records = [1, self.records / 2, self.records - 1];
        let records = records.into_iter().filter(|&n| n > 0 && n < self.records);
        let records = records.map(|n| self.with(|run| run.records = n));
        let first = (0..self.entries.len()).filter_map(|k| match &self.entries[k].what {
            What::Own { i, event } if *i > 0 => {
                let event = event.clone();
                Some(self.with(|run| run.entries[k].what = What::Own { i: 0, event }))
            }
            _ => None,
        });
        // All entries on one record, and no value.
        let alike = self.with(|run| {
            for entry in &mut run.entries {
                if let What::Own { i, .. } = &mut entry.what {
                    *i = 0;
                }
            }
        });
        let alike = Some(alike).filter(|run| run != self);
        let plain = (0..self.entries.len()).filter_map(|k| match &self.entries[k].what {
            What::Own { i, event } if event.value().is_some_and(|v| !v.is_empty()) => {
                let (i, mut event) = (*i, event.clone());
                event.value_mut()?.clear();
                Some(self.with(|run| run.entries[k].what = What::Own { i, event }))
            }
            _ => None,
        });
        // A message by itself in the place of one in a packet.
        let alone = (0..self.entries.len()).filter_map(|k| match &self.entries[k].what {
            What::Packet { of, k: place } => {
                let of = *of.get(*place)?;
                Some(self.with(|run| run.entries[k].what = What::Deliver { of }))
            }
            _ => None,
        });
        let rest = records.chain(alike).chain(first).chain(plain).chain(alone);
        Box::new(fewer.chain(rest))
    }
}
