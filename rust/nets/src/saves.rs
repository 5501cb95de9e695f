//! The accepted saves of a morning.

use std::collections::BTreeMap;

use cetskobi::{Members, Timestamp};

use crate::Tick;

/// An accepted save.
#[derive(Clone, Debug, Default, PartialEq, Eq)]
pub(crate) struct Save {
    pub tick: Tick,
    pub text: Vec<u8>,
    /// The timestamp of the text that it replaced at its laptop.
    pub over: Timestamp,
    /// The other laptops that took its INV.
    pub heard: Members,
    /// Whether it was finished at its laptop.
    pub finished: bool,
}

impl Save {
    /// Another laptop has taken its INV.
    pub fn heard(&mut self, laptop: u8) {
        self.heard = self.heard.into_iter().chain([laptop]).collect();
    }
}

/// A save's record, version and laptop. Their order is that of no rule of ties.
pub(crate) type Key = (usize, u32, u8);

pub(crate) const fn key(record: usize, saved: Timestamp) -> Key {
    (record, saved.version, saved.tie)
}

/// All of them.
#[derive(Clone, Debug, Default, PartialEq, Eq)]
pub(crate) struct Saves(BTreeMap<Key, Save>);

impl Saves {
    pub fn get(&self, record: usize, saved: Timestamp) -> Option<&Save> {
        self.0.get(&key(record, saved))
    }

    pub fn get_mut(&mut self, record: usize, saved: Timestamp) -> Option<&mut Save> {
        self.0.get_mut(&key(record, saved))
    }

    pub fn insert(&mut self, record: usize, saved: Timestamp, save: Save) {
        self.0.insert(key(record, saved), save);
    }

    /// Each with the laptop that saved.
    pub fn by_laptop(&self) -> impl Iterator<Item = (u8, &Save)> {
        self.0.iter().map(|((_, _, laptop), save)| (*laptop, save))
    }

    /// How often one record was saved at once, with one version, by two laptops or more.
    pub fn ties(&self) -> usize {
        let mut laptops: BTreeMap<(usize, u32), usize> = BTreeMap::new();
        for (record, version, _) in self.0.keys() {
            *laptops.entry((*record, *version)).or_default() += 1;
        }
        laptops.values().filter(|n| **n > 1).count()
    }
}

#[cfg(test)]
mod tests {
    use super::*;

    #[test]
    fn saves_with_one_version_are_a_tie() {
        let mut saves = Saves::default();
        let mut ties = |record: usize, version: u32, tie: u8| {
            saves.insert(record, Timestamp { version, tie }, Save::default());
            saves.ties()
        };
        assert_eq!([ties(7, 1, 3), ties(7, 2, 3), ties(8, 1, 4)], [0, 0, 0]);
        // Three laptops that save at once are one tie.
        assert_eq!([ties(7, 2, 0), ties(7, 2, 5), ties(8, 1, 0)], [1, 1, 2]);
    }
}
