//! One bird: opened, measured, committed; and its slip, which is looked up whenever
//! another save stands in its place.

use std::mem;

use cetskobi::{Opened, Refusal, Timestamp};

use crate::fate::Fate;
use crate::group::Group;
use crate::hut::{Done, Hut};
use crate::plan::{Bird, MEASURING};
use crate::ringer::Visits;
use crate::slip::Slip;
use crate::text;
use crate::Tick;

/// Ticks until a refused ringer tries again.
const PATIENCE: Tick = 5;

/// How far a bird is.
#[derive(Debug)]
enum Stage {
    /// Its record is to be opened.
    Comes,
    /// Its record as it was opened.
    Open(Opened),
    /// The text with this timestamp tells of it.
    Told(Timestamp),
}

/// A bird in the hand, and then its slip.
#[derive(Debug)]
pub(crate) struct Visit {
    bird: Bird,
    pub slip: Slip,
    due: Tick,
    stage: Stage,
    /// Commits that 26 refused, and those of them after which it was saved or found.
    refused: u64,
    mended: u64,
    /// The laptop that the ringer has left with her slip, as it died or was struck off.
    left: Option<u8>,
}

impl Visit {
    pub fn new(bird: Bird, measured: String) -> Visit {
        Visit {
            bird,
            slip: Slip::new(bird.record, measured),
            due: bird.tick,
            stage: Stage::Comes,
            refused: 0,
            mended: 0,
            left: None,
        }
    }

    /// Where the ringer is.
    pub fn laptop(&self) -> u8 {
        self.bird.laptop
    }

    /// Saved, at least once.
    pub fn is_saved(&self) -> bool {
        !self.slip.saves.is_empty()
    }

    /// Saved, and told of as far as she knows.
    pub fn is_told(&self) -> bool {
        matches!(self.stage, Stage::Told(_))
    }

    /// She cannot use her laptop, and goes to the next of so many.
    pub fn leave(&mut self, laptops: u8, counts: &mut Visits) {
        self.left = self.is_saved().then_some(self.bird.laptop);
        self.bird.laptop = (self.bird.laptop + 1) % laptops;
        if let Stage::Open(_) = self.stage {
            self.stage = Stage::Comes;
            counts.moved += u64::from(!self.is_saved());
        }
    }

    /// The next step, if it is time for it.
    pub fn go_on(&mut self, group: &mut Group, hut: &mut Hut, counts: &mut Visits) -> Done {
        if self.due > group.now || self.awaits_view(group) {
            return Ok(());
        }
        match mem::replace(&mut self.stage, Stage::Comes) {
            Stage::Comes => self.open(group, hut, counts),
            Stage::Open(seen) => self.save(group, hut, seen, counts),
            Stage::Told(stands) if self.replaced(group, hut, stands) => {
                self.open(group, hut, counts)
            }
            told @ Stage::Told(_) => {
                self.stage = told;
                Ok(())
            }
        }
    }

    /// Whether another save stands in the place of that one. The hut tells her when the
    /// record is valid again.
    fn replaced(&self, group: &Group, hut: &Hut, stands: Timestamp) -> bool {
        hut.fate(group, self.slip.record, stands) == Fate::Replaced
            && group.laptop(self.bird.laptop).shows_valid(self.slip.record)
    }

    /// With a slip she asks the warden for another laptop: one that was told that hers
    /// is struck off. Until then her save may still come there.
    fn awaits_view(&self, group: &Group) -> bool {
        let view = group.laptop(self.bird.laptop).view();
        self.left.is_some_and(|n| view.contains(n))
    }

    /// She opens the record. If the bird was saved before, she looks whether the text
    /// tells of it: then all is well. Once it is measured, only the text is read.
    fn open(&mut self, group: &mut Group, hut: &Hut, counts: &mut Visits) -> Done {
        let seen = hut.open(group, self.slip.record)?;
        counts.openings += 1;
        let Ok(seen) = seen else {
            counts.unshown += 1;
            self.due = group.now + PATIENCE;
            return Ok(());
        };
        let told = self.slip.told_by(&seen);
        if told == Some(true) {
            counts.found += 1;
            counts.spared += self.refused - self.mended;
            self.mended = self.refused;
            self.slip.found(&seen);
            self.stage = Stage::Told(seen.timestamp());
            return Ok(());
        }
        self.slip.unsure |= told.is_none();
        let measured = self.refused > 0 || self.is_saved();
        self.due = group.now
            + match measured {
                true => MEASURING,
                false => self.bird.measuring,
            };
        self.stage = Stage::Open(seen);
        Ok(())
    }

    /// She adds what she measured to the text that she saw, and commits that. If it is
    /// refused, she opens the record again.
    fn save(
        &mut self,
        group: &mut Group,
        hut: &mut Hut,
        seen: Opened,
        counts: &mut Visits,
    ) -> Done {
        let text = text::with(seen.text(), seen.timestamp().tie, &self.slip.measured);
        match hut.save(group, seen, &text)? {
            Ok(saved) => self.saved(group, &text, saved, counts),
            Err(refusal) => {
                let changed = u64::from(refusal == Refusal::NotAsOpened);
                self.refused += changed;
                counts.refused += changed;
                self.due = group.now + PATIENCE;
            }
        }
        Ok(())
    }

    fn saved(&mut self, group: &Group, text: &[u8], saved: Timestamp, counts: &mut Visits) {
        counts.mended += self.refused - self.mended;
        counts.again += u64::from(self.refused > 0 && self.mended == 0);
        self.mended = self.refused;
        if let Some(before) = self.slip.saves.last() {
            self.again(group, *before, counts);
        }
        self.slip.saved(text, saved);
        self.left = None;
        self.stage = Stage::Told(saved);
    }

    /// The bird was entered again, as the save before is in no text that she found.
    fn again(&self, group: &Group, before: Timestamp, counts: &mut Visits) {
        let finished = group.saves.get(self.slip.record, before);
        let finished = finished.is_some_and(|s| s.finished);
        match before.tie == self.bird.laptop {
            true => {
                counts.replaced += 1;
                counts.crossed += u64::from(finished);
                counts.in_charge += u64::from(before.tie < group.lower_half());
            }
            false => counts.taken += 1,
        }
        counts.birds += u64::from(self.slip.saves.len() == 1);
    }
}
