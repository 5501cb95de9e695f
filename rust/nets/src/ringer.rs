//! The ringers: each bird's record is opened, and saved over if it is still as it
//! was shown; if not, it is opened again. They keep their slips to the evening.

use cetskobi::Members;
use model::rng::Rng;

use crate::group::Group;
use crate::hut::{Done, Hut};
use crate::plan::Bird;
use crate::slip::Slip;
use crate::visit::Visit;
use crate::{text, Tick};

/// What the ringers met with.
#[derive(Clone, Copy, Debug, Default, PartialEq, Eq)]
pub(crate) struct Visits {
    /// How often a record was opened, and how often it could not be shown.
    pub openings: u64,
    pub unshown: u64,
    /// Commits that 26 refused; those of them whose bird was saved later; and those by
    /// which it was to be entered again, and then found in what stood there.
    pub refused: u64,
    pub mended: u64,
    pub spared: u64,
    /// Birds saved after such a refusal.
    pub again: u64,
    /// Birds whose record was opened at a laptop that died or was struck off, before
    /// they were saved there: they were taken to another.
    pub moved: u64,
    /// How often another save stood in the place of a bird's, which told of the bird.
    pub found: u64,
    /// Saves that another had replaced, which did not tell of the bird: it was entered
    /// again. How many of them were finished before; and the birds.
    pub replaced: u64,
    pub crossed: u64,
    pub birds: u64,
    /// Of the replaced ones, those at the lower half of the numbers.
    pub in_charge: u64,
    /// Saves at a laptop that died or was struck off, whose bird was entered again at
    /// another.
    pub taken: u64,
}

/// The birds that are still to come or in the hand, and the slips of the others.
pub(crate) struct Ringers {
    visits: Vec<Visit>,
    /// When a bird was last saved that had not been before.
    pub last_save: Tick,
    pub counts: Visits,
}

impl Ringers {
    pub fn new(birds: &[Bird], mut rng: Rng) -> Ringers {
        let visit = |bird: &Bird| {
            let measured = text::of_bird(&mut rng, bird.recapture);
            Visit::new(*bird, measured)
        };
        Ringers {
            visits: birds.iter().map(visit).collect(),
            last_save: 0,
            counts: Visits::default(),
        }
    }

    /// The slips of all birds that came.
    pub fn slips(&self) -> Vec<&Slip> {
        self.visits.iter().map(|v| &v.slip).collect()
    }

    /// How many birds were saved.
    pub fn saved(&self) -> usize {
        self.visits.iter().filter(|v| v.is_saved()).count()
    }

    /// The first record whose bird is not saved yet, or is to be entered again, if
    /// there is one.
    pub fn waiting(&self) -> Option<usize> {
        let waiting = self.visits.iter().filter(|v| !v.is_told());
        waiting.map(|v| v.slip.record).min()
    }

    /// All whose time has come. A ringer who cannot use a laptop goes to the next,
    /// and opens the record there.
    pub fn tick(&mut self, group: &mut Group, huts: &mut [Hut], usable: Members) -> Done {
        for visit in &mut self.visits {
            while !usable.contains(visit.laptop()) {
                visit.leave(huts.len() as u8, &mut self.counts);
            }
            let hut = &mut huts[usize::from(visit.laptop())];
            let before = visit.is_saved();
            visit.go_on(group, hut, &mut self.counts)?;
            if visit.is_saved() && !before {
                self.last_save = group.now;
            }
        }
        Ok(())
    }
}

#[cfg(test)]
mod tests;
