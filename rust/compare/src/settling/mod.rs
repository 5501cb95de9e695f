//! Records settle (document 02, Wish 3). Random groups come to any situation;
//! then the recipe of `rust/settle` is followed on a copy of their memory, and so
//! is the list of every other laptop that can drive.

mod half;
mod look;
mod tally;
mod view;

pub use look::Rules;
pub use tally::{Kind, Tally};

use look::{settles, Copies};

use crate::group::{by_hand, Entry, Group, Run, Schedule};
use crate::settings::Settings;
use crate::shrink::{shrink, Found, Smaller};
use crate::single::on_table;

/// Laptops that a group starts with.
const SIZES: std::ops::RangeInclusive<usize> = 2..=16;
/// Runs of each size, with so many records and entries.
const RUNS: usize = 80;
const RECORDS: usize = 4;
const ENTRIES: usize = 400;
/// The group is looked at about once in so many entries, and settles a record in
/// part.
const LOOK: usize = 4;
const HALF: usize = 40;

/// A group after its list of entries, and the view whose laptops settle every
/// record: they hold it, or are given it now.
#[derive(Clone, Debug, PartialEq)]
pub struct Situation {
    pub run: Run,
    pub epoch: u32,
    pub view: u16,
}

/// Random groups in any situation. The rules are those of `rust/settle`.
pub fn compare(settings: &Settings, rules: Rules) -> Result<Tally, Box<Found<Situation>>> {
    let mut rng = settings.rng("settling");
    let mut tally = Tally::default();
    for size in SIZES {
        for _ in 0..RUNS * settings.times {
            let (run, mut schedule) = Schedule::start_of(&mut rng, size, RECORDS);
            let (epoch, view) = (0, run.view);
            let mut at = Situation { run, epoch, view };
            let mut play = |at: &mut Situation| {
                let mut group = Group::start(&at.run, by_hand, on_table)?;
                for id in 0..ENTRIES {
                    let (place, what) = schedule.next(&mut rng, &group);
                    at.run.entries.push(Entry {
                        id,
                        at: place,
                        what,
                    });
                    group.play(&at.run.entries[id], &mut Default::default())?;
                    if rng.chance(1, HALF) {
                        half::settle(&mut rng, &group, &mut schedule);
                    }
                    if rng.chance(1, LOOK) {
                        (at.epoch, at.view) = view::some(&mut rng, &group);
                        at.look(&group, rules, &mut tally)?;
                    }
                }
                Ok(())
            };
            if let Err(what) = play(&mut at) {
                let again = |at: &Situation| at.play(rules).err();
                return Err(Box::new(shrink(at, what, again)));
            }
        }
    }
    Ok(tally)
}

impl Situation {
    /// Plays the list, and settles every record.
    pub fn play(&self, rules: Rules) -> Result<Tally, String> {
        let mut group = Group::start(&self.run, by_hand, on_table)?;
        for entry in &self.run.entries {
            group.play(entry, &mut Default::default())?;
        }
        let mut tally = Tally::default();
        self.look(&group, rules, &mut tally)?;
        Ok(tally)
    }

    /// Settles every record of the view's laptops, one after the other. Nothing
    /// to do if one of them is not there.
    fn look(&self, group: &Group, rules: Rules, tally: &mut Tally) -> Result<(), String> {
        let Some(mut copies) = Copies::of(group, self.epoch, self.view)? else {
            tally.absent += 1;
            return Ok(());
        };
        tally.group(&copies);
        for i in 0..group.records() {
            let settled = settles(&mut copies, i, rules)
                .map_err(|what| format!("record {i} at epoch {}: {what}", self.epoch))?;
            tally.record(self.view, &settled);
        }
        Ok(())
    }
}

impl Smaller for Situation {
    fn smaller(&self) -> Box<dyn Iterator<Item = Situation> + '_> {
        let (epoch, view) = (self.epoch, self.view);
        let runs = self.run.smaller();
        Box::new(runs.map(move |run| Situation { run, epoch, view }))
    }
}
