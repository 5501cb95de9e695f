//! One event on lent memory of any kind, by the engine and by the model.

mod case;
mod play;
mod smaller;
mod some;
mod tally;

pub use case::{Case, Event, Kind};
pub use play::{by_engine, by_model, on_memory, on_table, replica_of, Bench, Outcome, Play};
pub use some::{some_bytes, some_case, some_number, some_set, some_settings, some_word};
pub use tally::{last_ack, tie, Tally};

use crate::settings::Settings;
use crate::shrink::{shrink, Found};

/// Random events of the usual count.
const EVENTS: usize = 1_500_000;

/// Plays random events by the engine and by `other`, which is the model. Gives
/// how often each answer came.
pub fn compare(settings: &Settings, other: Play) -> Result<Tally, Box<Found<Case>>> {
    let mut rng = settings.rng("single");
    let mut bench = Bench::new(&mut rng);
    let mut tally = Tally::default();
    for _ in 0..EVENTS * settings.times {
        let case = some_case(&mut rng);
        match bench.difference(&case, other) {
            Ok(outcome) => tally.count(&case, &outcome),
            Err(what) => {
                let found = shrink(case, what, |case| bench.difference(case, other).err());
                return Err(Box::new(found));
            }
        }
    }
    Ok(tally)
}
