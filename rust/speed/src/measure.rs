//! Times of the sides, in turns, so that noise hits all alike.

use std::time::{Duration, Instant};

use crate::side::{measured_calls, About, Side};

/// Time for one case, and the fewest turns.
const TIME: Duration = Duration::from_millis(300);
const TURNS: usize = 25;

/// The times of the turns of one side.
#[derive(Default)]
struct Turns(Vec<Duration>);

/// The engine's time divided by that of another side.
pub struct Ratio {
    /// Of each side's best turn.
    pub best: f64,
    /// Of each side's middle turn.
    pub median: f64,
}

/// To the C peer, if it has the case, and to the model.
pub struct Ratios {
    pub peer: Option<Ratio>,
    pub model: Ratio,
}

pub fn ratios(
    about: &About,
    engine: &mut impl Side,
    peer: &mut Option<impl Side>,
    model: &mut impl Side,
) -> Ratios {
    let begun = Instant::now();
    let (mut engines, mut peers, mut models) =
        (Turns::default(), Turns::default(), Turns::default());
    while engines.0.len() < TURNS || begun.elapsed() < TIME {
        engines.take(about, engine);
        if let Some(peer) = peer {
            peers.take(about, peer);
        }
        models.take(about, model);
    }
    for turns in [&mut engines, &mut peers, &mut models] {
        turns.0.sort();
    }
    Ratios {
        peer: peer.is_some().then(|| engines.to(&peers)),
        model: engines.to(&models),
    }
}

impl Turns {
    /// Every record is prepared first, and the calls alone are timed.
    fn take(&mut self, about: &About, side: &mut impl Side) {
        for i in about.from..about.records {
            side.prepare(i);
        }
        let begun = Instant::now();
        measured_calls(side, about.from, about.records);
        self.0.push(begun.elapsed());
    }

    /// The ratio to as many turns of another side, both in order.
    fn to(&self, other: &Turns) -> Ratio {
        let of = |k: usize| self.0[k].as_secs_f64() / other.0[k].as_secs_f64();
        Ratio {
            best: of(0),
            median: of(self.0.len() / 2),
        }
    }
}
