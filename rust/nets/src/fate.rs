//! What became of a save, as docs/GUIDE.md has it: asked after every packet and every
//! view, to the end of the day.

use cetskobi::{Laptop, State, Timestamp};

/// What the hut's laptop says of a save.
#[derive(Clone, Copy, Debug, PartialEq, Eq)]
pub(crate) enum Fate {
    Waiting,
    Finished,
    /// Another save stands there, and may or may not tell of this one; or this one has
    /// not come here.
    Replaced,
    /// It would wait for ever.
    StruckOff,
}

pub(crate) fn of(laptop: &Laptop, i: usize, saved: Timestamp) -> Fate {
    let counts = laptop.view().contains(laptop.number());
    match laptop.record(i) {
        Some(r) if r.timestamp == saved && r.state == State::Valid => Fate::Finished,
        Some(r) if r.timestamp == saved && counts => Fate::Waiting,
        Some(r) if r.timestamp == saved => Fate::StruckOff,
        _ => Fate::Replaced,
    }
}

#[cfg(test)]
mod tests {
    use super::*;
    use cetskobi::{Members, Record, Replica, Rule};

    const SAVED: Timestamp = Timestamp { version: 2, tie: 0 };

    /// The fate of SAVED at laptop 0, whose record is so.
    fn fate(state: State, timestamp: Timestamp, view: u16) -> Fate {
        let r = Record {
            state,
            timestamp,
            writer: timestamp.tie,
            written: SAVED,
            acks: Members::default(),
            len: 0,
        };
        let me = Replica {
            number: 0,
            settings: Rule::Lower.into(),
            view,
            epoch: 1,
        };
        let store = vec![0; Record::VALUE_MAX];
        of(
            &Laptop::from_parts(me, r.to_bytes().to_vec(), store),
            0,
            SAVED,
        )
    }

    #[test]
    fn the_four_fates() {
        assert_eq!(fate(State::Write, SAVED, 0b11), Fate::Waiting);
        assert_eq!(fate(State::Write, SAVED, 0b110), Fate::StruckOff);
        for view in [0b11, 0b110] {
            assert_eq!(fate(State::Valid, SAVED, view), Fate::Finished);
            // By a save of the same version, by a later one, and where it never came.
            for (version, tie) in [(2, 1), (3, 0), (1, 1)] {
                let other = Timestamp { version, tie };
                for state in [State::Valid, State::InvalidWrite] {
                    assert_eq!(fate(state, other, view), Fate::Replaced);
                }
            }
        }
    }
}
