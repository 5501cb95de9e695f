//! What is printed of a check that failed.

use std::fmt;

use cetskobi::Timestamp;

use crate::agreement::Disagreement;
use crate::opening::Unkept;

/// Which check failed.
#[derive(Clone, Copy, Debug, PartialEq, Eq)]
pub enum Cause {
    /// Agreement, after an event.
    Disagreement(Disagreement),
    /// A promise of one laptop, after an event.
    Unkept(Unkept),
    /// A record that is not valid on all laptops of the newest view though the
    /// link has healed.
    Unsettled {
        /// The record.
        record: usize,
    },
    /// A record that no short list of events would settle, when all laptops of the
    /// newest view had heard of it.
    NoWay {
        /// The record.
        record: usize,
    },
    /// Records change without end though the link has healed.
    Restless {
        /// The last one.
        record: usize,
    },
    /// A settled record is not the same on all laptops, or not as it was saved.
    OtherText {
        /// The record.
        record: usize,
    },
    /// All is settled, and a bird still waits to be saved.
    Unsaved {
        /// The record.
        record: usize,
    },
    /// A text that was not made from the one that it replaced: its ringer had not
    /// seen that.
    Unseen {
        /// The record.
        record: usize,
        /// The save's timestamp.
        saved: Timestamp,
        /// That of the text that it replaced.
        over: Timestamp,
    },
    /// A bird was saved, and no text tells of it in the end.
    Untold {
        /// The record.
        record: usize,
        /// The timestamp of its last save.
        saved: Timestamp,
    },
    /// A text tells of one capture twice.
    Twice {
        /// The record.
        record: usize,
        /// The timestamp of its last save.
        saved: Timestamp,
    },
    /// Two saves were a tie, and at a laptop that heard of both another one stands than
    /// the winner by the group's rule (document 02, Wish 6).
    WrongTie {
        /// The record.
        record: usize,
        /// The laptop.
        laptop: u8,
        /// The save that wins.
        winner: Timestamp,
        /// The other one.
        loser: Timestamp,
    },
    /// A packet of the other station, whose group has the other rule, was not refused
    /// by 27, or something changed.
    TakenIn {
        /// The record that it is about.
        record: usize,
        /// The laptop that it came to.
        laptop: u8,
    },
    /// All else is well, but packets of the group's own laptops were refused as a whole.
    Refused {
        /// The record that changed last.
        record: usize,
        /// A laptop that sent one.
        laptop: u8,
        /// The number of the question.
        number: u8,
    },
}

impl From<Disagreement> for Cause {
    fn from(d: Disagreement) -> Cause {
        Cause::Disagreement(d)
    }
}

impl From<Unkept> for Cause {
    fn from(u: Unkept) -> Cause {
        Cause::Unkept(u)
    }
}

impl Cause {
    /// The record it is about.
    pub fn record(&self) -> usize {
        match self {
            Cause::Disagreement(d) => d.record(),
            Cause::Unkept(u) => u.record(),
            Cause::Unsettled { record }
            | Cause::NoWay { record }
            | Cause::Restless { record }
            | Cause::OtherText { record }
            | Cause::Unsaved { record }
            | Cause::Unseen { record, .. }
            | Cause::Untold { record, .. }
            | Cause::Twice { record, .. }
            | Cause::WrongTie { record, .. }
            | Cause::TakenIn { record, .. }
            | Cause::Refused { record, .. } => *record,
        }
    }
}

impl fmt::Display for Cause {
    fn fmt(&self, f: &mut fmt::Formatter<'_>) -> fmt::Result {
        match self {
            Cause::Disagreement(d) => write!(f, "no agreement: {d}"),
            Cause::Unkept(u) => write!(f, "a promise not kept: {u}"),
            Cause::Unsettled { record } => {
                write!(f, "record {record} has not settled since the link healed")
            }
            Cause::NoWay { record } => {
                write!(f, "the recipe would not settle record {record}")
            }
            Cause::Restless { record } => write!(
                f,
                "records still change long after the link healed, the last of them {record}"
            ),
            Cause::OtherText { record } => write!(
                f,
                "record {record} has settled with another text than was saved"
            ),
            Cause::Unsaved { record } => {
                write!(
                    f,
                    "record {record} has settled, and a bird still waits for it"
                )
            }
            Cause::Unseen {
                record,
                saved,
                over,
            } => {
                let laptop = saved.tie;
                write!(f, "laptop {laptop} saved record {record} with {saved} over {over}, which its ringer had not seen")
            }
            Cause::Untold { record, saved } => {
                let laptop = saved.tie;
                write!(f, "laptop {laptop} saved a bird in record {record} with {saved}, and the text does not tell of it")
            }
            Cause::Twice { record, saved } => {
                let laptop = saved.tie;
                write!(f, "the text of record {record} tells twice of the bird that laptop {laptop} saved with {saved}")
            }
            Cause::WrongTie {
                record,
                laptop,
                winner,
                loser,
            } => {
                write!(f, "laptop {laptop} heard of two saves of record {record} with one version, {winner} and {loser}, and the first does not stand there")
            }
            Cause::TakenIn { record, laptop } => {
                write!(f, "laptop {laptop} did not refuse by 27 a packet of the other station, about record {record}, or changed by it")
            }
            Cause::Refused { laptop, number, .. } => {
                write!(f, "packets of laptop {laptop} were refused by {number}")
            }
        }
    }
}

/// A check that failed.
#[derive(Clone, Debug)]
pub struct Failure {
    /// The morning's seed.
    pub seed: u64,
    /// When it failed.
    pub tick: u32,
    /// What failed.
    pub cause: Cause,
    /// What each laptop holds of the record: a table, its heading first.
    pub holdings: Vec<String>,
    /// The last events on the record, in order; the last one failed.
    pub events: Vec<String>,
    /// The packets of the group's own laptops that were refused as a whole, a line for
    /// each sender; none in a sound group.
    pub refused: Vec<String>,
}

impl fmt::Display for Failure {
    fn fmt(&self, f: &mut fmt::Formatter<'_>) -> fmt::Result {
        writeln!(
            f,
            "FAILED with seed {} at tick {}: {}",
            self.seed, self.tick, self.cause
        )?;
        let record = self.cause.record();
        writeln!(f, "what each laptop holds of record {record}:")?;
        self.holdings
            .iter()
            .try_for_each(|h| writeln!(f, "  {h}"))?;
        writeln!(f, "the last events on record {record}:")?;
        self.events.iter().try_for_each(|e| writeln!(f, "  {e}"))?;
        if !self.refused.is_empty() {
            writeln!(f, "the group's packets that were refused, by sender:")?;
        }
        self.refused.iter().try_for_each(|r| writeln!(f, "  {r}"))
    }
}
