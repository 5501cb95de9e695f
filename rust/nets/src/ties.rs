//! Ties: of two saves of one record with one version, whose stands is said by the
//! group's rule (document 02, Wish 6). A laptop that has one of them and hears of the
//! other has that one's text then.

use std::collections::BTreeSet;

use cetskobi::{Rule, Timestamp};

use crate::failure::Cause;
use crate::saves::{key, Key};

/// The ties that laptops met with.
#[derive(Clone, Debug, PartialEq, Eq)]
pub(crate) struct Ties {
    pub rule: Rule,
    /// How often a laptop that had one of two such saves heard of the other.
    pub met: u64,
    /// The saves that won or lost a tie somewhere. Of three saves at once the middle
    /// one may do both.
    won: BTreeSet<Key>,
    lost: BTreeSet<Key>,
}

/// What is told of it in the end.
#[derive(Clone, Copy, Debug, Default, PartialEq, Eq)]
pub(crate) struct TiesReport {
    /// How often one record was saved at once by two laptops or more.
    pub all: usize,
    /// Those of which a laptop heard that had one of the saves: the rule decided them.
    pub decided: usize,
    /// How often a laptop did.
    pub met: u64,
    /// The saves that lost, and those of them at the lower half of the numbers.
    pub lost: usize,
    pub in_charge: usize,
    /// How many it would have been of these by the other rule.
    pub otherwise: usize,
}

impl Ties {
    pub fn new(rule: Rule) -> Ties {
        Ties {
            rule,
            met: 0,
            won: BTreeSet::new(),
            lost: BTreeSet::new(),
        }
    }

    /// A laptop that had a record with one timestamp took the INV of another, and has
    /// it with a third now. If the two are a tie, that is the winner's.
    pub fn heard(
        &mut self,
        laptop: u8,
        record: usize,
        [had, came, has]: [Timestamp; 3],
    ) -> Result<(), Cause> {
        if had.version != came.version || had.tie == came.tie {
            return Ok(());
        }
        let (low, high) = match had.tie < came.tie {
            true => (had, came),
            false => (came, had),
        };
        let (winner, loser) = match self.rule {
            Rule::Higher => (high, low),
            Rule::Lower => (low, high),
        };
        self.met += 1;
        self.won.insert(key(record, winner));
        self.lost.insert(key(record, loser));
        match has == winner {
            true => Ok(()),
            false => Err(Cause::WrongTie {
                record,
                laptop,
                winner,
                loser,
            }),
        }
    }

    /// Of `all` ties, in a group whose laptops in charge are those below `lower`.
    pub fn report(&self, all: usize, lower: u8) -> TiesReport {
        let ties = self
            .won
            .iter()
            .map(|(record, version, _)| (record, version));
        let of_lower = |saves: &BTreeSet<Key>| saves.iter().filter(|s| s.2 < lower).count();
        TiesReport {
            all,
            decided: ties.collect::<BTreeSet<_>>().len(),
            met: self.met,
            lost: self.lost.len(),
            in_charge: of_lower(&self.lost),
            // Who won a tie loses it by the other rule.
            otherwise: of_lower(&self.won),
        }
    }
}

#[cfg(test)]
mod tests {
    use super::*;

    fn heard(ties: &mut Ties, stamps: [(u32, u8); 3]) -> Result<(), Cause> {
        ties.heard(
            9,
            7,
            stamps.map(|(version, tie)| Timestamp { version, tie }),
        )
    }

    /// Laptops 1 and 3 save at once, and 9 hears of both, in either order.
    #[test]
    fn a_tie_goes_by_the_rule() {
        for (rule, wins, loses) in [(Rule::Higher, 3, 1), (Rule::Lower, 1, 3)] {
            for (had, came) in [(1, 3), (3, 1)] {
                let mut ties = Ties::new(rule);
                let right = [(2, had), (2, came), (2, wins)];
                assert_eq!(heard(&mut ties, right), Ok(()));
                let wrong = Cause::WrongTie {
                    record: 7,
                    laptop: 9,
                    winner: Timestamp {
                        version: 2,
                        tie: wins,
                    },
                    loser: Timestamp {
                        version: 2,
                        tie: loses,
                    },
                };
                let stamps = [(2, had), (2, came), (2, loses)];
                assert_eq!(heard(&mut ties, stamps), Err(wrong));
                // Nor may it be a save of neither.
                let stamps = [(2, had), (2, came), (2, 2)];
                assert_eq!(heard(&mut ties, stamps), Err(wrong));
            }
        }
    }

    #[test]
    fn other_saves_are_no_tie() {
        let mut ties = Ties::new(Rule::Lower);
        for stamps in [
            [(2, 1), (2, 1), (2, 1)],
            [(2, 1), (3, 4), (3, 4)],
            [(2, 4), (1, 1), (2, 4)],
        ] {
            assert_eq!(heard(&mut ties, stamps), Ok(()));
        }
        assert_eq!(ties.report(0, 2), TiesReport::default());
    }

    /// 0, 1 and 4 of six laptops, of which 0 to 2 are in charge, save at once, and once
    /// more 2 and 3. A third tie was met nowhere.
    #[test]
    fn whose_saves_lost() {
        let mut report = TiesReport {
            all: 3,
            decided: 2,
            met: 4,
            lost: 3,
            in_charge: 1,
            otherwise: 3,
        };
        let mut ties = Ties::new(Rule::Lower);
        for stamps in [
            [(1, 4), (1, 1), (1, 1)],
            [(1, 1), (1, 0), (1, 0)],
            [(1, 0), (1, 1), (1, 0)],
            [(2, 3), (2, 2), (2, 2)],
        ] {
            assert_eq!(heard(&mut ties, stamps), Ok(()));
        }
        assert_eq!(ties.report(3, 3), report);

        // By the other rule the same saves lose to the other side.
        let mut ties = Ties::new(Rule::Higher);
        for stamps in [
            [(1, 4), (1, 1), (1, 4)],
            [(1, 1), (1, 0), (1, 1)],
            [(1, 0), (1, 1), (1, 1)],
            [(2, 3), (2, 2), (2, 3)],
        ] {
            assert_eq!(heard(&mut ties, stamps), Ok(()));
        }
        (report.in_charge, report.otherwise) = (3, 1);
        assert_eq!(ties.report(3, 3), report);
    }
}
