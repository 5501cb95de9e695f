//! Agreement as document 01 words it ("Premises of agreement"), in its two
//! halves. It looks at tables and stores alone, at the dead laptops' too.

use std::fmt;

use cetskobi::{Laptop, Members, Record, Rule, State, Timestamp};

/// Two halves, two ways to fail.
#[derive(Clone, Copy, Debug, PartialEq, Eq)]
pub enum Disagreement {
    /// Two laptops in each other's view both show the record valid, with
    /// different timestamps or bytes.
    TwoScreens {
        /// The record.
        record: usize,
        /// The two laptops.
        laptops: (u8, u8),
    },
    /// A laptop of the finisher's view shows the record valid with an older
    /// timestamp than the validated one.
    OlderText {
        /// The record.
        record: usize,
        /// The laptop that shows it.
        laptop: u8,
        /// The validated timestamp.
        validated: Timestamp,
    },
}

impl Disagreement {
    /// The record it is about.
    pub fn record(&self) -> usize {
        match self {
            Disagreement::TwoScreens { record, .. } | Disagreement::OlderText { record, .. } => {
                *record
            }
        }
    }
}

impl fmt::Display for Disagreement {
    fn fmt(&self, f: &mut fmt::Formatter<'_>) -> fmt::Result {
        match self {
            Disagreement::TwoScreens {
                record,
                laptops: (a, b),
            } => {
                write!(f, "laptops {a} and {b} stand in each other's view and show record {record} valid, but not the same")
            }
            Disagreement::OlderText {
                record,
                laptop,
                validated,
            } => {
                write!(f, "laptop {laptop} shows record {record} valid with an older text than the validated {validated}")
            }
        }
    }
}

/// What the checks remember: for each record and laptop the latest timestamp, by the
/// group's rule of ties, that was validated by a finisher who had that laptop in its
/// view.
pub(crate) struct Agreement {
    rule: Rule,
    validated: Vec<[Option<Timestamp>; 16]>,
    /// Records looked at.
    pub checks: u64,
}

/// A record that a laptop shows valid.
struct Screen<'a> {
    number: u8,
    view: Members,
    timestamp: Timestamp,
    len: u8,
    bytes: &'a [u8],
}

impl Agreement {
    pub fn new(records: usize, rule: Rule) -> Agreement {
        Agreement {
            rule,
            validated: vec![[None; 16]; records],
            checks: 0,
        }
    }

    /// A validation, by its own event or by the last acknowledgement: its laptop
    /// is the finisher.
    pub fn finished(&mut self, finisher: &Laptop, record: usize) {
        let (Some(r), Some(row)) = (finisher.record(record), self.validated.get_mut(record)) else {
            return;
        };
        for laptop in finisher.view() {
            let least = &mut row[usize::from(laptop)];
            if least.is_none_or(|before| r.timestamp.later(before, self.rule)) {
                *least = Some(r.timestamp);
            }
        }
    }

    /// Both halves for one record, at all laptops.
    pub fn check(&mut self, laptops: &[Laptop], record: usize) -> Result<(), Disagreement> {
        self.checks += 1;
        let screens: Vec<Screen> = laptops
            .iter()
            .filter_map(|l| Screen::of(l, record))
            .collect();
        two_screens(&screens, record)?;
        let Some(row) = self.validated.get(record) else {
            return Ok(());
        };
        for s in &screens {
            let validated = row[usize::from(s.number)];
            if let Some(validated) = validated.filter(|v| v.later(s.timestamp, self.rule)) {
                return Err(Disagreement::OlderText {
                    record,
                    laptop: s.number,
                    validated,
                });
            }
        }
        Ok(())
    }
}

/// The first half. Usually all screens are alike; only if not, who stands in
/// whose view is asked.
fn two_screens(screens: &[Screen], record: usize) -> Result<(), Disagreement> {
    if screens.windows(2).all(|w| w[0].same(&w[1])) {
        return Ok(());
    }
    for (n, a) in screens.iter().enumerate() {
        for b in &screens[n + 1..] {
            let face_to_face = a.view.contains(b.number) && b.view.contains(a.number);
            if face_to_face && !a.same(b) {
                let laptops = (a.number, b.number);
                return Err(Disagreement::TwoScreens { record, laptops });
            }
        }
    }
    Ok(())
}

impl Screen<'_> {
    fn of(laptop: &Laptop, record: usize) -> Option<Screen<'_>> {
        let r = laptop.record(record)?;
        let at = record * Record::VALUE_MAX;
        (r.state == State::Valid).then_some(Screen {
            number: laptop.number(),
            view: laptop.view(),
            timestamp: r.timestamp,
            len: r.len,
            bytes: laptop.store().get(at..at + Record::VALUE_MAX)?,
        })
    }

    /// One timestamp, the same length and the same 192 bytes.
    fn same(&self, other: &Screen) -> bool {
        self.timestamp == other.timestamp && self.len == other.len && self.bytes == other.bytes
    }
}

#[cfg(test)]
mod tests {
    use super::*;
    use cetskobi::Replica;

    const OLD: Timestamp = Timestamp { version: 1, tie: 0 };
    const NEW: Timestamp = Timestamp { version: 2, tie: 1 };

    /// A laptop with one record of one byte, as no event need have left it.
    fn laptop(number: u8, view: u16, state: State, timestamp: Timestamp, byte: u8) -> Laptop {
        let r = Record {
            state,
            timestamp,
            writer: 0,
            written: timestamp,
            acks: Members::default(),
            len: 1,
        };
        let mut store = vec![0; Record::VALUE_MAX];
        store[0] = byte;
        let me = Replica {
            number,
            settings: Rule::Lower.into(),
            view,
            epoch: 0,
        };
        Laptop::from_parts(me, r.to_bytes().to_vec(), store)
    }

    fn check(laptops: &[Laptop]) -> Result<(), Disagreement> {
        Agreement::new(1, Rule::Lower).check(laptops, 0)
    }

    #[test]
    fn two_screens_in_each_others_view() {
        let valid = |n, view, t, byte| laptop(n, view, State::Valid, t, byte);
        let differ = Err(Disagreement::TwoScreens {
            record: 0,
            laptops: (0, 1),
        });
        assert_eq!(
            check(&[valid(0, 0b11, OLD, 7), valid(1, 0b11, OLD, 7)]),
            Ok(())
        );
        assert_eq!(
            check(&[valid(0, 0b11, OLD, 7), valid(1, 0b11, OLD, 8)]),
            differ
        );
        assert_eq!(
            check(&[valid(0, 0b11, OLD, 7), valid(1, 0b11, NEW, 7)]),
            differ
        );
        // One who is not in the other's view is not compared with it.
        assert_eq!(
            check(&[valid(0, 0b11, OLD, 7), valid(1, 0b110, NEW, 8)]),
            Ok(())
        );
        // Nor is a record that is not shown.
        let hidden = laptop(1, 0b11, State::Invalid, NEW, 8);
        assert_eq!(check(&[valid(0, 0b11, OLD, 7), hidden]), Ok(()));
    }

    #[test]
    fn bytes_behind_the_text_count_too() {
        let one = laptop(0, 0b11, State::Valid, OLD, 7);
        let (me, table, mut store) = laptop(1, 0b11, State::Valid, OLD, 7).into_parts();
        store[Record::VALUE_MAX - 1] = 1;
        assert!(check(&[one, Laptop::from_parts(me, table, store)]).is_err());
    }

    #[test]
    fn finished_saves_last() {
        let mut agreement = Agreement::new(1, Rule::Lower);
        agreement.finished(&laptop(1, 0b11, State::Valid, NEW, 8), 0);
        // The finisher writes again, so its screen is dark; the other's is old.
        let busy = laptop(1, 0b11, State::Write, NEW, 8);
        let old = laptop(0, 0b11, State::Valid, OLD, 7);
        let older = Disagreement::OlderText {
            record: 0,
            laptop: 0,
            validated: NEW,
        };
        assert_eq!(agreement.check(&[old, busy], 0), Err(older));
        // One outside the finisher's view may be older.
        let outside = laptop(2, 0b111, State::Valid, OLD, 7);
        assert_eq!(agreement.check(&[outside], 0), Ok(()));
        // The validated timestamp, or a later one, is right.
        let same = laptop(0, 0b11, State::Valid, NEW, 8);
        assert_eq!(agreement.check(&[same], 0), Ok(()));
    }

    /// Which of two with one version is the later one, the rule says (document 02,
    /// Wish 6); and so which of two validated ones is to be shown.
    #[test]
    fn ties_go_by_the_rule() {
        let of = |tie| Timestamp { tie, ..NEW };
        for (rule, earlier, later) in [(Rule::Higher, 0, 2), (Rule::Lower, 2, 0)] {
            for validated in [[earlier, 1], [1, earlier]] {
                let mut agreement = Agreement::new(1, rule);
                for tie in validated {
                    agreement.finished(&laptop(1, 0b11, State::Valid, of(tie), 8), 0);
                }
                let mut check = |tie| {
                    let screen = laptop(0, 0b11, State::Valid, of(tie), 7);
                    agreement.check(&[screen], 0)
                };
                assert_eq!([check(1), check(later)], [Ok(()), Ok(())]);
                let older = Disagreement::OlderText {
                    record: 0,
                    laptop: 0,
                    validated: of(1),
                };
                assert_eq!(check(earlier), Err(older), "{rule}");
            }
        }
    }
}
