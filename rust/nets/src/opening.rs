//! What document 02's Wish 5 promises of one laptop: what it hands out of a record
//! never goes back, and a record that is committed is still as it was opened.

use std::collections::BTreeMap;
use std::fmt;

use cetskobi::{Laptop, Opened, Record, Rule, Timestamp};

/// A promise that one laptop did not keep.
#[derive(Clone, Copy, Debug, PartialEq, Eq)]
pub enum Unkept {
    /// A read and an ask of the record are not answered alike, or the ask not with the
    /// timestamp that the record has.
    Misread {
        /// The record.
        record: usize,
        /// The laptop.
        laptop: u8,
    },
    /// The laptop hands out an older text of the record than before, or another one
    /// with the same timestamp.
    WentBack {
        /// The record.
        record: usize,
        /// The laptop.
        laptop: u8,
        /// What it had handed out.
        before: Timestamp,
    },
    /// A commit was accepted, and the record had changed since it was opened.
    Changed {
        /// The record.
        record: usize,
        /// The laptop.
        laptop: u8,
        /// The timestamp that the commit brought.
        brought: Timestamp,
    },
}

impl Unkept {
    /// The record it is about.
    pub fn record(&self) -> usize {
        match self {
            Unkept::Misread { record, .. }
            | Unkept::WentBack { record, .. }
            | Unkept::Changed { record, .. } => *record,
        }
    }
}

impl fmt::Display for Unkept {
    fn fmt(&self, f: &mut fmt::Formatter<'_>) -> fmt::Result {
        match self {
            Unkept::Misread { record, laptop } => {
                write!(
                    f,
                    "laptop {laptop} answers an ask of record {record} otherwise than a read, or with another timestamp than it has"
                )
            }
            Unkept::WentBack {
                record,
                laptop,
                before,
            } => {
                write!(f, "laptop {laptop} had handed out record {record} with {before}, and now hands out an older or another text")
            }
            Unkept::Changed {
                record,
                laptop,
                brought,
            } => {
                write!(f, "laptop {laptop} accepted a commit of record {record} on {brought}, which had changed since it was opened")
            }
        }
    }
}

/// A timestamp, and the text or the bytes that go with it.
type Stamped = (Timestamp, Vec<u8>);

/// What is remembered of one record at one laptop.
#[derive(Clone, Debug, Default)]
struct Place {
    /// What a read or an ask handed out last.
    shown: Option<Stamped>,
    /// What stood in the memory at the ask that opened it last, and whether it has
    /// stood there ever since. The first ask on a timestamp counts.
    opened: Option<(Stamped, bool)>,
}

/// What the checks remember of all laptops.
pub(crate) struct Openings {
    /// By which one timestamp is later than another.
    rule: Rule,
    places: BTreeMap<(u8, usize), Place>,
}

impl Openings {
    pub fn new(rule: Rule) -> Openings {
        Openings {
            rule,
            places: BTreeMap::new(),
        }
    }

    /// After an event on the record: what a read and an ask hand out now, and whether
    /// it stands as it was opened.
    pub fn check(&mut self, laptop: &Laptop, record: usize) -> Result<(), Unkept> {
        let rule = self.rule;
        let place = self.place(laptop.number(), record);
        place.look(laptop, record);
        let stands = |opened: &Opened| {
            let timestamp = laptop.record(record).map(|r| r.timestamp);
            timestamp == Some(opened.timestamp())
        };
        match (laptop.ask(record), laptop.read(record)) {
            (Err(ask), Err(read)) if ask == read => Ok(()),
            (Ok(opened), Ok(text)) if opened.text() == text && stands(&opened) => {
                place.hands_out(laptop.number(), &opened, rule)
            }
            _ => Err(Unkept::Misread {
                record,
                laptop: laptop.number(),
            }),
        }
    }

    /// The same for all records of a laptop that had an event.
    pub fn check_all(&mut self, laptop: &Laptop) -> Result<(), Unkept> {
        let number = laptop.number();
        let of_laptop = self.places.range((number, 0)..=(number, usize::MAX));
        let records: Vec<usize> = of_laptop.map(|((_, record), _)| *record).collect();
        records.into_iter().try_for_each(|i| self.check(laptop, i))
    }

    /// An ask was accepted, and this is what it handed out.
    pub fn opened(&mut self, laptop: &Laptop, opened: &Opened) -> Result<(), Unkept> {
        let rule = self.rule;
        let place = self.place(laptop.number(), opened.record());
        place.hands_out(laptop.number(), opened, rule)?;
        let again = |(before, kept): &(Stamped, bool)| *kept && before.0 == opened.timestamp();
        if !place.opened.as_ref().is_some_and(again) {
            let stands = held(laptop, opened.record());
            let (len, bytes) = stands.1.split_at(1);
            let kept = stands.0 == opened.timestamp()
                && bytes.get(..usize::from(len[0])) == Some(opened.text());
            place.opened = Some((stands, kept));
        }
        Ok(())
    }

    /// Right before a commit: whether the record stands as it was opened.
    pub fn look(&mut self, laptop: &Laptop, record: usize) {
        self.place(laptop.number(), record).look(laptop, record);
    }

    /// A commit that brought this timestamp was accepted. Up to it the record must
    /// have stood as it was opened.
    pub fn committed(
        &mut self,
        laptop: u8,
        record: usize,
        brought: Timestamp,
    ) -> Result<(), Unkept> {
        match self.place(laptop, record).opened.take() {
            Some(((opened, _), true)) if opened == brought => Ok(()),
            _ => Err(Unkept::Changed {
                record,
                laptop,
                brought,
            }),
        }
    }

    fn place(&mut self, laptop: u8, record: usize) -> &mut Place {
        self.places.entry((laptop, record)).or_default()
    }
}

impl Place {
    /// Whether the record stands as it was opened, still.
    fn look(&mut self, laptop: &Laptop, record: usize) {
        if let Some((before, kept)) = &mut self.opened {
            *kept = *kept && *before == held(laptop, record);
        }
    }

    /// A read or an ask hands this out.
    fn hands_out(&mut self, laptop: u8, opened: &Opened, rule: Rule) -> Result<(), Unkept> {
        let now = opened.timestamp();
        match &self.shown {
            Some((before, text)) if *before == now && text == opened.text() => {}
            Some((before, _)) if !now.later(*before, rule) => {
                return Err(Unkept::WentBack {
                    record: opened.record(),
                    laptop,
                    before: *before,
                });
            }
            _ => self.shown = Some((now, opened.text().to_vec())),
        }
        Ok(())
    }
}

/// The record's timestamp, its length and its 192 bytes, as the memory has them.
fn held(laptop: &Laptop, record: usize) -> Stamped {
    let at = record * Record::VALUE_MAX;
    let bytes = laptop.store().get(at..at + Record::VALUE_MAX);
    let r = laptop.record(record);
    let mut held = vec![r.map_or(u8::MAX, |r| r.len)];
    held.extend(bytes.unwrap_or_default());
    (r.map_or(Timestamp::default(), |r| r.timestamp), held)
}

#[cfg(test)]
mod tests {
    use super::*;
    use cetskobi::{Members, Replica, State};

    const OLD: Timestamp = Timestamp { version: 1, tie: 0 };
    const NEW: Timestamp = Timestamp { version: 2, tie: 1 };

    /// Laptop 0 with one record of one byte, as no event need have left it.
    fn laptop(state: State, timestamp: Timestamp, byte: u8) -> Laptop {
        let r = Record {
            state,
            timestamp,
            writer: 0,
            written: OLD,
            acks: Members::default(),
            len: 1,
        };
        let mut store = vec![0; Record::VALUE_MAX];
        store[0] = byte;
        let me = Replica {
            number: 0,
            settings: Rule::Lower.into(),
            view: 0b11,
            epoch: 0,
        };
        Laptop::from_parts(me, r.to_bytes().to_vec(), store)
    }

    fn valid(timestamp: Timestamp, byte: u8) -> Laptop {
        laptop(State::Valid, timestamp, byte)
    }

    const fn went_back(before: Timestamp) -> Result<(), Unkept> {
        Err(Unkept::WentBack {
            record: 0,
            laptop: 0,
            before,
        })
    }

    #[test]
    fn what_is_handed_out_never_goes_back() {
        let mut openings = Openings::new(Rule::Lower);
        for _ in 0..2 {
            assert_eq!(openings.check(&valid(OLD, 7), 0), Ok(()));
        }
        // What is not shown may be anything.
        let hidden = laptop(State::Invalid, NEW, 8);
        assert_eq!(openings.check(&hidden, 0), Ok(()));
        assert_eq!(openings.check(&valid(OLD, 8), 0), went_back(OLD));
        assert_eq!(openings.check(&valid(NEW, 8), 0), Ok(()));
        assert_eq!(openings.check(&valid(OLD, 7), 0), went_back(NEW));
        assert_eq!(openings.check_all(&valid(OLD, 7)), went_back(NEW));
        // Of another record or laptop nothing is known.
        let mut others = Openings::new(Rule::Lower);
        assert_eq!(others.check(&valid(OLD, 7), 0), Ok(()));
    }

    /// Of two with one version the rule says which is the later one.
    #[test]
    fn ties_go_by_the_rule() {
        for (rule, earlier, later) in [(Rule::Higher, 0, 2), (Rule::Lower, 2, 0)] {
            let mut openings = Openings::new(rule);
            assert_eq!(openings.check(&valid(NEW, 8), 0), Ok(()));
            let mut opened = |tie| {
                let laptop = valid(Timestamp { tie, ..NEW }, 8);
                let asked = laptop.ask(0).expect("valid");
                openings.opened(&laptop, &asked)
            };
            assert_eq!(opened(earlier), went_back(NEW), "{rule}");
            assert_eq!(opened(later), Ok(()), "{rule}");
        }
    }

    /// The record is opened with OLD and 7; then it is as each of these is, one after
    /// the other, and a commit on that timestamp is accepted.
    fn committed(then: &[Laptop], brought: Timestamp) -> Result<(), Unkept> {
        let mut openings = Openings::new(Rule::Lower);
        let first = valid(OLD, 7);
        let opened = first.ask(0).expect("valid");
        openings.opened(&first, &opened)?;
        for laptop in then {
            openings.look(laptop, 0);
        }
        openings.committed(0, 0, brought)
    }

    #[test]
    fn a_committed_record_stands_as_it_was_opened() {
        let changed = |brought| {
            Err(Unkept::Changed {
                record: 0,
                laptop: 0,
                brought,
            })
        };
        assert_eq!(committed(&[], OLD), Ok(()));
        assert_eq!(committed(&[valid(OLD, 7)], OLD), Ok(()));
        assert_eq!(committed(&[], NEW), changed(NEW));
        assert_eq!(committed(&[valid(OLD, 8)], OLD), changed(OLD));
        assert_eq!(committed(&[valid(NEW, 7)], OLD), changed(OLD));
        // That it is the same again in the end does not help.
        let between = laptop(State::Invalid, NEW, 8);
        assert_eq!(committed(&[between, valid(OLD, 7)], OLD), changed(OLD));
    }

    #[test]
    fn an_opening_is_committed_once() {
        let mut openings = Openings::new(Rule::Lower);
        let first = valid(OLD, 7);
        let opened = first.ask(0).expect("valid");
        // Two ringers of one laptop open it.
        for _ in 0..2 {
            assert_eq!(openings.opened(&first, &opened), Ok(()));
        }
        assert_eq!(openings.committed(0, 0, OLD), Ok(()));
        assert!(openings.committed(0, 0, OLD).is_err());
    }

    /// The stand-in for an ask that hands out what the memory has not.
    #[test]
    fn an_ask_hands_out_what_stands_there() {
        let (right, wrong) = (valid(OLD, 7), valid(OLD, 8));
        let mut openings = Openings::new(Rule::Lower);
        let opened = wrong.ask(0).expect("valid");
        assert_eq!(openings.opened(&right, &opened), Ok(()));
        assert!(openings.committed(0, 0, OLD).is_err());
    }
}
