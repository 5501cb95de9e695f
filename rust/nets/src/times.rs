//! How long saves take, and how long records cannot be read. A duration is
//! counted from tick to tick.

use std::collections::BTreeMap;

use cetskobi::{Members, Record, State, Timestamp};

use crate::spread::Spread;
use crate::Tick;

/// A record at a laptop.
type Place = (u8, usize);

/// What is measured while the morning goes on.
#[derive(Clone, Debug)]
pub(crate) struct Times {
    /// Until when birds come.
    until: Tick,
    /// The laptops in service, with the tick since when: they run, and have not
    /// been told that they are struck off.
    service: BTreeMap<u8, Tick>,
    /// How long laptops were in service while birds came, all together.
    served: u64,
    /// Saves under way: timestamp and tick. A laptop has one of a record at most,
    /// as question 26 refuses a second, and 7 a plain write.
    saving: BTreeMap<Place, (Timestamp, Tick)>,
    finished: Vec<Tick>,
    replaced: Vec<Tick>,
    /// Records that are not valid, with the tick since when that counts: from
    /// then on the laptop was in service. None while it is not.
    unreadable: BTreeMap<Place, Option<Tick>>,
    spans: Vec<Tick>,
    /// What of those spans was while birds came, all together.
    dark: u64,
}

/// What is told of it in the end.
#[derive(Clone, Debug, PartialEq, Eq)]
pub(crate) struct TimesReport {
    /// From the accepted save to the record valid at the saver, with the save's timestamp.
    pub finished: Option<Spread>,
    /// The same for a later timestamp: another save had overtaken this one.
    pub replaced: Option<Spread>,
    /// Saves of neither kind, at laptops no longer in service.
    pub left: usize,
    /// Spans in which a record of a laptop in service was not valid.
    pub unreadable: Option<Spread>,
    /// While birds came, all together: those spans, and the laptops' service.
    pub dark: u64,
    pub served: u64,
}

impl Times {
    pub fn new(until: Tick) -> Times {
        Times {
            until,
            service: BTreeMap::new(),
            served: 0,
            saving: BTreeMap::new(),
            finished: Vec::new(),
            replaced: Vec::new(),
            unreadable: BTreeMap::new(),
            spans: Vec::new(),
            dark: 0,
        }
    }

    /// These laptops are in service from now on, and no others.
    pub fn serve(&mut self, now: Tick, laptops: Members) {
        let all = laptops.into_iter().chain(self.service.keys().copied());
        for n in all.collect::<Members>() {
            match (self.service.contains_key(&n), laptops.contains(n)) {
                (false, true) => {
                    self.service.insert(n, now);
                    self.at(n).for_each(|since| *since = Some(now));
                }
                (true, false) => self.leave(now, n),
                _ => {}
            }
        }
    }

    /// An event of a laptop in service made one record of another.
    pub fn moved(&mut self, now: Tick, laptop: u8, i: usize, from: Record, to: Record) {
        let place = (laptop, i);
        if from.state != State::Write && to.state == State::Write {
            self.saving.insert(place, (to.timestamp, now));
        }
        match (from.state == State::Valid, to.state == State::Valid) {
            (true, false) => {
                self.unreadable.insert(place, Some(now));
            }
            (false, true) => self.shown(now, place, to.timestamp),
            _ => {}
        }
    }

    /// The morning ends now: at the laptops in service every record is valid.
    pub fn report(&self, now: Tick) -> TimesReport {
        let mut end = self.clone();
        let left = |place: &&Place| !self.service.contains_key(&place.0);
        let left = self.saving.keys().filter(left).count();
        for n in self.service.keys() {
            end.leave(now, *n);
        }
        TimesReport {
            finished: Spread::of(&end.finished),
            replaced: Spread::of(&end.replaced),
            left,
            unreadable: Spread::of(&end.spans),
            dark: end.dark,
            served: end.served,
        }
    }

    /// A record is valid again.
    fn shown(&mut self, now: Tick, place: Place, timestamp: Timestamp) {
        if let Some(since) = self.unreadable.remove(&place).flatten() {
            self.end_span(since, now);
        }
        if let Some((saved, since)) = self.saving.remove(&place) {
            let ended = match timestamp == saved {
                true => &mut self.finished,
                false => &mut self.replaced,
            };
            ended.push(now - since);
        }
    }

    fn leave(&mut self, now: Tick, laptop: u8) {
        let since = self.service.remove(&laptop).unwrap_or(now);
        self.served += self.with_birds(since, now);
        let spans: Vec<Tick> = self.at(laptop).filter_map(Option::take).collect();
        for since in spans {
            self.end_span(since, now);
        }
    }

    fn end_span(&mut self, since: Tick, now: Tick) {
        self.spans.push(now - since);
        self.dark += self.with_birds(since, now);
    }

    /// How long of this time birds came.
    fn with_birds(&self, since: Tick, now: Tick) -> u64 {
        u64::from(now.min(self.until) - since.min(self.until))
    }

    /// The unreadable records of a laptop.
    fn at(&mut self, laptop: u8) -> impl Iterator<Item = &mut Option<Tick>> {
        let of_laptop = (laptop, 0)..=(laptop, usize::MAX);
        self.unreadable.range_mut(of_laptop).map(|(_, since)| since)
    }
}

#[cfg(test)]
mod tests {
    use super::*;

    /// A record in this state with version 1 (fresh: 0) and this tie-breaker.
    fn record(state: State, version: u32, tie: u8) -> Record {
        let timestamp = Timestamp { version, tie };
        Record {
            state,
            timestamp,
            writer: tie,
            written: timestamp,
            acks: Members::default(),
            len: 0,
        }
    }

    /// Birds come until 90. Laptops 0 and 1 are in service from the start; then record 0 of a laptop is
    /// in these states from these ticks on, with version 1 and this tie-breaker.
    fn played(moves: &[(Tick, u8, State, u8)]) -> Times {
        let mut times = Times::new(90);
        times.serve(0, Members::from(0b11));
        let mut records = [record(State::Valid, 0, 0); 2];
        for (now, laptop, state, tie) in moves {
            let held = &mut records[usize::from(*laptop)];
            let to = record(*state, 1, *tie);
            times.moved(*now, *laptop, 0, *held, to);
            *held = to;
        }
        times
    }

    /// Number, median, 95 of 100, worst.
    fn spread(count: usize, median: Tick, most: Tick, worst: Tick) -> Option<Spread> {
        Some(Spread {
            count,
            median,
            most,
            worst,
        })
    }

    /// 0 saves at 10 and finishes at 15; 1 hears of it at 12 and of the end at 22.
    #[test]
    fn a_save() {
        let times = played(&[
            (10, 0, State::Write, 0),
            (12, 1, State::Invalid, 0),
            (14, 0, State::Write, 0),
            (15, 0, State::Valid, 0),
            (22, 1, State::Valid, 0),
        ]);
        let right = TimesReport {
            finished: spread(1, 5, 5, 5),
            replaced: None,
            left: 0,
            unreadable: spread(2, 5, 10, 10),
            dark: 15,
            served: 180,
        };
        assert_eq!(times.report(100), right);
    }

    /// 0 saves at 10 and 1 at 11, with the greater timestamp. 1 finishes at 20;
    /// 0 hears of that save at 13, and of its end at 30.
    #[test]
    fn a_save_that_is_overtaken() {
        let times = played(&[
            (10, 0, State::Write, 0),
            (11, 1, State::Write, 1),
            (13, 0, State::InvalidWrite, 1),
            (20, 1, State::Valid, 1),
            (30, 0, State::Valid, 1),
        ]);
        let report = times.report(100);
        assert_eq!(report.finished, spread(1, 9, 9, 9));
        assert_eq!(report.replaced, spread(1, 20, 20, 20));
        assert_eq!(report.left, 0);
        assert_eq!(report.unreadable, spread(2, 9, 20, 20));
    }

    /// 0 saves at 10 and dies at 15; 1, unreadable since 12, replays at 40 and
    /// finishes that at 44.
    #[test]
    fn a_laptop_that_dies() {
        let mut times = played(&[(10, 0, State::Write, 0), (12, 1, State::Invalid, 0)]);
        times.serve(15, Members::from(0b10));
        let [invalid, replay, valid] =
            [State::Invalid, State::Replay, State::Valid].map(|s| record(s, 1, 0));
        times.moved(40, 1, 0, invalid, replay);
        times.moved(44, 1, 0, replay, valid);
        let report = times.report(100);
        assert_eq!((report.finished, report.replaced), (None, None));
        assert_eq!(report.left, 1);
        assert_eq!(report.unreadable, spread(2, 5, 32, 32));
        assert_eq!((report.dark, report.served), (37, 15 + 90));
    }

    /// 0 is unreadable from 10 on, sleeps from 14 to 50 and is valid at 53.
    #[test]
    fn a_laptop_that_sleeps() {
        let mut times = played(&[(10, 0, State::Invalid, 1)]);
        times.serve(14, Members::from(0b10));
        times.serve(50, Members::from(0b11));
        let [invalid, valid] = [State::Invalid, State::Valid].map(|s| record(s, 1, 1));
        times.moved(53, 0, 0, invalid, valid);
        let report = times.report(100);
        assert_eq!(report.unreadable, spread(2, 3, 4, 4));
        assert_eq!((report.dark, report.served), (7, 14 + 40 + 90));
    }

    /// 0 saves at 10 and 1 at 11, with the greater timestamp. 0 hears of that save
    /// at 13, and 1 dies at 15; 0 gives its own up by a replay at 40, and finishes
    /// that at 44.
    #[test]
    fn a_save_that_is_given_up() {
        let mut times = played(&[
            (10, 0, State::Write, 0),
            (11, 1, State::Write, 1),
            (13, 0, State::InvalidWrite, 1),
        ]);
        times.serve(15, Members::from(0b01));
        let [overtaken, replay, valid] =
            [State::InvalidWrite, State::Replay, State::Valid].map(|s| record(s, 1, 1));
        times.moved(40, 0, 0, overtaken, replay);
        times.moved(44, 0, 0, replay, valid);
        let report = times.report(100);
        assert_eq!(report.finished, None);
        assert_eq!(report.replaced, spread(1, 34, 34, 34));
        assert_eq!(report.left, 1);
        assert_eq!(report.unreadable, spread(2, 4, 34, 34));
        assert_eq!((report.dark, report.served), (38, 15 + 90));
    }
}
