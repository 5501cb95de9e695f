//! The laptops of the group. Every event goes through here: it is counted,
//! remembered, and the checks are made after it.

use cetskobi::packet::{self, Messages};
use cetskobi::{Arriving, Envelope, Laptop, Leaving, Members, Message, Opened, Record, Refusal};
use cetskobi::{Reply, Rule, State};
use std::collections::BTreeMap;

use crate::agreement::Agreement;
use crate::failure::Cause;
use crate::history::{kind_of, Answer, Event, History, Kind};
use crate::opening::Openings;
use crate::saves::{Save, Saves};
use crate::settings::Settings;
use crate::ties::Ties;
use crate::times::Times;
use crate::{holdings, Tick};

/// What was asked of the laptops, and what they answered.
#[derive(Clone, Debug, Default, PartialEq, Eq)]
pub(crate) struct EventCounts {
    pub events: [u64; Kind::ALL.len()],
    pub accepted: [u64; Kind::ALL.len()],
    /// By the number of the question.
    pub refused: BTreeMap<u8, u64>,
    /// Commits refused by 26 where a plain write would have been accepted: over a newer
    /// text, which the ringer has not seen.
    pub unseen: u64,
    /// Saves overtaken by another laptop's: from write to invalid-write.
    pub overtaken: u64,
    /// Of these, given up by a replay: from invalid-write to replay.
    pub given_up: u64,
    /// Validations by the last acknowledgement.
    pub completed: u64,
    /// INV, ACK, VAL.
    pub messages: [u64; 3],
    /// Packets that were accepted, and the messages in them.
    pub packets: u64,
    pub arrived: u64,
    /// Entries looked at, if at each message the whole packet were.
    pub walked: u64,
}

impl EventCounts {
    /// A packet of so many messages was accepted.
    pub fn packet(&mut self, messages: usize) {
        let messages = messages as u64;
        self.packets += 1;
        self.arrived += messages;
        self.walked += messages * messages;
    }
}

/// The group under watch.
pub(crate) struct Group {
    laptops: Vec<Laptop>,
    pub agreement: Agreement,
    openings: Openings,
    pub history: History,
    pub counts: EventCounts,
    pub times: Times,
    pub saves: Saves,
    pub ties: Ties,
    pub now: Tick,
    /// When a record or a view last changed.
    pub last_change: Tick,
    /// The record that changed last.
    pub last_changed: usize,
}

/// What leaves an event, if anything does, or its refusal.
pub(crate) type Left = Result<Option<Leaving<'static>>, Refusal>;

/// What leaves an event, unless a check failed after it.
pub(crate) type Watched = Result<Left, Cause>;

/// What came of a packet's message: what its arrival tells, and what leaves.
pub(crate) struct Came {
    pub sender: u8,
    pub epoch: u32,
    pub record: usize,
    pub left: Left,
}

/// The same, of an event that always sends.
fn sent(left: Result<Leaving, Refusal>) -> Left {
    left.map(|left| Some(left.into_owned()))
}

/// The same, of a delivery.
fn replied(reply: Result<Reply, Refusal>) -> Left {
    reply.map(|reply| reply.leaving().map(Leaving::into_owned))
}

/// The answer to be counted and remembered: what left, without its bytes.
fn answer_of(left: &Left) -> Answer {
    let envelope = |left: &Option<Leaving>| left.as_ref().map(Leaving::envelope);
    left.as_ref().map(envelope).map_err(|refusal| *refusal)
}

impl Group {
    pub fn start(settings: &Settings) -> Result<Group, Refusal> {
        let view: Members = (0..settings.laptops).collect();
        let laptops: Result<Vec<Laptop>, Refusal> = view
            .into_iter()
            .map(|n| Laptop::start(n, view, settings.started_with(n), settings.records))
            .collect();
        Ok(Group {
            laptops: laptops?,
            agreement: Agreement::new(settings.records, settings.rule),
            openings: Openings::new(settings.rule),
            history: History::new(settings.records),
            counts: EventCounts::default(),
            times: Times::new(settings.ticks),
            saves: Saves::default(),
            ties: Ties::new(settings.rule),
            now: 0,
            last_change: 0,
            last_changed: 0,
        })
    }

    pub fn laptop(&self, number: u8) -> &Laptop {
        &self.laptops[usize::from(number)]
    }

    /// The group's rule of ties.
    pub fn rule(&self) -> Rule {
        self.ties.rule
    }

    /// The lower half of the numbers, which belong to the ringers in charge: those
    /// below this one.
    pub fn lower_half(&self) -> u8 {
        self.laptops.len() as u8 / 2
    }

    pub fn record(&self, number: u8, i: usize) -> Option<Record> {
        self.laptop(number).record(i)
    }

    /// What each laptop holds of a record, as lines.
    pub fn holdings(&self, i: usize) -> Vec<String> {
        holdings::of(&self.laptops, i)
    }

    pub fn ask(&mut self, number: u8, i: usize) -> Result<Result<Opened, Refusal>, Cause> {
        let asked = self.laptop(number).ask(i);
        let kept = match &asked {
            Ok(opened) => {
                let laptop = &self.laptops[usize::from(number)];
                self.openings.opened(laptop, opened)
            }
            Err(_) => Ok(()),
        };
        let answer = asked.as_ref().map(|_| None).map_err(|refusal| *refusal);
        let answered = self.watched(number, i, Kind::Ask, None, answer)?;
        kept?;
        Ok(answered.and(asked))
    }

    /// A commit (document 02, Wish 5). If 26 says no, a copy of the laptop is asked
    /// what a plain write would have done.
    pub fn commit(&mut self, number: u8, opened: Opened, text: &[u8]) -> Watched {
        let (i, brought) = (opened.record(), opened.timestamp());
        self.openings.look(&self.laptops[usize::from(number)], i);
        let commit = |l: &mut Laptop| sent(l.commit(opened, text).map_err(Refusal::from));
        let answer = self.save(number, i, text, commit);
        let mut kept = Ok(());
        match &answer {
            Ok(_) => kept = self.openings.committed(number, i, brought),
            Err(Refusal::NotAsOpened) => {
                let unseen = self.laptop(number).clone().write(i, text).is_ok();
                self.counts.unseen += u64::from(unseen);
            }
            Err(_) => {}
        }
        let left = self.watched(number, i, Kind::Commit, None, answer)?;
        kept?;
        Ok(left)
    }

    /// A plain write, whatever stands there.
    pub fn write(&mut self, number: u8, i: usize, text: &[u8]) -> Watched {
        let answer = self.save(number, i, text, |l| sent(l.write(i, text)));
        self.watched(number, i, Kind::Write, None, answer)
    }

    /// A commit or a write. Once accepted it is remembered, with what it replaced.
    fn save(
        &mut self,
        number: u8,
        i: usize,
        text: &[u8],
        event: impl FnOnce(&mut Laptop) -> Left,
    ) -> Left {
        let over = self.record(number, i).map(|r| r.timestamp);
        let answer = self.act(number, i, event);
        if let (Ok(Some(inv)), Some(over)) = (&answer, over) {
            let stamp = inv.envelope().message.timestamp();
            let save = Save {
                tick: self.now,
                text: text.to_vec(),
                over,
                ..Save::default()
            };
            self.saves.insert(i, stamp, save);
        }
        answer
    }

    pub fn validate(&mut self, number: u8, i: usize) -> Watched {
        let answer = self.act(number, i, |l| sent(l.validate(i)));
        if answer.is_ok() {
            self.finished(number, i);
        }
        self.watched(number, i, Kind::Validate, None, answer)
    }

    /// A replay. From invalid-write it gives this laptop's own overtaken save up
    /// (document 02, Wish 2).
    pub fn replay(&mut self, number: u8, i: usize) -> Watched {
        let before = self.record(number, i).map(|r| r.state);
        let answer = self.act(number, i, |l| sent(l.replay(i)));
        if answer.is_ok() && before == Some(State::InvalidWrite) {
            self.counts.given_up += 1;
        }
        self.watched(number, i, Kind::Replay, None, answer)
    }

    pub fn resend(&mut self, number: u8, i: usize) -> Watched {
        let answer = self.act(number, i, |l| sent(l.resend(i)));
        self.watched(number, i, Kind::Resend, None, answer)
    }

    /// The next message of a packet; None when there are no more.
    pub fn deliver_next(
        &mut self,
        number: u8,
        messages: &mut Messages<'_>,
    ) -> Result<Option<Came>, Cause> {
        // Only to be watched and remembered; the hut has what the arrival tells.
        let Some(next) = messages.clone().next() else {
            return Ok(None);
        };
        let (mut sender, mut epoch, mut record) = (0, 0, 0);
        let left = self.deliver(number, next.envelope(), |l| {
            let arrival = l.deliver_next(messages).expect("there is a next one");
            (sender, epoch, record) = (arrival.sender(), arrival.epoch(), arrival.record());
            replied(arrival.reply())
        })?;
        Ok(Some(Came {
            sender,
            epoch,
            record,
            left,
        }))
    }

    /// The first message of a packet, fetched by its number and delivered, as software
    /// does that looks at no packet as a whole. Only for one that is to be refused: the
    /// event is not watched.
    pub fn deliver_fetched(&mut self, number: u8, bytes: &[u8]) -> Option<Refusal> {
        let laptop = self.laptop_mut(number);
        let fetched = packet::fetch(laptop.settings(), bytes, 0);
        let reply = fetched.and_then(|came| laptop.deliver(came));
        reply.err()
    }

    /// A message that came, handed over as another.
    pub fn deliver_as(&mut self, number: u8, came: Envelope, handed: Arriving) -> Watched {
        self.deliver(number, came, |l| replied(l.deliver(handed)))
    }

    /// A delivery. An ACK that ends a write or replay is a validation too
    /// (document 02, Wish 1).
    fn deliver(
        &mut self,
        number: u8,
        came: Envelope,
        event: impl FnOnce(&mut Laptop) -> Left,
    ) -> Watched {
        let i = came.record;
        let before = self.record(number, i);
        let answer = self.act(number, i, event);
        let after = self.record(number, i);
        let mut right = Ok(());
        if let (Ok(_), Message::Inv(saved)) = (&answer, came.message) {
            let save = self.saves.get_mut(i, saved);
            save.into_iter().for_each(|s| s.heard(number));
            if let (Some(had), Some(has)) = (before, after) {
                let stamps = [had.timestamp, saved, has.timestamp];
                right = self.ties.heard(number, i, stamps);
            }
        }
        let state = |record: Option<Record>| record.map(|r| r.state);
        let waited = matches!(state(before), Some(State::Write | State::Replay));
        let ended = waited && state(after) == Some(State::Valid);
        if ended && matches!(came.message, Message::Ack(_)) {
            self.counts.completed += 1;
            self.finished(number, i);
        }
        let left = self.watched(number, i, Kind::Deliver, Some(came), answer)?;
        right?;
        Ok(left)
    }

    /// A view changes who stands in whose: all records are checked after it.
    pub fn change_view(&mut self, number: u8, epoch: u32, view: Members) -> Watched {
        let answer = self
            .laptop_mut(number)
            .change_view(epoch, view)
            .map(|()| None);
        if answer.is_ok() {
            self.last_change = self.now;
        }
        self.count(Kind::View, answer);
        let event = self.event(number, Kind::View, None, answer, None);
        self.history.on_view(event);
        for i in 0..self.laptop(number).count() {
            self.agreement.check(&self.laptops, i)?;
        }
        self.openings
            .check_all(&self.laptops[usize::from(number)])?;
        Ok(answer.map(|_| None))
    }

    /// A validation: this laptop is the finisher, with its view and its record.
    fn finished(&mut self, number: u8, i: usize) {
        self.agreement
            .finished(&self.laptops[usize::from(number)], i);
    }

    /// An event on a record, with an eye on what becomes of it.
    fn act(&mut self, number: u8, i: usize, event: impl FnOnce(&mut Laptop) -> Left) -> Left {
        let before = self.record(number, i);
        let answer = event(self.laptop_mut(number));
        let after = self.record(number, i);
        if before != after {
            (self.last_change, self.last_changed) = (self.now, i);
        }
        if let (Some(before), Some(after)) = (before, after) {
            self.times.moved(self.now, number, i, before, after);
            if (before.state, after.state) == (State::Write, State::InvalidWrite) {
                self.counts.overtaken += 1;
            }
            if (before.state, after.state) == (State::Write, State::Valid) {
                let save = self.saves.get_mut(i, after.timestamp);
                save.into_iter().for_each(|s| s.finished = true);
            }
        }
        answer
    }

    fn watched(
        &mut self,
        number: u8,
        i: usize,
        kind: Kind,
        came: Option<Envelope>,
        left: Left,
    ) -> Watched {
        let answer = answer_of(&left);
        self.count(kind, answer);
        let event = self.event(number, kind, came, answer, self.record(number, i));
        self.history.on_record(i, event);
        self.agreement.check(&self.laptops, i)?;
        self.openings.check(&self.laptops[usize::from(number)], i)?;
        Ok(left)
    }

    fn event(
        &self,
        laptop: u8,
        kind: Kind,
        came: Option<Envelope>,
        answer: Answer,
        after: Option<Record>,
    ) -> Event {
        let (epoch, view) = (self.laptop(laptop).epoch(), self.laptop(laptop).view());
        Event {
            tick: self.now,
            laptop,
            kind,
            came,
            answer,
            epoch,
            view,
            after,
        }
    }

    fn count(&mut self, kind: Kind, answer: Answer) {
        self.counts.events[kind as usize] += 1;
        let left = match answer {
            Ok(left) => left,
            Err(refusal) => {
                *self.counts.refused.entry(refusal.number()).or_default() += 1;
                return;
            }
        };
        self.counts.accepted[kind as usize] += 1;
        if let Some(envelope) = left {
            self.counts.messages[kind_of(envelope.message)] += 1;
        }
    }

    fn laptop_mut(&mut self, number: u8) -> &mut Laptop {
        &mut self.laptops[usize::from(number)]
    }
}

#[cfg(test)]
mod tests {
    use super::*;
    use crate::agreement::Disagreement;
    use crate::fault::Fault;
    use cetskobi::Timestamp;

    const SAVED: Timestamp = Timestamp { version: 1, tie: 0 };

    /// Laptops 0 to 3 with one record.
    fn four(rule: Rule, fault: Option<Fault>) -> Group {
        let settings = Settings {
            laptops: 4,
            records: 1,
            rule,
            fault,
            ..Settings::default()
        };
        Group::start(&settings).expect("a group of four")
    }

    /// A message about the record comes.
    fn comes(group: &mut Group, to: u8, sender: u8, epoch: u32, message: Message) -> Watched {
        let came = Envelope {
            sender,
            epoch,
            record: 0,
            message,
        };
        group.deliver_as(to, came, Arriving::new(came, b""))
    }

    /// The one message that leaves, with who gets it.
    fn left(watched: Watched) -> Option<(Message, u16)> {
        let left = watched.expect("agreement").expect("accepted");
        left.map(|l| (l.envelope().message, l.recipients().bits()))
    }

    /// 0 saves, and only 1 and 2 take it. 3 has another view, without 0, so that
    /// the two screens may differ; but it stands in 0's view.
    fn open() -> Group {
        // The old rule: 0's save may be overtaken by one with the same version.
        let mut group = four(Rule::Higher, None);
        let view = Members::from(0b1110);
        (group.change_view(3, 1, view).expect("agreement")).expect("accepted");
        let inv = group.write(0, 0, b"").expect("agreement");
        let inv = inv.expect("accepted").expect("an INV");
        for n in [1, 2] {
            let ack = group.deliver_as(n, inv.envelope(), inv.arriving());
            assert_eq!(left(ack), Some((Message::Ack(SAVED), 1)));
        }
        group
    }

    /// What is noticed when 3, which still shows the fresh record, is wrongly
    /// said to have acknowledged.
    const NOTICED: Watched = Err(Cause::Disagreement(Disagreement::OlderText {
        record: 0,
        laptop: 3,
        validated: SAVED,
    }));

    #[test]
    fn the_last_acknowledgement_of_a_write_is_a_validation() {
        let mut group = open();
        let ack = Message::Ack(SAVED);
        for n in [1, 2] {
            assert_eq!(left(comes(&mut group, 0, n, 0, ack)), None);
        }
        assert_eq!(group.counts.completed, 0);
        assert_eq!(comes(&mut group, 0, 3, 0, ack), NOTICED);
        assert_eq!(group.counts.completed, 1);
        assert_eq!(group.counts.messages, [1, 2, 1]);
    }

    /// 0 is struck off, and 1 replays its save.
    #[test]
    fn the_last_acknowledgement_of_a_replay_is_a_validation() {
        let mut group = open();
        let view = Members::from(0b1110);
        for n in [1, 2] {
            (group.change_view(n, 1, view).expect("agreement")).expect("accepted");
        }
        // 3 has heard of the next view already, which is without 1.
        let other = Members::from(0b1100);
        (group.change_view(3, 2, other).expect("agreement")).expect("accepted");
        let inv = (Message::Inv(SAVED), 0b1100);
        assert_eq!(left(group.replay(1, 0)), Some(inv));
        let ack = Message::Ack(SAVED);
        assert_eq!(left(comes(&mut group, 1, 2, 1, ack)), None);
        assert_eq!(comes(&mut group, 1, 3, 1, ack), NOTICED);
        assert_eq!(group.counts.completed, 1);
        // 1 had no save of its own.
        assert_eq!(group.counts.given_up, 0);
    }

    /// 0's save is overtaken: its acknowledgements are counted, and end nothing.
    #[test]
    fn an_acknowledgement_of_an_overtaken_write_is_none() {
        let mut group = open();
        let later = Timestamp { version: 1, tie: 2 };
        let ack = Some((Message::Ack(later), 0b100));
        assert_eq!(left(comes(&mut group, 0, 2, 0, Message::Inv(later))), ack);
        for n in [1, 2, 3] {
            let ack = Message::Ack(SAVED);
            assert_eq!(left(comes(&mut group, 0, n, 0, ack)), None);
        }
        let record = group.record(0, 0).expect("a record");
        assert_eq!(record.state, State::InvalidWrite);
        assert_eq!(record.acks, Members::from(0b1110));
        // Nor does a VAL make the laptop that takes it the finisher.
        assert_eq!(left(comes(&mut group, 0, 2, 0, Message::Val(later))), None);
        assert_eq!(group.counts.completed, 0);
    }

    /// 1 and 2 save at once; 0, 3 and they themselves hear of both.
    fn tied(group: &mut Group) -> Result<(), Cause> {
        let mut invs = Vec::new();
        for n in [1, 2] {
            let inv = group.write(n, 0, b"Wren")?;
            invs.push(inv.expect("accepted").expect("an INV"));
        }
        for (to, inv) in [(0, 0), (0, 1), (1, 1), (2, 0), (3, 1), (3, 0)] {
            let inv: &Leaving = &invs[inv];
            let ack = group.deliver_as(to, inv.envelope(), inv.arriving())?;
            assert!(ack.is_ok_and(|ack| ack.is_some()));
        }
        Ok(())
    }

    /// Document 02, Wish 6. Of the four 0 and 1 are the lower half.
    #[test]
    fn a_tie_goes_by_the_rule() {
        for (rule, wins, in_charge, otherwise) in [(Rule::Higher, 2, 1, 0), (Rule::Lower, 1, 0, 1)]
        {
            let mut group = four(rule, None);
            assert_eq!(tied(&mut group), Ok(()));
            for n in 0..4 {
                let stands = group.record(n, 0).map(|r| r.timestamp.tie);
                assert_eq!(stands, Some(wins), "{rule}");
            }
            let ties = group.ties.report(group.saves.ties(), group.lower_half());
            assert_eq!((ties.all, ties.decided, ties.met), (1, 1, 4));
            let lost = (ties.lost, ties.in_charge, ties.otherwise);
            assert_eq!(lost, (1, in_charge, otherwise), "{rule}");
        }
    }

    /// 3 was started with the other rule, and keeps the other save.
    #[test]
    fn a_tie_that_goes_the_wrong_way_is_noticed() {
        for (rule, wins, loses) in [(Rule::Higher, 2, 1), (Rule::Lower, 1, 2)] {
            let mut group = four(rule, Some(Fault::Tie));
            let stamp = |tie| Timestamp { tie, ..SAVED };
            let wrong = Cause::WrongTie {
                record: 0,
                laptop: 3,
                winner: stamp(wins),
                loser: stamp(loses),
            };
            assert_eq!(tied(&mut group), Err(wrong));
        }
    }
}
