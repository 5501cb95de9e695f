//! The software at one hut, as docs/GUIDE.md has it: what it does with what
//! comes, and when it tries again. It looks at no other laptop than its own.

use std::collections::BTreeMap;

use cetskobi::packet::{self, Messages};
use cetskobi::{Arriving, Envelope, Leaving, Members, Message, Opened, Refusal, Rule};
use cetskobi::{State, Timestamp};

use crate::failure::Cause;
use crate::fate::{self, Fate};
use crate::fault::Fault;
use crate::group::{Came, Group, Left, Watched};
use crate::outbox::Outbox;
use crate::Tick;

/// Ticks until a message goes again: each wait is twice the one before, up to
/// the most, which goes on without end.
const WAIT_FIRST: Tick = 8;
const WAIT_INV: Tick = 32;
/// No wait of a hut is longer than a VAL's.
pub(crate) const WAIT_VAL: Tick = 1024;

/// When a record is tried again, and how long that wait was.
#[derive(Clone, Copy, Debug)]
struct Timer {
    due: Tick,
    wait: Tick,
}

/// The hut of one laptop.
pub(crate) struct Hut {
    number: u8,
    /// By which its software reads and writes packets: that of its group.
    rule: Rule,
    outbox: Outbox,
    timers: BTreeMap<usize, Timer>,
    /// The last epoch that was greater than the laptop's own, since its view; 0 if none came.
    heard: u32,
    /// Since when a view is missing here.
    missing: Option<Tick>,
    /// How long a view was missing after the hut had heard so, each time.
    pub missed: Vec<Tick>,
    fault: Option<Fault>,
}

/// Done, unless a check failed.
pub(crate) type Done = Result<(), Cause>;

impl Hut {
    pub fn new(number: u8, rule: Rule, fault: Option<Fault>) -> Hut {
        Hut {
            number,
            rule,
            outbox: Outbox::default(),
            timers: BTreeMap::new(),
            heard: 0,
            missing: None,
            missed: Vec::new(),
            fault,
        }
    }

    /// A ringer opens a record, unless it is not shown.
    pub fn open(&self, group: &mut Group, i: usize) -> Result<Result<Opened, Refusal>, Cause> {
        group.ask(self.number, i)
    }

    /// A ringer saves over what she saw, unless it is another by now (26). Gives the
    /// save's timestamp.
    pub fn save(
        &mut self,
        group: &mut Group,
        opened: Opened,
        text: &[u8],
    ) -> Result<Result<Timestamp, Refusal>, Cause> {
        let i = opened.record();
        let answer = match self.fault {
            Some(Fault::Save) if i.is_multiple_of(7) => Err(Refusal::NotWritable),
            Some(Fault::Blind) => group.write(self.number, i, text)?,
            _ => group.commit(self.number, opened, text)?,
        };
        let stamp =
            |left: &Option<Leaving>| left.as_ref().map(|l| l.envelope().message.timestamp());
        let saved = answer.as_ref().map(stamp).map_err(|refusal| *refusal);
        self.put_again(group, i, answer, WAIT_FIRST);
        Ok(saved.map(|stamp| stamp.expect("an INV leaves with a save")))
    }

    /// What became of a save.
    pub fn fate(&self, group: &Group, i: usize, saved: Timestamp) -> Fate {
        match self.fault {
            Some(Fault::Forget) => Fate::Finished,
            _ => fate::of(group.laptop(self.number), i, saved),
        }
    }

    /// A packet comes: its messages one by one, in one pass. Gives the question that
    /// refuses it as a whole: what is damaged, or of a group with the other rule (27),
    /// is dropped.
    pub fn packet_came(
        &mut self,
        group: &mut Group,
        bytes: &[u8],
    ) -> Result<Option<Refusal>, Cause> {
        let mut messages = match self.messages(bytes) {
            Ok(messages) => messages,
            Err(refusal) => return Ok(Some(refusal)),
        };
        group.counts.packet(messages.len());
        while let Some(came) = self.take(group, &mut messages)? {
            self.hears(group, came.sender, came.epoch);
            match came.left {
                Ok(Some(left)) if matches!(left.envelope().message, Message::Val(_)) => {
                    // The last acknowledgement has come. Its VAL may be lost, as any.
                    self.put_again(group, came.record, Ok(Some(left)), WAIT_FIRST);
                }
                Ok(Some(left)) => self.outbox.put(left),
                Ok(None) | Err(_) => {}
            }
        }
        Ok(None)
    }

    /// The messages of a packet of its group.
    fn messages<'a>(&self, bytes: &'a [u8]) -> Result<Messages<'a>, Refusal> {
        let named = bytes.first().copied();
        let of_packet = Rule::ALL.iter().find(|r| Some(r.number()) == named);
        match (self.fault, of_packet) {
            (Some(Fault::Byte), Some(rule)) => packet::messages(*rule, bytes),
            _ => packet::messages(self.rule, bytes),
        }
    }

    /// A message was of this epoch. A greater one than the laptop's says that it
    /// missed a view, which is within its own, and so is the sender.
    fn hears(&mut self, group: &Group, sender: u8, epoch: u32) {
        let laptop = group.laptop(self.number);
        if epoch > laptop.epoch() && laptop.view().contains(sender) {
            self.heard = epoch;
        }
        if self.missed_view(group).is_some() {
            self.missing.get_or_insert(group.now);
        }
    }

    /// The epoch of a view that was issued and did not come here. A laptop that is
    /// struck off has missed none.
    fn missed_view(&self, group: &Group) -> Option<u32> {
        let counts = group.laptop(self.number).view().contains(self.number);
        (counts && self.heard > 0).then_some(self.heard)
    }

    /// The warden's view comes.
    pub fn view_came(&mut self, group: &mut Group, epoch: u32, view: Members) -> Done {
        if group.change_view(self.number, epoch, view)?.is_err() {
            return Ok(());
        }
        self.heard = 0;
        let since = self.missing.take();
        self.missed.extend(since.map(|tick| group.now - tick));
        self.go_over(group)
    }

    /// The clock: records whose wait is over.
    pub fn tick(&mut self, group: &mut Group) -> Done {
        let due = self.timers.iter().filter(|(_, t)| t.due <= group.now);
        let due: Vec<(usize, Tick)> = due.map(|(i, t)| (*i, t.wait)).collect();
        for (i, wait) in due {
            let most = match group.laptop(self.number).shows_valid(i) {
                true => WAIT_VAL,
                false => WAIT_INV,
            };
            self.help(group, i, most.min(2 * wait))?;
        }
        Ok(())
    }

    /// The end of a tick: what waits goes on air.
    pub fn packets(&mut self) -> Vec<(Members, Vec<u8>)> {
        self.outbox.packets(self.rule)
    }

    /// Takes the next message of a packet in.
    fn take(&self, group: &mut Group, messages: &mut Messages<'_>) -> Result<Option<Came>, Cause> {
        let is_val = |m: Arriving| matches!(m.envelope().message, Message::Val(_));
        match self.fault {
            Some(Fault::Epoch) => {
                let epoch = group.laptop(self.number).epoch();
                let next = messages.next();
                next.map(|m| self.hand(group, m, epoch)).transpose()
            }
            Some(Fault::Tie | Fault::Byte) => {
                let next = messages.next();
                next.map(|m| self.hand(group, m, m.envelope().epoch))
                    .transpose()
            }
            Some(Fault::Val) => {
                while messages.clone().next().is_some_and(is_val) {
                    messages.next();
                }
                group.deliver_next(self.number, messages)
            }
            _ => group.deliver_next(self.number, messages),
        }
    }

    /// Hands a message over by itself, as if it were of this epoch. That its packet was
    /// of the laptop's group, nobody asks then.
    fn hand(&self, group: &mut Group, m: Arriving, epoch: u32) -> Result<Came, Cause> {
        let came = m.envelope();
        let handed = Arriving::new(Envelope { epoch, ..came }, m.body());
        let left = group.deliver_as(self.number, came, handed)?;
        Ok(Came {
            sender: came.sender,
            epoch,
            record: came.record,
            left,
        })
    }

    /// Once over all records, after a change of view.
    fn go_over(&mut self, group: &mut Group) -> Done {
        for i in 0..group.laptop(self.number).count() {
            let record = group.record(self.number, i);
            let Some(record) = record.filter(|r| r.timestamp.version > 0) else {
                continue;
            };
            if !self.validated(group, i, record.state)? {
                // An old VAL keeps its long wait.
                let wait = match group.laptop(self.number).shows_valid(i) {
                    true => self.timers.get(&i).map_or(WAIT_FIRST, |t| t.wait),
                    false => WAIT_FIRST,
                };
                self.help(group, i, wait)?;
            }
        }
        Ok(())
    }

    /// Finishes a write or replay, if the last laptop that was missing is struck
    /// off. Else the last acknowledgement does it.
    fn validated(&mut self, group: &mut Group, i: usize, state: State) -> Result<bool, Cause> {
        if !matches!(state, State::Write | State::Replay) {
            return Ok(false);
        }
        let answer = group.validate(self.number, i)?;
        Ok(self.put_again(group, i, answer, WAIT_FIRST))
    }

    /// Tries what else may move a record on from here.
    fn help(&mut self, group: &mut Group, i: usize, wait: Tick) -> Done {
        let n = self.number;
        let mut answer = self.replay(group, i)?;
        if answer.is_err() {
            answer = group.resend(n, i)?;
        }
        if !self.put_again(group, i, answer, wait) {
            // Another laptop's turn.
            self.timers.remove(&i);
        }
        Ok(())
    }

    /// Takes a save over whose laptop was struck off.
    fn replay(&self, group: &mut Group, i: usize) -> Watched {
        let state = group.record(self.number, i).map(|r| r.state);
        if self.fault == Some(Fault::Replay) && state == Some(State::InvalidWrite) {
            return Ok(Err(Refusal::NotReplayable));
        }
        group.replay(self.number, i)
    }

    /// Sends what leaves an event of this hut, if that was accepted; it goes
    /// again after so many ticks.
    fn put_again(&mut self, group: &Group, i: usize, answer: Left, wait: Tick) -> bool {
        let Ok(left) = answer else { return false };
        if let Some(left) = left {
            self.outbox.put(left);
        }
        let due = group.now + wait;
        self.timers.insert(i, Timer { due, wait });
        true
    }
}

#[cfg(test)]
mod tests {
    use super::*;
    use crate::history::Kind;
    use crate::settings::Settings;

    /// So many laptops with one record, each with its hut.
    fn huts<const N: usize>() -> (Group, [Hut; N]) {
        huts_with(Rule::Lower, None)
    }

    fn huts_with<const N: usize>(rule: Rule, fault: Option<Fault>) -> (Group, [Hut; N]) {
        let settings = Settings {
            laptops: N as u8,
            records: 1,
            rule,
            fault,
            ..Settings::default()
        };
        let group = Group::start(&settings).expect("a group");
        let hut = |n| Hut::new(n, settings.spoken_at(n), fault);
        (group, std::array::from_fn(|n| hut(n as u8)))
    }

    /// The ticks from now on at which something leaves.
    fn sent_at(hut: &mut Hut, group: &mut Group, ticks: Tick) -> Vec<Tick> {
        let begun = group.now;
        let mut at = Vec::new();
        for n in 1..=ticks {
            group.now = begun + n;
            hut.tick(group).expect("agreement");
            if !hut.packets().is_empty() {
                at.push(n);
            }
        }
        at
    }

    /// A ringer opens the record and saves.
    fn saves(hut: &mut Hut, group: &mut Group, text: &[u8]) {
        let opened = hut.open(group, 0).expect("agreement").expect("shown");
        let saved = hut.save(group, opened, text).expect("agreement");
        assert!(saved.is_ok());
    }

    /// The one packet that a hut sends now.
    fn sent(hut: &mut Hut) -> Vec<u8> {
        let mut packets = hut.packets();
        assert_eq!(packets.len(), 1);
        packets.remove(0).1
    }

    #[test]
    fn the_guide_has_these_waits() {
        let guide = include_str!("../../../docs/GUIDE.md");
        for (name, wait) in [
            ("WAIT_FIRST", WAIT_FIRST),
            ("WAIT_INV", WAIT_INV),
            ("WAIT_VAL", WAIT_VAL),
        ] {
            let line = format!("\nconst {name}: u16 = {wait};\n");
            assert!(guide.contains(&line), "{line}");
        }
    }

    #[test]
    fn messages_go_again_after_these_waits() {
        let (mut group, [mut zero, mut one, mut two]) = huts();
        let group = &mut group;
        saves(&mut zero, group, b"Wren");
        let inv = sent(&mut zero);
        assert_eq!(sent_at(&mut zero, group, 130), [8, 24, 56, 88, 120]);
        for hut in [&mut one, &mut two] {
            hut.packet_came(group, &inv).expect("agreement");
            zero.packet_came(group, &sent(hut)).expect("agreement");
        }
        sent(&mut zero);
        let waits = [8, 24, 56, 120, 248, 504, 1016, 2040, 3064, 4088];
        assert_eq!(sent_at(&mut zero, group, 5000), waits);
        assert_eq!(sent_at(&mut one, group, 5000), []);

        // 2 is struck off. The VAL leaves with the view, and its wait stays.
        let view = Members::from(0b011);
        for hut in [&mut zero, &mut two] {
            hut.view_came(group, 1, view).expect("agreement");
        }
        sent(&mut zero);
        assert_eq!(sent_at(&mut zero, group, 2000), [1024]);
        assert_eq!(sent_at(&mut two, group, 2000), []);
    }

    /// 2 is struck off, which 0 is told at once and 1 later: 1 hears of it by the
    /// epoch of 0's messages, which it refuses.
    #[test]
    fn a_view_that_is_missing_is_heard_of() {
        let (mut group, [mut zero, mut one, mut two]) = huts();
        let group = &mut group;
        saves(&mut zero, group, b"Wren");
        one.packet_came(group, &sent(&mut zero)).expect("agreement");
        let ack = sent(&mut one);
        let view = Members::from(0b011);
        zero.view_came(group, 1, view).expect("agreement");
        let inv = sent(&mut zero);
        assert_eq!((one.heard, one.missing), (0, None));
        for tick in [10, 14] {
            group.now = tick;
            one.packet_came(group, &inv).expect("agreement");
            assert_eq!((one.heard, one.missing), (1, Some(10)));
        }
        // What is late tells nothing, nor does a view that is refused.
        zero.packet_came(group, &ack).expect("agreement");
        assert_eq!((zero.heard, zero.missing), (0, None));
        one.view_came(group, 0, view).expect("agreement");
        assert_eq!(one.missed, []);
        group.now = 25;
        for hut in [&mut one, &mut two] {
            hut.view_came(group, 1, view).expect("agreement");
        }
        assert_eq!((one.heard, one.missing), (0, None));
        assert_eq!(one.missed, [15]);
        one.packet_came(group, &inv).expect("agreement");
        assert_eq!((one.heard, one.missing), (0, None));
        // 2 had heard nothing.
        assert_eq!(two.missed, []);
        // Five packets came, of a message each, and this is what was counted.
        let counts = &group.counts;
        assert_eq!((counts.packets, counts.arrived, counts.walked), (5, 5, 5));
        group.counts.packet(64);
        let counts = &group.counts;
        assert_eq!((counts.arrived, counts.walked), (69, 5 + 4096));
    }

    /// What counts of the epochs that 1 hears: damaged packets tell some that nobody
    /// issued.
    #[test]
    fn the_last_greater_epoch_of_the_view_counts() {
        let (mut group, [_, mut one, ..]) = huts::<5>();
        let group = &mut group;
        // A sender that is not in the view, and an epoch that is not greater.
        one.hears(group, 5, 9);
        one.hears(group, 0, 0);
        assert_eq!((one.missed_view(group), one.missing), (None, None));
        // The last one is kept, and the time of the first.
        for (tick, sender, epoch) in [(10, 4, 77), (12, 0, 2), (13, 5, 9)] {
            group.now = tick;
            one.hears(group, sender, epoch);
        }
        assert_eq!((one.missed_view(group), one.missing), (Some(2), Some(10)));
        // Any view that is accepted clears it; the next message brings it back.
        group.now = 20;
        one.view_came(group, 1, Members::from(0b0_1111))
            .expect("agreement");
        assert_eq!((one.missed_view(group), one.missing), (None, None));
        one.hears(group, 4, 2);
        assert_eq!(one.missed_view(group), None, "4 is struck off");
        one.hears(group, 0, 2);
        assert_eq!((one.missed_view(group), one.missing), (Some(2), Some(20)));
        // Struck off itself, it has missed none.
        group.now = 25;
        one.view_came(group, 2, Members::from(0b0_1101))
            .expect("agreement");
        one.hears(group, 0, 3);
        assert_eq!((one.missed_view(group), one.missing), (None, None));
        assert_eq!(one.missed, [10, 5]);
    }

    /// 0's save reaches 1 alone, and 0 is struck off.
    #[test]
    fn a_replay_leaves_with_the_view() {
        let (mut group, [mut zero, mut one, mut two]) = huts();
        let group = &mut group;
        saves(&mut zero, group, b"Wren");
        one.packet_came(group, &sent(&mut zero)).expect("agreement");
        sent(&mut one);
        for hut in [&mut one, &mut two] {
            hut.view_came(group, 1, Members::from(0b110))
                .expect("agreement");
        }
        sent(&mut one);
        assert_eq!(sent_at(&mut one, group, 60), [8, 24, 56]);
        assert_eq!(sent_at(&mut two, group, 60), []);
    }

    /// 1 and 2 save at once, and the save of one, by the rule, overtakes that of the
    /// other; then it is struck off. The other gives its own up: the later save leaves
    /// with the view, and with 0's acknowledgement it stands at both (document 02,
    /// Wish 2).
    #[test]
    fn an_overtaken_save_is_given_up_with_the_view() {
        for &rule in Rule::ALL {
            let (mut group, [mut zero, one, two]) = huts_with(rule, None);
            let group = &mut group;
            let (mut loses, mut wins) = match rule {
                Rule::Higher => (one, two),
                Rule::Lower => (two, one),
            };
            saves(&mut loses, group, b"Wren");
            saves(&mut wins, group, b"Robin");
            let [first, second] = [sent(&mut loses), sent(&mut wins)];
            loses.packet_came(group, &second).expect("agreement");
            zero.packet_came(group, &first).expect("agreement");
            for hut in [&mut loses, &mut zero] {
                sent(hut);
            }
            let number = loses.number;
            let state = |group: &Group| group.record(number, 0).map(|r| r.state);
            assert_eq!(state(group), Some(State::InvalidWrite));
            // The winner is in the view still: no replay, and nothing to send again.
            assert_eq!(sent_at(&mut loses, group, 60), []);
            assert_eq!((group.counts.overtaken, group.counts.given_up), (1, 0));

            let left: Members = [0, number].into_iter().collect();
            for hut in [&mut zero, &mut loses] {
                hut.view_came(group, 1, left).expect("agreement");
            }
            assert_eq!(state(group), Some(State::Replay));
            assert_eq!((group.counts.overtaken, group.counts.given_up), (1, 1));
            // Lost, and sent again.
            sent(&mut loses);
            assert_eq!(sent_at(&mut loses, group, 7), []);
            group.now += 1;
            loses.tick(group).expect("agreement");
            zero.packet_came(group, &sent(&mut loses))
                .expect("agreement");
            loses
                .packet_came(group, &sent(&mut zero))
                .expect("agreement");
            zero.packet_came(group, &sent(&mut loses))
                .expect("agreement");
            for n in [0, number] {
                assert_eq!(group.laptop(n).read(0), Ok(&b"Robin"[..]));
            }
            assert_eq!(validations(group), (0, 0));
        }
    }

    /// 2 was started with the other rule. It and the others refuse all of each other's
    /// packets by 27, so for the others it is as good as dead: a save waits for it, and
    /// is finished once it is struck off.
    #[test]
    fn a_laptop_of_the_other_rule_settles_with_nobody() {
        for &rule in Rule::ALL {
            let (mut group, [mut zero, mut one, mut two]) = huts_with(rule, Some(Fault::Rule));
            let group = &mut group;
            assert_ne!(group.laptop(2).settings(), group.laptop(0).settings());
            saves(&mut zero, group, b"Wren");
            let inv = sent(&mut zero);
            let other = Some(Refusal::OtherRule);
            assert_eq!(two.packet_came(group, &inv), Ok(other));
            assert_eq!(one.packet_came(group, &inv), Ok(None));
            assert_eq!(zero.packet_came(group, &sent(&mut one)), Ok(None));
            saves(&mut two, group, b"Robin");
            let inv = sent(&mut two);
            for hut in [&mut zero, &mut one] {
                assert_eq!(hut.packet_came(group, &inv), Ok(other));
                assert!(hut.packets().is_empty());
            }
            // Both savers wait, and send their INV again without end.
            for hut in [&mut zero, &mut two] {
                assert_eq!(sent_at(hut, group, 130).len(), 5);
            }
            let states = |group: &Group| {
                let states = [0, 1, 2].map(|n| group.record(n, 0).map(|r| r.state));
                states.map(|state| state.expect("a record"))
            };
            assert_eq!(states(group), [State::Write, State::Invalid, State::Write]);

            for hut in [&mut zero, &mut one] {
                hut.view_came(group, 1, Members::from(0b011))
                    .expect("agreement");
            }
            one.packet_came(group, &sent(&mut zero)).expect("agreement");
            assert_eq!(states(group), [State::Valid, State::Valid, State::Write]);
            assert_eq!(group.laptop(1).read(0), Ok(&b"Wren"[..]));
        }
    }

    /// Software that takes the rule from the packet takes in what is of another group.
    #[test]
    fn a_rule_taken_from_the_packet() {
        let (mut group, [mut zero, mut one]) = huts_with(Rule::Lower, None);
        saves(&mut zero, &mut group, b"Wren");
        let inv = sent(&mut zero);
        for (fault, refused) in [(None, Some(Refusal::OtherRule)), (Some(Fault::Byte), None)] {
            let (mut group, [_, mut other]) = huts_with(Rule::Higher, fault);
            assert_eq!(other.packet_came(&mut group, &inv), Ok(refused));
            assert_eq!(group.laptop(1).shows_valid(0), refused.is_some());
        }
        assert_eq!(one.packet_came(&mut group, &inv), Ok(None));
        // What is no packet of either is refused all the same.
        let (mut group, [_, mut byte]) = huts_with(Rule::Lower, Some(Fault::Byte));
        let head = Some(Refusal::PacketHead);
        for bytes in [&b""[..], b"\x03\x01\x00\x14"] {
            assert_eq!(byte.packet_came(&mut group, bytes), Ok(head));
        }
    }

    /// How often the hut validated, and how often question 15 said no.
    fn validations(group: &Group) -> (u64, u64) {
        let refused = group.counts.refused.get(&15).copied();
        let asked = group.counts.events[Kind::Validate as usize];
        (asked, refused.unwrap_or(0))
    }

    /// The VAL leaves with the last acknowledgement, to both others, and nobody
    /// asks for a validation.
    #[test]
    fn the_last_acknowledgement_sends_the_val() {
        let (mut group, [mut zero, mut one, mut two]) = huts();
        let group = &mut group;
        saves(&mut zero, group, b"Wren");
        let inv = sent(&mut zero);
        for hut in [&mut one, &mut two] {
            hut.packet_came(group, &inv).expect("agreement");
        }
        zero.packet_came(group, &sent(&mut one)).expect("agreement");
        assert!(zero.packets().is_empty());
        zero.packet_came(group, &sent(&mut two)).expect("agreement");
        let packets = zero.packets();
        let [(to, val)] = &packets[..] else {
            panic!("{} packets", packets.len());
        };
        assert_eq!(*to, Members::from(0b110));
        for hut in [&mut one, &mut two] {
            hut.packet_came(group, val).expect("agreement");
            assert!(hut.packets().is_empty());
            assert!(group.laptop(hut.number).shows_valid(0));
        }
        assert_eq!(validations(group), (0, 0));
    }

    /// 1 and 2 are dead. 1 is struck off, which leaves 2 missing, and then 2: the
    /// view finishes the save, and the VAL leaves with it.
    #[test]
    fn a_view_finishes_the_save_that_only_the_dead_miss() {
        let (mut group, [mut zero, _, _, mut three]) = huts();
        let group = &mut group;
        saves(&mut zero, group, b"Wren");
        let inv = sent(&mut zero);
        three.packet_came(group, &inv).expect("agreement");
        zero.packet_came(group, &sent(&mut three))
            .expect("agreement");
        assert!(zero.packets().is_empty());

        for hut in [&mut zero, &mut three] {
            hut.view_came(group, 1, Members::from(0b1101))
                .expect("agreement");
        }
        assert_eq!(validations(group), (1, 1));
        // The INV again, under the new epoch.
        sent(&mut zero);
        assert_eq!(group.record(0, 0).map(|r| r.state), Some(State::Write));
        assert_eq!(sent_at(&mut zero, group, 60), [8, 24, 56]);
        assert_eq!(validations(group), (1, 1));

        for hut in [&mut zero, &mut three] {
            hut.view_came(group, 2, Members::from(0b1001))
                .expect("agreement");
        }
        assert_eq!(validations(group), (2, 1));
        assert!(group.laptop(0).shows_valid(0));
        three
            .packet_came(group, &sent(&mut zero))
            .expect("agreement");
        assert!(group.laptop(3).shows_valid(0));
        assert_eq!(sent_at(&mut zero, group, 130), [8, 24, 56, 120]);
        assert_eq!(validations(group), (2, 1));
    }
}
