//! The events' questions, 1 to 19 and 26: each clause of them answered "no" once,
//! with the number, and with nothing moved. Those of packets stand in `packets`.

use std::collections::BTreeSet;

use model::engine::{
    bit, has, number, Answer, Envelope, Record, Refusal, Replica, Rule, Settings, State, Timestamp,
};

use crate::support::{ack, from, inv, set, ts, val, Member};

/// An event on laptop 2 after some change made by hand. The rule of ties is in
/// none of these questions (02, Wish 6): both answer alike.
fn after(change: impl Fn(&mut Member), event: impl Fn(&mut Member) -> Answer) -> u8 {
    let [old, new] = Rule::ALL.map(|rule| {
        let mut member = Member::ringing_by(rule);
        change(&mut member);
        let before = member.clone();
        let answer = event(&mut member);
        assert!(answer.is_ok() || member == before, "a refused event moved");
        number(&answer)
    });
    assert_eq!(old, new, "the two rules of ties");
    old
}

fn read(member: &mut Member) -> Answer {
    member.read(0).map(|_| None)
}

fn write(member: &mut Member) -> Answer {
    member.write(0, b"text")
}

fn ask(member: &mut Member) -> Answer {
    member.ask(0).map(|_| None)
}

/// On the stamp of a fresh start.
fn commit(member: &mut Member) -> Answer {
    member.commit(0, ts(0, 1), b"text")
}

fn commit_on(opened: Timestamp) -> impl Fn(&mut Member) -> Answer {
    move |member| member.commit(0, opened, b"text")
}

fn replay(member: &mut Member) -> Answer {
    member.replay(0)
}

fn validate(member: &mut Member) -> Answer {
    member.validate(0)
}

fn resend(member: &mut Member) -> Answer {
    member.resend(0)
}

fn deliver(envelope: Envelope, body: &[u8]) -> impl Fn(&mut Member) -> Answer + '_ {
    move |member| member.deliver(&envelope, body)
}

fn view(epoch: u32, view: u16) -> impl Fn(&mut Member) -> Answer {
    move |member| member.view(epoch, view)
}

/// Record 0 is put to this state.
fn state(state: State) -> impl Fn(&mut Member) {
    move |member| member.table[0].state = state
}

fn as_is(_: &mut Member) {}

/// Record 0 awaits the acknowledgement of (1,2).
fn writing(member: &mut Member) {
    member.write(0, b"A1").expect("accepted");
}

#[test]
fn one_to_five_for_every_event_on_a_record() {
    let inv15 = deliver(from(5, inv(1, 5)), b"B");
    let events: [&dyn Fn(&mut Member) -> Answer; 8] = [
        &read, &write, &ask, &commit, &replay, &validate, &resend, &inv15,
    ];
    for event in events {
        let is = |no: u8, change: &dyn Fn(&mut Member)| {
            assert_eq!(after(change, event), no);
        };
        is(1, &|m| m.replica.number = 16);
        is(1, &|m| m.replica.number = 255);
        is(1, &|m| m.replica.view = 0);
        is(1, &|m| m.replica.view = set(&[2]));
        is(2, &|m| m.table.clear());
        is(2, &|m| m.store.clear());
        is(2, &|m| m.store.truncate(191));
        is(2, &|m| m.store.push(0));
        is(2, &|m| m.table.push(Record::fresh(1)));
        is(3, &|m| m.replica.number = 0);
        is(3, &|m| m.replica.view = set(&[1, 5]));
        is(5, &|m| m.table[0].len = 193);
        is(5, &|m| m.table[0].len = 255);
        is(5, &|m| m.table[0].timestamp.tie = 16);
        is(5, &|m| m.table[0].last_write.tie = 16);
        is(5, &|m| m.table[0].last_writer = 16);
        is(5, &|m| m.table[0].acks = set(&[1, 2]));
    }
}

#[test]
fn sound_to_the_limit() {
    let member = |m: &mut Member| {
        m.table[0] = Record {
            state: State::Valid,
            timestamp: ts(u32::MAX, 15),
            last_writer: 15,
            last_write: ts(u32::MAX, 15),
            acks: !set(&[2]),
            len: 192,
        }
    };
    assert_eq!(after(member, read), 0);
    let fifteen = |m: &mut Member| m.replica.number = 15;
    assert_eq!(after(fifteen, read), 3);
    let wide = |m: &mut Member| {
        m.replica.number = 15;
        m.replica.view = u16::MAX;
    };
    assert_eq!(after(wide, read), 0);
}

#[test]
fn start() {
    let start_by = |rule, number, view, records, store| {
        let mut table = vec![Record::fresh(9); records];
        let mut store = vec![3; store];
        let answer = Replica::start(number, view, Settings { rule }, &mut table, &mut store);
        let moved = table.iter().any(|&record| record != Record::fresh(9))
            || store.iter().any(|&byte| byte != 3);
        assert_eq!(moved, answer.is_ok());
        model::engine::number(&answer)
    };
    let start = |number, view, records, store| {
        let [old, new] = Rule::ALL.map(|rule| start_by(rule, number, view, records, store));
        assert_eq!(old, new, "the two rules of ties");
        old
    };
    assert_eq!(start(2, set(&[1, 2]), 1, 192), 0);
    assert_eq!(start(15, set(&[0, 15]), 2, 384), 0);
    assert_eq!(start(2, set(&[1, 2]), 4096, 4096 * 192), 0);
    assert_eq!(start(16, set(&[1, 2]), 1, 192), 1);
    assert_eq!(start(2, set(&[2]), 1, 192), 1);
    assert_eq!(start(2, 0, 1, 192), 1);
    assert_eq!(start(2, set(&[1, 2]), 0, 0), 2);
    assert_eq!(start(2, set(&[1, 2]), 4097, 4097 * 192), 2);
    assert_eq!(start(2, set(&[1, 2]), 2, 383), 2);
    assert_eq!(start(2, set(&[1, 2]), 2, 385), 2);
    assert_eq!(start(3, set(&[1, 2]), 1, 192), 3);
}

#[test]
fn stray_records() {
    for record in [1, 2, 4095, 4096, usize::MAX / 192, usize::MAX] {
        let mut envelope = from(5, inv(1, 5));
        envelope.record = record;
        let is_stray = |event: &dyn Fn(&mut Member) -> Answer| {
            assert_eq!(after(as_is, event), 4);
        };
        is_stray(&|m| m.read(record).map(|_| None));
        is_stray(&|m| m.write(record, b"text"));
        is_stray(&|m| m.ask(record).map(|_| None));
        is_stray(&|m| m.commit(record, ts(0, 1), b"text"));
        is_stray(&|m| m.replay(record));
        is_stray(&|m| m.validate(record));
        is_stray(&|m| m.resend(record));
        is_stray(&|m| m.deliver(&envelope, b"B"));
    }
}

#[test]
fn read_and_write() {
    use State::{Invalid, InvalidWrite, Replay, Valid, Write};
    assert_eq!(after(state(Valid), read), 0);
    for other in [Invalid, InvalidWrite, Write, Replay] {
        assert_eq!(after(state(other), read), 6);
    }
    for other in [Valid, Invalid] {
        assert_eq!(after(state(other), write), 0);
    }
    for other in [InvalidWrite, Write, Replay] {
        assert_eq!(after(state(other), write), 7);
    }
    assert_eq!(after(as_is, |m| m.write(0, &[0; 192])), 0);
    assert_eq!(after(as_is, |m| m.write(0, &[0; 193])), 8);
    let last = |m: &mut Member| m.table[0].timestamp.version = u32::MAX;
    assert_eq!(after(last, write), 9);
}

/// 02, Wish 5: an ask is refused by the same questions as a read.
#[test]
fn asks() {
    for held in State::ALL {
        let expected = if held == State::Valid { 0 } else { 6 };
        assert_eq!(after(state(held), ask), expected);
    }
}

/// 02, Wish 5: valid, with that very stamp.
#[test]
fn commits() {
    for held in State::ALL {
        let expected = if held == State::Valid { 0 } else { 26 };
        assert_eq!(after(state(held), commit), expected);
    }
    for held in State::ALL {
        let change = |m: &mut Member| {
            m.table[0].state = held;
            m.table[0].timestamp = ts(3, 5);
            // Another stamp of the record's does not count.
            m.table[0].last_write = ts(1, 2);
        };
        let expected = if held == State::Valid { 0 } else { 26 };
        assert_eq!(after(change, commit_on(ts(3, 5))), expected);
        let equal_version = [(3, 4), (3, 6), (3, 0), (3, 15)];
        let equal_tie = [(2, 5), (4, 5), (0, 5), (u32::MAX, 5)];
        let older = [(2, 15), (0, 1), (1, 2)];
        let newer = [(4, 0), (u32::MAX, 15)];
        // 3 and 5 in the low bits.
        let great = [(3, 16), (3, 21), (3, 37), (3, 255), (259, 5), (3 << 16, 5)];
        let others = [&equal_version[..], &equal_tie, &older, &newer, &great].concat();
        for (version, tie) in others {
            assert_eq!(after(change, commit_on(ts(version, tie))), 26);
        }
    }
    // A tie-breaker above 15 is never the record's: such a record is unsound.
    let unsound = |m: &mut Member| m.table[0].timestamp.tie = 16;
    assert_eq!(after(unsound, commit_on(ts(0, 16))), 5);
}

/// 8 and 9 follow 26, which stands in the place of 7.
#[test]
fn commits_go_on_as_writes() {
    let long = |opened, len| move |m: &mut Member| m.commit(0, opened, &vec![0; len]);
    assert_eq!(after(as_is, long(ts(0, 1), 192)), 0);
    for len in [193, 194, 255, 256, 4096] {
        assert_eq!(after(as_is, long(ts(0, 1), len)), 8);
        assert_eq!(after(as_is, long(ts(0, 2), len)), 26);
        assert_eq!(after(state(State::Write), long(ts(0, 1), len)), 26);
    }
    let at = |version| move |m: &mut Member| m.table[0].timestamp.version = version;
    let last = u32::MAX;
    assert_eq!(after(at(last - 1), commit_on(ts(last - 1, 1))), 0);
    assert_eq!(after(at(last), commit_on(ts(last, 1))), 9);
    assert_eq!(after(at(last), commit_on(ts(last, 2))), 26);
    assert_eq!(after(at(last), commit_on(ts(last - 1, 1))), 26);
    assert_eq!(after(at(last), commit_on(ts(0, 1))), 26);
    let writing = |m: &mut Member| {
        m.table[0].timestamp.version = last;
        m.table[0].state = State::Write;
    };
    assert_eq!(after(writing, commit_on(ts(last, 1))), 26);
    assert_eq!(after(at(last), long(ts(last, 1), 193)), 8);
    assert_eq!(after(at(last), long(ts(last, 2), 193)), 26);
}

#[test]
fn deliveries() {
    let ack12 = from(5, ack(1, 2));
    assert_eq!(after(writing, deliver(ack12, b"")), 0);
    for epoch in [1, u32::MAX] {
        let envelope = Envelope { epoch, ..ack12 };
        assert_eq!(after(writing, deliver(envelope, b"")), 10);
    }
    let epoch3 = |m: &mut Member| {
        writing(m);
        m.replica.epoch = 3;
    };
    for (epoch, expected) in [(0, 10), (2, 10), (3, 0), (4, 10), (u32::MAX, 10)] {
        let envelope = Envelope { epoch, ..ack12 };
        assert_eq!(after(epoch3, deliver(envelope, b"")), expected);
    }
    for sender in [0, 2, 3, 15, 16, 18, 21, 37, 255] {
        let envelope = Envelope { sender, ..ack12 };
        assert_eq!(after(writing, deliver(envelope, b"")), 11);
    }
    assert_eq!(after(as_is, deliver(from(5, inv(1, 16)), b"")), 12);
    assert_eq!(after(as_is, deliver(from(5, inv(1, 5)), &[0; 193])), 12);
    assert_eq!(after(writing, deliver(from(5, ack(1, 16)), b"")), 12);
    assert_eq!(after(writing, deliver(ack12, b"x")), 12);
    assert_eq!(after(writing, deliver(from(5, val(1, 16)), b"")), 12);
    assert_eq!(after(writing, deliver(from(5, val(1, 2)), b"x")), 12);
}

#[test]
fn acks() {
    use State::{Invalid, InvalidWrite, Replay, Valid, Write};
    for awaiting in State::ALL {
        let change = |m: &mut Member| {
            writing(m);
            m.table[0].state = awaiting;
            // The last-write stamp counts, not the record's.
            m.table[0].timestamp = ts(3, 5);
        };
        let expected = match awaiting {
            Write | InvalidWrite | Replay => 0,
            Valid | Invalid => 13,
        };
        assert_eq!(after(change, deliver(from(5, ack(1, 2)), b"")), expected);
        assert_eq!(after(change, deliver(from(5, ack(3, 5)), b"")), 13);
    }
    for (version, tie) in [(1, 1), (1, 5), (0, 2), (2, 2), (0, 5), (2, 1)] {
        let other = from(5, ack(version, tie));
        assert_eq!(after(writing, deliver(other, b"")), 13);
    }
    let counted = |m: &mut Member| {
        writing(m);
        m.table[0].acks = set(&[5]);
    };
    assert_eq!(after(counted, deliver(from(5, ack(1, 2)), b"")), 13);
    assert_eq!(after(counted, deliver(from(1, ack(1, 2)), b"")), 0);
}

#[test]
fn vals() {
    for held in State::ALL {
        let change = |m: &mut Member| {
            m.table[0].state = held;
            m.table[0].timestamp = ts(3, 5);
            m.table[0].last_write = ts(1, 2);
        };
        let expected = if held == State::Valid { 14 } else { 0 };
        assert_eq!(after(change, deliver(from(1, val(3, 5)), b"")), expected);
        for (version, tie) in [(3, 1), (3, 6), (1, 2), (2, 5), (4, 5), (4, 0)] {
            let other = from(1, val(version, tie));
            assert_eq!(after(change, deliver(other, b"")), 14);
        }
    }
}

#[test]
fn validations() {
    use State::{Replay, Write};
    for held in State::ALL {
        let with = |acks: u16| {
            move |m: &mut Member| {
                m.table[0].state = held;
                m.table[0].acks = acks;
            }
        };
        let expected = if matches!(held, Write | Replay) {
            0
        } else {
            15
        };
        assert_eq!(after(with(set(&[1, 5])), validate), expected);
        assert_eq!(after(with(set(&[0, 1, 5, 9])), validate), expected);
        // As many as the view's others, but not the others.
        assert_eq!(after(with(set(&[0, 1])), validate), 15);
        assert_eq!(after(with(set(&[0, 1, 3, 4, 6])), validate), 15);
        assert_eq!(after(with(0), validate), 15);
    }
}

#[test]
fn replays_and_resends() {
    use State::{Invalid, InvalidWrite, Replay, Valid, Write};
    for held in State::ALL {
        for writer in 0..16 {
            let change = |m: &mut Member| {
                m.table[0].state = held;
                m.table[0].last_writer = writer;
            };
            // 02, Wish 2: invalid or invalid-write.
            let invalid = matches!(held, Invalid | InvalidWrite);
            let gone = ![1, 2, 5].contains(&writer);
            let expected = if invalid && gone { 0 } else { 16 };
            assert_eq!(after(change, replay), expected);
            let sends = matches!(held, Write | Replay) || held == Valid && writer == 2;
            let expected = if sends { 0 } else { 17 };
            assert_eq!(after(change, resend), expected);
        }
    }
}

#[test]
fn resends_send() {
    let mut member = Member::ringing();
    writing(&mut member);
    member.table[0].acks = set(&[1]);
    let before = member.clone();
    assert_eq!(member.resend(0), Ok(Some(inv(1, 2))));
    member.table[0].state = State::Replay;
    assert_eq!(member.resend(0), Ok(Some(inv(1, 2))));
    member.table[0].state = State::Valid;
    assert_eq!(member.resend(0), Ok(Some(val(1, 2))));
    member.table[0].state = State::Write;
    assert_eq!(member, before);

    // A fresh replica that is the lowest of its view is last writer.
    for rule in Rule::ALL {
        let lowest = Member::start(rule, 1, set(&[1, 2, 5]), 1);
        assert_eq!(lowest.resend(0), Ok(Some(val(0, 1))));
        let answer = Member::ringing_by(rule).resend(0);
        assert_eq!(answer, Err(Refusal::NotResendable));
    }
}

#[test]
fn views() {
    let epoch3 = |m: &mut Member| m.replica.epoch = 3;
    assert_eq!(after(epoch3, view(3, set(&[1, 2]))), 18);
    assert_eq!(after(epoch3, view(2, set(&[1, 2]))), 18);
    assert_eq!(after(epoch3, view(4, set(&[1, 2]))), 0);
    assert_eq!(after(epoch3, view(u32::MAX, set(&[1, 2, 5]))), 0);
    assert_eq!(after(epoch3, view(4, 0)), 19);
    assert_eq!(after(epoch3, view(4, set(&[2]))), 19);
    assert_eq!(after(epoch3, view(4, set(&[1, 2, 3]))), 19);
    assert_eq!(after(epoch3, view(4, set(&[3, 4]))), 19);
    assert_eq!(after(|m| m.replica.number = 16, view(1, 3)), 1);
    assert_eq!(after(|m| m.replica.view = set(&[2]), view(1, 3)), 1);
    assert_eq!(after(|m| m.replica.number = 3, view(1, 3)), 3);
    // It asks nothing of the memory.
    assert_eq!(after(|m| m.table.clear(), view(1, set(&[1, 2]))), 0);
}

#[test]
fn the_numbers_are_the_papers() {
    use Refusal::*;
    let all = [
        NoGroup,
        LentMemory,
        StruckOff,
        StrayRecord,
        UnsoundRecord,
        NotReadable,
        NotWritable,
        ValueTooLong,
        LastVersion,
        OtherEpoch,
        OtherSender,
        IllFormed,
        StrayAck,
        StrayVal,
        NotFinished,
        NotReplayable,
        NotResendable,
        OldEpoch,
        ViewNotWithin,
        PacketHead,
        PacketContents,
        PacketEntry,
        PacketIndex,
        PacketMessages,
        PacketRoom,
        NotAsOpened,
        OtherRule,
    ];
    let numbers: BTreeSet<u8> = all.iter().map(|refusal| refusal.number()).collect();
    assert_eq!(numbers, (1..=27).collect());
    assert_eq!(NotAsOpened.number(), 26);
    assert_eq!(OtherRule.number(), 27);
}

#[test]
fn sets() {
    for number in 0..=255 {
        assert_eq!(has(u16::MAX, number), number < 16);
        assert_eq!(bit(number).count_ones(), u32::from(number < 16));
        assert!(!has(!bit(number), number));
    }
}
