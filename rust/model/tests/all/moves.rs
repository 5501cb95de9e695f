//! What each accepted event makes of a whole record (01, "Steps"), from records
//! whose every field differs from what a fresh start gives.

use model::engine::{Answer, Message, Record, Rule, State};

use crate::support::{ack, from, inv, set, ts, val, Member};

/// A record with nothing at its first value. 5 is its last writer.
fn held(state: State) -> Record {
    Record {
        state,
        timestamp: ts(9, 5),
        last_writer: 5,
        last_write: ts(8, 2),
        acks: set(&[1, 7]),
        len: 4,
    }
}

/// Laptop 2 holding this record, its store full of other bytes behind the value.
fn holding(rule: Rule, record: Record) -> Member {
    let mut member = Member::ringing_by(rule);
    member.table[0] = record;
    member.store.fill(b'~');
    member.store[..4].copy_from_slice(b"wing");
    member
}

/// The event moves this record to that, and sends this, by either rule of ties.
fn moves(
    before: Record,
    event: impl Fn(&mut Member) -> Answer,
    after: Record,
    sent: Option<Message>,
    value: Option<&[u8]>,
) {
    for rule in Rule::ALL {
        moves_by(rule, before, &event, after, sent, value);
    }
}

/// The same by this rule. The store's 192 bytes are the value and zeroes if the
/// event sets it, else untouched.
fn moves_by(
    rule: Rule,
    before: Record,
    event: impl Fn(&mut Member) -> Answer,
    after: Record,
    sent: Option<Message>,
    value: Option<&[u8]>,
) {
    let mut member = holding(rule, before);
    assert_eq!(event(&mut member), Ok(sent));
    assert_eq!(member.table, [after]);
    let mut store = holding(rule, before).store;
    if let Some(value) = value {
        store.fill(0);
        store[..value.len()].copy_from_slice(value);
    }
    assert_eq!(member.store, store);
}

#[test]
fn write() {
    let after = Record {
        state: State::Write,
        timestamp: ts(10, 2),
        last_writer: 2,
        last_write: ts(10, 2),
        acks: 0,
        len: 6,
    };
    for state in [State::Valid, State::Invalid] {
        let event = |m: &mut Member| m.write(0, b"weight");
        moves(held(state), event, after, Some(inv(10, 2)), Some(b"weight"));
        let empty = Record { len: 0, ..after };
        let event = |m: &mut Member| m.write(0, b"");
        moves(held(state), event, empty, Some(inv(10, 2)), Some(b""));
    }
}

/// A commit is the write of a valid record (02, Wish 5).
#[test]
fn commit() {
    let after = Record {
        state: State::Write,
        timestamp: ts(10, 2),
        last_writer: 2,
        last_write: ts(10, 2),
        acks: 0,
        len: 6,
    };
    let full = [b'f'; 192];
    for (value, len) in [(&b"weight"[..], 6), (b"", 0), (&full, 192)] {
        let after = Record { len, ..after };
        let event = |m: &mut Member| m.commit(0, ts(9, 5), value);
        let sent = Some(inv(10, 2));
        moves(held(State::Valid), event, after, sent, Some(value));
        // As the write is.
        let event = |m: &mut Member| m.write(0, value);
        moves(held(State::Valid), event, after, sent, Some(value));
    }
}

/// From invalid-write too: the own save of (8,2) is given up (02, Wish 2),
/// whoever had acknowledged it.
#[test]
fn replay() {
    for state in [State::Invalid, State::InvalidWrite] {
        for counted in [&[][..], &[1, 7], &[1, 5], &[0, 1, 5, 7]] {
            let before = Record {
                last_writer: 7,
                acks: set(counted),
                ..held(state)
            };
            let after = Record {
                state: State::Replay,
                timestamp: ts(9, 5),
                last_writer: 2,
                last_write: ts(9, 5),
                acks: 0,
                len: 4,
            };
            moves(before, |m| m.replay(0), after, Some(inv(9, 5)), None);
        }
    }
}

/// The record's stamp is (9,5). The tie alone depends on the rule (02, Wish 6).
#[test]
fn greater_inv() {
    let all = [(10, 0), (10, 5), (10, 15), (u32::MAX, 15), (u32::MAX, 0)];
    greater_inv_by(Rule::Higher, &[(9, 6), (9, 15)]);
    greater_inv_by(Rule::Lower, &[(9, 4), (9, 0)]);
    Rule::ALL
        .into_iter()
        .for_each(|rule| greater_inv_by(rule, &all));
}

fn greater_inv_by(rule: Rule, stamps: &[(u32, u8)]) {
    for state in State::ALL {
        let taken = match state {
            State::Valid | State::Invalid | State::Replay => State::Invalid,
            State::Write | State::InvalidWrite => State::InvalidWrite,
        };
        for &(version, tie) in stamps {
            // Acknowledgements and the last-write stamp stay.
            let after = Record {
                state: taken,
                timestamp: ts(version, tie),
                last_writer: 1,
                len: 2,
                ..held(state)
            };
            let event = |m: &mut Member| m.deliver(&from(1, inv(version, tie)), b"ok");
            let sent = Some(ack(version, tie));
            moves_by(rule, held(state), event, after, sent, Some(b"ok"));
        }
    }
}

/// An INV of an older stamp, or of this one, is acknowledged and nothing else.
#[test]
fn other_inv() {
    let all = [(9, 5), (8, 15), (8, 5), (8, 0), (0, 15), (0, 0)];
    other_inv_by(Rule::Higher, &[(9, 4), (9, 0)]);
    other_inv_by(Rule::Lower, &[(9, 6), (9, 15)]);
    Rule::ALL
        .into_iter()
        .for_each(|rule| other_inv_by(rule, &all));
}

fn other_inv_by(rule: Rule, stamps: &[(u32, u8)]) {
    for state in State::ALL {
        for &(version, tie) in stamps {
            let event = |m: &mut Member| m.deliver(&from(1, inv(version, tie)), b"ok");
            let sent = Some(ack(version, tie));
            moves_by(rule, held(state), event, held(state), sent, None);
        }
    }
}

/// An ACK that is not the last is counted and nothing else.
#[test]
fn acknowledgement() {
    for state in [State::Write, State::InvalidWrite, State::Replay] {
        // As many as the view's others, or more, are not the others: 1 is missing.
        for counted in [&[][..], &[7], &[0, 3, 7, 9, 15]] {
            let before = Record {
                acks: set(counted),
                ..held(state)
            };
            let after = Record {
                acks: set(counted) | set(&[5]),
                ..before
            };
            let event = |m: &mut Member| m.deliver(&from(5, ack(8, 2)), b"");
            moves(before, event, after, None, None);
        }
    }
}

/// The last ACK validates a write or a replay too, and the VAL has the record's
/// stamp. A write that was overtaken it only counts (02, Wish 1).
#[test]
fn last_acknowledgement() {
    for state in [State::Write, State::InvalidWrite, State::Replay] {
        // The second set is larger than the view.
        for counted in [&[1][..], &[0, 1, 7, 9, 15]] {
            let before = Record {
                acks: set(counted),
                ..held(state)
            };
            let counted = Record {
                acks: set(counted) | set(&[5]),
                ..before
            };
            let (after, sent) = match state {
                State::InvalidWrite => (counted, None),
                _ => {
                    let state = State::Valid;
                    (Record { state, ..counted }, Some(val(9, 5)))
                }
            };
            let event = |m: &mut Member| m.deliver(&from(5, ack(8, 2)), b"");
            moves(before, event, after, sent, None);
        }
    }
}

/// The view is the one at that event: a smaller one needs fewer.
#[test]
fn last_acknowledgement_of_a_smaller_view() {
    for state in [State::Write, State::Replay] {
        let before = Record {
            acks: 0,
            ..held(state)
        };
        let after = Record {
            state: State::Valid,
            acks: set(&[5]),
            ..before
        };
        let event = |m: &mut Member| {
            assert_eq!(m.view(1, set(&[2, 5])), Ok(None));
            let mut envelope = from(5, ack(8, 2));
            envelope.epoch = 1;
            m.deliver(&envelope, b"")
        };
        moves(before, event, after, Some(val(9, 5)), None);
    }
}

#[test]
fn validation() {
    for state in &State::ALL[1..] {
        let event = |m: &mut Member| m.deliver(&from(1, val(9, 5)), b"");
        moves(held(*state), event, held(State::Valid), None, None);
    }
    for state in [State::Write, State::Replay] {
        let acks = set(&[1, 5, 7]);
        let before = Record {
            acks,
            ..held(state)
        };
        let after = Record {
            state: State::Valid,
            ..before
        };
        moves(before, |m| m.validate(0), after, Some(val(9, 5)), None);
    }
}

#[test]
fn resend() {
    let own = |state| Record {
        last_writer: 2,
        ..held(state)
    };
    let event = |m: &mut Member| m.resend(0);
    for state in [State::Write, State::Replay] {
        moves(held(state), event, held(state), Some(inv(9, 5)), None);
    }
    let valid = own(State::Valid);
    moves(valid, event, valid, Some(val(9, 5)), None);
}

#[test]
fn read() {
    let valid = held(State::Valid);
    for rule in Rule::ALL {
        assert_eq!(holding(rule, valid).read(0), Ok(&b"wing"[..]));
    }
    moves(valid, |m| m.read(0).map(|_| None), valid, None, None);
}

/// An ask hands out the value and the stamp, and moves nothing (02, Wish 5).
#[test]
fn ask() {
    let valid = held(State::Valid);
    for rule in Rule::ALL {
        let asked = holding(rule, valid);
        assert_eq!(asked.ask(0), Ok((&b"wing"[..], ts(9, 5))));
    }
    moves(valid, |m| m.ask(0).map(|_| None), valid, None, None);
}

#[test]
fn view() {
    let record = held(State::Replay);
    let event = |m: &mut Member| {
        let settings = m.replica.settings;
        let answer = m.view(3, set(&[2, 5]));
        assert_eq!((m.replica.epoch, m.replica.view), (3, set(&[2, 5])));
        assert_eq!((m.replica.number, m.replica.settings), (2, settings));
        answer
    };
    moves(record, event, record, None, None);
}

#[test]
fn the_second_record() {
    // The part is 192 times the record's number into the store.
    for rule in Rule::ALL {
        the_second_record_by(rule);
    }
}

fn the_second_record_by(rule: Rule) {
    let mut member = Member::start(rule, 2, set(&[1, 2, 5]), 3);
    member.store.fill(b'~');
    assert!(member.write(1, b"ring").is_ok());
    assert_eq!(&member.store[190..197], b"~~ring\0");
    assert_eq!(&member.store[382..386], b"\0\0~~");
    member.table[1].state = State::Valid;
    let part = member.read(1).expect("accepted");
    assert_eq!(part, b"ring");
    assert!(std::ptr::eq(part, &member.store[192..196]));
    let (asked, opened) = member.ask(1).expect("accepted");
    assert!(std::ptr::eq(asked, part));
    assert_eq!(opened, ts(1, 2));
    assert_eq!(member.commit(1, ts(1, 2), b"tail"), Ok(Some(inv(2, 2))));
    assert_eq!(&member.store[190..197], b"~~tail\0");
    assert_eq!(&member.store[382..386], b"\0\0~~");
    assert_eq!(member.table[0], Record::fresh(1));
    assert_eq!(member.table[2], Record::fresh(1));
}
