//! The rows of document 01, "From the ringing table", and the last ACK of
//! document 02. Laptop 2, view {1,2,5}, epoch 0 unless said.

use model::engine::{body, Record, Refusal, Replica, Rule, Settings, State};
use model::packet;

use crate::support::{ack, from, inv, packet_of, set, ts, val, Member};

/// The record after laptop 2's first write.
const WRITTEN: Record = Record {
    state: State::Write,
    timestamp: ts12(),
    last_writer: 2,
    last_write: ts12(),
    acks: 0,
    len: 2,
};

const fn ts12() -> model::engine::Timestamp {
    model::engine::Timestamp::new(1, 2)
}

fn written() -> Member {
    let mut member = Member::ringing();
    assert_eq!(member.write(0, b"A1"), Ok(Some(inv(1, 2))));
    member
}

#[test]
fn fresh() {
    let member = Member::ringing();
    let expected = Record {
        state: State::Valid,
        timestamp: ts(0, 1),
        last_writer: 1,
        last_write: ts(0, 1),
        acks: 0,
        len: 0,
    };
    assert_eq!(member.table, [expected]);
    assert!(member.store.iter().all(|&byte| byte == 0));
    assert_eq!(member.replica.epoch, 0);
    assert_eq!(member.replica.view, set(&[1, 2, 5]));
    assert_eq!(member.read(0), Ok(&b""[..]));
}

#[test]
fn write() {
    let member = written();
    assert_eq!(member.table, [WRITTEN]);
    assert_eq!(&member.store[..2], b"A1");
    assert!(member.store[2..].iter().all(|&byte| byte == 0));
    assert_eq!(body(inv(1, 2), &member.table, &member.store, 0), b"A1");
    assert_eq!(member.replica.recipients(inv(1, 2), 0), set(&[1, 5]));
    assert_eq!(member.replica.envelope(0, inv(1, 2)), from(2, inv(1, 2)));
}

#[test]
fn greater_inv_at_write() {
    let mut member = written();
    assert_eq!(
        member.deliver(&from(5, inv(1, 5)), b"B"),
        Ok(Some(ack(1, 5)))
    );
    let expected = Record {
        state: State::InvalidWrite,
        timestamp: ts(1, 5),
        last_writer: 5,
        len: 1,
        ..WRITTEN
    };
    assert_eq!(member.table, [expected]);
    assert_eq!(member.store[0], b'B');
    assert!(member.store[1..].iter().all(|&byte| byte == 0));
    assert_eq!(member.replica.recipients(ack(1, 5), 5), set(&[5]));
}

#[test]
fn lesser_inv_at_write() {
    let mut member = written();
    let before = member.clone();
    assert_eq!(
        member.deliver(&from(1, inv(1, 1)), b"C"),
        Ok(Some(ack(1, 1)))
    );
    assert_eq!(member, before);
    // An equal one too: only a greater stamp is taken.
    assert_eq!(
        member.deliver(&from(1, inv(1, 2)), b"C"),
        Ok(Some(ack(1, 2)))
    );
    assert_eq!(member, before);
}

#[test]
fn greater_inv_at_replay() {
    let mut member = Member::ringing();
    assert!(member.deliver(&from(5, inv(1, 5)), b"B").is_ok());
    assert_eq!(member.view(1, set(&[1, 2])), Ok(None));
    assert_eq!(member.replay(0), Ok(Some(inv(1, 5))));
    let replayed = Record {
        state: State::Replay,
        timestamp: ts(1, 5),
        last_writer: 2,
        last_write: ts(1, 5),
        acks: 0,
        len: 1,
    };
    assert_eq!(member.table, [replayed]);
    assert_eq!(body(inv(1, 5), &member.table, &member.store, 0), b"B");

    let mut envelope = from(1, inv(2, 1));
    envelope.epoch = 1;
    assert_eq!(member.deliver(&envelope, b""), Ok(Some(ack(2, 1))));
    let expected = Record {
        state: State::Invalid,
        timestamp: ts(2, 1),
        last_writer: 1,
        len: 0,
        ..replayed
    };
    assert_eq!(member.table, [expected]);
    assert!(member.store.iter().all(|&byte| byte == 0));
}

#[test]
fn ack_counted_once() {
    let mut member = written();
    assert_eq!(member.deliver(&from(5, ack(1, 2)), b""), Ok(None));
    let expected = Record {
        acks: set(&[5]),
        ..WRITTEN
    };
    assert_eq!(member.table, [expected]);
    assert_eq!(
        member.deliver(&from(5, ack(1, 2)), b""),
        Err(Refusal::StrayAck)
    );
    assert_eq!(member.table, [expected]);
}

/// 02, Wish 1, at this table's laptop: the ACK of 1, after that of 5.
#[test]
fn last_ack_at_write() {
    let mut member = written();
    assert_eq!(member.deliver(&from(5, ack(1, 2)), b""), Ok(None));
    let last = from(1, ack(1, 2));
    assert_eq!(member.deliver(&last, b""), Ok(Some(val(1, 2))));
    let expected = Record {
        state: State::Valid,
        acks: set(&[1, 5]),
        ..WRITTEN
    };
    assert_eq!(member.table, [expected]);
    assert_eq!(member.replica.recipients(val(1, 2), 1), set(&[1, 5]));
    assert_eq!(body(val(1, 2), &member.table, &member.store, 0), b"");
    assert_eq!(member.read(0), Ok(&b"A1"[..]));
    // Nothing is left to do for Validate, nor for that ACK.
    assert_eq!(member.validate(0), Err(Refusal::NotFinished));
    assert_eq!(member.deliver(&last, b""), Err(Refusal::StrayAck));
    assert_eq!(member.table, [expected]);
}

#[test]
fn last_ack_at_replay() {
    let mut member = Member::ringing();
    assert!(member.deliver(&from(5, inv(1, 5)), b"B").is_ok());
    assert_eq!(member.view(1, set(&[1, 2])), Ok(None));
    assert_eq!(member.replay(0), Ok(Some(inv(1, 5))));
    let mut last = from(1, ack(1, 5));
    last.epoch = 1;
    assert_eq!(member.deliver(&last, b""), Ok(Some(val(1, 5))));
    let expected = Record {
        state: State::Valid,
        timestamp: ts(1, 5),
        last_writer: 2,
        last_write: ts(1, 5),
        acks: set(&[1]),
        len: 1,
    };
    assert_eq!(member.table, [expected]);
    assert_eq!(member.replica.recipients(val(1, 5), 1), set(&[1]));
    assert_eq!(member.read(0), Ok(&b"B"[..]));
}

/// An overtaken write is not validated by its last ACK. While 5 is in the view,
/// only the VAL of the greater stamp makes it valid.
#[test]
fn last_ack_at_invalid_write() {
    let mut member = written();
    assert_eq!(member.deliver(&from(1, ack(1, 2)), b""), Ok(None));
    assert!(member.deliver(&from(5, inv(1, 5)), b"B").is_ok());
    assert_eq!(member.deliver(&from(5, ack(1, 2)), b""), Ok(None));
    let expected = Record {
        state: State::InvalidWrite,
        timestamp: ts(1, 5),
        last_writer: 5,
        acks: set(&[1, 5]),
        len: 1,
        ..WRITTEN
    };
    assert_eq!(member.table, [expected]);
    assert_eq!(member.validate(0), Err(Refusal::NotFinished));
    assert_eq!(member.replay(0), Err(Refusal::NotReplayable));
    assert_eq!(member.deliver(&from(5, val(1, 5)), b""), Ok(None));
    assert_eq!(member.read(0), Ok(&b"B"[..]));
}

#[test]
fn val_at_invalid_write() {
    let mut member = written();
    assert!(member.deliver(&from(5, inv(1, 5)), b"B").is_ok());
    let before = member.clone();
    assert_eq!(
        member.deliver(&from(5, val(1, 2)), b""),
        Err(Refusal::StrayVal)
    );
    assert_eq!(member, before);
    assert_eq!(member.deliver(&from(5, val(1, 5)), b""), Ok(None));
    let expected = Record {
        state: State::Valid,
        ..before.table[0]
    };
    assert_eq!(member.table, [expected]);
    assert_eq!(member.read(0), Ok(&b"B"[..]));
}

#[test]
fn validate_after_a_view() {
    let mut member = written();
    assert_eq!(member.deliver(&from(1, ack(1, 2)), b""), Ok(None));
    assert_eq!(member.validate(0), Err(Refusal::NotFinished));
    assert_eq!(member.view(1, set(&[1, 2])), Ok(None));
    assert_eq!(member.validate(0), Ok(Some(val(1, 2))));
    let expected = Record {
        state: State::Valid,
        acks: set(&[1]),
        ..WRITTEN
    };
    assert_eq!(member.table, [expected]);
    assert_eq!(member.replica.recipients(val(1, 2), 0), set(&[1]));
    assert_eq!(member.resend(0), Ok(Some(val(1, 2))));
}

#[test]
fn last_versions() {
    let mut member = Member::ringing();
    member.table[0].timestamp = ts(4_294_967_294, 1);
    assert_eq!(member.write(0, b""), Ok(Some(inv(4_294_967_295, 2))));
    assert_eq!(member.table[0].last_write, ts(4_294_967_295, 2));
    member.table[0].state = State::Valid;
    let before = member.clone();
    assert_eq!(member.write(0, b""), Err(Refusal::LastVersion));
    assert_eq!(member, before);
}

#[test]
fn views() {
    let mut member = Member::ringing();
    assert_eq!(member.view(0, set(&[1, 2])), Err(Refusal::OldEpoch));
    assert_eq!(member.view(1, set(&[1])), Err(Refusal::ViewNotWithin));
    assert_eq!(member, Member::ringing());
    assert_eq!(member.view(1, set(&[1, 5])), Ok(None));
    assert_eq!(member.read(0), Err(Refusal::StruckOff));
    assert_eq!(member.view(2, set(&[1, 5])), Err(Refusal::StruckOff));
    assert_eq!(member.table, Member::ringing().table);
}

#[test]
fn val_of_a_later_epoch() {
    let mut member = Member::ringing();
    assert!(member.deliver(&from(5, inv(1, 5)), b"B").is_ok());
    let mut envelope = from(5, val(1, 5));
    envelope.epoch = 1;
    assert_eq!(member.deliver(&envelope, b""), Err(Refusal::OtherEpoch));
    assert_eq!(member.table[0].state, State::Invalid);
}

#[test]
fn the_packet_of_an_ack() {
    let mut envelope = from(5, ack(1, 2));
    envelope.record = 7;
    let expected = [1, 1, 0, 20, 2, 5, 0, 0, 0, 0, 0, 7, 0, 0, 0, 1, 2, 0, 20, 0];
    assert_eq!(
        packet_of(Rule::Higher, &[(envelope, b"")]),
        Ok(expected.to_vec())
    );
    assert_eq!(
        packet::fetch(Rule::Higher, &expected, 0),
        Ok((envelope, &b""[..]))
    );
}

#[test]
fn values_of_192_and_193() {
    let text = [7; 193];
    let mut member = Member::ringing();
    assert_eq!(member.write(0, &text), Err(Refusal::ValueTooLong));
    assert_eq!(
        member.deliver(&from(5, inv(1, 5)), &text),
        Err(Refusal::IllFormed)
    );
    assert_eq!(member, Member::ringing());
    assert_eq!(
        packet_of(Rule::Higher, &[(from(5, inv(1, 5)), &text)]),
        Err(Refusal::PacketMessages)
    );

    let text = &text[..192];
    assert_eq!(
        member.deliver(&from(5, inv(1, 5)), text),
        Ok(Some(ack(1, 5)))
    );
    assert_eq!(member.store, text);
    assert_eq!(member.write(0, text), Ok(Some(inv(2, 2))));
    assert_eq!(member.store, text);
    assert_eq!(member.table[0].len, 192);
    assert!(packet_of(Rule::Higher, &[(from(5, inv(1, 5)), text)]).is_ok());
}

#[test]
fn records_4095_and_4096() {
    let view = set(&[1, 2, 5]);
    let mut member = Member::start(Rule::Higher, 2, view, 4096);
    assert_eq!(member.write(4095, b"last"), Ok(Some(inv(1, 2))));
    assert_eq!(member.write(4096, b"none"), Err(Refusal::StrayRecord));
    assert_eq!(&member.slot(4095)[..4], b"last");
    assert_eq!(
        member.table[..4095],
        Member::start(Rule::Higher, 2, view, 4095).table
    );

    for count in [0, 4097] {
        let mut table = vec![Record::fresh(9); count];
        let mut store = vec![3; 192 * count];
        let answer = Replica::start(
            2,
            view,
            Settings { rule: Rule::Higher },
            &mut table,
            &mut store,
        );
        assert_eq!(answer, Err(Refusal::LentMemory));
        assert!(table.iter().all(|&record| record == Record::fresh(9)));
        assert!(store.iter().all(|&byte| byte == 3));
    }

    let mut envelope = from(5, inv(1, 5));
    envelope.record = 4095;
    let mut bytes = packet_of(Rule::Higher, &[(envelope, b"x")]).expect("accepted");
    assert_eq!(member.deliver_packet(&bytes, 0), Ok(Some(ack(1, 5))));
    assert_eq!(member.table[4095].timestamp, ts(1, 5));
    bytes[10..12].copy_from_slice(&4096u16.to_be_bytes());
    assert_eq!(
        packet::fetch(Rule::Higher, &bytes, 0),
        Err(Refusal::PacketEntry)
    );
    envelope.record = 4096;
    let answer = packet_of(Rule::Higher, &[(envelope, b"x")]);
    assert_eq!(answer, Err(Refusal::PacketMessages));
}

#[test]
fn packets_of_1400_and_1401() {
    let envelope = from(5, inv(1, 5));
    let text = [7; 192];
    let of = |last: usize| {
        let mut messages = [(envelope, &text[..]); 7];
        messages[6].1 = &text[..last];
        packet_of(Rule::Higher, &messages)
    };
    // 4 + 7 * 16 + 6 * 192 + 132
    let mut bytes = of(132).expect("accepted");
    assert_eq!(bytes.len(), 1400);
    assert_eq!(
        packet::fetch(Rule::Higher, &bytes, 6),
        Ok((envelope, &text[..132]))
    );
    assert_eq!(of(133), Err(Refusal::PacketRoom));

    // The same packet with a last body of 133 bytes, made by hand.
    bytes.push(7);
    bytes[2..4].copy_from_slice(&1401u16.to_be_bytes());
    bytes[4 + 6 * 16 + 15] = 133;
    assert_eq!(
        packet::fetch(Rule::Higher, &bytes, 6),
        Err(Refusal::PacketHead)
    );
}
