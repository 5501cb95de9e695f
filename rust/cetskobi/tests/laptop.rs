//! A laptop's events, its limits, and lent memory.

use cetskobi::{Arriving, Envelope, Laptop, Leaving, Members, Message, NotCommitted, Opened};
use cetskobi::{Record, Refusal, Replica, Reply, Rule, State, Timestamp};

fn stamp(version: u32, tie: u8) -> Timestamp {
    Timestamp { version, tie }
}

/// Laptop 2 with view {1,2,5} and three records, as in document 01's table, which
/// keeps the old rule. `rules.rs` has the new one.
fn laptop() -> Laptop {
    Laptop::start(2, 0b10_0110, Rule::Higher, 3).expect("a sound start")
}

fn from(sender: u8, message: Message) -> Envelope {
    Envelope {
        sender,
        epoch: 0,
        record: 1,
        message,
    }
}

/// The same in epoch 1.
fn later(sender: u8, message: Message) -> Envelope {
    Envelope {
        epoch: 1,
        ..from(sender, message)
    }
}

/// The message of what a delivery answers, or its refusal.
fn replied(reply: Result<Reply, Refusal>) -> Result<Option<Envelope>, Refusal> {
    reply.map(|reply| reply.leaving().map(|left| left.envelope()))
}

/// An acknowledgement of the first write arrives.
fn acked(l: &mut Laptop, sender: u8) -> Result<Option<Envelope>, Refusal> {
    let ack = from(sender, Message::Ack(stamp(1, 2)));
    replied(l.deliver(Arriving::new(ack, b"")))
}

/// An INV of laptop 5 arrives, with these bytes.
fn invalidated(l: &mut Laptop, stamp: Timestamp, body: &[u8]) -> Result<Option<Envelope>, Refusal> {
    let inv = from(5, Message::Inv(stamp));
    replied(l.deliver(Arriving::new(inv, body)))
}

#[test]
fn a_fresh_start() {
    let l = laptop();
    assert_eq!((l.number(), l.epoch(), l.count()), (2, 0, 3));
    assert_eq!(l.view().iter().collect::<Vec<_>>(), [1, 2, 5]);
    let fresh = Record {
        state: State::Valid,
        timestamp: stamp(0, 1),
        writer: 1,
        written: stamp(0, 1),
        acks: Members::default(),
        len: 0,
    };
    for i in 0..3 {
        assert_eq!(l.record(i), Some(fresh));
        assert!(l.shows_valid(i));
        assert_eq!(l.read(i), Ok(b"".as_slice()));
    }
    assert_eq!(l.record(3), None);
    assert!(!l.shows_valid(3));
    assert_eq!(l.read(3), Err(Refusal::StrayRecord));
    assert_eq!(
        format!("{l:?}"),
        "Laptop { number: 2, rule: Higher, epoch: 0, view: {1,2,5}, count: 3, .. }"
    );
}

#[test]
fn a_view_is_bits_or_a_set() {
    let view: Members = [1, 2, 5].into_iter().collect();
    let mut l = Laptop::start(2, view, Rule::Higher, 3).expect("a sound start");
    assert_eq!(l, laptop());
    let fewer: Members = [1, 2].into_iter().collect();
    assert_eq!(l.change_view(1, fewer), Ok(()));
    assert_eq!((l.view(), l.view().bits()), (fewer, 0b110));
}

#[test]
fn a_refused_start() {
    assert_eq!(
        Laptop::start(16, 38, Rule::Higher, 1).err(),
        Some(Refusal::NoGroup)
    );
    assert_eq!(
        Laptop::start(2, 4, Rule::Higher, 1).err(),
        Some(Refusal::NoGroup)
    );
    assert_eq!(
        Laptop::start(2, 38, Rule::Higher, 0).err(),
        Some(Refusal::LentMemory)
    );
    assert_eq!(
        Laptop::start(2, 38, Rule::Higher, usize::MAX).err(),
        Some(Refusal::LentMemory)
    );
    assert_eq!(
        Laptop::start(0, 38, Rule::Higher, 1).err(),
        Some(Refusal::StruckOff)
    );
}

#[test]
fn a_write_from_save_to_screen() {
    let mut l = laptop();
    let inv = l.write(1, b"wren").unwrap().into_owned();
    assert_eq!(inv.envelope(), from(2, Message::Inv(stamp(1, 2))));
    assert_eq!(inv.body(), b"wren");
    assert_eq!(inv.recipients(), Members::from_iter([1, 5]));
    assert_eq!(l.record(1).unwrap().state, State::Write);
    assert_eq!(l.read(1), Err(Refusal::NotReadable));
    assert_eq!(l.write(1, b"robin"), Err(Refusal::NotWritable));
    assert_eq!(l.resend(1), Ok(inv));
    assert_eq!(acked(&mut l, 5), Ok(None));
    assert_eq!(acked(&mut l, 5), Err(Refusal::StrayAck));
    assert_eq!(l.validate(1), Err(Refusal::NotFinished));
    let ack = from(1, Message::Ack(stamp(1, 2)));
    let val = l.deliver(Arriving::new(ack, b"")).unwrap().leaving();
    let val = val.expect("1 was the last").into_owned();
    assert_eq!(val.envelope(), from(2, Message::Val(stamp(1, 2))));
    assert_eq!((val.body(), val.recipients().bits()), (&b""[..], 0b10_0010));
    let record = l.record(1).unwrap();
    assert_eq!(record.state, State::Valid);
    assert_eq!(record.acks, Members::from_iter([1, 5]));
    assert_eq!(l.read(1), Ok(b"wren".as_slice()));
    assert_eq!(l.record(0), laptop().record(0));
    assert_eq!(l.record(2), laptop().record(2));
    // It is settled: nothing is left to validate or to acknowledge.
    let settled = l.clone();
    assert_eq!(l.validate(1), Err(Refusal::NotFinished));
    assert_eq!(acked(&mut l, 1), Err(Refusal::StrayAck));
    assert_eq!(l, settled);
    assert_eq!(l.resend(1), Ok(val));
}

/// A save of laptop 5 is taken in here, and its VAL.
fn saved_elsewhere(l: &mut Laptop, stamp: Timestamp, body: &[u8]) {
    assert!(invalidated(l, stamp, body).is_ok());
    let val = from(5, Message::Val(stamp));
    assert_eq!(replied(l.deliver(Arriving::new(val, b""))), Ok(None));
}

/// What a commit that is refused tells: the number, and what comes back.
fn refused(l: &mut Laptop, opened: Opened, value: &[u8], why: Refusal) -> Opened {
    let before = l.clone();
    let no = l.commit(opened, value).expect_err("refused");
    assert_eq!(no.refusal(), why);
    assert_eq!(*l, before);
    no.into_opened()
}

/// Document 02, Wish 5: an ask is a read that has the timestamp too.
#[test]
fn an_ask_is_answered_as_a_read() {
    let mut l = laptop();
    let fresh = l.ask(1).unwrap();
    assert_eq!((fresh.record(), fresh.timestamp()), (1, stamp(0, 1)));
    assert_eq!(fresh.text(), b"");
    saved_elsewhere(&mut l, stamp(3, 5), b"wren");
    let before = l.clone();
    let opened = l.ask(1).unwrap();
    assert_eq!((opened.record(), opened.timestamp()), (1, stamp(3, 5)));
    assert_eq!(opened.text(), b"wren");
    assert_eq!(l, before);
    // Asked again it is the same; of another record it is another.
    assert_eq!(l.ask(1), Ok(opened));
    assert_eq!(l.ask(0).unwrap().timestamp(), stamp(0, 1));

    // Refused as a read: invalid, write, no such record, struck off.
    assert!(invalidated(&mut l, stamp(4, 5), b"robin").is_ok());
    assert_eq!(l.ask(1), Err(Refusal::NotReadable));
    assert!(l.write(0, b"").is_ok());
    assert_eq!(l.ask(0), Err(Refusal::NotReadable));
    assert_eq!(l.ask(3), Err(Refusal::StrayRecord));
    assert_eq!(l.ask(usize::MAX), Err(Refusal::StrayRecord));
    l.change_view(1, 0b10_0010).unwrap();
    assert_eq!(l.ask(2), Err(Refusal::StruckOff));
}

/// On what was opened a commit is a write, byte for byte, and what leaves.
#[test]
fn a_commit_is_a_write() {
    let mut l = laptop();
    saved_elsewhere(&mut l, stamp(3, 5), b"robin");
    let mut written = l.clone();
    let opened = l.ask(1).unwrap();
    let inv = l.commit(opened, b"wren").unwrap().into_owned();
    assert_eq!(inv.envelope(), from(2, Message::Inv(stamp(4, 2))));
    assert_eq!(inv.recipients(), Members::from_iter([1, 5]));
    assert_eq!(written.write(1, b"wren"), Ok(inv.clone()));
    assert_eq!(l, written);
    // It waits and is sent again as every write.
    assert_eq!(l.record(1).unwrap().state, State::Write);
    assert_eq!(l.read(1), Err(Refusal::NotReadable));
    assert_eq!(l.resend(1), Ok(inv));
}

/// The text that the ringer saw stays as it was, whatever comes; a save came, so
/// hers is refused, first as the record is not valid, then as it has another
/// timestamp. What she opened comes back, and is out of date for good.
#[test]
fn a_save_between_ask_and_commit_refuses_it() {
    let mut l = laptop();
    saved_elsewhere(&mut l, stamp(3, 5), b"robin");
    let opened = l.ask(1).unwrap();
    assert!(invalidated(&mut l, stamp(4, 5), b"dunnock").is_ok());
    let opened = refused(&mut l, opened, b"wren", Refusal::NotAsOpened);
    let val = from(5, Message::Val(stamp(4, 5)));
    assert_eq!(replied(l.deliver(Arriving::new(val, b""))), Ok(None));
    let opened = refused(&mut l, opened, b"wren", Refusal::NotAsOpened);
    assert_eq!((opened.record(), opened.timestamp()), (1, stamp(3, 5)));
    assert_eq!(opened.text(), b"robin");

    // She opens it again, sees the newer text, and saves over that.
    let now = l.ask(1).unwrap();
    assert_eq!(
        (now.timestamp(), now.text()),
        (stamp(4, 5), &b"dunnock"[..])
    );
    let inv = l.commit(now, b"wren").unwrap();
    assert_eq!(inv.envelope(), from(2, Message::Inv(stamp(5, 2))));
}

/// The version alone does not tell: a save of the same version with a greater
/// tie-breaker has come.
#[test]
fn a_commit_asks_for_the_tie_breaker_too() {
    let mut l = laptop();
    saved_elsewhere(&mut l, stamp(3, 1), b"robin");
    let opened = l.ask(1).unwrap();
    saved_elsewhere(&mut l, stamp(3, 5), b"dunnock");
    refused(&mut l, opened, b"wren", Refusal::NotAsOpened);
    assert_eq!(l.read(1), Ok(b"dunnock".as_slice()));
}

/// Two screens of one laptop opened the record: the first that saves is accepted.
#[test]
fn the_second_commit_of_one_laptop_is_refused() {
    let mut l = laptop();
    let (first, second) = (l.ask(1).unwrap(), l.ask(1).unwrap());
    assert!(l.commit(first, b"wren").is_ok());
    let second = refused(&mut l, second, b"robin", Refusal::NotAsOpened);
    assert_eq!(acked(&mut l, 1), Ok(None));
    assert!(acked(&mut l, 5).unwrap().is_some());
    refused(&mut l, second, b"robin", Refusal::NotAsOpened);
    assert_eq!(l.read(1), Ok(b"wren".as_slice()));
    // A plain write asks nothing of what was seen.
    assert!(l.write(1, b"robin").is_ok());
}

/// A plain write is accepted in invalid, where a commit on the very timestamp is
/// not; in write neither is, and each has its own number.
#[test]
fn a_commit_is_refused_by_26_where_a_write_is_accepted_or_refused_by_7() {
    // What was opened at a laptop that has the VAL already.
    let mut elsewhere = laptop();
    saved_elsewhere(&mut elsewhere, stamp(3, 5), b"robin");
    let opened = elsewhere.ask(1).unwrap();
    let mut l = laptop();
    assert!(invalidated(&mut l, stamp(3, 5), b"robin").is_ok());
    let opened = refused(&mut l, opened, b"wren", Refusal::NotAsOpened);
    let mut plain = l.clone();
    assert!(plain.write(1, b"wren").is_ok());
    assert_eq!(plain.write(1, b"wren"), Err(Refusal::NotWritable));
    let opened = refused(&mut plain, opened, b"wren", Refusal::NotAsOpened);
    // The VAL comes here too: the text is the one that was seen.
    let val = from(5, Message::Val(stamp(3, 5)));
    assert_eq!(replied(l.deliver(Arriving::new(val, b""))), Ok(None));
    assert!(l.commit(opened, b"wren").is_ok());
}

/// A text that is too long: what was opened comes back, and the shorter one is
/// taken. 26 comes before 8 and 9.
#[test]
fn a_refused_commit_is_tried_again() {
    let mut l = laptop();
    let opened = l.ask(0).unwrap();
    let opened = refused(&mut l, opened, &[1; 193], Refusal::ValueTooLong);
    assert_eq!(opened, l.ask(0).unwrap());
    assert!(l.commit(opened, &[1; 192]).is_ok());

    let mut l = laptop();
    let last = stamp(u32::MAX, 5);
    saved_elsewhere(&mut l, stamp(u32::MAX - 1, 5), b"");
    let opened = l.ask(1).unwrap();
    let mut before = l.clone();
    saved_elsewhere(&mut l, last, b"");
    let opened = refused(&mut l, opened, &[1; 193], Refusal::NotAsOpened);
    let inv = before.commit(opened, b"").unwrap();
    assert_eq!(inv.envelope().message, Message::Inv(stamp(u32::MAX, 2)));
    let opened = l.ask(1).unwrap();
    let opened = refused(&mut l, opened, &[1; 193], Refusal::ValueTooLong);
    let opened = refused(&mut l, opened, b"", Refusal::LastVersion);

    // A laptop with fewer records, and one that is struck off.
    let mut small = Laptop::start(2, 38, Rule::Higher, 1).unwrap();
    let opened = refused(&mut small, opened, b"", Refusal::StrayRecord);
    l.change_view(1, 0b10_0010).unwrap();
    refused(&mut l, opened, b"", Refusal::StruckOff);
}

/// A refused commit as an error, and as a refusal where only the number counts.
#[test]
fn a_refused_commit_as_an_error() {
    fn save(l: &mut Laptop, opened: Opened) -> Result<Timestamp, Refusal> {
        let inv = l.commit(opened, &[1; 193])?;
        Ok(inv.envelope().message.timestamp())
    }
    let mut l = laptop();
    let opened = l.ask(0).unwrap();
    assert_eq!(save(&mut l, opened), Err(Refusal::ValueTooLong));
    let opened = l.ask(0).unwrap();
    let no: NotCommitted = l.commit(opened, &[1; 193]).expect_err("refused");
    assert_eq!(no.to_string(), Refusal::ValueTooLong.to_string());
    let error: Box<dyn std::error::Error> = Box::new(no);
    assert!(error.to_string().starts_with("refused (8)"));
}

/// Laptops 2 and 5 commit on one timestamp: both are accepted, and the greater new
/// one stands, here by the old rule, as of two writes. The lesser text is in no
/// record.
#[test]
fn two_laptops_commit_on_one_timestamp() {
    let [mut two, mut five] =
        [2, 5].map(|number| Laptop::start(number, 0b10_0100, Rule::Higher, 3).unwrap());
    let (hers, his) = (two.ask(1).unwrap(), five.ask(1).unwrap());
    assert_eq!(hers, his);
    let lesser = two.commit(hers, b"wren").unwrap().into_owned();
    let greater = five.commit(his, b"robin").unwrap().into_owned();
    assert_eq!(lesser.envelope().message, Message::Inv(stamp(1, 2)));
    assert_eq!(greater.envelope().message, Message::Inv(stamp(1, 5)));
    let ack = two.deliver(greater.arriving()).unwrap().leaving();
    let ack = ack.expect("an INV is acknowledged").into_owned();
    assert!(five.deliver(lesser.arriving()).is_ok());
    let val = five.deliver(ack.arriving()).unwrap().leaving();
    let val = val.expect("2 was the last").into_owned();
    assert_eq!(replied(two.deliver(val.arriving())), Ok(None));
    for laptop in [&two, &five] {
        assert_eq!(laptop.ask(1).unwrap().timestamp(), stamp(1, 5));
        assert_eq!(laptop.read(1), Ok(b"robin".as_slice()));
        assert!(!laptop.store().windows(4).any(|w| w == b"wren"));
    }
}

/// The last acknowledgement of a replay: the record keeps the dead writer's
/// timestamp, and the VAL has it.
#[test]
fn a_replay_from_view_to_screen() {
    let mut l = Laptop::start(2, 0b1010_0110, Rule::Higher, 3).unwrap();
    let inv = from(7, Message::Inv(stamp(1, 7)));
    assert!(l.deliver(Arriving::new(inv, b"wren")).is_ok());
    l.change_view(1, 0b10_0110).unwrap();
    assert_eq!(l.replay(1).unwrap().recipients().bits(), 0b10_0010);
    let ack = |sender| later(sender, Message::Ack(stamp(1, 7)));
    assert_eq!(replied(l.deliver(Arriving::new(ack(1), b""))), Ok(None));
    assert_eq!(l.record(1).unwrap().state, State::Replay);
    let val = l.deliver(Arriving::new(ack(5), b"")).unwrap().leaving();
    let val = val.expect("5 was the last");
    assert_eq!(val.envelope(), later(2, Message::Val(stamp(1, 7))));
    assert_eq!((val.body(), val.recipients().bits()), (&b""[..], 0b10_0010));
    assert_eq!(l.record(1).unwrap().acks, Members::from_iter([1, 5]));
    assert_eq!(l.read(1), Ok(b"wren".as_slice()));
    assert_eq!(l.validate(1), Err(Refusal::NotFinished));
}

/// An overtaken write: its acknowledgements are counted, the last one too, and
/// the record waits for the VAL of the other.
#[test]
fn acknowledgements_of_an_overtaken_write_are_only_counted() {
    let mut l = laptop();
    assert!(l.write(1, b"wren").is_ok());
    assert!(invalidated(&mut l, stamp(1, 5), b"robin").is_ok());
    let mut right = l.record(1).unwrap();
    for sender in [1, 5] {
        assert_eq!(acked(&mut l, sender), Ok(None));
        right.acks = right.acks.iter().chain([sender]).collect();
        assert_eq!(l.record(1), Some(right));
    }
    assert_eq!(right.state, State::InvalidWrite);
    assert_eq!(right.acks.bits(), 0b10_0010);
    assert_eq!(l.validate(1), Err(Refusal::NotFinished));
    assert_eq!(l.read(1), Err(Refusal::NotReadable));
}

/// Laptop 2's write, acknowledged by 1, was overtaken by 5, which is struck off
/// before its VAL came.
fn overtaken() -> Laptop {
    let mut l = laptop();
    assert!(l.write(1, b"wren").is_ok());
    assert_eq!(acked(&mut l, 1), Ok(None));
    assert!(invalidated(&mut l, stamp(1, 5), b"robin").is_ok());
    l.change_view(1, 0b110).unwrap();
    assert_eq!(l.record(1).unwrap().state, State::InvalidWrite);
    l
}

/// Document 02, Wish 2: every byte of the replay from invalid-write, and what
/// leaves. Only laptop 2 had 5's text; then 1 has it too, and both show it.
#[test]
fn an_overtaken_write_is_given_up_for_a_replay() {
    let mut l = overtaken();
    let inv = l.replay(1).unwrap().into_owned();
    assert_eq!(inv.envelope(), later(2, Message::Inv(stamp(1, 5))));
    assert_eq!((inv.body(), inv.recipients().bits()), (&b"robin"[..], 0b10));
    let replayed = [4, 5, 2, 5, 1, 0, 0, 0, 1, 0, 0, 0, 0, 0, 5, 0];
    assert_eq!(l.table()[16..32], replayed);
    assert_eq!(l.table()[..16], laptop().table()[..16]);
    assert_eq!(l.table()[32..], laptop().table()[32..]);
    let store = [&[0; 192][..], b"robin", &[0; 187 + 192]].concat();
    assert_eq!(l.store(), store);

    // It waits as every replay: it cannot be shown, replayed or validated, and is sent again.
    let waiting = l.clone();
    assert_eq!(l.read(1), Err(Refusal::NotReadable));
    assert_eq!(l.replay(1), Err(Refusal::NotReplayable));
    assert_eq!(l.validate(1), Err(Refusal::NotFinished));
    assert_eq!(l.resend(1), Ok(inv.clone()));
    // An ACK of its own write is late; it would not count in the new epoch either.
    let own = Message::Ack(stamp(1, 2));
    let mut came = |ack| replied(l.deliver(Arriving::new(ack, b"")));
    assert_eq!(came(from(1, own)), Err(Refusal::OtherEpoch));
    assert_eq!(came(later(1, own)), Err(Refusal::StrayAck));
    assert_eq!(l, waiting);

    let mut one = Laptop::start(1, 0b10_0110, Rule::Higher, 3).unwrap();
    one.change_view(1, 0b110).unwrap();
    let ack = one.deliver(inv.arriving()).unwrap().leaving();
    let ack = ack.expect("an INV is acknowledged").into_owned();
    assert_eq!(ack.envelope(), later(1, Message::Ack(stamp(1, 5))));
    let val = l.deliver(ack.arriving()).unwrap().leaving();
    let val = val.expect("1 was the last").into_owned();
    assert_eq!(val.envelope(), later(2, Message::Val(stamp(1, 5))));
    assert_eq!((val.body(), val.recipients().bits()), (&b""[..], 0b10));
    let valid = [0, 5, 2, 5, 1, 0, 0, 0, 1, 0, 0, 0, 0b10, 0, 5, 0];
    assert_eq!(l.table()[16..32], valid);
    assert_eq!(replied(one.deliver(val.arriving())), Ok(None));
    for laptop in [&l, &one] {
        assert_eq!(laptop.read(1), Ok(b"robin".as_slice()));
    }
}

/// While 5 is in the view it may still send its VAL; and its VAL of the old epoch
/// is late.
#[test]
fn an_overtaken_write_waits_while_the_winner_is_in_the_view() {
    let mut l = laptop();
    assert!(l.write(1, b"wren").is_ok());
    assert_eq!(l.replay(1), Err(Refusal::NotReplayable));
    assert!(invalidated(&mut l, stamp(1, 5), b"robin").is_ok());
    let before = l.clone();
    assert_eq!(l.replay(1), Err(Refusal::NotReplayable));
    // Without 1 it is another view, but 5 is in it.
    l.change_view(1, 0b10_0100).unwrap();
    assert_eq!(l.replay(1), Err(Refusal::NotReplayable));
    assert_eq!((l.table(), l.store()), (before.table(), before.store()));

    let mut l = overtaken();
    let val = Message::Val(stamp(1, 5));
    let late = replied(l.deliver(Arriving::new(from(5, val), b"")));
    assert_eq!(late, Err(Refusal::OtherEpoch));
    assert!(l.replay(1).is_ok());
}

/// The own write is forgotten: a greater INV leaves the replay invalid, where a
/// write is accepted, and not invalid-write.
#[test]
fn a_replay_of_an_overtaken_write_is_overtaken_itself() {
    let mut l = overtaken();
    assert!(l.replay(1).is_ok());
    assert_eq!(l.write(1, b"dunnock"), Err(Refusal::NotWritable));
    let inv = later(1, Message::Inv(stamp(2, 1)));
    assert!(l.deliver(Arriving::new(inv, b"siskin")).is_ok());
    let record = l.record(1).unwrap();
    assert_eq!((record.state, record.writer), (State::Invalid, 1));
    assert_eq!(record.written, stamp(1, 5));
    assert_eq!(l.replay(1), Err(Refusal::NotReplayable));
    let inv = l.write(1, b"dunnock").unwrap();
    assert_eq!(inv.envelope(), later(2, Message::Inv(stamp(3, 2))));
}

/// 5 is missing, and is struck off: no acknowledgement comes any more that could
/// settle the record, so it is validated.
#[test]
fn a_write_whose_last_missing_laptop_is_struck_off() {
    let mut l = laptop();
    assert!(l.write(1, b"wren").is_ok());
    assert_eq!(acked(&mut l, 1), Ok(None));
    assert_eq!(l.validate(1), Err(Refusal::NotFinished));
    l.change_view(1, 0b110).unwrap();
    assert_eq!(l.record(1).unwrap().state, State::Write);
    let val = l.validate(1).unwrap();
    assert_eq!(val.envelope(), later(2, Message::Val(stamp(1, 2))));
    assert_eq!((val.body(), val.recipients().bits()), (&b""[..], 0b10));
    assert_eq!(l.read(1), Ok(b"wren".as_slice()));
    assert_eq!(l.validate(1), Err(Refusal::NotFinished));
}

/// 5 has acknowledged and is struck off, 1 is still missing: its acknowledgement
/// is the last, and the VAL does not go to 5.
#[test]
fn the_last_acknowledgement_after_a_view() {
    let mut l = laptop();
    assert!(l.write(1, b"wren").is_ok());
    assert_eq!(acked(&mut l, 5), Ok(None));
    l.change_view(1, 0b110).unwrap();
    assert_eq!(l.validate(1), Err(Refusal::NotFinished));
    let ack = later(1, Message::Ack(stamp(1, 2)));
    let val = l.deliver(Arriving::new(ack, b"")).unwrap().leaving();
    let val = val.expect("1 was the last");
    assert_eq!((val.envelope().epoch, val.recipients().bits()), (1, 0b10));
    assert_eq!(l.record(1).unwrap().acks.bits(), 0b10_0010);
    assert_eq!(l.read(1), Ok(b"wren".as_slice()));
}

#[test]
fn an_overtaken_write_and_a_replay() {
    let mut l = laptop();
    let inv = l.write(1, b"wren").unwrap().into_owned();
    let ack = from(2, Message::Ack(stamp(1, 5)));
    assert_eq!(invalidated(&mut l, stamp(1, 5), b"robin"), Ok(Some(ack)));
    // What was kept of the overtaken write is still its own text.
    assert_eq!(inv.body(), b"wren");
    let record = l.record(1).unwrap();
    assert_eq!(record.state, State::InvalidWrite);
    assert_eq!(record.timestamp, stamp(1, 5));
    assert_eq!(record.written, stamp(1, 2));
    assert_eq!(record.writer, 5);
    let val = from(5, Message::Val(stamp(1, 5)));
    assert_eq!(replied(l.deliver(Arriving::new(val, b""))), Ok(None));
    assert_eq!(l.read(1), Ok(b"robin".as_slice()));

    // The writer of the next one dies before its validation.
    assert!(invalidated(&mut l, stamp(2, 5), b"dunnock").is_ok());
    assert_eq!(l.replay(1), Err(Refusal::NotReplayable));
    assert_eq!(l.change_view(0, 0b110), Err(Refusal::OldEpoch));
    assert_eq!(l.change_view(1, 0b111), Err(Refusal::ViewNotWithin));
    assert_eq!(l.change_view(1, 0b110), Ok(()));
    assert_eq!((l.epoch(), l.view()), (1, Members::from_iter([1, 2])));
    let replayed = l.replay(1).unwrap();
    assert_eq!(replayed.envelope(), later(2, Message::Inv(stamp(2, 5))));
    assert_eq!(replayed.body(), b"dunnock");
    assert_eq!(replayed.recipients().bits(), 0b010);
    assert_eq!(acked(&mut l, 1), Err(Refusal::OtherEpoch));
}

#[test]
fn a_struck_off_laptop_is_refused() {
    let mut l = laptop();
    l.change_view(1, 0b10_0010).unwrap();
    assert_eq!(l.read(0), Err(Refusal::StruckOff));
    assert_eq!(l.change_view(2, 0b10_0010), Err(Refusal::StruckOff));
    assert!(!l.shows_valid(0));
    assert_eq!(l.record(0).map(|r| r.state), Some(State::Valid));
}

#[test]
fn values_of_192_and_193_bytes() {
    let mut l = laptop();
    let before = l.clone();
    assert_eq!(l.write(0, &[1; 193]), Err(Refusal::ValueTooLong));
    assert_eq!(l, before);
    let refused = invalidated(&mut l, stamp(1, 5), &[2; 193]);
    assert_eq!(refused, Err(Refusal::IllFormed));
    assert_eq!(l, before);
    assert!(invalidated(&mut l, stamp(1, 5), &[2; 192]).is_ok());
    assert_eq!(l.store()[192..384], [2; 192]);
    assert!(l.write(0, &[1; 192]).is_ok());
    assert_eq!(l.store()[..192], [1; 192]);
    assert_eq!(l.record(0).unwrap().len, 192);
}

#[test]
fn records_4095_and_4096() {
    assert_eq!(
        Laptop::start(2, 38, Rule::Higher, 4097).err(),
        Some(Refusal::LentMemory)
    );
    let mut l = Laptop::start(2, 38, Rule::Higher, Record::COUNT_MAX).unwrap();
    assert_eq!(l.write(4096, b"x"), Err(Refusal::StrayRecord));
    assert_eq!(l.write(usize::MAX, b"x"), Err(Refusal::StrayRecord));
    assert_eq!(l.record(4096), None);
    assert_eq!(l.write(4095, b"x").unwrap().envelope().record, 4095);
    assert_eq!(l.store()[4095 * 192], b'x');
}

#[test]
fn the_last_version() {
    let mut l = laptop();
    assert!(invalidated(&mut l, stamp(u32::MAX - 1, 5), b"").is_ok());
    assert!(l.write(1, b"").is_ok());
    assert_eq!(l.record(1).unwrap().timestamp, stamp(u32::MAX, 2));
    let mut l = laptop();
    assert!(invalidated(&mut l, stamp(u32::MAX, 5), b"").is_ok());
    assert_eq!(l.write(1, b""), Err(Refusal::LastVersion));
}

#[test]
fn lent_memory_keeps_what_an_event_left() {
    let mut table = [9; 2 * Record::BYTES];
    let mut store = [7; 2 * Record::VALUE_MAX];
    let mut lent = Laptop::start_in(2, 38, Rule::Higher, &mut table[..], &mut store[..]).unwrap();
    let inv = lent.write(1, b"wren").unwrap().into_owned();
    let (me, _, _) = lent.into_parts();
    assert_eq!(
        me,
        Replica {
            number: 2,
            settings: Rule::Higher.into(),
            view: 38,
            epoch: 0
        }
    );
    // The last byte of a record is nobody's.
    let fresh = [0, 1, 1, 1, 0, 0, 0, 0, 0, 0, 0, 0, 0, 0, 0, 9];
    let written = [3, 2, 2, 2, 1, 0, 0, 0, 1, 0, 0, 0, 0, 0, 4, 9];
    assert_eq!(table, [fresh, written].as_flattened());
    assert_eq!(store[192..196], *b"wren");

    let mut lent = Laptop::from_parts(me, &mut table, &mut store);
    assert_eq!(lent.record(1).unwrap().state, State::Write);
    assert_eq!(lent.write(1, b"robin"), Err(Refusal::NotWritable));
    assert_eq!(lent.resend(1), Ok(inv));
}

#[test]
fn a_table_of_no_multiple_of_16_bytes_holds_no_records() {
    for more in 1..16 {
        let (me, mut table, store) = laptop().into_parts();
        table.extend(vec![0; more]);
        let l = Laptop::from_parts(me, table, store);
        assert_eq!((l.count(), l.record(0)), (0, None));
        assert!(!l.shows_valid(0));
        assert_eq!(l.read(0), Err(Refusal::LentMemory));
    }
}

#[test]
fn an_unsound_record_is_not_shown() {
    let (me, mut table, store) = laptop().into_parts();
    table[12] = 1 << 2; // its own acknowledgement
    let l = Laptop::from_parts(me, table, store);
    assert_eq!(l.record(0).map(|r| r.state), Some(State::Valid));
    assert_eq!(l.read(0), Err(Refusal::UnsoundRecord));
    assert!(!l.shows_valid(0));
    assert!(l.shows_valid(1));
}

#[test]
fn damaged_memory_is_refused() {
    let me = Replica {
        number: 2,
        settings: Rule::Higher.into(),
        view: 38,
        epoch: 0,
    };
    let (_, mut table, mut store) = laptop().into_parts();
    table[16] = 5; // no state
    let mut lent = Laptop::from_parts(me, &mut table, &mut store);
    assert_eq!(lent.record(1), None);
    assert_eq!(lent.write(1, b""), Err(Refusal::UnsoundRecord));
    assert!(lent.write(0, b"").is_ok());

    let mut lent = Laptop::from_parts(me, &mut table[..47], &mut store);
    assert_eq!(lent.count(), 0);
    assert_eq!(lent.write(0, b""), Err(Refusal::LentMemory));
    let mut lent = Laptop::from_parts(me, &mut table, &mut store[1..]);
    assert_eq!(lent.write(0, b""), Err(Refusal::LentMemory));
}

#[test]
fn records_and_their_bytes() {
    let record = Record {
        state: State::Replay,
        timestamp: stamp(0x0102_0304, 5),
        writer: 6,
        written: stamp(0x0506_0708, 9),
        acks: Members::from_bits(0x8001),
        len: 192,
    };
    let bytes = [4, 5, 6, 9, 4, 3, 2, 1, 8, 7, 6, 5, 1, 0x80, 192, 0];
    assert_eq!(record.to_bytes(), bytes);
    assert_eq!(Record::from_bytes(bytes), Some(record));
    for &state in State::ALL {
        let record = Record { state, ..record };
        assert_eq!(Record::from_bytes(record.to_bytes()), Some(record));
    }
    // Every byte with every value.
    for (place, value) in (0..16).flat_map(|place| (0..=255).map(move |value| (place, value))) {
        let mut other = bytes;
        other[place] = value;
        let read = Record::from_bytes(other);
        assert_eq!(read.is_none(), place == 0 && value > 4);
        other[15] = 0;
        assert!(read.is_none_or(|record| record.to_bytes() == other));
    }
}

#[test]
fn timestamps_are_ordered_by_version_then_by_the_rule() {
    let mut rising = [stamp(0, 15), stamp(1, 0), stamp(1, 5), stamp(2, 0)];
    assert!(rising.is_sorted_by(|a, b| b.later(*a, Rule::Higher)));
    rising.swap(1, 2);
    assert!(rising.is_sorted_by(|a, b| b.later(*a, Rule::Lower)));
}

#[test]
fn sets_of_laptops() {
    assert_eq!(Members::from_iter([5, 1, 2, 1]).bits(), 38);
    assert_eq!(Members::from_iter(0..16).bits(), 0xffff);
    assert_eq!(Members::from(0x8001).iter().collect::<Vec<_>>(), [0, 15]);
    assert_eq!(Members::from(38).len(), 3);
    assert!(Members::from(0).is_empty());
    assert!(!Members::from(0xffff).contains(16));
    assert!(!Members::from(0xffff).contains(255));
}

#[test]
fn a_number_that_no_laptop_has_is_told() {
    assert_eq!(
        Members::try_from_numbers([5, 1, 2, 1]),
        Ok(Members::from(38))
    );
    assert_eq!(
        Members::try_from_numbers(0..16),
        Ok(Members::from_bits(0xffff))
    );
    assert_eq!(Members::try_from_numbers([]), Ok(Members::default()));
    // The first of them.
    let wrong = Members::try_from_numbers([0, 1, 16, 200]).unwrap_err();
    assert_eq!(wrong.number(), 16);
    assert_eq!(
        wrong.to_string(),
        "no laptop has number 16: they are 0 to 15"
    );
    assert!((16..=255).all(|n| Members::try_from_numbers([n]).is_err()));
}

#[test]
#[should_panic(expected = "no laptop has number 16: they are 0 to 15")]
fn a_number_that_no_laptop_has_is_not_collected() {
    let _ = [0, 1, 16].into_iter().collect::<Members>();
}

/// The ACK that leaves a delivery is for the sender of the INV, and borrows the
/// laptop or owns its bytes.
#[test]
fn an_acknowledgement_goes_to_the_sender() {
    let mut l = laptop();
    let inv = Arriving::new(from(1, Message::Inv(stamp(1, 1))), b"wren");
    assert_eq!((inv.envelope().sender, inv.body()), (1, &b"wren"[..]));
    let ack = l.deliver(inv).unwrap().leaving().unwrap();
    assert_eq!(ack.envelope(), from(2, Message::Ack(stamp(1, 1))));
    assert_eq!((ack.body(), ack.recipients().bits()), (&b""[..], 0b10));
    let kept: Leaving<'static> = ack.clone().into_owned();
    assert_eq!(kept, ack);
    assert_eq!(kept.arriving(), Arriving::new(ack.envelope(), b""));
}
