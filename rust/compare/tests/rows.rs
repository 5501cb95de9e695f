//! The rows of document 01, "From the ringing table", and of document 02's Wishes
//! 1, 2, 5 and 6, the last acknowledgement, the record hung after two saves, the
//! record that is asked for and saved, and ties that go to the lower number, one by
//! one, in the engine and in the model. Document 01's keep the old rule of ties. The
//! rows of packets stand in `fetch` and `pack`.

use cetskobi::raw::{Message, Replica, Settings};
use compare::bytes::Bytes;
use compare::crossing::Fields;
use compare::memory::Memory;
use compare::single::{by_engine, by_model, Case, Event, Outcome};

const VALID: u8 = 0;
const INVALID: u8 = 1;
const INVALID_WRITE: u8 = 2;
const WRITE: u8 = 3;
const REPLAY: u8 = 4;

const INV: u8 = 1;
const ACK: u8 = 2;
const VAL: u8 = 3;

/// What a laptop answers: the number, and the message that leaves.
type Answer = (u8, Option<(u8, u32, u8)>);

const DONE: Answer = (0, None);

fn sent(kind: u8, version: u32, tie: u8) -> Answer {
    (0, Some((kind, version, tie)))
}

fn refused(number: u8) -> Answer {
    (number, None)
}

fn set(numbers: &[u8]) -> u16 {
    numbers.iter().fold(0, |set, number| set | 1 << number)
}

/// What lies in every byte of the table before. Byte 15 of each record keeps it.
const OLD: u8 = 0xde;

/// A record: state, stamp, last writer, last-write stamp, acknowledgements, length.
const fn record(
    state: u8,
    (version, tie): (u32, u8),
    writer: u8,
    (written_version, written_tie): (u32, u8),
    acks: u16,
    len: u8,
) -> Fields {
    Fields {
        state,
        tie,
        writer,
        written_tie,
        version,
        written_version,
        acks,
        len,
        unused: OLD,
    }
}

/// A laptop that is played by both.
struct Laptop {
    me: Replica,
    engine: Memory,
    model: Memory,
}

/// The byte of a rule: the old one, by which ties go to the higher number, and the
/// new, by which they go to the lower.
const HIGHER: u8 = 1;
const LOWER: u8 = 2;

impl Laptop {
    /// Laptop 2, view {1,2,5}, in memory that was not clean before.
    fn lent(count: usize) -> Laptop {
        Laptop::lent_by(HIGHER, count)
    }

    /// The same in a group with this rule.
    fn lent_by(rule: u8, count: usize) -> Laptop {
        let mut engine = Memory::default();
        engine.lay(&vec![OLD; 16 * count], &vec![0xee; 192 * count]);
        Laptop {
            me: Replica {
                number: 2,
                settings: Settings { rule },
                view: set(&[1, 2, 5]),
                epoch: 0,
            },
            model: engine.clone(),
            engine,
        }
    }

    fn fresh() -> Laptop {
        Laptop::fresh_by(HIGHER)
    }

    fn fresh_by(rule: u8) -> Laptop {
        let mut laptop = Laptop::lent_by(rule, 1);
        assert_eq!(laptop.play(0, Event::Start), DONE);
        laptop
    }

    fn written() -> Laptop {
        Laptop::written_by(HIGHER)
    }

    fn written_by(rule: u8) -> Laptop {
        let mut laptop = Laptop::fresh_by(rule);
        assert_eq!(laptop.write(0, b"A1"), sent(INV, 1, 2));
        laptop
    }

    /// The same by both, or it fails.
    fn outcome(&mut self, i: usize, event: Event) -> Outcome {
        let case = Case::on(self.me, i, event);
        let outcome = by_engine(&case, &mut self.engine);
        assert_eq!(outcome, by_model(&case, &mut self.model), "{case:?}");
        assert_eq!(self.engine.difference(&self.model), None, "{case:?}");
        self.me = outcome.me;
        outcome
    }

    fn play(&mut self, i: usize, event: Event) -> Answer {
        let outcome = self.outcome(i, event);
        let (kind, tie, version) = outcome.sent;
        let message = (kind != 0).then_some((kind, version, tie));
        (outcome.number, message)
    }

    fn write(&mut self, i: usize, value: &[u8]) -> Answer {
        let value = Bytes(value.to_vec());
        self.play(i, Event::Write { value })
    }

    fn deliver(&mut self, sender: u8, (kind, version, tie): (u8, u32, u8), value: &[u8]) -> Answer {
        let epoch = self.me.epoch;
        self.deliver_of(epoch, sender, (kind, version, tie), value)
    }

    fn deliver_of(
        &mut self,
        epoch: u32,
        sender: u8,
        (kind, version, tie): (u8, u32, u8),
        value: &[u8],
    ) -> Answer {
        let message = Message {
            kind,
            sender,
            tie,
            epoch,
            version,
        };
        let value = Bytes(value.to_vec());
        self.play(0, Event::Deliver { message, value })
    }

    fn view(&mut self, epoch: u32, numbers: &[u8]) -> Answer {
        let set = set(numbers);
        self.play(0, Event::View { epoch, set })
    }

    fn read(&mut self, i: usize) -> Option<Vec<u8>> {
        let outcome = self.outcome(i, Event::Read);
        let (at, len) = outcome.part;
        (outcome.number == 0).then(|| self.engine.store()[at..at + len].to_vec())
    }

    /// The stamp and the value that an ask hands out; a refused one hands out none.
    fn ask(&mut self, i: usize) -> Result<((u32, u8), Vec<u8>), u8> {
        let Outcome {
            number,
            part,
            opened,
            ..
        } = self.outcome(i, Event::Ask);
        if number != 0 {
            assert_eq!((part, opened), ((0, 0), (0, 0)));
            return Err(number);
        }
        let (at, len) = part;
        assert_eq!(at, 192 * i);
        Ok((opened, self.engine.store()[at..at + len].to_vec()))
    }

    fn commit(&mut self, i: usize, opened: (u32, u8), value: &[u8]) -> Answer {
        let value = Bytes(value.to_vec());
        self.play(i, Event::Commit { opened, value })
    }

    fn record(&self) -> Fields {
        self.engine.record(0).expect("there is one")
    }

    /// Both have this as record 0.
    fn lay(&mut self, record: &Fields) {
        self.engine.put_record(0, record);
        self.model.put_record(0, record);
    }
}

const WRITTEN: Fields = record(WRITE, (1, 2), 2, (1, 2), 0, 2);

#[test]
fn fresh() {
    let mut laptop = Laptop::fresh();
    assert_eq!(laptop.record(), record(VALID, (0, 1), 1, (0, 1), 0, 0));
    assert_eq!(laptop.engine.store(), [0; 192]);
    assert_eq!(laptop.me.epoch, 0);
    assert_eq!(laptop.read(0), Some(vec![]));
}

#[test]
fn write() {
    let laptop = Laptop::written();
    assert_eq!(laptop.record(), WRITTEN);
    assert_eq!(laptop.engine.store()[..3], *b"A1\0");
}

#[test]
fn write_then_a_greater_invalidation() {
    let mut laptop = Laptop::written();
    assert_eq!(laptop.deliver(5, (INV, 1, 5), b"B"), sent(ACK, 1, 5));
    assert_eq!(
        laptop.record(),
        record(INVALID_WRITE, (1, 5), 5, (1, 2), 0, 1)
    );
    assert_eq!(laptop.engine.store()[..2], *b"B\0");
}

#[test]
fn write_then_a_lesser_invalidation() {
    let mut laptop = Laptop::written();
    assert_eq!(laptop.deliver(1, (INV, 1, 1), b"C"), sent(ACK, 1, 1));
    assert_eq!(laptop.record(), WRITTEN);
    assert_eq!(laptop.engine.store()[..2], *b"A1");
}

/// At epoch 0 no event leads to this record: a replay asks for a last writer
/// outside the view, and question 11 lets none in.
#[test]
fn replay_then_a_greater_invalidation() {
    let mut laptop = Laptop::fresh();
    laptop.lay(&record(REPLAY, (1, 5), 2, (1, 5), 0, 1));
    assert_eq!(laptop.deliver(1, (INV, 2, 1), b""), sent(ACK, 2, 1));
    assert_eq!(laptop.record(), record(INVALID, (2, 1), 1, (1, 5), 0, 0));
    assert_eq!(laptop.engine.store(), [0; 192]);
    assert_eq!((laptop.me.epoch, laptop.me.view), (0, set(&[1, 2, 5])));
}

/// The same by events alone, after a view.
#[test]
fn a_replay_after_a_view() {
    let mut laptop = Laptop::fresh();
    assert_eq!(laptop.deliver(5, (INV, 1, 5), b"B"), sent(ACK, 1, 5));
    assert_eq!(laptop.record(), record(INVALID, (1, 5), 5, (0, 1), 0, 1));
    assert_eq!(laptop.play(0, Event::Replay), refused(16));
    assert_eq!(laptop.view(1, &[1, 2]), DONE);
    assert_eq!(laptop.play(0, Event::Replay), sent(INV, 1, 5));
    assert_eq!(laptop.record(), record(REPLAY, (1, 5), 2, (1, 5), 0, 1));
    assert_eq!(laptop.play(0, Event::Resend), sent(INV, 1, 5));
    assert_eq!(laptop.deliver(1, (INV, 2, 1), b""), sent(ACK, 2, 1));
    assert_eq!(laptop.record(), record(INVALID, (2, 1), 1, (1, 5), 0, 0));
    assert_eq!(laptop.engine.store(), [0; 192]);
}

#[test]
fn an_acknowledgement_counts_once() {
    let mut laptop = Laptop::written();
    let counted = record(WRITE, (1, 2), 2, (1, 2), 1 << 5, 2);
    assert_eq!(laptop.deliver(5, (ACK, 1, 2), b""), DONE);
    assert_eq!(laptop.record(), counted);
    assert_eq!(laptop.deliver(5, (ACK, 1, 2), b""), refused(13));
    assert_eq!(laptop.record(), counted);
}

/// Document 02, Wish 1: with the last acknowledgement a write is valid, and its
/// VAL leaves.
#[test]
fn the_last_acknowledgement_of_a_write() {
    let mut laptop = Laptop::written();
    assert_eq!(laptop.deliver(5, (ACK, 1, 2), b""), DONE);
    assert_eq!(laptop.deliver(1, (ACK, 1, 2), b""), sent(VAL, 1, 2));
    let settled = record(VALID, (1, 2), 2, (1, 2), set(&[1, 5]), 2);
    assert_eq!(laptop.record(), settled);
    assert_eq!(laptop.read(0), Some(b"A1".to_vec()));
    assert_eq!(laptop.play(0, Event::Validate), refused(15));
    assert_eq!(laptop.deliver(1, (ACK, 1, 2), b""), refused(13));
    assert_eq!(laptop.record(), settled);
}

#[test]
fn the_last_acknowledgement_of_a_replay() {
    let mut laptop = Laptop::fresh();
    assert_eq!(laptop.deliver(5, (INV, 1, 5), b"B"), sent(ACK, 1, 5));
    assert_eq!(laptop.view(1, &[1, 2]), DONE);
    assert_eq!(laptop.play(0, Event::Replay), sent(INV, 1, 5));
    assert_eq!(laptop.deliver(1, (ACK, 1, 5), b""), sent(VAL, 1, 5));
    assert_eq!(laptop.record(), record(VALID, (1, 5), 2, (1, 5), 1 << 1, 1));
    assert_eq!(laptop.read(0), Some(b"B".to_vec()));
}

/// An overtaken write is not validated by it: it waits for the other's VAL.
#[test]
fn the_last_acknowledgement_of_an_invalid_write() {
    let mut laptop = Laptop::written();
    assert_eq!(laptop.deliver(1, (ACK, 1, 2), b""), DONE);
    assert_eq!(laptop.deliver(5, (INV, 1, 5), b"B"), sent(ACK, 1, 5));
    assert_eq!(laptop.deliver(5, (ACK, 1, 2), b""), DONE);
    let counted = record(INVALID_WRITE, (1, 5), 5, (1, 2), set(&[1, 5]), 1);
    assert_eq!(laptop.record(), counted);
    assert_eq!(laptop.play(0, Event::Validate), refused(15));
    assert_eq!(laptop.read(0), None);
}

/// 2 has written (1,2), which 1 has acknowledged, and 5's (1,5) has overtaken it;
/// 5 is in the view still.
fn overtaken() -> Laptop {
    let mut laptop = Laptop::written();
    assert_eq!(laptop.deliver(1, (ACK, 1, 2), b""), DONE);
    assert_eq!(laptop.deliver(5, (INV, 1, 5), b"B"), sent(ACK, 1, 5));
    assert_eq!(laptop.record(), OVERTAKEN);
    laptop
}

const OVERTAKEN: Fields = record(INVALID_WRITE, (1, 5), 5, (1, 2), 1 << 1, 1);

/// Document 02, Wish 2: 5 is struck off, and 2 gives its own write up.
fn given_up() -> Laptop {
    let mut laptop = overtaken();
    assert_eq!(laptop.play(0, Event::Replay), refused(16));
    assert_eq!(laptop.record(), OVERTAKEN);
    assert_eq!(laptop.view(1, &[1, 2]), DONE);
    assert_eq!(laptop.record(), OVERTAKEN);
    assert_eq!(laptop.play(0, Event::Replay), sent(INV, 1, 5));
    assert_eq!(laptop.record(), GIVEN_UP);
    assert_eq!(laptop.engine.store()[..2], *b"B\0");
    laptop
}

const GIVEN_UP: Fields = record(REPLAY, (1, 5), 2, (1, 5), 0, 1);

#[test]
fn a_replay_of_an_invalid_write() {
    let mut laptop = given_up();
    assert_eq!(laptop.read(0), None);
    assert_eq!(laptop.write(0, b"C"), refused(7));
    assert_eq!(laptop.play(0, Event::Validate), refused(15));
    assert_eq!(laptop.play(0, Event::Replay), refused(16));
    assert_eq!(laptop.play(0, Event::Resend), sent(INV, 1, 5));
    assert_eq!(laptop.record(), GIVEN_UP);
}

/// While the last writer is in the view, whoever else is struck off; and the last
/// writer is not looked for among the acknowledgements.
#[test]
fn no_replay_of_an_invalid_write_while_its_writer_is_there() {
    let mut laptop = overtaken();
    assert_eq!(laptop.view(1, &[2, 5]), DONE);
    assert_eq!(laptop.play(0, Event::Replay), refused(16));
    assert_eq!(laptop.record(), OVERTAKEN);

    for (writer, answer) in [(1, refused(16)), (2, refused(16)), (3, sent(INV, 1, 5))] {
        let mut laptop = overtaken();
        let acks = set(&[1, 3]);
        laptop.lay(&record(INVALID_WRITE, (1, 5), writer, (1, 2), acks, 1));
        assert_eq!(laptop.play(0, Event::Replay), answer, "{writer}");
    }
}

/// Of the write that was given up, an acknowledgement is none.
#[test]
fn an_acknowledgement_of_a_write_that_was_given_up() {
    let mut laptop = given_up();
    // As it was sent, in the epoch before; and by its stamp alone.
    assert_eq!(laptop.deliver_of(0, 1, (ACK, 1, 2), b""), refused(10));
    assert_eq!(laptop.deliver(1, (ACK, 1, 2), b""), refused(13));
    assert_eq!(laptop.record(), GIVEN_UP);
    assert_eq!(laptop.deliver(1, (VAL, 1, 2), b""), refused(14));
    assert_eq!(laptop.record(), GIVEN_UP);
}

/// The last acknowledgement of the winner's stamp: valid, and the VAL leaves.
#[test]
fn the_last_acknowledgement_after_giving_up() {
    let mut laptop = given_up();
    assert_eq!(laptop.deliver(1, (ACK, 1, 5), b""), sent(VAL, 1, 5));
    let settled = record(VALID, (1, 5), 2, (1, 5), 1 << 1, 1);
    assert_eq!(laptop.record(), settled);
    assert_eq!(laptop.read(0), Some(b"B".to_vec()));
    assert_eq!(laptop.deliver(1, (ACK, 1, 2), b""), refused(13));
    assert_eq!(laptop.play(0, Event::Resend), sent(VAL, 1, 5));
}

/// A greater INV: invalid and not invalid-write, so it can be written again. In
/// invalid-write the same is not.
#[test]
fn a_greater_invalidation_after_giving_up() {
    let mut laptop = given_up();
    assert_eq!(laptop.deliver(1, (INV, 2, 1), b"CC"), sent(ACK, 2, 1));
    assert_eq!(laptop.record(), record(INVALID, (2, 1), 1, (1, 5), 0, 2));
    assert_eq!(laptop.play(0, Event::Replay), refused(16));
    assert_eq!(laptop.deliver(1, (ACK, 1, 5), b""), refused(13));
    assert_eq!(laptop.write(0, b"D"), sent(INV, 3, 2));

    let mut laptop = overtaken();
    assert_eq!(laptop.view(1, &[1, 2]), DONE);
    assert_eq!(laptop.deliver(1, (INV, 2, 1), b"CC"), sent(ACK, 2, 1));
    let later = record(INVALID_WRITE, (2, 1), 1, (1, 2), 1 << 1, 2);
    assert_eq!(laptop.record(), later);
    assert_eq!(laptop.play(0, Event::Replay), refused(16));
    assert_eq!(laptop.write(0, b"D"), refused(7));
}

/// Document 02, Wish 5: 2 shows 5's save of (1,5).
fn shown() -> Laptop {
    let mut laptop = Laptop::fresh();
    assert_eq!(laptop.deliver(5, (INV, 1, 5), b"wing 62"), sent(ACK, 1, 5));
    assert_eq!(laptop.ask(0), Err(6));
    assert_eq!(laptop.commit(0, (1, 5), b"B"), refused(26));
    assert_eq!(laptop.deliver(5, (VAL, 1, 5), b""), DONE);
    assert_eq!(laptop.record(), SHOWN);
    laptop
}

const SHOWN: Fields = record(VALID, (1, 5), 5, (0, 1), 0, 7);

#[test]
fn ask_then_commit() {
    let mut laptop = Laptop::fresh();
    assert_eq!(laptop.ask(0), Ok(((0, 1), vec![])));
    assert_eq!(laptop.commit(0, (0, 1), b"A1"), sent(INV, 1, 2));
    assert_eq!(laptop.record(), WRITTEN);

    let mut laptop = shown();
    assert_eq!(laptop.ask(0), Ok(((1, 5), b"wing 62".to_vec())));
    assert_eq!(laptop.record(), SHOWN);
    assert_eq!(laptop.commit(0, (1, 5), b"11 g"), sent(INV, 2, 2));
    let written = record(WRITE, (2, 2), 2, (2, 2), 0, 4);
    assert_eq!(laptop.record(), written);
    assert_eq!(laptop.engine.store()[..8], *b"11 g\0\0\0\0");
    // Under way: neither the stamp before nor its own.
    assert_eq!(laptop.ask(0), Err(6));
    assert_eq!(laptop.commit(0, (1, 5), b"C"), refused(26));
    assert_eq!(laptop.commit(0, (2, 2), b"C"), refused(26));
    assert_eq!(laptop.record(), written);
    assert_eq!(laptop.deliver(1, (ACK, 2, 2), b""), DONE);
    assert_eq!(laptop.deliver(5, (ACK, 2, 2), b""), sent(VAL, 2, 2));
    assert_eq!(laptop.commit(0, (1, 5), b"C"), refused(26));
    assert_eq!(laptop.ask(0), Ok(((2, 2), b"11 g".to_vec())));
    assert_eq!(laptop.commit(0, (2, 2), b"C"), sent(INV, 3, 2));
}

/// A newer save came between; a plain write would not look.
#[test]
fn a_commit_after_a_newer_save() {
    let mut laptop = shown();
    assert_eq!(laptop.deliver(1, (INV, 1, 6), b"newer"), sent(ACK, 1, 6));
    assert_eq!(laptop.commit(0, (1, 5), b"C"), refused(26));
    assert_eq!(laptop.deliver(1, (VAL, 1, 6), b""), DONE);
    assert_eq!(laptop.commit(0, (1, 5), b"C"), refused(26));
    assert_eq!(laptop.ask(0), Ok(((1, 6), b"newer".to_vec())));
    assert_eq!(laptop.write(0, b"C"), sent(INV, 2, 2));
}

/// An older INV between is acknowledged, and does not matter.
#[test]
fn a_commit_after_an_older_save() {
    let mut laptop = shown();
    assert_eq!(laptop.deliver(1, (INV, 1, 1), b"older"), sent(ACK, 1, 1));
    assert_eq!(laptop.commit(0, (1, 5), b"C"), sent(INV, 2, 2));
}

/// Older, newer, of an equal version, of an equal tie-breaker, and no laptop's.
#[test]
fn a_commit_on_another_stamp() {
    let mut laptop = shown();
    let equal_version = [(1, 4), (1, 6), (1, 0), (1, 15)];
    let above = [(1, 16), (1, 21), (1, 37), (1, 255)];
    let others = [(0, 1), (0, 5), (2, 5), (2, 2), (4_294_967_295, 5), (257, 5)];
    for opened in [&equal_version[..], &above, &others].concat() {
        assert_eq!(laptop.commit(0, opened, b"C"), refused(26), "{opened:?}");
        assert_eq!(laptop.record(), SHOWN);
    }
    for state in [INVALID, INVALID_WRITE, WRITE, REPLAY] {
        let held = Fields { state, ..SHOWN };
        laptop.lay(&held);
        assert_eq!(laptop.ask(0), Err(6));
        assert_eq!(laptop.commit(0, (1, 5), b"C"), refused(26), "{state}");
        assert_eq!(laptop.record(), held);
    }
}

/// 26 stands after 5; 8 and 9 follow it.
#[test]
fn the_order_of_a_commit() {
    let text = [7; 193];
    let mut laptop = shown();
    assert_eq!(laptop.commit(0, (1, 4), &text), refused(26));
    assert_eq!(laptop.commit(0, (1, 5), &text), refused(8));
    assert_eq!(laptop.commit(1, (1, 4), &text), refused(4));
    const LAST: u32 = 4_294_967_295;
    let last = record(VALID, (LAST, 5), 5, (0, 1), 0, 7);
    laptop.lay(&last);
    assert_eq!(laptop.ask(0).map(|(opened, _)| opened), Ok((LAST, 5)));
    assert_eq!(laptop.commit(0, (LAST, 4), &text), refused(26));
    assert_eq!(laptop.commit(0, (LAST, 5), &text), refused(8));
    assert_eq!(laptop.commit(0, (LAST, 5), b"C"), refused(9));
    assert_eq!(laptop.commit(0, (LAST - 1, 5), b"C"), refused(26));
    assert_eq!(laptop.record(), last);
    laptop.lay(&record(VALID, (LAST - 1, 5), 5, (0, 1), 0, 7));
    assert_eq!(
        laptop.commit(0, (LAST - 1, 5), &text[..192]),
        sent(INV, LAST, 2)
    );

    // The stamp of an unsound record: 5.
    let mut laptop = shown();
    laptop.lay(&Fields { tie: 16, ..SHOWN });
    assert_eq!(laptop.ask(0), Err(5));
    assert_eq!(laptop.commit(0, (1, 16), b"C"), refused(5));
    // Struck off: 3.
    let mut laptop = shown();
    assert_eq!(laptop.view(1, &[1, 5]), DONE);
    assert_eq!(laptop.ask(0), Err(3));
    assert_eq!(laptop.commit(0, (1, 5), b"C"), refused(3));
}

/// Laptops outside the view may be counted: the set is looked at, not its size.
#[test]
fn acknowledgements_from_outside_the_view() {
    let outside = set(&[0, 3, 9]);
    let mut laptop = Laptop::fresh();
    laptop.lay(&record(WRITE, (1, 2), 2, (1, 2), outside, 0));
    assert_eq!(laptop.deliver(5, (ACK, 1, 2), b""), DONE);
    assert_eq!(laptop.record().state, WRITE);
    assert_eq!(laptop.deliver(1, (ACK, 1, 2), b""), sent(VAL, 1, 2));
    let all = outside | set(&[1, 5]);
    assert_eq!(laptop.record(), record(VALID, (1, 2), 2, (1, 2), all, 0));
}

#[test]
fn validations_of_an_invalid_write() {
    let mut laptop = Laptop::written();
    assert_eq!(laptop.deliver(5, (INV, 1, 5), b"B"), sent(ACK, 1, 5));
    assert_eq!(laptop.deliver(5, (VAL, 1, 2), b""), refused(14));
    assert_eq!(laptop.read(0), None);
    assert_eq!(laptop.deliver(5, (VAL, 1, 5), b""), DONE);
    assert_eq!(laptop.record(), record(VALID, (1, 5), 5, (1, 2), 0, 1));
    assert_eq!(laptop.read(0), Some(b"B".to_vec()));
}

#[test]
fn validate_after_a_view() {
    let mut laptop = Laptop::written();
    assert_eq!(laptop.deliver(1, (ACK, 1, 2), b""), DONE);
    assert_eq!(laptop.play(0, Event::Validate), refused(15));
    assert_eq!(laptop.view(1, &[1, 2]), DONE);
    assert_eq!(laptop.play(0, Event::Validate), sent(VAL, 1, 2));
    assert_eq!(laptop.record(), record(VALID, (1, 2), 2, (1, 2), 1 << 1, 2));
    assert_eq!(laptop.play(0, Event::Resend), sent(VAL, 1, 2));
}

#[test]
fn the_last_versions() {
    let mut laptop = Laptop::fresh();
    laptop.lay(&record(VALID, (4_294_967_294, 1), 1, (0, 1), 0, 0));
    assert_eq!(laptop.write(0, b""), sent(INV, 4_294_967_295, 2));
    let last = record(VALID, (4_294_967_295, 2), 2, (4_294_967_295, 2), 0, 0);
    laptop.lay(&last);
    assert_eq!(laptop.write(0, b""), refused(9));
    assert_eq!(laptop.record(), last);
}

#[test]
fn views() {
    let mut laptop = Laptop::fresh();
    assert_eq!(laptop.view(0, &[1, 2]), refused(18));
    assert_eq!(laptop.view(1, &[1]), refused(19));
    assert_eq!((laptop.me.epoch, laptop.me.view), (0, set(&[1, 2, 5])));
    assert_eq!(laptop.view(1, &[1, 5]), DONE);
    assert_eq!((laptop.me.epoch, laptop.me.view), (1, set(&[1, 5])));
    assert_eq!(laptop.outcome(0, Event::Read).number, 3);
    assert_eq!(laptop.view(2, &[1, 5]), refused(3));
}

#[test]
fn a_validation_of_a_later_epoch() {
    let mut laptop = Laptop::fresh();
    assert_eq!(laptop.deliver(5, (INV, 1, 5), b"B"), sent(ACK, 1, 5));
    assert_eq!(laptop.deliver_of(1, 5, (VAL, 1, 5), b""), refused(10));
    assert_eq!(laptop.record().state, INVALID);
}

#[test]
fn values_of_192_and_193() {
    let text = [7; 193];
    let mut laptop = Laptop::fresh();
    assert_eq!(laptop.write(0, &text), refused(8));
    assert_eq!(laptop.deliver(5, (INV, 1, 5), &text), refused(12));
    assert_eq!(
        laptop.deliver(5, (INV, 1, 5), &text[..192]),
        sent(ACK, 1, 5)
    );
    assert_eq!(laptop.write(0, &text[..192]), sent(INV, 2, 2));
    assert_eq!(laptop.record().len, 192);
    assert_eq!(laptop.engine.store(), [7; 192]);
}

#[test]
fn records_4095_and_4096() {
    let mut laptop = Laptop::lent(4096);
    assert_eq!(laptop.play(0, Event::Start), DONE);
    assert_eq!(laptop.write(4095, b"last"), sent(INV, 1, 2));
    assert_eq!(laptop.write(4096, b"none"), refused(4));
    assert_eq!(laptop.play(4095, Event::Resend), sent(INV, 1, 2));
    assert_eq!(laptop.outcome(4095, Event::Read).number, 6);
    assert_eq!(laptop.outcome(4096, Event::Read).number, 4);

    for count in [0, 4097] {
        let mut laptop = Laptop::lent(count);
        assert_eq!(laptop.play(0, Event::Start), refused(2));
        assert_eq!(laptop.write(0, b""), refused(2));
    }
    let mut laptop = Laptop::lent(4096);
    laptop.me.number = 5;
    assert_eq!(laptop.play(0, Event::Start), DONE);
    let fresh = record(VALID, (0, 1), 1, (0, 1), 0, 0);
    assert_eq!(laptop.engine.record(4095), Some(fresh));
}

/// Document 02, Wish 6: under both rules a fresh record has the lowest number in the
/// view. The start names the rule, whatever byte is passed; also a refused one.
#[test]
fn a_start_by_each_rule() {
    for (byte, named) in [(1, 1), (2, 2), (0, 1), (3, 1), (128, 1), (255, 1)] {
        let laptop = Laptop::fresh_by(byte);
        assert_eq!(laptop.record(), record(VALID, (0, 1), 1, (0, 1), 0, 0));
        assert_eq!(laptop.me.settings, Settings { rule: named });

        for (number, count, answer) in [(16, 1, 1), (2, 0, 2), (0, 1, 3)] {
            let mut laptop = Laptop::lent_by(byte, count);
            laptop.me.number = number;
            laptop.me.epoch = 7;
            let asked_for = Replica {
                settings: Settings { rule: named },
                epoch: 0,
                ..laptop.me
            };
            let refused = laptop.outcome(0, Event::Start);
            assert_eq!((refused.number, refused.me), (answer, asked_for));
        }
    }
}

/// A view keeps the rule, and names it; a refused one gives the byte back.
#[test]
fn a_view_by_each_rule() {
    for (byte, named) in [(1, 1), (2, 2), (0, 1), (3, 1), (128, 1), (255, 1)] {
        let mut laptop = Laptop::fresh_by(byte);
        laptop.me.settings.rule = byte;
        for (epoch, numbers, answer) in [(0, &[1, 2][..], 18), (1, &[1], 19), (1, &[1, 3], 19)] {
            assert_eq!(laptop.view(epoch, numbers), refused(answer));
            assert_eq!(laptop.me.settings, Settings { rule: byte });
        }
        assert_eq!(laptop.view(1, &[1, 2]), DONE);
        assert_eq!(laptop.me.settings, Settings { rule: named });
        // And from then on.
        assert_eq!(laptop.view(3, &[1, 2]), DONE);
        assert_eq!(laptop.view(3, &[1, 2]), refused(18));
        assert_eq!(laptop.me.settings, Settings { rule: named });
    }
}

/// The same INVs find 2's own save (1,2), and the valid record that it becomes.
#[test]
fn ties_by_each_rule() {
    const TAKEN: bool = true;
    const LEFT: bool = false;
    // Byte of the rule, tie-breaker of the INV.
    let ties = [
        (HIGHER, 5, TAKEN),
        (HIGHER, 1, LEFT),
        (LOWER, 5, LEFT),
        (LOWER, 1, TAKEN),
        (LOWER, 0, TAKEN),
        (LOWER, 15, LEFT),
        (HIGHER, 0, LEFT),
        (HIGHER, 15, TAKEN),
        // Every byte is a rule, but for 2 the old one.
        (0, 5, TAKEN),
        (0, 1, LEFT),
        (3, 5, TAKEN),
        (3, 1, LEFT),
        (255, 5, TAKEN),
        (255, 1, LEFT),
        // An equal stamp is not greater.
        (HIGHER, 2, LEFT),
        (LOWER, 2, LEFT),
    ];
    for (rule, tie, taken) in ties {
        let what = format!("rule {rule}, tie-breaker {tie}");
        // 5 sends them, its own or another's that it replays.
        let mut laptop = Laptop::written_by(rule);
        laptop.me.settings.rule = rule;
        assert_eq!(laptop.deliver(5, (INV, 1, tie), b"B"), sent(ACK, 1, tie));
        let overtaken = record(INVALID_WRITE, (1, tie), 5, (1, 2), 0, 1);
        let after = if taken { overtaken } else { WRITTEN };
        assert_eq!(laptop.record(), after, "{what}");
        let text: &[u8] = if taken { b"B\0" } else { b"A1" };
        assert_eq!(laptop.engine.store()[..2], *text, "{what}");

        let mut laptop = Laptop::written_by(rule);
        laptop.me.settings.rule = rule;
        assert_eq!(laptop.deliver(5, (ACK, 1, 2), b""), DONE);
        assert_eq!(laptop.deliver(1, (ACK, 1, 2), b""), sent(VAL, 1, 2));
        let settled = laptop.record();
        assert_eq!(laptop.deliver(5, (INV, 1, tie), b"B"), sent(ACK, 1, tie));
        let invalid = record(INVALID, (1, tie), 5, (1, 2), set(&[1, 5]), 1);
        let after = if taken { invalid } else { settled };
        assert_eq!(laptop.record(), after, "{what}");
    }
}

/// Versions that differ are compared alike under both rules.
#[test]
fn versions_by_each_rule() {
    for rule in [HIGHER, LOWER] {
        for (stamp, taken) in [
            ((2, 0), true),
            ((2, 5), true),
            ((2, 15), true),
            ((4_294_967_295, 15), true),
            ((257, 5), true),
            ((0, 0), false),
            ((0, 1), false),
            ((0, 15), false),
        ] {
            let mut laptop = Laptop::written_by(rule);
            let (version, tie) = stamp;
            let inv = (INV, version, tie);
            assert_eq!(laptop.deliver(5, inv, b"B"), sent(ACK, version, tie));
            let overtaken = record(INVALID_WRITE, stamp, 5, (1, 2), 0, 1);
            let after = if taken { overtaken } else { WRITTEN };
            assert_eq!(laptop.record(), after, "rule {rule}, {stamp:?}");
        }
    }
}

/// By the new rule 1's save overtakes 2's, and 1 dies: 2 gives its own up, as it does
/// by the old rule after 5's.
#[test]
fn a_dead_winner_by_the_new_rule() {
    let mut laptop = Laptop::written_by(LOWER);
    assert_eq!(laptop.deliver(5, (ACK, 1, 2), b""), DONE);
    // 5 has saved too, and loses.
    assert_eq!(laptop.deliver(5, (INV, 1, 5), b"C"), sent(ACK, 1, 5));
    assert_eq!(laptop.record().state, WRITE);
    assert_eq!(laptop.deliver(1, (INV, 1, 1), b"B"), sent(ACK, 1, 1));
    let overtaken = record(INVALID_WRITE, (1, 1), 1, (1, 2), 1 << 5, 1);
    assert_eq!(laptop.record(), overtaken);
    assert_eq!(laptop.play(0, Event::Replay), refused(16));
    assert_eq!(laptop.view(1, &[2, 5]), DONE);
    assert_eq!(laptop.play(0, Event::Replay), sent(INV, 1, 1));
    assert_eq!(laptop.record(), record(REPLAY, (1, 1), 2, (1, 1), 0, 1));
    // Still by that rule: 5's save is the lesser.
    assert_eq!(laptop.deliver(5, (INV, 1, 5), b"C"), sent(ACK, 1, 5));
    assert_eq!(laptop.record().state, REPLAY);
    assert_eq!(laptop.deliver(5, (ACK, 1, 1), b""), sent(VAL, 1, 1));
    assert_eq!(laptop.read(0), Some(b"B".to_vec()));
}

/// A commit on the stamp that was overtaken by a tie: 26. On one that a tie did not
/// overtake it is taken.
#[test]
fn commits_and_ties_by_each_rule() {
    for (rule, winner, loser) in [(HIGHER, 5, 1), (LOWER, 1, 5)] {
        let mut laptop = Laptop::written_by(rule);
        assert_eq!(laptop.deliver(5, (ACK, 1, 2), b""), DONE);
        assert_eq!(laptop.deliver(1, (ACK, 1, 2), b""), sent(VAL, 1, 2));
        let lost = (INV, 1, loser);
        assert_eq!(laptop.deliver(loser, lost, b"C"), sent(ACK, 1, loser));
        assert_eq!(laptop.ask(0), Ok(((1, 2), b"A1".to_vec())));
        let won = (INV, 1, winner);
        assert_eq!(laptop.deliver(winner, won, b"B"), sent(ACK, 1, winner));
        assert_eq!(laptop.commit(0, (1, 2), b"D"), refused(26));
        assert_eq!(laptop.deliver(winner, (VAL, 1, winner), b""), DONE);
        assert_eq!(laptop.commit(0, (1, 2), b"D"), refused(26));
        assert_eq!(laptop.ask(0), Ok(((1, winner), b"B".to_vec())));
        // A save goes on from there, under either rule by the version.
        assert_eq!(laptop.commit(0, (1, winner), b"D"), sent(INV, 2, 2));
    }
}

/// An acknowledgement and a validation are looked for by the whole stamp, not by its
/// order.
#[test]
fn equal_stamps_by_each_rule() {
    for rule in [HIGHER, LOWER] {
        for tie in [0, 1, 3, 5, 15] {
            let mut laptop = Laptop::written_by(rule);
            assert_eq!(laptop.deliver(5, (ACK, 1, tie), b""), refused(13));
            assert_eq!(laptop.deliver(5, (VAL, 1, tie), b""), refused(14));
            assert_eq!(laptop.record(), WRITTEN);
        }
    }
}
