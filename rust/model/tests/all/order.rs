//! The order of the questions: for every subset of an event's questions, an
//! input that fails just these answers the first of them.

use model::engine::{number, Envelope, Message, Record, Replica, Rule, State};
use model::packet::{self, Entry};

use crate::support::{ack, from, inv, other, packet_of, set, ts, val, Member};

/// Runs the event with every subset of faults, by either rule of ties. The
/// questions are in the paper's order.
fn every_subset(questions: &[u8], event: impl Fn(&Faults) -> u8) {
    for rule in Rule::ALL {
        for mask in 0..1u32 << questions.len() {
            let chosen = questions.iter().enumerate();
            let chosen = chosen.filter(|(i, _)| mask >> i & 1 == 1);
            let numbers = chosen.map(|(_, &question)| question).collect();
            let faults = Faults { rule, numbers };
            let expected = faults.numbers.first().copied().unwrap_or(0);
            assert_eq!(event(&faults), expected, "{faults:?}");
        }
    }
}

/// Questions to fail, in a group with this rule of ties.
#[derive(Debug)]
struct Faults {
    rule: Rule,
    numbers: Vec<u8>,
}

impl Faults {
    fn has(&self, question: u8) -> bool {
        self.numbers.contains(&question)
    }

    /// The good one, unless there is this fault.
    fn choose<T>(&self, question: u8, good: T, bad: T) -> T {
        if self.has(question) {
            bad
        } else {
            good
        }
    }

    /// Laptop 2 with the faults 1, 2, 3 and 5, over this record.
    fn member(&self, record: Record) -> Member {
        let mut member = Member::ringing_by(self.rule);
        member.table[0] = record;
        member.replica.view = match (self.has(1), self.has(3)) {
            (false, false) => set(&[1, 2, 5]),
            (false, true) => set(&[1, 5]),
            (true, false) => set(&[2]),
            (true, true) => set(&[5]),
        };
        if self.has(2) {
            member.store.pop();
        }
        if self.has(5) {
            member.table[0].len = 193;
        }
        member
    }

    /// The record's number, with fault 4.
    fn record(&self) -> usize {
        self.choose(4, 0, 1)
    }

    /// A message to laptop 2, with the faults 4, 10 and 11.
    fn envelope(&self, message: Message) -> Envelope {
        Envelope {
            sender: self.choose(11, 5, 2),
            epoch: self.choose(10, 0, 1),
            record: self.record(),
            message,
        }
    }

    /// A refused event leaves all as found.
    fn answer<T>(
        &self,
        mut member: Member,
        event: impl Fn(&mut Member) -> Result<T, model::engine::Refusal>,
    ) -> u8 {
        let before = member.clone();
        let answer = number(&event(&mut member));
        assert!(answer == 0 || member == before, "{self:?}");
        answer
    }
}

/// Laptop 2 awaits acknowledgements of (1,2).
fn written() -> Record {
    let mut member = Member::ringing();
    member.write(0, b"A1").expect("accepted");
    member.table[0]
}

#[test]
fn start() {
    every_subset(&[1, 2, 3], |faults| {
        faults.answer(faults.member(Record::fresh(9)), |m| {
            let Replica {
                number,
                view,
                settings,
                ..
            } = m.replica;
            Replica::start(number, view, settings, &mut m.table, &mut m.store)
        })
    });
}

#[test]
fn read() {
    every_subset(&[1, 2, 3, 4, 5, 6], |faults| {
        let mut record = Record::fresh(1);
        record.state = faults.choose(6, State::Valid, State::Invalid);
        faults.answer(faults.member(record), |m| {
            m.read(faults.record()).map(|_| ())
        })
    });
}

#[test]
fn write() {
    every_subset(&[1, 2, 3, 4, 5, 7, 8, 9], |faults| {
        let mut record = Record::fresh(1);
        record.state = faults.choose(7, State::Invalid, State::Write);
        record.timestamp.version = faults.choose(9, 0, u32::MAX);
        let value = &[b'v'; 193][..faults.choose(8, 192, 193)];
        faults.answer(faults.member(record), |m| m.write(faults.record(), value))
    });
}

/// 02, Wish 5: as a read.
#[test]
fn ask() {
    every_subset(&[1, 2, 3, 4, 5, 6], |faults| {
        let mut record = Record::fresh(1);
        record.state = faults.choose(6, State::Valid, State::Write);
        faults.answer(faults.member(record), |m| {
            m.ask(faults.record()).map(|_| ())
        })
    });
}

/// 02, Wish 5: 26 after 5, in the place of 7. It fails by the state, or by the
/// stamp: its version, its tie-breaker, one above 15.
#[test]
fn commit() {
    use State::{Invalid, InvalidWrite, Replay, Valid, Write};
    for other in [Invalid, InvalidWrite, Write, Replay] {
        commit_at(other, (0, 0));
    }
    for other in [(1, 0), (u32::MAX, 0), (0, 1), (0, 14), (0, 16), (1, 1)] {
        commit_at(Valid, other);
    }
    commit_at(Write, (1, 1));
}

/// The record's state, and what is added to its stamp, if there is fault 26.
fn commit_at(other: State, (version, tie): (u32, u8)) {
    every_subset(&[1, 2, 3, 4, 5, 26, 8, 9], |faults| {
        let mut record = Record::fresh(1);
        record.timestamp.version = faults.choose(9, 7, u32::MAX);
        record.state = faults.choose(26, State::Valid, other);
        let (more, tie) = faults.choose(26, (0, 0), (version, tie));
        let held = record.timestamp;
        let opened = ts(held.version.wrapping_add(more), held.tie + tie);
        let value = &[b'v'; 193][..faults.choose(8, 192, 193)];
        faults.answer(faults.member(record), |m| {
            m.commit(faults.record(), opened, value)
        })
    });
}

#[test]
fn replay() {
    use State::{Invalid, InvalidWrite, Replay, Valid, Write};
    // 0 is not in the view. 16 fails by the state, or by the last writer.
    for good in [Invalid, InvalidWrite] {
        for other in [Valid, Write, Replay] {
            replay_at((good, 0), (other, 0));
        }
        for writer in [1, 2, 5] {
            replay_at((good, 0), (good, writer));
        }
    }
}

/// Record's state and last writer, good and bad for question 16.
fn replay_at(good: (State, u8), bad: (State, u8)) {
    every_subset(&[1, 2, 3, 4, 5, 16], |faults| {
        let mut record = Record::fresh(0);
        (record.state, record.last_writer) = faults.choose(16, good, bad);
        faults.answer(faults.member(record), |m| m.replay(faults.record()))
    });
}

#[test]
fn validate() {
    every_subset(&[1, 2, 3, 4, 5, 15], |faults| {
        let mut record = written();
        record.acks = faults.choose(15, set(&[1, 5]), set(&[0]));
        faults.answer(faults.member(record), |m| m.validate(faults.record()))
    });
}

#[test]
fn resend() {
    every_subset(&[1, 2, 3, 4, 5, 17], |faults| {
        let mut record = written();
        record.state = faults.choose(17, State::Write, State::Invalid);
        faults.answer(faults.member(record), |m| m.resend(faults.record()))
    });
}

#[test]
fn deliver_inv() {
    every_subset(&[1, 2, 3, 4, 5, 10, 11, 12], |faults| {
        let envelope = faults.envelope(inv(1, 5));
        let body = &[b'b'; 193][..faults.choose(12, 192, 193)];
        faults.answer(faults.member(written()), |m| m.deliver(&envelope, body))
    });
}

#[test]
fn deliver_ack() {
    // One that is counted alone, and one that is the last of a write.
    for (awaiting, acks) in [(State::InvalidWrite, 0), (State::Write, set(&[1]))] {
        deliver_ack_at(awaiting, acks);
    }
}

fn deliver_ack_at(awaiting: State, acks: u16) {
    every_subset(&[1, 2, 3, 4, 5, 10, 11, 12, 13], |faults| {
        let mut record = written();
        record.acks = acks;
        record.state = faults.choose(13, awaiting, State::Invalid);
        let envelope = faults.envelope(ack(1, 2));
        let body = faults.choose(12, &b""[..], b"b");
        faults.answer(faults.member(record), |m| m.deliver(&envelope, body))
    });
}

#[test]
fn deliver_val() {
    every_subset(&[1, 2, 3, 4, 5, 10, 11, 12, 14], |faults| {
        let mut record = written();
        record.state = faults.choose(14, State::Replay, State::Valid);
        let envelope = faults.envelope(val(1, 2));
        let body = faults.choose(12, &b""[..], b"b");
        faults.answer(faults.member(record), |m| m.deliver(&envelope, body))
    });
}

#[test]
fn view() {
    every_subset(&[1, 3, 18, 19], |faults| {
        let member = faults.member(Record::fresh(1));
        let view = faults.choose(19, member.replica.view, set(&[1, 9]));
        faults.answer(member, |m| m.view(faults.choose(18, 1, 0), view))
    });
}

/// What is wrong with a packet's head, for fault 20. Byte 0 then names no rule,
/// or the group's, or with fault 27 the other.
type Head = fn(&mut [u8]);

const HEADS: [Head; 6] = [
    |p| p[0] = 0,
    |p| p[0] = 3,
    |p| p[1] = 0,
    |p| p[1] = 65,
    |p| p[2] += 1,
    |p| p[3] -= 1,
];

/// A packet with the faults 20, 27, 21 and 22, and an index with fault 23.
fn packet(faults: &Faults, envelope: Envelope, head: Head) -> (Vec<u8>, usize) {
    let mut bytes = packet_of(faults.rule, &[(envelope, b"")]).expect("accepted");
    if faults.has(27) {
        // As the other group would write it.
        bytes = packet_of(other(faults.rule), &[(envelope, b"")]).expect("accepted");
    }
    if faults.has(21) {
        bytes[1] = 2;
    }
    if faults.has(20) {
        head(&mut bytes);
    }
    if faults.has(22) {
        bytes[16] = 16;
    }
    (bytes, faults.choose(23, 0, 2))
}

/// 02, Wish 6: 27 just after 20.
#[test]
fn fetch() {
    for head in HEADS {
        every_subset(&[20, 27, 21, 22, 23], |faults| {
            let (bytes, index) = packet(faults, from(5, ack(1, 2)), head);
            number(&packet::fetch(faults.rule, &bytes, index))
        });
    }
}

#[test]
fn accept() {
    for head in HEADS {
        every_subset(&[20, 27, 21, 22, 23], |faults| {
            let (bytes, index) = packet(faults, from(5, ack(1, 2)), head);
            let accepted = packet::accept(faults.rule, &bytes);
            // 23 is asked of the message alone.
            let of_packet = faults.numbers.iter().find(|&&question| question != 23);
            assert_eq!(number(&accepted), of_packet.copied().unwrap_or(0));
            number(&accepted.and_then(|all| all.message(index)))
        });
    }
}

#[test]
fn deliver_from_a_packet() {
    // A packet that 22 lets pass is well-formed for 12.
    let questions = [20, 27, 21, 22, 23, 1, 2, 3, 4, 5, 10, 11, 13];
    every_subset(&questions, |faults| {
        let mut record = written();
        record.acks = faults.choose(13, set(&[1]), set(&[5]));
        let (bytes, index) = packet(faults, faults.envelope(ack(1, 2)), HEADS[2]);
        faults.answer(faults.member(record), |m| m.deliver_packet(&bytes, index))
    });
}

#[test]
fn write_packet() {
    every_subset(&[24, 25], |faults| {
        let entry = Entry {
            envelope: from(faults.choose(24, 5, 16), inv(1, 5)),
            len: 1,
        };
        let mut out = [0xee; 21];
        let room = faults.choose(25, 21, 20);
        let answer = number(&packet::write(
            faults.rule,
            &[entry],
            b"b",
            &mut out[..room],
        ));
        assert!(answer == 0 || out == [0xee; 21]);
        answer
    });
}
