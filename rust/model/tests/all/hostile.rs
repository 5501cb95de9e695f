//! Any input at all: unsound records, stray numbers, wrong sizes, any view, any
//! bytes. Every event answers; a refused one changes nothing; an accepted one
//! changes the named record with its text alone, and answers as the one-record
//! form does.

use model::engine::{
    body, Answer, Envelope, Message, Record, Refusal, Replica, Rule, Settings, Sizes, Slot, State,
    Timestamp,
};
use model::rng::Rng;

use crate::support::{rng, set, Member};

const ROUNDS: usize = 150_000;

/// Mostly a number up to 15.
fn some_number(rng: &mut Rng) -> u8 {
    if rng.chance(1, 40) {
        [16, 17, 18, 31, 32, 255][rng.below(6)]
    } else {
        [1, 2, 5, rng.below(16) as u8][rng.below(4)]
    }
}

fn some_version(rng: &mut Rng) -> u32 {
    [0, 1, 2, u32::MAX - 1, u32::MAX][rng.below(5)]
}

fn some_timestamp(rng: &mut Rng) -> Timestamp {
    Timestamp::new(some_version(rng), some_number(rng))
}

fn some_view(rng: &mut Rng) -> u16 {
    match rng.below(24) {
        0 => 0,
        1 => 1 << rng.below(16),
        2 => rng.next_u64() as u16,
        3 => u16::MAX,
        4..10 => set(&[1, 2]),
        _ => set(&[1, 2, 5]),
    }
}

fn some_record(rng: &mut Rng) -> Record {
    let timestamp = some_timestamp(rng);
    let last_write = some_timestamp(rng);
    Record {
        state: State::ALL[rng.below(5)],
        timestamp,
        last_writer: some_number(rng),
        last_write: [timestamp, last_write][rng.below(2)],
        acks: [0, set(&[1]), set(&[5]), some_view(rng) & !set(&[2])][rng.below(4)],
        len: match rng.below(20) {
            0 => 193,
            1 => 255,
            2..6 => 192,
            _ => rng.below(193) as u8,
        },
    }
}

/// Any member: sometimes with a wrong count or store.
fn some_member(rng: &mut Rng) -> Member {
    let count = rng.below(4) + usize::from(rng.chance(9, 10));
    let mut store = vec![0; 192 * count];
    rng.fill(&mut store);
    match rng.below(30) {
        0 => store.clear(),
        1 => store.push(0),
        2 => drop(store.pop()),
        3 => store.resize(192 * count + 192, 1),
        _ => (),
    }
    Member {
        replica: Replica {
            number: if rng.chance(2, 3) {
                2
            } else {
                some_number(rng)
            },
            epoch: rng.below(3) as u32,
            view: some_view(rng),
            settings: Settings {
                rule: Rule::ALL[rng.below(2)],
            },
        },
        table: (0..count).map(|_| some_record(rng)).collect(),
        store,
    }
}

fn some_index(rng: &mut Rng) -> usize {
    match rng.below(24) {
        0 => usize::MAX,
        1 => usize::MAX / 192 + 1,
        2 => 4095 + rng.below(2),
        3..8 => rng.below(4),
        _ => 0,
    }
}

fn some_bytes(rng: &mut Rng) -> Vec<u8> {
    let len = [0, 0, 0, 1, 191, 192, 193, rng.below(300)][rng.below(8)];
    let mut bytes = vec![0; len];
    rng.fill(&mut bytes);
    bytes
}

/// Often a message about what the record holds.
fn some_message(rng: &mut Rng, member: &Member, index: usize) -> Message {
    let timestamp = match member.table.get(index) {
        Some(record) if rng.chance(1, 3) => record.timestamp,
        Some(record) if rng.chance(1, 2) => record.last_write,
        // A tie.
        Some(record) if rng.chance(1, 3) => {
            Timestamp::new(record.timestamp.version, some_number(rng))
        }
        _ => some_timestamp(rng),
    };
    let kinds = [Message::Inv, Message::Ack, Message::Val];
    kinds[rng.below(3)](timestamp)
}

/// Mostly the stamp that the record holds, or one beside it.
fn some_opened(rng: &mut Rng, member: &Member, index: usize) -> Timestamp {
    let Some(record) = member.table.get(index) else {
        return some_timestamp(rng);
    };
    let Timestamp { version, tie } = record.timestamp;
    match rng.below(8) {
        0 => Timestamp::new(version, some_number(rng)),
        1 => Timestamp::new(version.wrapping_sub(1), tie),
        2 => Timestamp::new(version.wrapping_add(1), tie),
        3 => record.last_write,
        4 => some_timestamp(rng),
        _ => record.timestamp,
    }
}

/// The record and its slot apart from the rest; any at all where there is none.
fn taken_out(member: &Member, index: usize) -> (Record, Slot) {
    let record = member.table.get(index).copied();
    let slots = member.store.as_chunks().0;
    let slot = slots.get(index).copied();
    (record.unwrap_or(Record::fresh(0)), slot.unwrap_or([0; 192]))
}

/// What one event did, both ways.
struct Done {
    before: Member,
    after: Member,
    index: usize,
    answer: Answer,
    one: (Answer, Record, Slot),
}

impl Done {
    fn check(&self) {
        let Done { before, after, .. } = self;
        assert_eq!(self.answer, self.one.0);
        if self.answer.is_err() {
            assert_eq!(after, before);
            return;
        }
        assert_eq!(taken_out(after, self.index), (self.one.1, self.one.2));
        assert_eq!(after.replica, before.replica);
        for other in (0..before.table.len()).filter(|&other| other != self.index) {
            assert_eq!(taken_out(after, other), taken_out(before, other));
        }
        assert!(after.table[self.index].is_sound(after.replica.number));
    }
}

/// 02, Wish 1: an accepted ACK is the counting and, where it can follow, the
/// validation, done one after the other. Tells if it did follow.
fn counts_then_validates(done: &Done, sender: u8) -> bool {
    let mut expected = done.before.clone();
    expected.table[done.index].acks |= set(&[sender]);
    let validated = expected.validate(done.index);
    assert_eq!(done.answer, validated.or(Ok(None)));
    assert_eq!(done.after, expected);
    validated.is_ok()
}

/// 02, Wish 6: an accepted INV is acknowledged, and taken if its version is
/// greater, or that of a tie wins by the laptop's rule. Tells if there was a tie
/// of different numbers, and if it was won.
fn is_the_inv(done: &Done, envelope: &Envelope, bytes: &[u8]) -> Option<bool> {
    let new = envelope.message.timestamp();
    let (held, slot) = taken_out(&done.before, done.index);
    let (version, tie) = (held.timestamp.version, held.timestamp.tie);
    let won = match done.before.rule() {
        Rule::Higher => (new.version, new.tie) > (version, tie),
        Rule::Lower => (new.version, 255 - new.tie) > (version, 255 - tie),
    };
    assert_eq!(done.answer, Ok(Some(Message::Ack(new))));
    let mut expected = (held, slot);
    if won {
        let overtaken = matches!(held.state, State::Write | State::InvalidWrite);
        expected.0 = Record {
            state: [State::Invalid, State::InvalidWrite][usize::from(overtaken)],
            timestamp: new,
            last_writer: envelope.sender,
            len: bytes.len() as u8,
            ..held
        };
        expected.1.fill(0);
        expected.1[..bytes.len()].copy_from_slice(bytes);
    }
    assert_eq!(taken_out(&done.after, done.index), expected);
    (new.version == version && new.tie != tie).then_some(won)
}

/// 02, Wish 2: a replay is that of source document 000, widened by
/// invalid-write. 16 refuses where it does not permit the step, and only there.
fn is_the_replay(done: &Done) {
    let (held, slot) = taken_out(&done.before, done.index);
    let Replica { number, view, .. } = done.before.replica;
    let permitted = || {
        let invalid = matches!(held.state, State::Invalid | State::InvalidWrite);
        invalid && view & set(&[held.last_writer]) == 0
    };
    match done.answer {
        Ok(sent) => {
            assert!(permitted());
            assert_eq!(sent, Some(Message::Inv(held.timestamp)));
            let replayed = Record {
                state: State::Replay,
                last_writer: number,
                last_write: held.timestamp,
                acks: 0,
                ..held
            };
            assert_eq!(taken_out(&done.after, done.index), (replayed, slot));
        }
        Err(Refusal::NotReplayable) => assert!(!permitted()),
        Err(refusal) => assert!(refusal.number() <= 5),
    }
}

/// 02, Wish 5: where the record is valid with the stamp that is brought back, a
/// commit is the write; elsewhere 26 refuses it, unless one of 1 to 5 does.
fn is_the_commit(done: &Done, opened: Timestamp, value: &[u8]) {
    let mut written = done.before.clone();
    let write = written.write(done.index, value);
    let (held, _) = taken_out(&done.before, done.index);
    match write {
        Err(refusal) if refusal.number() <= 5 => assert_eq!(done.answer, write),
        _ if held.state == State::Valid && held.timestamp == opened => {
            assert_eq!((done.answer, &done.after), (write, &written));
        }
        _ => assert_eq!(done.answer, Err(Refusal::NotAsOpened)),
    }
}

#[test]
fn events() {
    let mut rng = rng();
    let mut accepted = [0; 10];
    // Accepted ACKs that validate, by what the record was: write, replay.
    let mut last = [0; 2];
    // Those of an overtaken write by all others, which do not.
    let mut overtaken = 0;
    // Replays of invalid-write: accepted, refused by 16.
    let mut given_up = [0; 2];
    // Commits refused by 26: not valid; of a valid record by the version alone,
    // by the tie-breaker alone; then by 8, by 9.
    let mut uncommitted = [0; 5];
    // Ties, by the rule, and lost or won.
    let mut ties = [[0; 2]; 2];
    for _ in 0..ROUNDS {
        let before = some_member(&mut rng);
        let index = some_index(&mut rng);
        let replica = before.replica;
        let sizes = Sizes::of(&before.table, &before.store);
        let mut after = before.clone();
        let (mut record, mut slot) = taken_out(&before, index);
        let mut bytes = some_bytes(&mut rng);
        let event = rng.below(10);
        let mut kind = event;
        let mut delivered = None;
        let opened = some_opened(&mut rng, &before, index);
        let (answer, one) = match event {
            0 => {
                let table = before.read(index);
                assert_eq!(table, replica.read_one(sizes, index, &record, &slot));
                let expected = &slot[..usize::from(record.len).min(192)];
                assert!(table.is_err() || table == Ok(expected));
                (table.map(|_| None), table.map(|_| None))
            }
            1 => (
                after.write(index, &bytes),
                replica.write_one(sizes, index, &mut record, &mut slot, &bytes),
            ),
            2 => (
                after.replay(index),
                replica.replay_one(sizes, index, &mut record),
            ),
            3 => (
                after.validate(index),
                replica.validate_one(sizes, index, &mut record),
            ),
            4 => (
                after.resend(index),
                replica.resend_one(sizes, index, &record),
            ),
            8 => {
                let table = before.ask(index);
                assert_eq!(table, replica.ask_one(sizes, index, &record, &slot));
                let read = before.read(index);
                assert_eq!(table, read.map(|value| (value, record.timestamp)));
                (table.map(|_| None), table.map(|_| None))
            }
            9 => (
                after.commit(index, opened, &bytes),
                replica.commit_one(sizes, index, &mut record, &mut slot, opened, &bytes),
            ),
            _ => {
                let message = some_message(&mut rng, &before, index);
                kind = match message {
                    Message::Inv(_) => 5,
                    Message::Ack(_) => 6,
                    Message::Val(_) => 7,
                };
                if kind != 5 && rng.chance(2, 3) {
                    bytes.clear();
                }
                let envelope = Envelope {
                    sender: some_number(&mut rng),
                    epoch: replica.epoch ^ u32::from(rng.chance(1, 10)),
                    record: index,
                    message,
                };
                delivered = Some(envelope);
                (
                    after.deliver(&envelope, &bytes),
                    replica.deliver_one(sizes, &mut record, &mut slot, &envelope, &bytes),
                )
            }
        };
        accepted[kind] += u32::from(answer.is_ok());
        let one = (one, record, slot);
        let done = Done {
            before,
            after,
            index,
            answer,
            one,
        };
        done.check();
        if kind == 2 {
            is_the_replay(&done);
            if taken_out(&done.before, index).0.state == State::InvalidWrite {
                given_up[0] += u32::from(done.answer.is_ok());
                given_up[1] += u32::from(done.answer == Err(Refusal::NotReplayable));
            }
        }
        if kind == 9 {
            is_the_commit(&done, opened, &bytes);
            let (held, _) = taken_out(&done.before, index);
            let same = (
                held.timestamp.version == opened.version,
                held.timestamp.tie == opened.tie,
            );
            let at = match (done.answer, same) {
                (Err(Refusal::NotAsOpened), _) if held.state != State::Valid => Some(0),
                (Err(Refusal::NotAsOpened), (false, true)) => Some(1),
                (Err(Refusal::NotAsOpened), (true, false)) => Some(2),
                (Err(Refusal::ValueTooLong), _) => Some(3),
                (Err(Refusal::LastVersion), _) => Some(4),
                _ => None,
            };
            at.into_iter().for_each(|at| uncommitted[at] += 1);
        }
        let delivered = delivered.filter(|_| done.answer.is_ok());
        if let (5, Some(envelope)) = (kind, delivered) {
            if let Some(won) = is_the_inv(&done, &envelope, &bytes) {
                let by = usize::from(replica.settings.rule == Rule::Lower);
                ties[by][usize::from(won)] += 1;
            }
        }
        if let (6, Some(envelope)) = (kind, delivered) {
            let followed = counts_then_validates(&done, envelope.sender);
            let all = replica.others() & !done.after.table[index].acks == 0;
            match done.before.table[index].state {
                State::Write => last[0] += u32::from(followed),
                State::Replay => last[1] += u32::from(followed),
                _ => overtaken += u32::from(all),
            }
        }
    }
    assert!(accepted.iter().all(|&times| times > 50), "{accepted:?}");
    println!("accepted {accepted:?}, last ACKs {last:?}, overtaken {overtaken}");
    println!("given up {given_up:?}");
    assert!(last.iter().all(|&times| times > 5), "{last:?}");
    assert!(overtaken > 5, "{overtaken}");
    assert!(given_up.iter().all(|&times| times > 50), "{given_up:?}");
    println!("uncommitted {uncommitted:?}, ties {ties:?}");
    assert!(
        ties.as_flattened().iter().all(|&times| times > 20),
        "{ties:?}"
    );
    assert!(
        uncommitted.iter().all(|&times| times > 50),
        "{uncommitted:?}"
    );
}

#[test]
fn starts() {
    let mut rng = rng();
    let mut accepted = 0;
    for _ in 0..ROUNDS / 4 {
        let before = some_member(&mut rng);
        let mut after = before.clone();
        let Replica {
            number,
            view,
            settings,
            ..
        } = before.replica;
        let answer = Replica::start(number, view, settings, &mut after.table, &mut after.store);

        let sizes = Sizes::of(&before.table, &before.store);
        let (mut record, mut slot) = taken_out(&before, 0);
        let one = Replica::start_one(number, view, settings, sizes, &mut record, &mut slot);
        assert_eq!(answer, one);
        let Ok(replica) = answer else {
            assert_eq!(after, before);
            continue;
        };
        accepted += 1;
        assert_eq!((replica.number, replica.epoch), (number, 0));
        assert_eq!((replica.view, replica.settings), (view, settings));
        assert!(after.table.iter().all(|&each| each == record));
        assert!(after.store.iter().all(|&byte| byte == 0));
        assert_eq!(record, Record::fresh(view.trailing_zeros() as u8));
        assert_eq!(slot, [0; 192]);
    }
    assert!(accepted > 1000);
}

#[test]
fn views() {
    let mut rng = rng();
    let mut accepted = 0;
    for _ in 0..ROUNDS {
        let before = some_member(&mut rng).replica;
        let mut after = before;
        let (epoch, view) = (rng.below(4) as u32, some_view(&mut rng));
        let answer = after.change_view(epoch, view);
        if answer.is_ok() {
            accepted += 1;
            let expected = Replica {
                epoch,
                view,
                ..before
            };
            assert_eq!((answer, after), (Ok(None), expected));
            assert!(epoch > before.epoch && view | before.view == before.view);
        } else {
            assert_eq!(after, before);
        }
    }
    assert!(accepted > 1000);
}

#[test]
fn leaving_messages() {
    let mut rng = rng();
    for _ in 0..ROUNDS / 4 {
        let member = some_member(&mut rng);
        let index = some_index(&mut rng);
        let message = some_message(&mut rng, &member, index);
        let sender = rng.next_u64() as u8;
        let to = member.replica.recipients(message, sender);
        let bytes = body(message, &member.table, &member.store, index);
        match message {
            Message::Ack(_) => {
                assert_eq!(to.count_ones(), u32::from(sender < 16));
                assert!(sender > 15 || to == set(&[sender]));
            }
            Message::Inv(_) | Message::Val(_) => {
                let number = member.replica.number;
                let own = if number < 16 { set(&[number]) } else { 0 };
                assert_eq!(to, member.replica.view & !own);
            }
        }
        let held = member.table.get(index).map(|record| record.len.into());
        match (message, held) {
            (Message::Inv(_), Some(len)) if len <= 192 => {
                let slots = member.store.as_chunks::<192>().0;
                assert_eq!(bytes, slots.get(index).map_or(&[][..], |s| &s[..len]));
            }
            _ => assert_eq!(bytes, b""),
        }
        let envelope = member.replica.envelope(index, message);
        assert_eq!(
            (envelope.sender, envelope.epoch),
            (member.replica.number, member.replica.epoch)
        );
        assert_eq!((envelope.record, envelope.message), (index, message));
    }
}

#[test]
fn sizes_up_to_the_greatest() {
    let replica = Member::ringing().replica;
    let record = Record::fresh(1);
    let slot = [0; 192];
    let max = usize::MAX;
    for (records, store) in [
        (max, max),
        (max, 0),
        (max / 192 + 1, 128),
        (4097, 4097 * 192),
    ] {
        let sizes = Sizes { records, store };
        let answer = replica.read_one(sizes, 0, &record, &slot);
        assert_eq!(answer, Err(Refusal::LentMemory));
    }
}
