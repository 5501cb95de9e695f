//! Packets: the questions 20 to 25 and 27, round trips, and changed bytes.

use model::engine::{number, Envelope, Message, Refusal, Rule};
use model::packet::{self, Entry};
use model::rng::Rng;

use crate::support::{
    ack, from, in_one_pass, inv, messages_of, other, packet_of, rng, ts, val, Member,
};

/// A packet of an INV with the body "B7" and an ACK.
fn two(rule: Rule) -> Vec<u8> {
    let messages = [
        (from(5, inv(1, 5)), &b"B7"[..]),
        (from(1, ack(1, 2)), &b""[..]),
    ];
    packet_of(rule, &messages).expect("accepted")
}

#[test]
fn packets_read() {
    Rule::ALL.into_iter().for_each(packets_read_by);
}

fn packets_read_by(rule: Rule) {
    let is = |no: u8, index: usize, change: &dyn Fn(&mut Vec<u8>)| {
        let mut bytes = two(rule);
        change(&mut bytes);
        assert_eq!(number(&packet::fetch(rule, &bytes, index)), no);
        // 02, Wish 4: the same numbers in the same order, 20, 27, 21 and 22 of the packet
        // and 23 of the message.
        let accepted = packet::accept(rule, &bytes);
        assert_eq!(number(&accepted), if no == 23 { 0 } else { no });
        assert_eq!(number(&accepted.and_then(|all| all.message(index))), no);
    };
    is(0, 0, &|_| ());
    is(0, 1, &|_| ());
    is(20, 0, &Vec::clear);
    is(20, 0, &|p| p.truncate(3));
    is(20, 0, &|p| p[0] = 0);
    is(20, 0, &|p| p[0] = 3);
    is(20, 0, &|p| p[0] = 255);
    is(27, 0, &|p| p[0] = other(rule).byte());
    is(27, 2, &|p| p[0] = other(rule).byte());
    is(20, 0, &|p| p[1] = 0);
    is(20, 0, &|p| p[1] = 65);
    is(20, 0, &|p| p[3] += 1);
    is(20, 0, &|p| p.push(0));
    is(20, 0, &|p| p.truncate(37));
    is(21, 0, &|p| p[1] = 3);
    is(21, 0, &|p| p[1] = 64);
    is(21, 0, &|p| {
        p.truncate(35);
        p[3] = 35;
    });
    // Fields of the first entry, then of the second.
    for at in [4, 20] {
        is(22, 0, &|p| p[at] = 0);
        is(22, 0, &|p| p[at] = 4);
        is(22, 0, &|p| p[at + 1] = 16);
        is(22, 0, &|p| p[at + 6] = 16);
        is(0, 0, &|p| p[at + 6..at + 8].fill(15));
        is(22, 0, &|p| p[at + 12] = 16);
        is(22, 0, &|p| p[at + 14] += 1);
        is(22, 0, &|p| p[at + 13] = 1);
        is(22, 0, &|p| p[at + 15] += 1);
        is(22, 0, &|p| p[at + 15] = 193);
    }
    is(22, 0, &|p| p[4] = 2);
    is(22, 0, &|p| p[4] = 3);
    is(0, 0, &|p| p[20] = 1);
    is(0, 0, &|p| p[20] = 3);
    // The last body ends before or after the total.
    is(22, 0, &|p| {
        p.push(0);
        p[3] += 1;
    });
    is(22, 0, &|p| {
        p.pop();
        p[3] -= 1;
    });
    is(23, 2, &|_| ());
    is(23, usize::MAX, &|_| ());
    is(22, 2, &|p| p[20] = 0);
}

#[test]
fn packets_written() {
    let good = Entry {
        envelope: from(5, inv(1, 5)),
        len: 2,
    };
    let write_by = |rule, entries: &[Entry], bodies: &[u8], room: usize| {
        let mut out = vec![0xee; room];
        let answer = packet::write(rule, entries, bodies, &mut out);
        let untouched = &out[*answer.as_ref().unwrap_or(&0)..];
        assert!(untouched.iter().all(|&byte| byte == 0xee));
        number(&answer)
    };
    let write = |entries: &[Entry], bodies: &[u8], room: usize| {
        let [old, new] = Rule::ALL.map(|rule| write_by(rule, entries, bodies, room));
        assert_eq!(old, new, "the two rules of ties");
        old
    };
    assert_eq!(write(&[good], b"B7", 22), 0);
    assert_eq!(write(&[good], b"B7", 2000), 0);
    assert_eq!(write(&[good], b"B7", 21), 25);
    assert_eq!(write(&[good], b"B7", 0), 25);
    assert_eq!(write(&[], b"", 2000), 24);
    assert_eq!(write(&[good; 64], &[0; 128], 2000), 0);
    assert_eq!(write(&[good; 65], &[0; 130], 2000), 24);
    assert_eq!(write(&[good], b"B", 2000), 24);
    assert_eq!(write(&[good], b"B78", 2000), 24);
    // 64 messages with bodies of 5 and 6 bytes: 1,348 and 1,412.
    let five = Entry { len: 5, ..good };
    assert_eq!(write(&[five; 64], &[0; 320], 2000), 0);
    let six = Entry { len: 6, ..good };
    assert_eq!(write(&[six; 64], &[0; 384], 2000), 25);

    let is_bad = |change: &dyn Fn(&mut Entry)| {
        let mut bad = good;
        change(&mut bad);
        let bodies = vec![0; usize::from(good.len + bad.len.min(250))];
        assert_eq!(write(&[good, bad], &bodies, 2000), 24);
    };
    is_bad(&|e| e.envelope.sender = 16);
    is_bad(&|e| e.envelope.record = 4096);
    is_bad(&|e| e.envelope.record = 65_536);
    is_bad(&|e| e.envelope.record = usize::MAX);
    is_bad(&|e| e.envelope.message = inv(1, 16));
    is_bad(&|e| e.envelope.message = ack(1, 5));
    is_bad(&|e| e.envelope.message = val(1, 5));
    is_bad(&|e| e.len = 193);
}

/// An accepted packet is the one that the writer makes of its messages, whether
/// they are fetched or taken in one pass. Answers whether it was accepted.
fn reads_back(rule: Rule, bytes: &[u8]) -> bool {
    let messages = messages_of(rule, bytes);
    assert_eq!(in_one_pass(rule, bytes), messages);
    let Ok(messages) = messages else {
        return false;
    };
    assert_eq!(packet_of(rule, &messages).as_deref(), Ok(bytes));
    true
}

/// Some messages that make a packet. The bodies are random.
fn some_messages(rng: &mut Rng) -> Vec<(Envelope, Vec<u8>)> {
    let mut room = 1400 - 4;
    let mut messages = Vec::new();
    for _ in 0..=rng.below(64) {
        let timestamp = ts(rng.next_u64() as u32, rng.below(16) as u8);
        let (message, len) = match rng.below(3) {
            0 => (Message::Inv(timestamp), rng.below(193)),
            1 => (Message::Ack(timestamp), 0),
            _ => (Message::Val(timestamp), 0),
        };
        if room < 16 + len {
            break;
        }
        room -= 16 + len;
        let envelope = Envelope {
            sender: rng.below(16) as u8,
            epoch: rng.next_u64() as u32,
            record: rng.below(4096),
            message,
        };
        let mut body = vec![0; len];
        rng.fill(&mut body);
        messages.push((envelope, body));
    }
    messages
}

#[test]
fn round_trips() {
    let mut rng = rng();
    let mut longest = 0;
    for _ in 0..3000 {
        let rule = Rule::ALL[rng.below(2)];
        let messages = some_messages(&mut rng);
        let messages: Vec<_> = messages.iter().map(|(e, b)| (*e, &b[..])).collect();
        let bytes = packet_of(rule, &messages).expect("accepted");
        assert_eq!(messages_of(rule, &bytes), Ok(messages.clone()));
        assert_eq!(in_one_pass(rule, &bytes), Ok(messages));
        longest = longest.max(bytes.len());
    }
    assert!(longest > 1350, "only short packets");
}

#[test]
fn full_packets() {
    Rule::ALL.into_iter().for_each(full_packets_by);
}

fn full_packets_by(rule: Rule) {
    // 64 messages without bodies, and with 372 bytes of them: 1,400 in all.
    let bytes = packet_of(rule, &[(from(1, val(1, 1)), &b""[..]); 64]).expect("accepted");
    assert_eq!(bytes.len(), 4 + 64 * 16);
    assert!(reads_back(rule, &bytes));
    let mut messages = [(from(1, inv(1, 1)), &[9; 6][..]); 64];
    messages[62].1 = b"";
    messages[63].1 = b"";
    let bytes = packet_of(rule, &messages).expect("accepted");
    assert_eq!(bytes.len(), 1400);
    assert!(reads_back(rule, &bytes));
}

#[test]
fn every_single_byte_changed() {
    Rule::ALL.into_iter().for_each(every_single_byte_changed_by);
}

fn every_single_byte_changed_by(rule: Rule) {
    let long = [b'z'; 192];
    let packets = [
        packet_of(rule, &[(from(5, ack(1, 2)), b"")]),
        packet_of(rule, &[(from(5, inv(1, 5)), b"")]),
        packet_of(
            rule,
            &[
                (from(5, inv(1, 5)), b"wing 71"),
                (from(1, ack(1, 2)), b""),
                (from(3, inv(u32::MAX, 15)), b"weight 18"),
                (from(15, val(7, 0)), b""),
            ],
        ),
        packet_of(
            rule,
            &[(from(0, inv(2, 0)), &long), (from(4, inv(2, 4)), b"")],
        ),
    ];
    for packet in packets {
        let mut bytes = packet.expect("accepted");
        assert!(reads_back(rule, &bytes));
        let mut accepted = 0;
        for at in 0..bytes.len() {
            let kept = bytes[at];
            for byte in (0..=255).filter(|&byte| byte != kept) {
                bytes[at] = byte;
                let changed = reads_back(rule, &bytes);
                accepted += u32::from(changed);
                // Neither head, nor offset, nor length can change alone.
                let entry_at = (4..4 + 16 * usize::from(bytes[1])).contains(&at);
                let fixed = at < 4 || entry_at && (at - 4) % 16 >= 13;
                assert!(!(fixed && changed), "byte {at} is now {byte}");
            }
            bytes[at] = kept;
        }
        // At least every epoch, version, and byte of a body.
        assert!(accepted >= 8 * 255);

        for len in 0..bytes.len() {
            assert!(!reads_back(rule, &bytes[..len]));
        }
        bytes.push(0);
        assert!(!reads_back(rule, &bytes));
    }
}

#[test]
fn random_bytes() {
    let mut rng = rng();
    let mut accepted = 0;
    for _ in 0..20_000 {
        let rule = Rule::ALL[rng.below(2)];
        let messages = some_messages(&mut rng);
        let messages: Vec<_> = messages.iter().take(4).map(|(e, b)| (*e, &b[..])).collect();
        let mut bytes = packet_of(rule, &messages).expect("accepted");
        for _ in 0..=rng.below(3) {
            let at = rng.below(bytes.len());
            bytes[at] = rng.next_u64() as u8;
        }
        if rng.chance(1, 4) {
            bytes.truncate(rng.below(bytes.len() + 1));
            let total = (bytes.len() as u16).to_be_bytes();
            if let Some(place) = bytes.get_mut(2..4) {
                place.copy_from_slice(&total);
            }
        }
        accepted += u32::from(reads_back(rule, &bytes));
        let mut noise = [0; 40];
        rng.fill(&mut noise);
        reads_back(rule, &noise);
    }
    assert!(accepted > 1000, "only {accepted} accepted");
}

#[test]
fn delivery_from_a_packet() {
    Rule::ALL.into_iter().for_each(delivery_from_a_packet_by);
}

fn delivery_from_a_packet_by(rule: Rule) {
    let mut member = Member::ringing_by(rule);
    let bytes = two(rule);
    assert_eq!(member.deliver_packet(&bytes, 0), Ok(Some(ack(1, 5))));
    assert_eq!(&member.store[..3], b"B7\0");
    assert_eq!(member.deliver_packet(&bytes, 1), Err(Refusal::StrayAck));
    assert_eq!(member.deliver_packet(&bytes, 2), Err(Refusal::PacketIndex));

    let mut direct = Member::ringing_by(rule);
    for (envelope, body) in messages_of(rule, &bytes).expect("accepted") {
        let _ = direct.deliver(&envelope, body);
    }
    assert_eq!(member, direct);
}

/// What is taken of an accepted packet is what a fetch gives, the body at the same
/// place of the packet.
#[test]
fn messages_in_one_pass() {
    let place = |body: &[u8]| (body.as_ptr(), body.len());
    let mut rng = rng();
    for _ in 0..3000 {
        let rule = Rule::ALL[rng.below(2)];
        let messages = some_messages(&mut rng);
        let messages: Vec<_> = messages.iter().map(|(e, b)| (*e, &b[..])).collect();
        let bytes = packet_of(rule, &messages).expect("accepted");
        let accepted = packet::accept(rule, &bytes).expect("accepted");
        assert_eq!(accepted.count(), messages.len());
        for (i, message) in messages.iter().enumerate() {
            let (envelope, body) = accepted.message(i).expect("a message");
            assert_eq!((envelope, body), *message);
            let fetched = packet::fetch(rule, &bytes, i).expect("a message");
            assert_eq!(place(body), place(fetched.1));
        }
        for past in [messages.len(), messages.len() + 1, 64, 255, 256, usize::MAX] {
            assert_eq!(accepted.message(past), Err(Refusal::PacketIndex));
        }
    }
}

#[test]
fn delivery_in_one_pass() {
    Rule::ALL.into_iter().for_each(delivery_in_one_pass_by);
}

fn delivery_in_one_pass_by(rule: Rule) {
    let mut member = Member::ringing_by(rule);
    let bytes = two(rule);
    let accepted = packet::accept(rule, &bytes).expect("accepted");
    let mut deliver = |index| {
        let Member {
            replica,
            table,
            store,
        } = &mut member;
        accepted.deliver(replica, table, store, index)
    };
    let first = (from(5, inv(1, 5)), Ok(Some(ack(1, 5))));
    assert_eq!(deliver(0), Ok(first));
    // Refused, and still known.
    let second = (from(1, ack(1, 2)), Err(Refusal::StrayAck));
    assert_eq!(deliver(1), Ok(second));
    assert_eq!(deliver(2), Err(Refusal::PacketIndex));

    let mut one_by_one = Member::ringing_by(rule);
    for index in 0..3 {
        let _ = one_by_one.deliver_packet(&bytes, index);
    }
    assert_eq!(member, one_by_one);
}

/// Every message of random packets: the answers and the memory are those of the
/// deliveries one by one.
#[test]
fn random_deliveries_in_one_pass() {
    let mut rng = rng();
    let mut answers = [0; 26];
    for _ in 0..3000 {
        let rule = Rule::ALL[rng.below(2)];
        let mut messages = some_messages(&mut rng);
        for (envelope, _) in &mut messages {
            // Mostly such as the member takes.
            envelope.sender = [1, 5, 5, 2][rng.below(4)];
            envelope.epoch = u32::from(rng.chance(1, 8));
            envelope.record = rng.below(4);
        }
        let messages: Vec<_> = messages.iter().map(|(e, b)| (*e, &b[..])).collect();
        let bytes = packet_of(rule, &messages).expect("accepted");
        let accepted = packet::accept(rule, &bytes).expect("accepted");
        let mut member = Member::start(rule, 2, 0b10_0110, 3);
        let mut one_by_one = member.clone();
        for (i, (envelope, _)) in messages.iter().enumerate() {
            let expected = one_by_one.deliver_packet(&bytes, i);
            let Member {
                replica,
                table,
                store,
            } = &mut member;
            let answer = accepted.deliver(replica, table, store, i);
            assert_eq!(answer, Ok((*envelope, expected)));
            answers[usize::from(number(&expected))] += 1;
        }
        assert_eq!(member, one_by_one);
    }
    println!("{answers:?}");
    for answer in [0, 4, 10, 11, 13, 14] {
        assert!(answers[answer] > 100, "{answer}: {}", answers[answer]);
    }
}
