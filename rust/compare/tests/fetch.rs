//! Whole and damaged packets: every message fetched, in groups with each rule of ties.

use cetskobi::raw::{Fetched, Settings as Group};
use compare::crossing::{other_rule, rule_of, settings_of};
use compare::packet::fetch::{by_engine, by_model, compare, full, ringing, Case, Fetch, Tally};
use compare::packet::packet_of;
use compare::settings::Settings;
use model::engine::Rule;

const OLD: Group = Group { rule: 1 };
const NEW: Group = Group { rule: 2 };

fn often(tally: &Tally) {
    println!("{} packets, {} damaged", tally.packets, tally.damaged);
    for answer in [0, 20, 21, 22, 23, 27] {
        let times = tally.answers[answer];
        println!("{times:8} answers {answer}");
        assert!(times >= 1000, "{answer}: only {times} times");
    }
    assert!(tally.damaged >= 1_000_000);
    // 02, Wish 6: some 27,000 and more of each; by byte 0 alone 21,000 and more.
    tally.heads.often(&[0, 21, 22, 23], 5000);
}

#[test]
fn damaged_packets() {
    let settings = Settings::from_env();
    match compare(&settings, by_model) {
        Ok(tally) => often(&tally),
        Err(found) => panic!("{settings}\n{found}"),
    }
}

/// The row of the ringing table.
#[test]
fn the_papers_packet() {
    let packet = [1, 1, 0, 20, 2, 5, 0, 0, 0, 0, 0, 7, 0, 0, 0, 1, 2, 0, 20, 0];
    assert_eq!(packet_of(Rule::Higher, &ringing()), Some(packet.to_vec()));
    let expected = Fetched {
        number: 0,
        kind: 2,
        sender: 5,
        tie: 2,
        epoch: 0,
        version: 1,
        index: 7,
        at: 20,
        len: 0,
    };
    assert_eq!(by_engine(OLD, &packet, 0), expected);
    assert_eq!(by_model(OLD, &packet, 0), expected);
    assert_eq!(by_engine(OLD, &packet, 1).number, 23);

    // 02, Wish 6: the same of a group with the new rule.
    let mut packet = packet;
    packet[0] = 2;
    assert_eq!(packet_of(Rule::Lower, &ringing()), Some(packet.to_vec()));
    assert_eq!(by_engine(NEW, &packet, 0), expected);
    assert_eq!(by_model(NEW, &packet, 0), expected);
    assert_eq!(by_engine(NEW, &packet, 1).number, 23);
}

/// The same by both.
fn number(group: Group, packet: &[u8], i: usize) -> u8 {
    let (engine, model) = (by_engine(group, packet, i), by_model(group, packet, i));
    assert_eq!(engine, model, "{group:?} {packet:?}");
    if engine.number != 0 {
        assert_eq!((engine.at, engine.len, engine.index), (0, 0, 0));
    }
    engine.number
}

/// 02, Wish 6: every byte 0 in a group with every byte of the rule. 1 and 2 name a
/// rule; that which the group does not have is refused by 27.
#[test]
fn every_byte_0_by_every_rule() {
    let mut packet = packet_of(Rule::Higher, &ringing()).expect("the paper's packet");
    let mut counts = [0; 28];
    for rule in 0..=255 {
        let group = Group { rule };
        for byte in 0..=255 {
            packet[0] = byte;
            let named = Rule::of_byte(byte);
            let right = match named {
                None => 20,
                Some(named) if named == rule_of(group) => 0,
                Some(_) => 27,
            };
            assert_eq!(
                number(group, &packet, 0),
                right,
                "rule {rule}, byte 0 {byte}"
            );
            counts[usize::from(right)] += 1;
        }
    }
    assert_eq!((counts[0], counts[27], counts[20]), (256, 256, 256 * 254));
}

/// 20, 27, 21, 22, 23: each is asked before those behind it.
#[test]
fn the_order_of_the_questions() {
    for (group, other) in [(OLD, 2), (NEW, 1)] {
        let own = packet_of(rule_of(group), &ringing()).expect("the paper's packet");
        // A count of two, and no second entry; a sender of 16.
        let (mut cut, mut broken) = (own.clone(), own.clone());
        cut[1] = 2;
        broken[5] = 16;
        for (packet, i, answer) in [(&own, 0, 0), (&own, 1, 23), (&cut, 0, 21), (&broken, 0, 22)] {
            assert_eq!(number(group, packet, i), answer);
            let mut packet = packet.clone();
            packet[0] = other;
            assert_eq!(number(group, &packet, i), 27, "before {answer}");
            // A head that is wrong besides: no count, too many, another total.
            for (at, value) in [(1, 0), (1, 65), (3, 21), (2, 1)] {
                let mut packet = packet.clone();
                packet[at] = value;
                assert_eq!(number(group, &packet, i), 20, "{at} {value}");
            }
            assert_eq!(number(group, &packet[..3], i), 20);
            for no_rule in [0, 3, 255] {
                packet[0] = no_rule;
                assert_eq!(number(group, &packet, i), 20, "before {answer}");
            }
        }
    }
}

#[test]
fn packets_of_1400_and_1401() {
    for group in [OLD, NEW] {
        let mut packet = full(rule_of(group));
        assert_eq!(packet.len(), 1400);
        let last = by_engine(group, &packet, 6);
        assert_eq!((last.number, last.at, last.len), (0, 1268, 132));
        let other = settings_of(other_rule(rule_of(group)));
        assert_eq!(number(other, &packet, 6), 27);
        // The same with a last body of 133 bytes.
        packet.push(7);
        packet[2..4].copy_from_slice(&1401u16.to_be_bytes());
        packet[4 + 6 * 16 + 15] = 133;
        assert_eq!(number(group, &packet, 6), 20);
        assert_eq!(number(other, &packet, 6), 20);
    }
}

/// Records 4,095 and 4,096; bodies of 192 and 193 bytes.
#[test]
fn limits_of_a_message() {
    for (record, len, number) in [(4095u16, 192, 0), (4096, 192, 22), (4095, 193, 22)] {
        let mut packet = vec![1, 1, 0, 0, 1, 5, 0, 0, 0, 0];
        packet.extend(record.to_be_bytes());
        packet.extend([0, 0, 0, 1, 5, 0, 20, len]);
        packet.resize(20 + usize::from(len), 9);
        let total = packet.len() as u16;
        packet[2..4].copy_from_slice(&total.to_be_bytes());
        assert_eq!(self::number(OLD, &packet, 0), number);
        packet[0] = 2;
        assert_eq!(self::number(NEW, &packet, 0), number);
    }
}

/// Finds the wrong reader, and gives the shrunk case.
fn caught(wrong: Fetch) -> Case {
    let found = compare(&Settings::USUAL, wrong).expect_err("a difference");
    println!("{found}");
    assert!(found.shrunk.packet.len() <= 40);
    found.shrunk
}

/// Wrong readers are found, by small packets.
#[test]
fn wrong_readers() {
    // Only the entries up to the message are looked at.
    fn behind(group: Group, packet: &[u8], i: usize) -> Fetched {
        let right = by_model(group, packet, i);
        let alone = i == 0 && right.number == 22 && packet[1] == 2;
        if alone && packet[19] == 0 && packet[17..19] == [0, 36] {
            return Fetched { number: 0, ..right };
        }
        right
    }
    // Question 23 before 22.
    fn early(group: Group, packet: &[u8], i: usize) -> Fetched {
        let mut right = by_model(group, packet, i);
        if right.number == 22 && i >= usize::from(packet[1]) {
            right.number = 23;
        }
        right
    }
    // An offset that is not looked at.
    fn offset(group: Group, packet: &[u8], i: usize) -> Fetched {
        let mut right = by_model(group, packet, i);
        if right.number == 0 && right.len == 0 {
            right.at = 0;
        }
        right
    }
    for wrong in [behind, early, offset] {
        caught(wrong);
    }
}

// Document 02, Wish 6: wrong answers about byte 0.

/// What a group with the packet's own rule answers.
fn by_its_own(packet: &[u8], i: usize) -> Fetched {
    by_model(Group { rule: packet[0] }, packet, i)
}

/// 27 is asked after this question: of the other rule the packet gets the question's
/// answer.
fn after(group: Group, packet: &[u8], i: usize, question: u8) -> Fetched {
    let right = by_model(group, packet, i);
    if right.number == 27 && by_its_own(packet, i).number == question {
        return by_its_own(packet, i);
    }
    right
}

#[test]
fn the_rule_is_asked_too_late() {
    let wrongs: [(Fetch, usize); 3] = [
        (|group, packet, i| after(group, packet, i, 21), 4),
        (|group, packet, i| after(group, packet, i, 22), 20),
        (|group, packet, i| after(group, packet, i, 23), 20),
    ];
    for (wrong, len) in wrongs {
        let case = caught(wrong);
        // As few bytes as that question needs.
        assert_eq!(case.packet.len(), len);
        assert_eq!(number(case.settings, &case.packet, case.i), 27);
    }
}

/// 27 before 20: a head that is wrong besides.
#[test]
fn the_rule_is_asked_too_early() {
    fn wrong(group: Group, packet: &[u8], i: usize) -> Fetched {
        let right = by_model(group, packet, i);
        let named = packet.first().and_then(|&byte| Rule::of_byte(byte));
        match named.is_some_and(|named| named != rule_of(group)) {
            true => Fetched {
                number: 27,
                ..right
            },
            false => right,
        }
    }
    let case = caught(wrong);
    assert_eq!(number(case.settings, &case.packet, case.i), 20);
    assert_eq!(case.packet.len(), 1);
}

/// The rule is taken from the packet and not from the group, or the old one alone is
/// known, or a byte that names no rule is taken for the old one.
#[test]
fn the_rule_of_the_packet_is_not_the_groups() {
    fn packets(group: Group, packet: &[u8], i: usize) -> Fetched {
        let right = by_model(group, packet, i);
        match right.number {
            27 => by_its_own(packet, i),
            _ => right,
        }
    }
    let case = caught(packets);
    assert_eq!(number(case.settings, &case.packet, case.i), 27);

    fn old_alone(group: Group, packet: &[u8], i: usize) -> Fetched {
        match packet.first() {
            Some(2) => by_model(group, &[&[9], &packet[1..]].concat(), i),
            _ => by_model(OLD, packet, i),
        }
    }
    let case = caught(old_alone);
    assert!(case.packet[0] == 2 || case.settings == NEW);

    fn any_byte(group: Group, packet: &[u8], i: usize) -> Fetched {
        let right = by_model(group, packet, i);
        match packet.first() {
            Some(0 | 3..) if right.number == 20 && rule_of(group) == Rule::Higher => {
                by_model(group, &[&[1], &packet[1..]].concat(), i)
            }
            _ => right,
        }
    }
    let case = caught(any_byte);
    assert_ne!(case.packet[0], 1);
    assert_ne!(case.packet[0], 2);
}
