//! Packets accepted once: every message taken and delivered, with the packet's own
//! facts and with any others.

use cetskobi::raw::{self, Accepted, Arrival, Fetched, Settings as Group};
use compare::crossing::{rule_of, settings_of};
use compare::group;
use compare::memory::Memory;
use compare::packet::accept::{self, Side, BY_MODEL};
use compare::packet::arrive;
use compare::packet::deliver;
use compare::packet::facts::{self, fetched_of, Told};
use compare::packet::fetch::full;
use compare::settings::Settings;
use compare::single::on_table;
use model::engine::Rule;

/// Each of these came so often, and nothing else.
fn often(what: &str, counts: &[u64], which: &[usize], least: u64) {
    for (answer, &times) in counts.iter().enumerate() {
        if which.contains(&answer) {
            println!("{times:8} times {what} {answer}");
            assert!(times >= least, "{what} {answer}: only {times} times");
        } else {
            assert_eq!(times, 0, "{what} {answer}");
        }
    }
}

/// With foreign facts, each case of the header.
fn each_case(what: &str, counts: &[u64; 5], least: u64) {
    for (told, &times) in Told::ALL.iter().zip(counts) {
        println!("{times:8} times {what}: {told:?}");
        assert!(times >= least, "{what}: {told:?} only {times} times");
    }
}

#[test]
fn damaged_packets() {
    let settings = Settings::from_env();
    match accept::compare(&settings, BY_MODEL) {
        Ok(tally) => {
            let answers = [0, 20, 21, 22, 27];
            often("accept answers", &tally.packets, &answers, 1000);
            let answers = [0, 20, 21, 22, 23, 27];
            often("a message answers", &tally.own, &answers, 1000);
            each_case("foreign facts", &tally.foreign, 1000);
            println!("{:8} entries that 22 was not asked of", tally.unasked);
            assert!(tally.unasked >= 1000);
            // 02, Wish 6: 5,400 and more of each; by byte 0 alone 4,200 and more. Also
            // entries of packets of the other rule, with foreign facts.
            tally.heads.often(&[0, 21, 22], 1000);
            println!("{:8} entries of the other rule", tally.unruled);
            assert!(tally.unruled >= 1000);
        }
        Err(found) => panic!("{settings}\n{found}"),
    }
}

#[test]
fn random_deliveries() {
    let settings = Settings::from_env();
    match arrive::compare(&settings, arrive::by_model) {
        Ok(tally) => {
            let answers = deliver::Case::answers();
            often("a delivery answers", &tally.own, &answers, 100);
            println!("{:8} of a later epoch", tally.later);
            assert!(tally.later >= 100);
            each_case("foreign facts", &tally.foreign, 1000);
            // Its own questions, also 12: nobody has asked 22.
            let answers = [0, 1, 2, 3, 4, 5, 10, 11, 12, 13, 14];
            often("an entry's delivery answers", &tally.entries, &answers, 100);
            println!("{:8} entries that 22 was not asked of", tally.unasked);
            assert!(tally.unasked >= 1000);
            // 02, Wish 6: the rarest is 27 before 21, some 130 under each rule.
            tally.heads.often(&[0, 21, 22, 23], 50);
            assert!(tally.own[27] >= 5000);
            println!("ties by each rule, not taken and taken: {:?}", tally.ties);
            assert!(tally.ties.as_flattened().iter().all(|&times| times >= 1500));
            println!("{:8} entries of the other rule", tally.unruled);
            assert!(tally.unruled >= 1000);
        }
        Err(found) => panic!("{settings}\n{found}"),
    }
}

/// A full packet, and what is told of it with facts of its own and of others. 02, Wish
/// 6: in a group with the other rule its own are 27 and no messages; and with those of
/// its own group it is taken there too, as byte 0 is not looked at again.
#[test]
fn a_full_packet() {
    for rule in Rule::ALL {
        full_packet(settings_of(rule), &full(rule));
    }
}

fn full_packet(group: Group, packet: &[u8]) {
    let own = raw::accept(group, packet);
    assert_eq!(own, facts::by_model(group, packet));
    assert_eq!((own.number, own.count), (0, 7));
    for i in [0, 1, 6, 7, 8, usize::MAX] {
        let fetched = raw::fetch(group, packet, i);
        assert_eq!(raw::fetch_accepted(packet, own, i), fetched);
    }
    for rule in 0..=255 {
        let other = Group { rule };
        let by_other = raw::accept(other, packet);
        assert_eq!(by_other, facts::by_model(other, packet));
        if rule_of(other) == rule_of(group) {
            assert_eq!(by_other, own);
            continue;
        }
        assert_eq!((by_other.number, by_other.count), (27, 0));
        for i in [0, 6, 7, usize::MAX] {
            let fetched = raw::fetch_accepted(packet, by_other, i);
            assert_eq!(fetched, raw::fetch(other, packet, i));
            assert_eq!((fetched.number, fetched.at, fetched.len), (27, 0, 0));
        }
    }
    let with = |number, count, i| {
        let facts = Accepted { number, count };
        let fetched = raw::fetch_accepted(packet, facts, i);
        assert_eq!(fetched, fetched_of(packet, facts, i));
        (fetched.number, Told::of(packet, facts, i))
    };
    assert_eq!(with(0, 6, 6), (23, Told::NoMessage));
    assert_eq!(with(21, 6, 6), (21, Told::Number));
    assert_eq!(with(200, 0, 0), (200, Told::Number));
    // The number is not looked at where i is below the count.
    assert_eq!(with(21, 6, 5), (0, Told::Entry));
    // Bytes of the bodies, 7 each, in the place of an entry: from 1,799 on.
    assert_eq!(with(0, 8, 7), (22, Told::NoBytes));
    // (1,400 - 4) / 16 is 87.
    assert_eq!(with(0, 255, 86), (22, Told::NoBytes));
    assert_eq!(with(0, 255, 87), (21, Told::NoEntry));
    assert_eq!(with(0, 255, 255), (23, Told::NoMessage));
}

/// An entry whose bytes end where the packet does, and one byte later; an empty
/// body at its end, and one byte later.
#[test]
fn bytes_at_the_end() {
    let facts = Accepted {
        number: 0,
        count: 1,
    };
    for (at, len, number) in [
        (20, 9, 0),
        (20, 10, 22),
        (0, 29, 0),
        (0, 30, 22),
        (29, 0, 0),
        (30, 0, 22),
        (65_535, 0, 22),
        (65_535, 255, 22),
    ] {
        let mut packet = [9; 29];
        packet[17..19].copy_from_slice(&u16::to_be_bytes(at));
        packet[19] = len;
        let fetched = raw::fetch_accepted(&packet, facts, 0);
        assert_eq!(fetched.number, number, "{at} {len}");
        assert_eq!(fetched, fetched_of(&packet, facts, 0));
    }
}

/// Wrong readers are found, by small packets.
#[test]
fn wrong_readers() {
    // The number of the facts is asked before their count.
    fn number_first(group: Group, packet: &[u8], facts: Accepted, i: usize) -> Fetched {
        match facts.number {
            0 => accept::by_model(group, packet, facts, i),
            _ => fetched_of(packet, Accepted { count: 0, ..facts }, i),
        }
    }
    // Facts of another packet are refused as its own would be.
    fn asks_again(group: Group, packet: &[u8], facts: Accepted, i: usize) -> Fetched {
        match facts::by_model(group, packet) {
            own if own.number == 22 && i < facts.count.into() => fetched_of(packet, own, i),
            _ => accept::by_model(group, packet, facts, i),
        }
    }
    // The same of its rule (02, Wish 6): byte 0 is looked at again.
    fn asks_the_rule(group: Group, packet: &[u8], facts: Accepted, i: usize) -> Fetched {
        match facts::by_model(group, packet) {
            own if own.number == 27 && i < facts.count.into() => fetched_of(packet, own, i),
            _ => accept::by_model(group, packet, facts, i),
        }
    }
    // The bytes of an entry are not looked at.
    fn beyond(group: Group, packet: &[u8], facts: Accepted, i: usize) -> Fetched {
        let right = accept::by_model(group, packet, facts, i);
        if Told::of(packet, facts, i) == Told::NoBytes {
            return Fetched { number: 0, ..right };
        }
        right
    }
    for wrong in [number_first, asks_again, asks_the_rule, beyond] {
        let side = Side {
            fetch: wrong,
            ..BY_MODEL
        };
        let found = accept::compare(&Settings::USUAL, side).expect_err("a difference");
        println!("{found}");
        assert!(found.shrunk.packet.len() <= 40);
        assert_ne!(found.shrunk.facts, None);
    }
    // Its own count is that of a refused packet too.
    fn counts(group: Group, packet: &[u8]) -> Accepted {
        let right = facts::by_model(group, packet);
        let count = packet.get(1).copied().unwrap_or(0);
        Accepted { count, ..right }
    }
    // 02, Wish 6: 27 is asked after 21; the same of 22; the rule is the packet's.
    fn after_21(group: Group, packet: &[u8]) -> Accepted {
        by_its_own(group, packet, &[21])
    }
    fn after_22(group: Group, packet: &[u8]) -> Accepted {
        by_its_own(group, packet, &[22])
    }
    fn packets(group: Group, packet: &[u8]) -> Accepted {
        by_its_own(group, packet, &[0, 21, 22])
    }
    for wrong in [counts, after_21, after_22, packets] {
        let side = Side {
            accept: wrong,
            ..BY_MODEL
        };
        let found = accept::compare(&Settings::USUAL, side).expect_err("a difference");
        println!("{found}");
        assert!(found.shrunk.packet.len() <= 40);
        assert_eq!(found.shrunk.facts, None);
    }
}

/// In the place of 27 what a group with the packet's own rule has of it, if its number
/// is one of these.
fn by_its_own(group: Group, packet: &[u8], numbers: &[u8]) -> Accepted {
    let right = facts::by_model(group, packet);
    let rule = packet.first().copied().unwrap_or(0);
    let own = facts::by_model(Group { rule }, packet);
    match right.number == 27 && numbers.contains(&own.number) {
        true => own,
        false => right,
    }
}

/// An arrival that is silent about a refused message, and one that tells what does
/// not stand there, are found.
#[test]
fn wrong_arrivals() {
    fn silent(case: &arrive::Case, memory: &mut Memory) -> Arrival {
        let right = arrive::by_model(case, memory);
        match right.answer.number {
            10 => Arrival { epoch: 0, ..right },
            _ => right,
        }
    }
    fn told(case: &arrive::Case, memory: &mut Memory) -> Arrival {
        let right = arrive::by_model(case, memory);
        match right.answer.number {
            23 => Arrival { sender: 1, ..right },
            _ => right,
        }
    }
    for (wrong, number) in [(silent as arrive::Arrive, 10), (told, 23)] {
        let found = arrive::compare(&Settings::USUAL, wrong).expect_err("a difference");
        println!("{found}");
        assert!(found.what.contains(&format!("number: {number}")));
    }
}

/// What must have come about in packets of several messages, at least so many times:
/// about half of what was counted.
const IN_ONE_PASS: [(&str, u64); 21] = [
    ("of fewer than 8", 30_000),
    ("of 8 or more", 1500),
    ("Inv at Valid", 9000),
    ("Inv at Invalid", 5000),
    ("Inv at InvalidWrite", 900),
    ("Inv at Write", 1500),
    ("Inv at Replay", 150),
    ("Inv answers 10", 7000),
    ("Inv answers 3", 900),
    ("Ack at Write", 7000),
    ("Ack at InvalidWrite", 700),
    ("Ack at Replay", 200),
    ("Ack answers 13", 9000),
    ("last Ack at Write: VAL", 5000),
    ("last Ack at InvalidWrite: no VAL", 300),
    ("last Ack at Replay: VAL", 80),
    ("Val at Invalid", 6000),
    ("Val at InvalidWrite", 400),
    ("Val at Replay", 8),
    ("Val answers 14", 6000),
    ("Val answers 10", 1000),
];

/// Whole groups, where messages come several at once. All kinds of them do, and are
/// taken or refused as by themselves.
#[test]
fn groups_in_one_pass() {
    let settings = Settings::from_env();
    match group::compare_in_packets(&settings, on_table) {
        Ok(tally) => {
            let times = |name: &str| tally.get(name).copied().unwrap_or_default();
            for (name, floor) in IN_ONE_PASS {
                let [old, new] = times(&format!("one pass: {name}"));
                println!("{old:8}{new:8} {name}");
                assert!(old + new >= floor, "{name}: only {old} and {new} times");
                assert!(old.min(new) >= floor / 4, "{name}: {old} and {new} times");
            }
            // 02, Wish 6: packets of a group with the other rule come too, and are
            // refused; 666 were the fewest.
            for name in ["Inv answers 27", "Ack answers 27", "Val answers 27"] {
                let by_rule = times(name);
                println!("{by_rule:?} {name}");
                assert!(by_rule.iter().all(|&times| times >= 300), "{name}");
            }
        }
        Err(found) => panic!("{settings}\n{found}"),
    }
}
