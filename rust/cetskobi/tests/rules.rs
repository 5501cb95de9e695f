//! Document 02, Wish 6: the rule of ties, fixed at a group's start. To whom a tie
//! goes, who keeps the rule, and packets of a group with the other one.

use cetskobi::packet::{self, PACKET_MAX};
use cetskobi::{raw, sys, Arriving, Envelope, Laptop, Leaving, Message, Refusal, Reply};
use cetskobi::{Replica, Rule, Settings, State, Timestamp};
use std::collections::VecDeque;

/// Laptops 1, 2 and 5.
const VIEW: u16 = 0b10_0110;

fn stamp(version: u32, tie: u8) -> Timestamp {
    Timestamp { version, tie }
}

fn start(number: u8, rule: Rule) -> Laptop {
    Laptop::start(number, VIEW, rule, 3).expect("a laptop of the first view")
}

const fn other(rule: Rule) -> Rule {
    match rule {
        Rule::Higher => Rule::Lower,
        Rule::Lower => Rule::Higher,
    }
}

/// The identity of laptop 2 with this byte as its rule.
const fn identity(rule: u8) -> Replica {
    Replica {
        number: 2,
        settings: sys::Settings { rule },
        view: VIEW,
        epoch: 0,
    }
}

#[test]
fn rules_and_settings() {
    assert_eq!(Rule::ALL, [Rule::Higher, Rule::Lower]);
    assert_eq!([Rule::Higher, Rule::Lower].map(Rule::number), [1, 2]);
    assert_eq!(
        format!("a tie goes to the {} number", Rule::Lower),
        "a tie goes to the lower number"
    );
    for &rule in Rule::ALL {
        assert_eq!(rule.to_string(), rule.name());
        assert_eq!(Settings::from(rule), Settings::new(rule));
        assert_eq!(Settings::new(rule).rule, rule);
        let raw = sys::Settings {
            rule: rule.number(),
        };
        assert_eq!(sys::Settings::from(rule), raw);
        assert_eq!(sys::Settings::from(Settings::new(rule)), raw);
    }
    // Every byte is a rule: the new one's number is the new one.
    for byte in 0..=255 {
        let read = Settings::from(sys::Settings { rule: byte });
        assert_eq!(read.rule == Rule::Lower, byte == 2);
    }
}

/// A rule, settings or those of another laptop start alike; a fresh start is the
/// same under both, but for the rule.
#[test]
fn a_start_takes_settings() {
    for &rule in Rule::ALL {
        let l = start(2, rule);
        assert_eq!(l.settings(), Settings::new(rule));
        assert_eq!(l.identity(), identity(rule.number()));
        assert_eq!(Laptop::start(2, VIEW, l.settings(), 3), Ok(l.clone()));
        assert_eq!(
            Laptop::start(2, VIEW, l.identity().settings, 3),
            Ok(l.clone())
        );
        let [table, store] = [vec![9; 3 * 16], vec![9; 3 * 192]];
        let lent = Laptop::start_in(2, VIEW, rule, table, store).expect("a laptop");
        assert_eq!((lent.settings(), lent.store()), (l.settings(), l.store()));
        assert_eq!(l.record(2).map(|r| r.timestamp), Some(stamp(0, 1)));
        assert!(format!("{l:?}").contains(&format!("number: 2, rule: {rule:?}, epoch: 0")));
    }
    let [old, new] = [Rule::Higher, Rule::Lower].map(|rule| start(2, rule));
    assert_ne!(old, new);
    assert_eq!((old.table(), old.store()), (new.table(), new.store()));
    for rule in [Rule::Higher, Rule::Lower] {
        assert_eq!(
            Laptop::start(0, VIEW, rule, 3).err(),
            Some(Refusal::StruckOff)
        );
    }
}

/// Nothing changes the settings: not a view, accepted or refused, and no event.
#[test]
fn the_settings_stay() {
    for &rule in Rule::ALL {
        let mut l = start(2, rule);
        assert_eq!(l.change_view(0, VIEW), Err(Refusal::OldEpoch));
        assert_eq!(l.settings().rule, rule);
        assert_eq!(l.change_view(4, VIEW), Ok(()));
        assert_eq!((l.settings().rule, l.epoch()), (rule, 4));
        assert!(l.write(0, b"wren").is_ok());
        let inv = Envelope {
            sender: 1,
            epoch: 4,
            record: 0,
            message: Message::Inv(stamp(1, 1)),
        };
        assert!(l.deliver(Arriving::new(inv, b"robin")).is_ok());
        assert_eq!(l.settings().rule, rule);
        // A tie goes by the same rule as before the view.
        let state = l.record(0).map(|r| r.state);
        let right = match rule {
            Rule::Higher => State::Write,
            Rule::Lower => State::InvalidWrite,
        };
        assert_eq!(state, Some(right));
        // Struck off it keeps them too.
        assert_eq!(l.change_view(5, 0b10_0010), Ok(()));
        assert_eq!(l.read(1), Err(Refusal::StruckOff));
        let (me, table, store) = l.into_parts();
        assert_eq!(Laptop::from_parts(me, table, store).settings().rule, rule);
    }
}

/// Memory that the caller kept, with every byte as its rule.
#[test]
fn every_byte_of_an_identity_is_a_rule() {
    for byte in 0..=255 {
        let rule = if byte == 2 { Rule::Lower } else { Rule::Higher };
        let (_, table, store) = start(2, rule).into_parts();
        let mut l = Laptop::from_parts(identity(byte), table, store);
        assert_eq!(l, start(2, rule));
        assert_eq!(l.identity(), identity(rule.number()));
        assert_eq!(l.change_view(1, 0b110), Ok(()));
        assert_eq!(l.settings().rule, rule);
    }
}

/// Every message to those that it is for, in the order of their sending, until none
/// is left: all are accepted.
fn hand_over(group: &mut [Laptop], mut air: VecDeque<Leaving<'static>>) {
    while let Some(left) = air.pop_front() {
        for laptop in group.iter_mut() {
            if left.recipients().contains(laptop.number()) {
                let reply = laptop.deliver(left.arriving()).expect("accepted");
                air.extend(reply.leaving().map(Leaving::into_owned));
            }
        }
    }
}

/// Two laptops save one ring at once, any two of three: all show the text of the
/// rule's winner, and the other is in nobody's store.
#[test]
fn two_saves_at_once() {
    for (&rule, (a, b)) in Rule::ALL
        .iter()
        .flat_map(|rule| [(1, 2), (1, 5), (2, 5)].map(|two| (rule, two)))
    {
        for [first, second] in [[a, b], [b, a]] {
            let mut group = [1, 2, 5].map(|number| start(number, rule));
            let mut saved = |number| {
                let laptop = group
                    .iter_mut()
                    .find(|l| l.number() == number)
                    .expect("a laptop");
                let opened = laptop.ask(1).expect("shown");
                laptop
                    .commit(opened, &[number; 9])
                    .expect("accepted")
                    .into_owned()
            };
            let air = VecDeque::from([first, second].map(&mut saved));
            hand_over(&mut group, air);
            let (winner, loser) = match rule {
                Rule::Higher => (b, a),
                Rule::Lower => (a, b),
            };
            for laptop in &group {
                let opened = laptop.ask(1).expect("shown");
                assert_eq!(opened.timestamp(), stamp(1, winner), "{rule}: {a} and {b}");
                assert_eq!(opened.text(), [winner; 9]);
                assert!(!laptop.store().contains(&loser));
            }
        }
    }
}

/// The greater version stands, whatever the rule and the numbers.
#[test]
fn a_greater_version_is_no_tie() {
    for &rule in Rule::ALL {
        for [first, second] in [[1, 5], [5, 1]] {
            let mut group = [1, 2, 5].map(|number| start(number, rule));
            for number in [first, second] {
                let laptop = group
                    .iter_mut()
                    .find(|l| l.number() == number)
                    .expect("a laptop");
                let inv = laptop
                    .write(1, &[number; 9])
                    .expect("accepted")
                    .into_owned();
                hand_over(&mut group, VecDeque::from([inv]));
            }
            for laptop in &group {
                assert_eq!(laptop.read(1), Ok(&[second; 9][..]), "{rule}");
                assert_eq!(
                    laptop.record(1).map(|r| r.timestamp),
                    Some(stamp(2, second))
                );
            }
        }
    }
}

/// Which timestamp is later: what Rust says is what the engine does with an INV.
#[test]
fn later_is_what_the_engine_takes() {
    let stamps: Vec<Timestamp> = [0, 1, 2, u32::MAX - 1, u32::MAX]
        .iter()
        .flat_map(|&version| [0, 1, 2, 5, 15].map(|tie| stamp(version, tie)))
        .collect();
    for &rule in Rule::ALL {
        for (&held, &came) in stamps
            .iter()
            .flat_map(|a| stamps.iter().map(move |b| (a, b)))
        {
            let mut l = start(2, rule);
            let mut take = |t| {
                let inv = Envelope {
                    sender: 5,
                    epoch: 0,
                    record: 1,
                    message: Message::Inv(t),
                };
                assert!(l.deliver(Arriving::new(inv, b"")).is_ok());
                l.record(1).expect("a record").timestamp
            };
            // What a fresh record, with (0,1), does not take is not held.
            if take(held) != held {
                assert!(!held.later(stamp(0, 1), rule));
                continue;
            }
            let taken = take(came);
            assert_eq!(
                taken == came && came != held,
                came.later(held, rule),
                "{rule}: {came}, {held}"
            );
            let sides = [came.later(held, rule), held.later(came, rule), came == held];
            assert_eq!(sides.iter().filter(|s| **s).count(), 1);
            assert_eq!(came.compare(held, rule), held.compare(came, rule).reverse());
            assert_eq!(came.compare(held, rule).is_gt(), sides[0]);
        }
    }
}

/// The ACK of document 01's table in a packet of each rule, and what else is asked.
fn ack(rule: Rule) -> [u8; 20] {
    let byte = rule.number();
    [
        byte, 1, 0, 20, 2, 5, 0, 0, 0, 0, 0, 7, 0, 0, 0, 1, 2, 0, 20, 0,
    ]
}

/// Byte 0 is the group's rule, and nothing else of a packet goes by it.
#[test]
fn byte_0_of_a_packet() {
    for &rule in Rule::ALL {
        let mut five = Laptop::start(5, VIEW, rule, 8).unwrap();
        let settings = five.settings();
        let inv = Envelope {
            sender: 2,
            epoch: 0,
            record: 7,
            message: Message::Inv(stamp(1, 2)),
        };
        let left = five
            .deliver(Arriving::new(inv, b"wren"))
            .unwrap()
            .leaving()
            .unwrap();
        for byte_0 in [settings, rule.into()] {
            let mut out = [0xee; 21];
            assert_eq!(packet::pack(byte_0, [&left], &mut out), Ok(20));
            assert_eq!((&out[..20], out[20]), (&ack(rule)[..], 0xee));
        }
        let packet = ack(rule);
        let came = packet::fetch(rule, &packet, 0).unwrap();
        assert_eq!((came.envelope(), came.body()), (left.envelope(), &b""[..]));
    }
}

/// What leaves, or the refusal.
fn replied(reply: Result<Reply, Refusal>) -> Result<Option<Leaving<'static>>, Refusal> {
    reply.map(|reply| reply.leaving().map(Leaving::into_owned))
}

/// Both ways: nothing of the packet is taken, and nothing has changed. It is asked
/// right after 20: before 21, 22 and 23.
#[test]
fn a_packet_of_the_other_rule_is_refused() {
    for &rule in Rule::ALL {
        let mut l = Laptop::start(2, VIEW, rule, 8).unwrap();
        assert!(l.write(7, b"wren").is_ok());
        let before = l.clone();
        let mut refused = |packet: &[u8]| {
            let refusal = packet::messages(rule, packet).err();
            for i in [0, 1, 64, usize::MAX] {
                assert_eq!(packet::fetch(rule, packet, i).err(), refusal);
                assert_eq!(l.deliver_packet(packet, i).err(), refusal);
            }
            assert_eq!(l, before);
            refusal
        };
        let theirs = ack(other(rule));
        let with = |place: usize, byte| {
            let mut packet = theirs;
            packet[place] = byte;
            packet
        };
        assert_eq!(refused(&theirs), Some(Refusal::OtherRule));
        // Its contents cut short; a broken entry; a body that is none.
        assert_eq!(refused(&with(1, 2)), Some(Refusal::OtherRule));
        assert_eq!(refused(&with(4, 4)), Some(Refusal::OtherRule));
        assert_eq!(refused(&with(18, 21)), Some(Refusal::OtherRule));
        // No packet of any group.
        assert_eq!(refused(&theirs[..19]), Some(Refusal::PacketHead));
        assert_eq!(refused(&with(1, 0)), Some(Refusal::PacketHead));
        assert_eq!(refused(&with(1, 65)), Some(Refusal::PacketHead));
        for byte in (3..=255).chain([0]) {
            assert_eq!(refused(&with(0, byte)), Some(Refusal::PacketHead));
        }
        // The group's own is taken.
        assert_eq!(replied(l.deliver_packet(&ack(rule), 0)), Ok(None));
    }
}

/// Three texts of laptop 5, in records 0 to 2.
fn three(rule: Rule) -> Vec<u8> {
    let mut five = start(5, rule);
    let outbox = [0, 1, 2].map(|i| five.write(i, &[b'a'; 9][..3 * i]).unwrap().into_owned());
    let mut out = vec![0; PACKET_MAX];
    let len = packet::pack(rule, &outbox, &mut out).unwrap();
    out.truncate(len);
    out
}

/// Messages that were judged by one rule come to a laptop with the other: each is
/// refused, and tells no message, as `deliver_packet` does. Nothing is taken in, and
/// what the laptop's own group was to get goes on behind it.
#[test]
fn messages_judged_by_other_settings() {
    for &rule in Rule::ALL {
        let bytes = three(rule);
        let (mut ours, mut theirs) = (start(2, rule), start(2, other(rule)));
        let before = theirs.clone();
        let mut messages = packet::messages(ours.settings(), &bytes).unwrap();
        let arrival = theirs.deliver_next(&mut messages).expect("one more");
        assert_eq!(
            (arrival.sender(), arrival.epoch(), arrival.record()),
            (0, 0, 0)
        );
        assert_eq!(replied(arrival.reply()), Err(Refusal::OtherRule));
        assert_eq!(theirs, before);
        // That one is taken, as by every delivery; the next comes to a laptop of its group.
        assert_eq!(messages.len(), 2);
        let arrival = ours.deliver_next(&mut messages).expect("one more");
        assert_eq!((arrival.sender(), arrival.record()), (5, 1));
        assert!(matches!(replied(arrival.reply()), Ok(Some(_))));
        let last = theirs.deliver_next(&mut messages).expect("one more");
        assert_eq!(
            replied(last.reply()),
            replied(before.clone().deliver_packet(&bytes, 2))
        );
        assert_eq!(theirs.deliver_next(&mut messages), None);
        assert_eq!(ours.deliver_next(&mut messages), None);
        assert_eq!(theirs, before);
        assert_eq!([0, 1, 2].map(|i| ours.shows_valid(i)), [true, false, true]);
    }
}

/// An identity whose rule is another byte of the same meaning has the same settings:
/// its messages are taken as they were judged.
#[test]
fn messages_for_an_identity_with_any_byte() {
    let bytes = three(Rule::Higher);
    for byte in [0, 1, 3, 255] {
        let (_, table, store) = start(2, Rule::Higher).into_parts();
        let mut l = Laptop::from_parts(identity(byte), table, store);
        let mut messages = packet::messages(Rule::Higher, &bytes).unwrap();
        let arrival = l.deliver_next(&mut messages).expect("one more");
        assert_eq!((arrival.sender(), arrival.record()), (5, 0));
        assert!(arrival.reply().is_ok());
        let settings = sys::Settings { rule: byte };
        assert_eq!(raw::accept(settings, &bytes).count, 3);
        assert_eq!(packet::messages(settings, &bytes).unwrap().len(), 3);
    }
}
