//! Ties go to the lower number (02, Wish 6): two rules, fixed at a group's start.

use model::engine::{number, Record, Refusal, Replica, Rule, Settings, Sizes, State, Timestamp};
use model::packet::{self, Entry};
use model::player::play;
use model::rng::Rng;

use crate::group::{Event, Group};
use crate::support::{
    ack, from, in_one_pass, inv, messages_of, other, packet_of, rng, set, ts, val, winner, Member,
};

// The order of stamps.

/// Stamps of few versions with every tie-breaker, and some above 15.
fn stamps() -> Vec<Timestamp> {
    let versions = [0, 1, 2, u32::MAX - 1, u32::MAX];
    let ties = (0..16).chain([16, 127, 255]);
    let all = ties.flat_map(|tie| versions.map(|version| ts(version, tie)));
    all.collect()
}

/// A strict total order: of two different stamps one is the greater, none is
/// greater than itself, and greater than a greater one is greater.
#[test]
fn a_strict_total_order() {
    let all = stamps();
    for rule in Rule::ALL {
        for &a in &all {
            assert!(!a.is_after(a, rule));
            for &b in &all {
                let greater = [a.is_after(b, rule), b.is_after(a, rule)];
                let expected = usize::from(a != b);
                let count = greater.into_iter().filter(|&so| so).count();
                assert_eq!(count, expected, "{rule:?} {a:?} {b:?}");
                for &c in &all {
                    let both = a.is_after(b, rule) && b.is_after(c, rule);
                    assert!(!both || a.is_after(c, rule), "{rule:?} {a:?} {b:?} {c:?}");
                }
            }
        }
    }
}

#[test]
fn a_greater_version_wins_by_either_rule() {
    let all = stamps();
    for &a in &all {
        for b in all.iter().filter(|b| b.version < a.version) {
            for rule in Rule::ALL {
                assert!(a.is_after(*b, rule), "{rule:?} {a:?} {b:?}");
            }
        }
    }
}

/// Only the tie depends on the rule, and there the two are each other's opposite.
#[test]
fn ties() {
    for version in [0, 1, u32::MAX] {
        for high in 1..16 {
            for low in 0..high {
                let (h, l) = (ts(version, high), ts(version, low));
                assert!(h.is_after(l, Rule::Higher) && !l.is_after(h, Rule::Higher));
                assert!(l.is_after(h, Rule::Lower) && !h.is_after(l, Rule::Lower));
                assert!(Rule::Higher.wins(high, low) && !Rule::Higher.wins(low, high));
                assert!(Rule::Lower.wins(low, high) && !Rule::Lower.wins(high, low));
            }
        }
    }
}

// One laptop: 2, view {1,2,5}.

/// An INV against the record's stamp, all numbers against all: it is acknowledged,
/// and taken if it wins by this laptop's rule.
#[test]
fn an_inv_at_a_tie() {
    for rule in Rule::ALL {
        for state in State::ALL {
            for held in 0..16 {
                for new in 0..16 {
                    an_inv_at(rule, state, (3, held), (3, new));
                    // Where the version differs, it alone counts.
                    an_inv_at(rule, state, (3, held), (2, new));
                    an_inv_at(rule, state, (3, held), (4, new));
                }
            }
        }
    }
}

fn an_inv_at(rule: Rule, state: State, held: (u32, u8), new: (u32, u8)) {
    let mut member = Member::ringing_by(rule);
    member.store[0] = b'h';
    member.table[0] = Record {
        state,
        timestamp: ts(held.0, held.1),
        last_writer: 2,
        last_write: ts(1, 2),
        acks: set(&[1]),
        len: 1,
    };
    let mut expected = member.clone();
    let won = match rule {
        Rule::Higher => new.0 > held.0 || new.0 == held.0 && new.1 > held.1,
        Rule::Lower => new.0 > held.0 || new.0 == held.0 && new.1 < held.1,
    };
    if won {
        expected.store[..3].copy_from_slice(b"new");
        expected.table[0] = Record {
            state: match state {
                State::Valid | State::Invalid | State::Replay => State::Invalid,
                State::Write | State::InvalidWrite => State::InvalidWrite,
            },
            timestamp: ts(new.0, new.1),
            last_writer: 5,
            len: 3,
            ..member.table[0]
        };
    }
    let answer = member.deliver(&from(5, inv(new.0, new.1)), b"new");
    assert_eq!(answer, Ok(Some(ack(new.0, new.1))));
    assert_eq!(member, expected, "{rule:?} {state:?} {held:?} {new:?}");
}

/// The ringing table's laptop by the new rule: 5's save does not overtake its own,
/// 1's does.
#[test]
fn the_ringing_tables_laptop() {
    let mut member = Member::ringing_by(Rule::Lower);
    assert_eq!(member.table, [Record::fresh(1)]);
    assert_eq!(member.write(0, b"A1"), Ok(Some(inv(1, 2))));
    let written = member.clone();
    let answer = member.deliver(&from(5, inv(1, 5)), b"B");
    assert_eq!((answer, &member), (Ok(Some(ack(1, 5))), &written));
    let answer = member.deliver(&from(1, inv(1, 1)), b"C");
    assert_eq!(answer, Ok(Some(ack(1, 1))));
    let overtaken = Record {
        state: State::InvalidWrite,
        timestamp: ts(1, 1),
        last_writer: 1,
        len: 1,
        ..written.table[0]
    };
    assert_eq!(member.table, [overtaken]);
    assert_eq!(member.store[0], b'C');
    assert_eq!(member.deliver(&from(1, val(1, 1)), b""), Ok(None));
    assert_eq!(member.read(0), Ok(&b"C"[..]));
}

/// What a fresh start gives does not depend on the rule: the lowest number in the
/// view stands in the stamps, and is last writer.
#[test]
fn the_lowest_number_at_a_fresh_start() {
    for rule in Rule::ALL {
        for (view, lowest) in [
            (set(&[1, 2, 5]), 1),
            (set(&[0, 2]), 0),
            (set(&[2, 15]), 2),
            (u16::MAX, 0),
        ] {
            let member = Member::start(rule, 2, view, 3);
            let fresh = Record {
                state: State::Valid,
                timestamp: ts(0, lowest),
                last_writer: lowest,
                last_write: ts(0, lowest),
                acks: 0,
                len: 0,
            };
            assert_eq!(member.table, [fresh; 3]);
            assert_eq!(member.store, [0; 3 * 192]);
            let settings = Settings { rule };
            let started = Replica {
                number: 2,
                epoch: 0,
                view,
                settings,
            };
            assert_eq!(member.replica, started);

            let sizes = Sizes::of(&member.table, &member.store);
            let (mut record, mut slot) = (Record::fresh(9), [3; 192]);
            let one = Replica::start_one(2, view, settings, sizes, &mut record, &mut slot);
            assert_eq!((one, record, slot), (Ok(started), fresh, [0; 192]));
        }
    }
}

/// A view keeps the rule, accepted or refused; so does a laptop that is struck off.
#[test]
fn a_view_keeps_the_rule() {
    for rule in Rule::ALL {
        let mut member = Member::ringing_by(rule);
        assert!(member.view(0, set(&[1, 2])).is_err());
        assert_eq!(member.rule(), rule);
        assert_eq!(member.view(1, set(&[1, 2, 5])), Ok(None));
        assert_eq!(member.view(7, set(&[2, 5])), Ok(None));
        assert_eq!(member.replica.settings, Settings { rule });
        // It counts after the view too.
        assert_eq!(member.write(0, b"own"), Ok(Some(inv(1, 2))));
        let mut envelope = from(5, inv(1, 5));
        envelope.epoch = 7;
        assert!(member.deliver(&envelope, b"other").is_ok());
        let expected = match rule {
            Rule::Higher => (State::InvalidWrite, ts(1, 5)),
            Rule::Lower => (State::Write, ts(1, 2)),
        };
        let [held] = member.table[..] else {
            panic!("one record");
        };
        assert_eq!((held.state, held.timestamp), expected);
        member.replica.number = 1;
        assert_eq!(member.view(8, set(&[2, 5])), Err(Refusal::StruckOff));
        assert_eq!(member.rule(), rule);
    }
}

/// Two laptops that are equal but for the rule answer alike, unless an INV ties.
#[test]
fn equal_but_for_the_rule() {
    let [mut old, mut new] = Rule::ALL.map(Member::ringing_by);
    let alike = |old: &Member, new: &Member| old.table == new.table && old.store == new.store;
    assert!(alike(&old, &new));
    assert_eq!(old.write(0, b"own"), new.write(0, b"own"));
    for (envelope, body) in [
        (from(1, ack(1, 2)), &b""[..]),
        (from(5, inv(2, 5)), b"greater"),
        (from(1, inv(1, 1)), b"lesser"),
        (from(5, val(2, 5)), b""),
    ] {
        let answer = old.deliver(&envelope, body);
        assert!(answer.is_ok());
        assert_eq!(answer, new.deliver(&envelope, body));
        assert!(alike(&old, &new));
    }
    // The answer is the same ACK, the record is not.
    let tie = from(1, inv(2, 1));
    assert_eq!(old.deliver(&tie, b"tie"), new.deliver(&tie, b"tie"));
    assert!(!alike(&old, &new));
    assert_eq!(old.read(0), Ok(&b"greater"[..]));
    assert_eq!(new.read(0), Err(Refusal::NotReadable));
}

// Whole groups.

fn text(number: u8) -> Vec<u8> {
    format!("saved by {number}").into_bytes()
}

/// These laptops save at once, and everything arrives: first these messages, each at
/// the member of this place.
fn saved_at_once(rule: Rule, numbers: &[u8], savers: usize, first: &[(usize, usize)]) -> Group {
    let mut group = Group::start(rule, numbers, set(numbers), 1);
    for (at, &number) in numbers[..savers].iter().enumerate() {
        let value = text(number);
        let write = Event::Write { record: 0, value };
        assert_eq!(group.checked(at, &write), Ok(Some(inv(1, number))));
    }
    for &(post, at) in first {
        let answer = group.checked(at, &Event::Deliver { post });
        assert!(answer.is_ok(), "{answer:?}");
    }
    let places: Vec<usize> = (0..numbers.len()).collect();
    group.everything_arrives(0, &places);
    group
}

fn all_show(group: &Group, number: u8) {
    for member in &group.members {
        let shown = (&text(number)[..], ts(1, number));
        assert_eq!(member.ask(0), Ok(shown), "{:?}", member.replica);
    }
}

/// Two laptops save at once, of any two numbers: all are left with the text of the
/// higher number by the old rule, of the lower by the new. A third one may hear of
/// the one first or of the other.
#[test]
fn two_saves_at_once() {
    for a in 0..16 {
        for b in (0..16).filter(|&b| b != a) {
            let third = (0..16).find(|&c| c != a && c != b).expect("a third");
            for numbers in [&[a, b][..], &[a, b, third]] {
                for first in [0, 1] {
                    // Its INV comes to the other saver, or to the third.
                    let at = if numbers.len() == 3 { 2 } else { 1 - first };
                    let by = |rule| saved_at_once(rule, numbers, 2, &[(first, at)]);
                    all_show(&by(Rule::Higher), a.max(b));
                    all_show(&by(Rule::Lower), a.min(b));
                }
            }
        }
    }
}

/// All of a group save at once, and what is heard first varies.
#[test]
fn all_save_at_once() {
    let mut rng = rng();
    for _ in 0..3000 {
        let numbers = some_numbers(&mut rng);
        let size = numbers.len();
        for rule in Rule::ALL {
            let mut first = Vec::new();
            for _ in 0..rng.below(8) {
                let (post, at) = (rng.below(size), rng.below(size));
                if post != at {
                    first.push((post, at));
                }
            }
            let group = saved_at_once(rule, &numbers, size, &first);
            all_show(&group, winner(rule, &numbers));
        }
    }
}

fn some_numbers(rng: &mut Rng) -> Vec<u8> {
    let mut numbers: Vec<u8> = Vec::new();
    let size = 2 + rng.below(4);
    while numbers.len() < size {
        let number = rng.below(16) as u8;
        if !numbers.contains(&number) {
            numbers.push(number);
        }
    }
    numbers
}

/// A later save of the number that loses ties wins against an earlier one.
#[test]
fn a_later_save_wins() {
    for rule in Rule::ALL {
        for later in [0, 1] {
            let mut group = saved_at_once(rule, &[3, 9], 1, &[]);
            let number = [3, 9][later];
            let value = b"later".to_vec();
            let post = group.posts.len();
            let write = Event::Write { record: 0, value };
            let answer = group.checked(later, &write);
            assert_eq!(answer, Ok(Some(inv(2, number))));
            group.everything_arrives(post, &[0, 1]);
            for member in &group.members {
                assert_eq!(member.ask(0), Ok((&b"later"[..], ts(2, number))));
            }
        }
    }
}

/// The winner of a tie dies; whoever is left, and was overtaken, replays its save
/// (Wish 2 by either rule).
#[test]
fn the_winner_dies() {
    let numbers = [4, 7, 11];
    for rule in Rule::ALL {
        let wins = winner(rule, &numbers);
        let dead = numbers.iter().position(|&n| n == wins).expect("a place");
        let left: Vec<usize> = (0..3).filter(|&at| at != dead).collect();
        let mut group = Group::start(rule, &numbers, set(&numbers), 1);
        for (at, &number) in numbers.iter().enumerate() {
            let value = text(number);
            let write = Event::Write { record: 0, value };
            assert!(group.checked(at, &write).is_ok());
        }
        // One of those left hears of it.
        let post = Event::Deliver { post: dead };
        assert_eq!(group.checked(left[0], &post), Ok(Some(ack(1, wins))));
        let view = set(&numbers) & !set(&[wins]);
        for &at in &left {
            let view = Event::View { epoch: 1, view };
            assert_eq!(group.checked(at, &view), Ok(None));
        }
        let post = group.posts.len();
        let answer = group.checked(left[0], &Event::Replay { record: 0 });
        assert_eq!(answer, Ok(Some(inv(1, wins))));
        group.everything_arrives(post, &left);
        for &at in &left {
            let shown = (&text(wins)[..], ts(1, wins));
            assert_eq!(group.members[at].ask(0), Ok(shown));
        }
    }
}

// Packets.

#[test]
fn byte_0() {
    assert_eq!(Rule::ALL.map(Rule::byte), [1, 2]);
    for byte in 0..=255 {
        let expected = match byte {
            1 => Some(Rule::Higher),
            2 => Some(Rule::Lower),
            _ => None,
        };
        assert_eq!(Rule::of_byte(byte), expected);
    }
    // The ringing table's packet, and its like by the new rule.
    let mut envelope = from(5, ack(1, 2));
    envelope.record = 7;
    let mut bytes = [1, 1, 0, 20, 2, 5, 0, 0, 0, 0, 0, 7, 0, 0, 0, 1, 2, 0, 20, 0];
    let old = packet_of(Rule::Higher, &[(envelope, b"")]);
    assert_eq!(old.as_deref(), Ok(&bytes[..]));
    bytes[0] = 2;
    let new = packet_of(Rule::Lower, &[(envelope, b"")]);
    assert_eq!(new.as_deref(), Ok(&bytes[..]));
    let fetched = packet::fetch(Rule::Lower, &bytes, 0);
    assert_eq!(fetched, Ok((envelope, &b""[..])));
}

/// An INV with a body, and an ACK.
fn two(rule: Rule) -> Vec<u8> {
    let messages = [
        (from(5, inv(1, 5)), &b"B7"[..]),
        (from(1, ack(1, 2)), &b""[..]),
    ];
    packet_of(rule, &messages).expect("accepted")
}

/// Message `index` is refused by this number, however it is read, and a delivery
/// of it moves nothing.
fn refuses(rule: Rule, bytes: &[u8], index: usize, no: u8) {
    assert_eq!(number(&packet::fetch(rule, bytes, index)), no);
    let accepted = packet::accept(rule, bytes);
    assert_eq!(number(&accepted), if no == 23 { 0 } else { no });
    let message = accepted.and_then(|all| all.message(index));
    assert_eq!(number(&message), no);
    let mut member = Member::ringing_by(rule);
    let before = member.clone();
    assert_eq!(number(&member.deliver_packet(bytes, index)), no);
    assert_eq!(member, before);
}

#[test]
fn every_byte_0() {
    for rule in Rule::ALL {
        let mut bytes = two(rule);
        assert_eq!(bytes[0], rule.byte());
        for byte in (0..=255).filter(|&byte| byte != rule.byte()) {
            bytes[0] = byte;
            let expected = if matches!(byte, 1 | 2) { 27 } else { 20 };
            for index in [0, 1, 2, usize::MAX] {
                refuses(rule, &bytes, index, expected);
            }
        }
    }
    assert_eq!(Refusal::OtherRule.number(), 27);
}

/// A packet of the other group's, as that group wrote it: 27 both ways.
#[test]
fn a_packet_of_the_other_group() {
    for rule in Rule::ALL {
        let bytes = two(other(rule));
        refuses(rule, &bytes, 0, 27);
        let answer = packet::fetch(rule, &bytes, 0);
        assert_eq!(answer, Err(Refusal::OtherRule));
        let mut member = Member::ringing_by(rule);
        let answer = member.deliver_packet(&bytes, 0);
        assert_eq!(answer, Err(Refusal::OtherRule));
        let mut member = Member::ringing_by(other(rule));
        let answer = member.deliver_packet(&bytes, 0);
        assert_eq!(answer, Ok(Some(ack(1, 5))));
        assert_eq!(&member.store[..3], b"B7\0");
    }
}

/// What fails a question of packets, in a group with this rule.
type Fault = (u8, fn(Rule, &mut Vec<u8>));

/// Each pair of faults answers the one that is asked first: 20, 27, 21, 22, 23.
#[test]
fn pairs_of_faults() {
    let faults: [Fault; 12] = [
        (20, |_, p| p[1] = 0),
        (20, |_, p| p[1] = 65),
        (20, |_, p| p[2] = 1),
        (20, |_, p| p.push(0)),
        (20, |_, p| p.truncate(3)),
        (20, |_, p| p.truncate(1)),
        (27, |rule, p| p[0] = other(rule).byte()),
        (21, |_, p| p[1] = 3),
        (21, |_, p| p[1] = 64),
        (22, |_, p| p[20] = 9),
        (22, |_, p| p[4 + 14] += 1),
        (22, |_, p| p[4 + 15] += 1),
    ];
    let places = [20, 27, 21, 22, 23];
    let place = |no: u8| places.iter().position(|&question| question == no);
    for rule in Rule::ALL {
        for (i, &(first, spoil)) in faults.iter().enumerate() {
            let mut bytes = two(rule);
            spoil(rule, &mut bytes);
            refuses(rule, &bytes, 0, first);
            // With 23 too.
            refuses(rule, &bytes, 2, first);
            for &(second, spoil_too) in &faults[i + 1..] {
                if first == second {
                    continue;
                }
                let mut bytes = two(rule);
                // The earlier question's fault last, since it may cut the packet.
                spoil_too(rule, &mut bytes);
                spoil(rule, &mut bytes);
                assert!(place(first) < place(second));
                refuses(rule, &bytes, 0, first);
                refuses(rule, &bytes, 2, first);
            }
        }
        refuses(rule, &two(rule), 2, 23);
        // All at once, one question after the other being put right.
        let mut bytes = two(rule);
        bytes[20] = 9;
        refuses(rule, &bytes, 2, 22);
        bytes[1] = 3;
        refuses(rule, &bytes, 2, 21);
        bytes[0] = other(rule).byte();
        refuses(rule, &bytes, 2, 27);
        bytes[3] += 1;
        refuses(rule, &bytes, 2, 20);
    }
}

/// Packets too short for a head answer 20, whatever their byte 0.
#[test]
fn short_packets() {
    for rule in Rule::ALL {
        for len in 0..4 {
            for byte in 0..=3 {
                let bytes = [byte, 1, 0, len as u8];
                refuses(rule, &bytes[..len], 0, 20);
            }
        }
        // A head alone, of either rule.
        refuses(rule, &[rule.byte(), 1, 0, 4], 0, 21);
        refuses(rule, &[other(rule).byte(), 1, 0, 4], 0, 27);
    }
}

/// Entries and bodies, mostly such as make a packet.
fn some_entries(rng: &mut Rng) -> (Vec<Entry>, Vec<u8>) {
    let mut entries = Vec::new();
    let mut bodies = Vec::new();
    for _ in 0..rng.below(8) {
        let version = rng.next_u64() as u32;
        let tie = rng.below(16) as u8 + u8::from(rng.chance(1, 40));
        let (message, len) = match rng.below(3) {
            0 => (inv(version, tie), rng.below(193)),
            1 => (ack(version, tie), 0),
            _ => (val(version, tie), 0),
        };
        let mut envelope = from(rng.below(16) as u8, message);
        envelope.epoch = rng.next_u64() as u32;
        envelope.record = rng.below(4096);
        let len = len as u8;
        entries.push(Entry { envelope, len });
        let mut body = vec![0; usize::from(len)];
        rng.fill(&mut body);
        bodies.extend(body);
    }
    if rng.chance(1, 10) {
        bodies.push(0);
    }
    (entries, bodies)
}

/// Both groups' writers answer alike, and byte 0 alone differs. Each packet is read
/// back by its own group, and refused by the other with 27.
#[test]
fn byte_0_alone_differs() {
    let mut rng = rng();
    let mut answers = [0; 28];
    for _ in 0..6000 {
        let (entries, bodies) = some_entries(&mut rng);
        let room = [1500, 1400, rng.below(600)][rng.below(3)];
        let [old, new] = Rule::ALL.map(|rule| {
            let mut out = vec![0xee; room];
            (packet::write(rule, &entries, &bodies, &mut out), out)
        });
        assert_eq!(old.0, new.0);
        answers[usize::from(number(&old.0))] += 1;
        let Ok(total) = old.0 else {
            assert!([old.1, new.1].concat().iter().all(|&byte| byte == 0xee));
            continue;
        };
        assert_eq!((old.1[0], new.1[0]), (1, 2));
        assert_eq!(old.1[1..], new.1[1..]);

        let mut rest = &bodies[..];
        let mut expected = Vec::new();
        for entry in &entries {
            let (body, behind) = rest.split_at(usize::from(entry.len));
            expected.push((entry.envelope, body));
            rest = behind;
        }
        for (rule, bytes) in [(Rule::Higher, &old.1), (Rule::Lower, &new.1)] {
            let bytes = &bytes[..total];
            assert_eq!(messages_of(rule, bytes).as_ref(), Ok(&expected));
            assert_eq!(in_one_pass(rule, bytes).as_ref(), Ok(&expected));
            for index in 0..=entries.len() {
                refuses(other(rule), bytes, index, 27);
            }
        }
    }
    println!("{answers:?}");
    for answer in [0, 24, 25] {
        assert!(answers[answer] > 100, "{answer}: {}", answers[answer]);
    }
}

/// Any bytes: either both groups answer 20, or one of them answers 27 and the other
/// something else. With the other's byte 0 the answers are exchanged.
#[test]
fn any_bytes_in_both_groups() {
    let mut rng = rng();
    let mut seen = [0; 28];
    for _ in 0..20_000 {
        let mut bytes = two(Rule::ALL[rng.below(2)]);
        for _ in 0..rng.below(3) {
            let at = rng.below(bytes.len());
            bytes[at] = [rng.below(4), rng.below(256)][rng.below(2)] as u8;
        }
        if rng.chance(1, 8) {
            bytes.truncate(rng.below(bytes.len()));
        }
        let index = rng.below(3);
        let answers = Rule::ALL.map(|rule| packet::fetch(rule, &bytes, index));
        match answers.map(|answer| number(&answer)) {
            [20, 20] => seen[20] += 1,
            [27, no] | [no, 27] => {
                assert!(no != 20 && no != 27);
                seen[usize::from(no)] += 1;
                seen[27] += 1;
            }
            both => panic!("{both:?} of {bytes:?}"),
        }
        let named = bytes.first().copied().and_then(Rule::of_byte);
        if let Some(rule) = named {
            let mut changed = bytes.clone();
            changed[0] = other(rule).byte();
            let exchanged = Rule::ALL.map(|rule| packet::fetch(other(rule), &changed, index));
            assert_eq!(exchanged, answers);
        }
    }
    println!("{seen:?}");
    for answer in [0, 20, 21, 22, 23, 27] {
        assert!(seen[answer] > 50, "{answer}: {}", seen[answer]);
    }
}

/// What a group sends in packets, its own laptops take, and the other group's do not.
#[test]
fn packets_between_laptops() {
    for rule in Rule::ALL {
        let view = set(&[1, 2]);
        let mut a = Member::start(rule, 1, view, 1);
        let mut b = Member::start(rule, 2, view, 1);
        assert_eq!(a.write(0, b"of 1"), Ok(Some(inv(1, 1))));
        assert_eq!(b.write(0, b"of 2"), Ok(Some(inv(1, 2))));
        let of = |member: &Member, text: &[u8]| {
            let sent = member.resend(0).expect("accepted").expect("an INV");
            packet_of(rule, &[(member.replica.envelope(0, sent), text)]).expect("accepted")
        };
        let (from_a, from_b) = (of(&a, b"of 1"), of(&b, b"of 2"));
        let mut stranger = Member::start(other(rule), 2, view, 1);
        let answer = stranger.deliver_packet(&from_a, 0);
        assert_eq!(answer, Err(Refusal::OtherRule));
        assert_eq!(a.deliver_packet(&from_b, 0), Ok(Some(ack(1, 2))));
        assert_eq!(b.deliver_packet(&from_a, 0), Ok(Some(ack(1, 1))));
        let wins = winner(rule, &[1, 2]);
        for member in [&a, &b] {
            let held = member.table[0].timestamp;
            assert_eq!(held, ts(1, wins));
            assert_eq!(member.store[..5], [b'o', b'f', b' ', b'0' + wins, 0]);
        }
    }
}

// The playing program keeps the old rule.

#[test]
fn the_playing_program() {
    let input = b"group 3\nwrite 0 a\nwrite 1 b\nwrite 2 c\ndeliver 0 1\ndeliver 1 0\n\
                  deliver 2 0\ndeliver 2 1\ndeliver 1 2\ndeliver 0 2\n";
    let printed = "0 W 1 0 0\n0 W 1 1 1\n0 W 1 2 2\n0 X 1 1 3\n0 W 1 1 4\n\
                   0 W 1 2 5\n0 W 1 2 6\n0 X 1 2 7\n0 X 1 2 8\n";
    assert_eq!(play(input), printed.as_bytes());
    // It has no word for the new one.
    for line in ["group 3 2", "group 3 lower", "group 3 2\nread 0", "rule 2"] {
        assert_eq!(play(line.as_bytes()), b"?\n");
    }
    for line in ["rule 2", "rule 0 2", "lower 0", "group 2"] {
        let input = format!("group 2\n{line}\n");
        assert_eq!(play(input.as_bytes()), b"?\n");
    }
}
