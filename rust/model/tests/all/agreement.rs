//! Random runs of small groups, with loss, repetition, reordering and changes
//! of view. Demand 3 is checked after every event, and so is what Wish 5 promises.

use std::collections::{BTreeMap, BTreeSet, HashMap};

use model::engine::{bit, Answer, Message, Record, Refusal, Rule, State, Timestamp};
use model::rng::Rng;

use crate::group::{Commit, Event, Group};
use crate::schedule::Schedule;
use crate::support::{ack, inv, other, rng, set, val, winner, Member};

const RUNS: usize = 8000;
const EVENTS: usize = 160;

/// How often each thing came about, so that no run is empty of it.
type Tally = BTreeMap<&'static str, u32>;

/// The name under which an accepted event is tallied.
fn name(
    group: &Group,
    before: &[Record],
    at: usize,
    event: &Event,
    answer: &Answer,
) -> &'static str {
    let member = &group.members[at];
    match *event {
        Event::Read { .. } => "read",
        Event::Write { .. } => "write",
        Event::Ask { .. } => "ask",
        Event::Commit { .. } => "commit",
        Event::Replay { record } => match before[record].state {
            State::InvalidWrite => "replay from invalid-write",
            _ => "replay",
        },
        Event::Resend { .. } => match answer {
            Ok(Some(Message::Inv(_))) => "resent INV",
            _ => "resent VAL",
        },
        Event::View { .. } => "view",
        Event::Validate { record } => match before[record].state {
            State::Write => "validated write",
            _ => "validated replay",
        },
        Event::Deliver { post } => {
            let envelope = &group.posts[post].envelope;
            let held = member.table[envelope.record];
            match envelope.message {
                Message::Inv(timestamp) => {
                    let older = held.timestamp.is_after(timestamp, group.rule);
                    match (older, held.state) {
                        (true, _) => "older INV",
                        (_, State::InvalidWrite) => "INV at a write",
                        _ => "INV",
                    }
                }
                Message::Ack(_) => match (before[envelope.record].state, answer) {
                    (State::Write, Ok(Some(_))) => "last ACK at a write",
                    (State::Replay, Ok(Some(_))) => "last ACK at a replay",
                    (State::InvalidWrite, _) if member.replica.others() & !held.acks == 0 => {
                        "last ACK at invalid-write"
                    }
                    _ => "ACK",
                },
                Message::Val(_) => match before[envelope.record].state {
                    State::InvalidWrite => "VAL at invalid-write",
                    State::Replay => "VAL at replay",
                    _ => "VAL",
                },
            }
        }
    }
}

/// The name under which the end of a replay from invalid-write is tallied too,
/// given that of the event.
fn end(name: &str) -> &'static str {
    match name {
        "last ACK at a replay" => "given up, last ACK",
        "validated replay" => "given up, validated",
        "VAL at replay" => "given up, VAL",
        "INV" => "given up, INV",
        _ => panic!("{name} ends no replay"),
    }
}

/// The names under which an INV of another number's, of the record's version, is
/// tallied besides (02, Wish 6).
fn of_tie(group: &Group, before: &[Record], event: &Event) -> Option<&'static str> {
    let Event::Deliver { post } = *event else {
        return None;
    };
    let envelope = &group.posts[post].envelope;
    let Message::Inv(new) = envelope.message else {
        return None;
    };
    let held = before[envelope.record].timestamp;
    if new.version != held.version || new.tie == held.tie {
        return None;
    }
    let won = winner(group.rule, &[new.tie, held.tie]) == new.tie;
    Some(if won { "tie, won" } else { "tie, lost" })
}

/// The names under which a commit on this stamp is tallied besides, given the
/// rule of ties; the record before; whether another has committed on it; and
/// whether this replica was handed it out.
fn of_commit(
    rule: Rule,
    answer: &Answer,
    before: &Record,
    opened: Timestamp,
    saved: bool,
    was_asked: bool,
) -> Vec<&'static str> {
    let held = before.timestamp;
    let names = [
        ("commit on a stamp of two", answer.is_ok() && saved),
        ("commit, 8", *answer == Err(Refusal::ValueTooLong)),
    ];
    let refused = *answer == Err(Refusal::NotAsOpened);
    let valid = before.state == State::Valid;
    let one_version = held.version == opened.version && held.tie != opened.tie;
    let one_tie = held.tie == opened.tie && held.version != opened.version;
    let of_26 = [
        ("26, not valid", !valid),
        (
            "26, a newer save between",
            valid && was_asked && held.is_after(opened, rule),
        ),
        ("26, the tie-breaker alone", valid && one_version),
        ("26, the version alone", valid && one_tie),
        ("26, a tie-breaker above 15", opened.tie > 15),
    ];
    let of_26 = of_26.map(|(name, so)| (name, refused && so));
    let all = names.into_iter().chain(of_26);
    all.filter(|(_, so)| *so).map(|(name, _)| name).collect()
}

/// Do all others in this member's view sit in invalid-write?
fn all_overtaken(group: &Group, at: usize, record: usize) -> bool {
    let members = group.members.iter();
    let overtaken = members.filter(|m| m.table[record].state == State::InvalidWrite);
    let overtaken = overtaken.fold(0, |all, m| all | bit(m.replica.number));
    group.members[at].replica.others() & !overtaken == 0
}

/// What an engine makes of a replayed record besides, given the record before.
type Besides = fn(&Record, &mut Record);

/// The engine as it is.
fn nothing(_: &Record, _: &mut Record) {}

fn run(
    rng: &mut Rng,
    rule: Rule,
    together: bool,
    tally: &mut Tally,
    besides: Besides,
) -> Result<(), String> {
    let start = Schedule::start(rng, rule, together);
    run_with(rng, start, tally, besides)
}

fn run_with(
    rng: &mut Rng,
    (mut group, mut schedule): (Group, Schedule),
    tally: &mut Tally,
    besides: Besides,
) -> Result<(), String> {
    // The commits: by record and stamp, who.
    let mut saved: HashMap<(usize, Timestamp), BTreeSet<usize>> = HashMap::new();
    // The records that were replayed from invalid-write and still are in replay.
    let mut given_up = BTreeSet::new();
    for _ in 0..EVENTS {
        let (at, event) = schedule.next(rng, &group);
        let before = group.members[at].table.clone();
        let answer = group.play(at, &event);
        if let Event::Commit { record, opened, .. } = event {
            let by = saved.entry((record, opened)).or_default();
            let others = by.iter().any(|other| *other != at);
            let was_asked = group.opened[at][record].stamps().any(|s| s == opened);
            for name in of_commit(
                group.rule,
                &answer,
                &before[record],
                opened,
                others,
                was_asked,
            ) {
                *tally.entry(name).or_default() += 1;
            }
            if answer.is_ok() {
                by.insert(at);
            }
        }
        if answer.is_ok() {
            let name = name(&group, &before, at, &event, &answer);
            *tally.entry(name).or_default() += 1;
            if let Some(name) = of_tie(&group, &before, &event) {
                *tally.entry(name).or_default() += 1;
            }
            for (record, held) in group.members[at].table.iter().enumerate() {
                if held.state != State::Replay && given_up.remove(&(at, record)) {
                    *tally.entry(end(name)).or_default() += 1;
                }
            }
            if let Event::Replay { record } = event {
                besides(&before[record], &mut group.members[at].table[record]);
                if before[record].state == State::InvalidWrite {
                    given_up.insert((at, record));
                    let all = u32::from(all_overtaken(&group, at, record));
                    *tally.entry("given up, all in invalid-write").or_default() += all;
                }
            }
        }
        let pairs = group.agreement()?;
        group.durability()?;
        group.opening()?;
        *tally.entry("valid pairs").or_default() += pairs;
    }
    Ok(())
}

#[test]
fn random_groups() {
    let mut rng = rng();
    for rule in Rule::ALL {
        let mut tally = Tally::new();
        for number in 0..RUNS / 2 {
            let together = rng.chance(1, 3);
            if let Err(broken) = run(&mut rng, rule, together, &mut tally, nothing) {
                panic!("run {number}, {rule:?}: {broken}");
            }
        }
        println!("{rule:?} {tally:?}");
        all_came_about(&tally);
    }
}

/// Nothing is missing from this tally of half the runs.
fn all_came_about(tally: &Tally) {
    let names = [
        "read",
        "write",
        "replay",
        "resent INV",
        "resent VAL",
        "view",
        "validated write",
        "validated replay",
        "INV",
        "older INV",
        "INV at a write",
        "ACK",
        "last ACK at a write",
        "last ACK at a replay",
        "last ACK at invalid-write",
        "VAL",
        "VAL at invalid-write",
        "VAL at replay",
        "valid pairs",
    ];
    // 02, Wish 2: replays from invalid-write are many, with each of their ends.
    let many = [
        ("replay from invalid-write", 500),
        ("given up, all in invalid-write", 100),
        ("given up, last ACK", 300),
        ("given up, validated", 5),
        ("given up, VAL", 60),
        ("given up, INV", 10),
    ];
    // 02, Wish 5.
    let saves = [
        ("ask", 7500),
        ("commit", 4000),
        ("commit on a stamp of two", 600),
        ("commit, 8", 2),
        ("26, not valid", 7500),
        ("26, a newer save between", 1500),
        ("26, the tie-breaker alone", 350),
        ("26, the version alone", 900),
        ("26, a tie-breaker above 15", 125),
    ];
    // 02, Wish 6.
    let ties = [("tie, won", 1000), ("tie, lost", 1000)];
    let many = many.into_iter().chain(saves).chain(ties);
    for (name, least) in names.map(|name| (name, 5)).into_iter().chain(many) {
        let times = tally.get(name).copied().unwrap_or(0);
        assert!(times >= least, "{name}: only {times} times");
    }
}

/// An engine that kept the acknowledgements of the save it gives up (02, Wish 2)
/// breaks demand 3, and the random runs see it.
#[test]
fn kept_acknowledgements() {
    let keep: Besides = |before, after| {
        if before.state == State::InvalidWrite {
            after.acks = before.acks;
        }
    };
    let mut rng = rng();
    for rule in Rule::ALL {
        let mut broken = 0;
        for _ in 0..RUNS {
            let done = run(&mut rng, rule, true, &mut Tally::new(), keep);
            broken += u32::from(done.is_err());
        }
        println!("{rule:?}: broken {broken}");
        assert!(broken >= 3, "{rule:?}: only {broken} runs broken");
    }
}

/// A laptop that has the other rule of ties, against the premises (02, Wish 6),
/// breaks demand 3, and the random runs see it.
#[test]
fn another_rule() {
    let mut rng = rng();
    for rule in Rule::ALL {
        let mut broken = 0;
        for _ in 0..RUNS / 4 {
            let (mut group, schedule) = Schedule::start(&mut rng, rule, true);
            let at = rng.below(group.members.len());
            group.members[at].replica.settings.rule = other(rule);
            let done = run_with(&mut rng, (group, schedule), &mut Tally::new(), nothing);
            broken += u32::from(done.is_err());
        }
        println!("{rule:?}: broken {broken}");
        assert!(broken >= 100, "{rule:?}: only {broken} runs broken");
    }
}

/// Engines that commit on a stamp other than the record's break what Wish 5
/// promises, and the random runs see it: one that saves over whatever is valid,
/// as a plain write does, and one that compares the version alone.
#[test]
fn commits_on_another_stamp() {
    let any: Commit = |member, record, _, value| match member.ask(record) {
        Ok(_) => member.write(record, value),
        Err(_) => Err(Refusal::NotAsOpened),
    };
    let version_alone: Commit = |member, record, opened, value| match member.ask(record) {
        Ok((_, held)) if held.version == opened.version => member.write(record, value),
        _ => Err(Refusal::NotAsOpened),
    };
    for (wrong, least) in [(any, 1000), (version_alone, 5)] {
        let mut rng = rng();
        let mut broken = 0;
        for number in 0..RUNS {
            let rule = Rule::ALL[number % 2];
            let (mut group, schedule) = Schedule::start(&mut rng, rule, true);
            group.commit = wrong;
            let done = run_with(&mut rng, (group, schedule), &mut Tally::new(), nothing);
            broken += u32::from(done.is_err_and(|what| what.contains("saved over")));
        }
        println!("broken {broken}");
        assert!(broken >= least, "only {broken} runs broken");
    }
}

/// A laptop that is set back, against the premises, shows an earlier stamp: the
/// check sees it, by a read and by an ask.
#[test]
fn the_check_of_what_is_shown_can_fail() {
    for rule in Rule::ALL {
        the_check_of_what_is_shown_can_fail_by(rule);
    }
}

fn the_check_of_what_is_shown_can_fail_by(rule: Rule) {
    for event in [Event::Read { record: 0 }, Event::Ask { record: 0 }] {
        let mut group = station(rule);
        let now = group.members[0].clone();
        group.members[0] = Member::start(rule, 0, set(&[0, 1, 2]), 1);
        assert_eq!(group.play(0, &event), Ok(None));
        group.members[0] = now.clone();
        assert_eq!(group.play(0, &event), Ok(None));
        assert_eq!(group.opening(), Ok(()));

        let mut other = group.clone();
        other.members[0].store[0] ^= 1;
        assert_eq!(other.play(0, &event), Ok(None));
        assert!(other.opening().is_err(), "another text of one stamp");

        group.members[0].table[0].timestamp.version = 0;
        assert_eq!(group.play(0, &event), Ok(None));
        assert!(group.opening().is_err(), "an earlier stamp");
    }
}

/// Replica 0 has written; 1 has acknowledged, 2 has heard nothing. The view
/// {0,1} of epoch 1 has come to 0 alone, which validates.
fn station(rule: Rule) -> Group {
    let mut group = Group::start(rule, &[0, 1, 2], set(&[0, 1, 2]), 1);
    let value = b"old ring".to_vec();
    let write = Event::Write { record: 0, value };
    let view = Event::View {
        epoch: 1,
        view: set(&[0, 1]),
    };
    assert_eq!(group.play(0, &write), Ok(Some(inv(1, 0))));
    let answer = group.play(1, &Event::Deliver { post: 0 });
    assert_eq!(answer, Ok(Some(ack(1, 0))));
    assert_eq!(group.play(0, &Event::Deliver { post: 1 }), Ok(None));
    assert_eq!(group.play(0, &view), Ok(None));
    let answer = group.play(0, &Event::Validate { record: 0 });
    assert_eq!(answer, Ok(Some(val(1, 0))));
    group
}

/// The fault of the first station: a replica that missed the change of view
/// takes a validation meant for the new group.
#[test]
fn the_first_station() {
    for rule in Rule::ALL {
        let mut group = station(rule);
        let answer = group.play(1, &Event::Deliver { post: 2 });
        assert_eq!(answer, Err(Refusal::OtherEpoch));
        assert!(group.agreement().is_ok());
        assert_eq!(group.durability(), Ok(()));
    }
}

/// The same with an altered epoch, against the premises: the check sees it.
#[test]
fn the_first_check_can_fail() {
    for rule in Rule::ALL {
        let mut group = station(rule);
        group.posts[2].envelope.epoch = 0;
        assert_eq!(group.play(1, &Event::Deliver { post: 2 }), Ok(None));
        assert!(group.agreement().is_err());
    }
}

/// A forged acknowledgement of 2's for 0's first write, which 2 has not heard of.
fn forge(group: &mut Group) {
    let value = b"new".to_vec();
    group
        .play(0, &Event::Write { record: 0, value })
        .expect("accepted");
    group.posts[0].envelope.message = ack(1, 0);
    group.posts[0].envelope.sender = 2;
    group.posts[0].body.clear();
}

/// A forged last acknowledgement validates while 2 still shows the old text.
#[test]
fn the_second_check_can_fail() {
    for rule in Rule::ALL {
        let mut group = Group::start(rule, &[0, 2], set(&[0, 2]), 1);
        forge(&mut group);
        assert_eq!(group.durability(), Ok(()));
        let answer = group.play(0, &Event::Deliver { post: 0 });
        assert_eq!(answer, Ok(Some(val(1, 0))));
        assert!(group.durability().is_err());
    }
}

/// The same by the separate validation: 1, whose acknowledgement is missing, is
/// struck off.
#[test]
fn the_second_check_can_fail_at_validate() {
    for rule in Rule::ALL {
        let mut group = Group::start(rule, &[0, 1, 2], set(&[0, 1, 2]), 1);
        forge(&mut group);
        assert_eq!(group.play(0, &Event::Deliver { post: 0 }), Ok(None));
        let view = Event::View {
            epoch: 1,
            view: set(&[0, 2]),
        };
        assert_eq!(group.play(0, &view), Ok(None));
        assert_eq!(group.durability(), Ok(()));
        let answer = group.play(0, &Event::Validate { record: 0 });
        assert_eq!(answer, Ok(Some(val(1, 0))));
        assert!(group.durability().is_err());
    }
}

/// A VAL sent again is no validation.
#[test]
fn a_resent_val_is_no_validation() {
    for rule in Rule::ALL {
        let mut group = Group::start(rule, &[0, 2], set(&[0, 2]), 1);
        let answer = group.play(0, &Event::Resend { record: 0 });
        assert_eq!(answer, Ok(Some(val(0, 0))));
        assert!(group.validations.is_empty());
    }
}
