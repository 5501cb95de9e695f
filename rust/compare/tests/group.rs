//! Random runs of whole groups, of 64 to 4,096 records.

use compare::bytes::Bytes;
use compare::group::{by_hand, compare, Entry, Group, OnTable, Run, Tally, What};
use compare::settings::Settings;
use compare::single::{on_table, Case, Event, Outcome};
use model::engine::{Record, Rule, State};

/// What must have come about, each at least so many times.
const OFTEN: u64 = 40;
const NAMES: [&str; 44] = [
    "Ack answers 10",
    "Ack answers 11",
    "Ack answers 13",
    "Ack answers 3",
    "Ack at InvalidWrite",
    "Ack at Replay",
    "Ack at Write",
    "Inv answers 10",
    "Inv answers 11",
    "Inv answers 3",
    "Inv at Invalid",
    "Inv at InvalidWrite",
    "Inv at Replay",
    "Inv at Valid",
    "Inv at Write",
    "Read answers 4",
    "Read answers 6",
    "Read at Valid",
    "Replay answers 16",
    "Replay at Invalid",
    "Resend answers 17",
    "Resend at Replay",
    "Resend at Valid",
    "Resend at Write",
    "Val answers 10",
    "Val answers 11",
    "Val answers 14",
    "Val at Invalid",
    "Val at InvalidWrite",
    "Val at Replay",
    "Validate answers 15",
    "Validate at Replay",
    "Validate at Write",
    "View answers 0",
    "View answers 18",
    "View answers 19",
    "Write answers 7",
    "Write answers 8",
    "Write at Invalid",
    "Write at Valid",
    "last Ack at InvalidWrite: no VAL",
    "last Ack at Replay: VAL",
    "last Ack at Write: VAL",
    "valid pairs",
];

/// Document 02, Wish 2, more often: 1,229 replays from invalid-write, and what
/// became of them and of the saves that they gave up, were counted.
const MANY: [(&str, u64); 7] = [
    ("Replay at Invalid answers 16", 8000),
    ("Replay at InvalidWrite answers 16", 2500),
    ("Replay at InvalidWrite", 800),
    ("given up: its Ack answers 10", 500),
    ("given up: the last Ack, Valid", 120),
    ("given up: a greater Inv, Invalid", 60),
    ("given up: a Val, Valid", 20),
];

/// Document 02, Wish 5: asks and commits, fresh, stale and made up. 15,267 commits
/// were accepted, 1,138 of them on a stamp on which another laptop committed too.
const SAVES: [(&str, u64); 19] = [
    ("Ask at Valid", 30_000),
    ("Ask answers 4", 800),
    ("Ask answers 6", 10_000),
    ("Commit at Valid", 10_000),
    ("Commit answers 4", 300),
    ("Commit answers 8", 2500),
    ("Commit at Valid answers 26", 13_000),
    ("Commit at Invalid answers 26", 4000),
    ("Commit at InvalidWrite answers 26", 2000),
    ("Commit at Write answers 26", 8000),
    ("Commit at Replay answers 26", 600),
    ("Commit: on what was handed out", 6000),
    ("Commit: another did on this stamp", 700),
    ("Commit: a newer save is under way", 6000),
    ("Commit: a newer save came between", 5000),
    ("Commit: its stamp, not valid", 4000),
    ("Commit: another version", 4500),
    ("Commit: another tie-breaker", 1100),
    ("Commit: a tie-breaker above 15", 1000),
];

/// What must not come about: an ACK of the save that was given up is of the epoch
/// before, and a greater INV finds no own save any more.
const NEVER: [&str; 3] = [
    "given up: its Ack answers 0",
    "given up: its Ack answers 13",
    "given up: a greater Inv, InvalidWrite",
];

/// Document 02, Wish 6: INVs that tie with the record, under each rule at least so many
/// times.
const TIES: [(&str, u64); 10] = [
    ("a tie, not taken, at Valid", 150),
    ("a tie, not taken, at Invalid", 700),
    ("a tie, not taken, at InvalidWrite", 100),
    ("a tie, not taken, at Write", 1200),
    ("a tie, not taken, at Replay", 12),
    ("a tie, taken, at Valid", 120),
    ("a tie, taken, at Invalid", 500),
    ("a tie, taken, at InvalidWrite", 60),
    ("a tie, taken, at Write", 900),
    ("a tie, taken, at Replay", 8),
];

fn often(tally: &Tally) {
    for (name, [old, new]) in tally {
        println!("{old:8}{new:8} {name}");
    }
    let by_rule = |name| tally.get(name).copied().unwrap_or_default();
    let names = NAMES.map(|name| (name, OFTEN)).into_iter();
    for (name, floor) in names.chain(MANY).chain(SAVES) {
        let [old, new] = by_rule(name);
        let times = old + new;
        assert!(times >= floor, "{name}: only {times} times");
        // Under each rule, of which half of the groups have each.
        assert!(old.min(new) >= floor / 4, "{name}: {old} and {new} times");
    }
    for (name, floor) in TIES {
        let [old, new] = by_rule(name);
        assert!(old.min(new) >= floor, "{name}: only {old} and {new} times");
    }
    let [old, new] = by_rule("runs");
    assert!(old.abs_diff(new) <= (old + new) / 8, "{old} and {new} runs");
    for name in NEVER {
        assert_eq!(tally.get(name), None, "{name}");
    }
}

#[test]
fn random_groups() {
    let settings = Settings::from_env();
    match compare(&settings, by_hand, on_table) {
        Ok(tally) => often(&tally),
        Err(found) => panic!("{settings}\n{found}"),
    }
}

/// A wrong model is found, by a short list of entries on one record.
#[test]
fn a_wrong_model_is_found() {
    // A replay leaves the acknowledgements of the write before it.
    fn wrong(case: &Case, table: &mut [Record], store: &mut [u8]) -> Outcome {
        let acks = table.get(case.i).map_or(0, |record| record.acks);
        let outcome = on_table(case, table, store);
        if case.event == Event::Replay && outcome.number == 0 {
            table[case.i].acks = acks;
        }
        outcome
    }
    let found = compare(&Settings::USUAL, by_hand, wrong).expect_err("a difference");
    println!("{found}");
    assert!(found.shrunk.entries.len() <= 16);
    assert_eq!(found.shrunk.records, 1);
}

/// The same of a replay from invalid-write: the save that it gives up is not
/// forgotten.
#[test]
fn a_save_that_is_not_given_up_is_found() {
    fn wrong(case: &Case, table: &mut [Record], store: &mut [u8]) -> Outcome {
        let before = table.get(case.i).copied();
        let outcome = on_table(case, table, store);
        let overtaken = before.filter(|record| record.state == State::InvalidWrite);
        if let (Event::Replay, 0, Some(before)) = (&case.event, outcome.number, overtaken) {
            table[case.i].last_write = before.last_write;
        }
        outcome
    }
    let found = compare(&Settings::USUAL, by_hand, wrong).expect_err("a difference");
    println!("{found}");
    // Five would do: two writes, an INV, a view and the replay. The shrinker, which only
    // drops, stops at two more: a third write, by which the winner's stamp is the greater.
    assert!(found.shrunk.entries.len() <= 7);
    assert_eq!(found.shrunk.records, 1);
}

/// The same of a commit that compares the version alone (02, Wish 5).
#[test]
fn a_commit_on_the_version_alone_is_found() {
    fn wrong(case: &Case, table: &mut [Record], store: &mut [u8]) -> Outcome {
        let outcome = on_table(case, table, store);
        let Event::Commit { opened, value } = &case.event else {
            return outcome;
        };
        let held = table.get(case.i).copied();
        let held = held.filter(|held| held.state == State::Valid);
        let same = held.is_some_and(|held| held.timestamp.version == opened.0);
        if outcome.number == 26 && same {
            let value = value.clone();
            let write = Case::on(case.me, case.i, Event::Write { value });
            return on_table(&write, table, store);
        }
        outcome
    }
    let found = compare(&Settings::USUAL, by_hand, wrong).expect_err("a difference");
    println!("{found}");
    assert!(found.shrunk.entries.len() <= 16);
    assert_eq!(found.shrunk.records, 1);
    let last = found.shrunk.entries.last().map(|entry| &entry.what);
    let event = match last {
        Some(What::Own { event, .. }) => event,
        _ => panic!("{last:?}"),
    };
    assert!(matches!(event, Event::Commit { .. }));
}

/// Plays entries: the laptop's place, what it does, and the entry's id.
fn play(group: &mut Group, entries: &[(usize, What, usize)]) -> Result<(), String> {
    for (at, what, id) in entries {
        let entry = Entry {
            id: *id,
            at: *at,
            what: what.clone(),
        };
        group.play(&entry, &mut Tally::new())?;
    }
    group.check_all()
}

/// Laptops 0, 1 and 2 with one record each, all in the view, as they start.
fn three() -> Group {
    three_by(Rule::Higher)
}

fn three_by(rule: Rule) -> Group {
    let run = Run {
        rule,
        numbers: vec![0, 1, 2],
        view: 7,
        records: 1,
        entries: vec![],
    };
    Group::start(&run, by_hand, on_table).expect("a fresh start")
}

/// The fault of the first station. 0 has written; 1 has acknowledged; the view
/// {0,1} of epoch 1 has come to 0 alone, which validates; its VAL reaches 1.
fn station() -> Group {
    let mut group = three();
    let own = |event| What::Own { i: 0, event };
    let value = Bytes(b"old ring".to_vec());
    let entries = [
        (0, own(Event::Write { value }), 0),
        (1, What::Deliver { of: 0 }, 1),
        (0, What::Deliver { of: 1 }, 2),
        (0, own(Event::View { epoch: 1, set: 3 }), 3),
        (0, own(Event::Validate), 4),
    ];
    assert_eq!(play(&mut group, &entries), Ok(()));
    assert_eq!(group.posts[&4].message.kind, 3);
    group
}

#[test]
fn the_first_station() {
    let mut group = station();
    let entries = [(1, What::Deliver { of: 4 }, 5)];
    assert_eq!(play(&mut group, &entries), Ok(()));
    assert_eq!(group.members[1].memory.record(0).map(|r| r.state), Some(1));
}

/// The same with an altered epoch, against the premises: the check of agreement
/// sees that 1 and 2 show different texts.
#[test]
fn the_check_of_agreement_can_fail() {
    let mut group = station();
    if let Some(post) = group.posts.get_mut(&4) {
        post.message.epoch = 0;
    }
    let entries = [(1, What::Deliver { of: 4 }, 5)];
    let broken = play(&mut group, &entries).expect_err("1 and 2 differ");
    assert!(broken.contains("shows"), "{broken}");
}

/// 0 has written, and a forged acknowledgement of 2's is under way as post 0.
fn forged(numbers: Vec<u8>, view: u16) -> Group {
    let run = Run {
        rule: Rule::Lower,
        numbers,
        view,
        records: 1,
        entries: vec![],
    };
    let mut group = Group::start(&run, by_hand, on_table).expect("a fresh start");
    let value = Bytes(b"new".to_vec());
    let event = Event::Write { value };
    let write = [(0, What::Own { i: 0, event }, 0)];
    assert_eq!(play(&mut group, &write), Ok(()));
    if let Some(post) = group.posts.get_mut(&0) {
        (post.message.kind, post.message.sender) = (2, 2);
        post.value.clear();
    }
    group
}

/// A forged last acknowledgement validates while 2 shows the old text: the floor
/// of validated stamps sees it.
#[test]
fn the_check_of_validations_can_fail() {
    let mut group = forged(vec![0, 2], 5);
    let ack = [(0, What::Deliver { of: 0 }, 1)];
    let broken = play(&mut group, &ack).expect_err("2 shows the old");
    assert!(broken.contains("shows"), "{broken}");
}

/// The same by the separate validation: 1, whose acknowledgement is missing, is
/// struck off.
#[test]
fn the_check_of_separate_validations_can_fail() {
    let mut group = forged(vec![0, 1, 2], 7);
    let own = |event| What::Own { i: 0, event };
    let entries = [
        (0, What::Deliver { of: 0 }, 1),
        (0, own(Event::View { epoch: 1, set: 5 }), 2),
    ];
    assert_eq!(play(&mut group, &entries), Ok(()));
    let validate = [(0, own(Event::Validate), 3)];
    let broken = play(&mut group, &validate).expect_err("2 shows the old");
    assert!(broken.contains("shows"), "{broken}");
}

/// The VAL that leaves with the last acknowledgement is for all others in the
/// view, not for its sender alone.
#[test]
fn the_last_acknowledgement_sends_to_all() {
    let mut group = three();
    let value = Bytes(b"ring".to_vec());
    let event = Event::Write { value };
    let entries = [
        (0, What::Own { i: 0, event }, 0),
        (1, What::Deliver { of: 0 }, 1),
        (2, What::Deliver { of: 0 }, 2),
        (0, What::Deliver { of: 1 }, 3),
        (0, What::Deliver { of: 2 }, 4),
    ];
    assert_eq!(play(&mut group, &entries), Ok(()));
    assert_eq!(
        group.posts.keys().copied().collect::<Vec<_>>(),
        [0, 1, 2, 4]
    );
    let val = &group.posts[&4];
    assert_eq!((val.message.kind, val.to), (3, 6));
    assert_eq!((group.posts[&1].message.kind, group.posts[&1].to), (2, 1));
    let entries = [
        (1, What::Deliver { of: 4 }, 5),
        (2, What::Deliver { of: 4 }, 6),
    ];
    assert_eq!(play(&mut group, &entries), Ok(()));
    for member in &group.members {
        assert_eq!(member.memory.record(0).map(|r| r.state), Some(0));
    }
}

/// Document 02, Wish 2: 0 and 2 save the ring together. 1 acknowledges 0's save; 2's,
/// which has the greater stamp, reaches 0 alone, and 2 dies. 0 gives its own up, and
/// both that are left show 2's.
#[test]
fn a_record_hung_after_two_saves() {
    let mut group = three();
    let own = |event| What::Own { i: 0, event };
    let write = |text: &[u8]| {
        own(Event::Write {
            value: Bytes(text.to_vec()),
        })
    };
    let view = || own(Event::View { epoch: 1, set: 3 });
    let state = |group: &Group, at: usize| group.members[at].memory.record(0).map(|r| r.state);
    let entries = [
        (0, write(b"lesser"), 0),
        (2, write(b"greater"), 1),
        (1, What::Deliver { of: 0 }, 2),
        (0, What::Deliver { of: 2 }, 3),
        (0, What::Deliver { of: 1 }, 4),
        // Refused: 2 is in the view.
        (0, own(Event::Replay), 5),
        (0, view(), 6),
        (1, view(), 7),
    ];
    assert_eq!(play(&mut group, &entries), Ok(()));
    assert_eq!([0, 1].map(|at| state(&group, at)), [Some(2), Some(1)]);

    let entries = [
        // 1 holds 0's save, whose laptop is there: refused.
        (1, own(Event::Replay), 8),
        (0, own(Event::Replay), 9),
        // The acknowledgement of the save that is given up.
        (0, What::Deliver { of: 2 }, 10),
        (0, own(Event::Validate), 11),
        (1, What::Deliver { of: 9 }, 12),
    ];
    assert_eq!(play(&mut group, &entries), Ok(()));
    assert_eq!([0, 1].map(|at| state(&group, at)), [Some(4), Some(1)]);

    let entries = [
        (0, What::Deliver { of: 12 }, 13),
        (1, What::Deliver { of: 13 }, 14),
    ];
    assert_eq!(play(&mut group, &entries), Ok(()));
    let posts: Vec<usize> = group.posts.keys().copied().collect();
    assert_eq!(posts, [0, 1, 2, 4, 9, 12, 13]);
    let val = &group.posts[&13];
    assert_eq!((val.message.kind, val.to), (3, 2));
    for member in &group.members[..2] {
        let record = member.memory.record(0).expect("there is one");
        assert_eq!((record.state, record.stamp()), (0, (1, 2)));
        assert_eq!(
            member.memory.slot(0).expect("there is one")[..7],
            *b"greater"
        );
    }
}

/// The same by the new rule: 0's save has the greater stamp, and 0 dies.
#[test]
fn a_record_hung_after_two_saves_by_the_new_rule() {
    let mut group = three_by(Rule::Lower);
    let own = |event| What::Own { i: 0, event };
    let write = |text: &[u8]| {
        own(Event::Write {
            value: Bytes(text.to_vec()),
        })
    };
    let view = || own(Event::View { epoch: 1, set: 6 });
    let entries = [
        (2, write(b"lesser"), 0),
        (0, write(b"greater"), 1),
        (1, What::Deliver { of: 0 }, 2),
        (2, What::Deliver { of: 2 }, 3),
        (2, What::Deliver { of: 1 }, 4),
        // Refused: 0 is in the view.
        (2, own(Event::Replay), 5),
        (2, view(), 6),
        (1, view(), 7),
        (2, own(Event::Replay), 8),
        (1, What::Deliver { of: 8 }, 9),
        (2, What::Deliver { of: 9 }, 10),
        (1, What::Deliver { of: 10 }, 11),
    ];
    assert_eq!(play(&mut group, &entries), Ok(()));
    let posts: Vec<usize> = group.posts.keys().copied().collect();
    assert_eq!(posts, [0, 1, 2, 4, 8, 9, 10]);
    for at in [1, 2] {
        assert_eq!(shows(&group, at, b"greater"), (0, (1, 0)));
    }
}

/// Document 02, Wish 6: two laptops save at once. All show the higher number's text by
/// the old rule, and the lower number's by the new, in whichever order they hear.
#[test]
fn two_saves_at_once() {
    for (rule, winner, loser) in [(Rule::Higher, 2, 0), (Rule::Lower, 0, 2)] {
        for first in [0, 2] {
            let mut group = three_by(rule);
            let write = |text: &[u8]| What::Own {
                i: 0,
                event: Event::Write {
                    value: Bytes(text.to_vec()),
                },
            };
            let entries = [
                (winner, write(b"stands"), winner),
                (loser, write(b"yields"), loser),
                (1, What::Deliver { of: first }, 3),
                (1, What::Deliver { of: 2 - first }, 4),
                (loser, What::Deliver { of: winner }, 5),
                (winner, What::Deliver { of: loser }, 6),
            ];
            assert_eq!(play(&mut group, &entries), Ok(()));
            let tie = winner as u8;
            assert_eq!(shows(&group, 1, b"stands"), (1, (1, tie)));
            assert_eq!(shows(&group, loser, b"stands"), (2, (1, tie)));
            assert_eq!(shows(&group, winner, b"stands"), (3, (1, tie)));
            // 1's acknowledgement of the winner's, and the loser's.
            let of_1 = if first == winner { 3 } else { 4 };
            let entries = [
                (winner, What::Deliver { of: of_1 }, 7),
                (winner, What::Deliver { of: 5 }, 8),
                (1, What::Deliver { of: 8 }, 9),
                (loser, What::Deliver { of: 8 }, 10),
            ];
            assert_eq!(play(&mut group, &entries), Ok(()));
            for at in 0..3 {
                assert_eq!(shows(&group, at, b"stands"), (0, (1, tie)), "{rule:?}");
            }
        }
    }
}

/// A packet of a group with the other rule: refused by 27, and nothing moves.
#[test]
fn a_packet_of_the_other_rule() {
    for rule in Rule::ALL {
        let mut group = three_by(rule);
        let value = Bytes(b"ring".to_vec());
        let event = Event::Write { value };
        let write = [(0, What::Own { i: 0, event }, 0)];
        assert_eq!(play(&mut group, &write), Ok(()));
        let mut tally = Tally::new();
        for accepted in [false, true] {
            let what = What::OtherRule { of: 0, accepted };
            let entry = Entry { id: 1, at: 1, what };
            assert_eq!(group.play(&entry, &mut tally), Ok(()));
        }
        let refused = tally.get("Inv answers 27").copied().unwrap_or_default();
        assert_eq!(refused[rule as usize], 2);
        assert_eq!(shows(&group, 1, b""), (0, (0, 0)));
        assert_eq!(play(&mut group, &[(1, What::Deliver { of: 0 }, 2)]), Ok(()));
        assert_eq!(shows(&group, 1, b"ring"), (1, (1, 0)));
    }
}

/// A model that ignores the rule is found by a group, the old rule's and the new
/// one's; and so is one that turns the rule round at a view.
#[test]
fn a_wrong_rule_is_found() {
    // Of this rule whatever the group has.
    fn by(rule: u8, case: &Case, table: &mut [Record], store: &mut [u8]) -> Outcome {
        let mut other = case.clone();
        other.me.settings.rule = rule;
        let outcome = on_table(&other, table, store);
        let mut me = outcome.me;
        me.settings = case.me.settings;
        Outcome { me, ..outcome }
    }
    fn always_higher(case: &Case, table: &mut [Record], store: &mut [u8]) -> Outcome {
        by(1, case, table, store)
    }
    fn always_lower(case: &Case, table: &mut [Record], store: &mut [u8]) -> Outcome {
        by(2, case, table, store)
    }
    for (wrong, rule) in [
        (always_higher as OnTable, Rule::Lower),
        (always_lower, Rule::Higher),
    ] {
        let found = compare(&Settings::USUAL, by_hand, wrong).expect_err("a difference");
        println!("{found}");
        // Two saves, and one of them delivered to the other's laptop; or both to a third.
        assert_eq!(found.shrunk.rule, rule);
        assert!(found.shrunk.entries.len() <= 4);
    }

    fn turns(case: &Case, table: &mut [Record], store: &mut [u8]) -> Outcome {
        let mut outcome = on_table(case, table, store);
        if matches!(case.event, Event::View { .. }) && outcome.number == 0 {
            outcome.me.settings.rule = 3 - outcome.me.settings.rule;
        }
        outcome
    }
    let found = compare(&Settings::USUAL, by_hand, turns).expect_err("a difference");
    println!("{found}");
    assert_eq!(found.shrunk.entries.len(), 1);
}

/// Against the premises the laptops of a group have different rules: the check of
/// agreement sees that they show different texts.
#[test]
fn one_group_has_one_rule() {
    let mut group = three();
    let own = |event| What::Own { i: 0, event };
    let write = |text: &[u8]| {
        own(Event::Write {
            value: Bytes(text.to_vec()),
        })
    };
    // 0 goes by the new rule, so both savers take their own for the winner.
    group.members[0].me.settings.rule = 2;
    let entries = [
        (0, write(b"lower"), 0),
        (2, write(b"higher"), 1),
        (1, What::Deliver { of: 0 }, 2),
        (2, What::Deliver { of: 0 }, 3),
        (0, What::Deliver { of: 2 }, 4),
        // 0 is finished, and shows its own.
        (0, What::Deliver { of: 3 }, 5),
        (0, What::Deliver { of: 1 }, 6),
        (1, What::Deliver { of: 1 }, 7),
        (2, What::Deliver { of: 6 }, 8),
    ];
    assert_eq!(play(&mut group, &entries), Ok(()));
    assert_eq!(shows(&group, 0, b"lower"), (0, (1, 0)));
    // And so is 2.
    let last = [(2, What::Deliver { of: 7 }, 9)];
    let broken = play(&mut group, &last).expect_err("0 and 2 differ");
    assert!(broken.contains("shows"), "{broken}");
}

/// Document 02, Wish 5: what the laptop at this place was handed out of record 0.
fn asked(group: &mut Group, at: usize, id: usize) -> (u32, u8) {
    let event = Event::Ask;
    let ask = [(at, What::Own { i: 0, event }, id)];
    assert_eq!(play(group, &ask), Ok(()));
    let stamps = group.members[at].opened[0].stamps();
    let last = stamps.last().expect("it is valid");
    (last.version, last.tie)
}

fn commit(opened: (u32, u8), text: &[u8]) -> What {
    let value = Bytes(text.to_vec());
    let event = Event::Commit { opened, value };
    What::Own { i: 0, event }
}

/// The record of the laptop at this place, and the first bytes of its text.
fn shows(group: &Group, at: usize, text: &[u8]) -> (u8, (u32, u8)) {
    let memory = &group.members[at].memory;
    assert_eq!(memory.slot(0).expect("there is one")[..text.len()], *text);
    let record = memory.record(0).expect("there is one");
    (record.state, record.stamp())
}

/// Two laptops commit on one stamp, and the greater new one stands. The one that is
/// late with its commit is refused.
#[test]
fn two_commits_on_one_stamp() {
    let mut group = three();
    let opened = [0, 1, 2].map(|at| asked(&mut group, at, at));
    assert_eq!(opened, [(0, 0); 3]);
    let entries = [
        (2, commit((0, 0), b"greater"), 3),
        (0, commit((0, 0), b"lesser"), 4),
        (1, What::Deliver { of: 4 }, 5),
        // 0's save is under way here.
        (1, commit((0, 0), b"late"), 6),
        (1, commit((1, 0), b"late"), 7),
        (0, What::Deliver { of: 5 }, 8),
        (0, What::Deliver { of: 3 }, 9),
        (1, What::Deliver { of: 3 }, 10),
        (2, What::Deliver { of: 9 }, 11),
        (2, What::Deliver { of: 10 }, 12),
        (0, What::Deliver { of: 12 }, 13),
        (1, What::Deliver { of: 12 }, 14),
        // It stands; neither what was seen before nor another tie-breaker will do.
        (0, commit((0, 0), b"late"), 15),
        (1, commit((1, 0), b"late"), 16),
        (1, commit((1, 18), b"late"), 17),
    ];
    assert_eq!(play(&mut group, &entries), Ok(()));
    let posts: Vec<usize> = group.posts.keys().copied().collect();
    assert_eq!(posts, [3, 4, 5, 9, 10, 12]);
    assert_eq!(group.posts[&3].value[..], *b"greater");
    for at in 0..3 {
        assert_eq!(shows(&group, at, b"greater"), (0, (1, 2)));
    }

    // 0 asks again, and saves over that.
    assert_eq!(asked(&mut group, 0, 18), (1, 2));
    let entries = [(0, commit((1, 2), b"over it"), 19)];
    assert_eq!(play(&mut group, &entries), Ok(()));
    assert_eq!(shows(&group, 0, b"over it"), (3, (2, 0)));
}

/// Laptop 0 was handed out (0,0) with the empty text; then somebody writes to its
/// memory, against the premises, and it goes on.
fn tampered(record: usize, store: Option<usize>, then: What) -> Result<(), String> {
    let mut group = three();
    assert_eq!(asked(&mut group, 0, 0), (0, 0));
    let entries = [
        (0, commit((0, 0), b"x"), 1),
        (1, What::Deliver { of: 1 }, 2),
    ];
    play(&mut group, &entries)?;
    let entries = [
        (2, What::Deliver { of: 1 }, 3),
        (0, What::Deliver { of: 2 }, 4),
        (0, What::Deliver { of: 3 }, 5),
    ];
    play(&mut group, &entries)?;
    assert_eq!(asked(&mut group, 0, 6), (1, 0));
    let (table, bytes) = group.members[0].memory.lend();
    table[record] ^= 1;
    if let Some(k) = store {
        bytes[k] ^= 1;
    }
    play(&mut group, &[(0, then, 7)])
}

/// What was handed out goes back, or changes under one stamp: the check sees it, by a
/// read and by an ask; and by a commit on what is no longer there.
#[test]
fn the_check_of_what_was_handed_out_can_fail() {
    const UNUSED: usize = 15;
    const VERSION: usize = 4;
    for event in [Event::Read, Event::Ask] {
        let own = || What::Own {
            i: 0,
            event: event.clone(),
        };
        let back = tampered(VERSION, None, own()).expect_err("(0,0) after (1,0)");
        assert!(back.contains("is shown after"), "{back}");
        let other = tampered(UNUSED, Some(0), own()).expect_err("another text");
        assert!(other.contains("is shown after"), "{other}");
    }
    let over = tampered(UNUSED, Some(0), commit((1, 0), b"y")).expect_err("another text");
    assert!(over.contains("saved over"), "{over}");
    let over = tampered(VERSION, None, commit((0, 0), b"y")).expect_err("it was away");
    assert!(over.contains("saved over"), "{over}");
}
