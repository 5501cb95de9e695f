//! The comparison can fail: wrong models are found, and the case that shows it
//! is small.

use cetskobi::raw::{Message, Settings as Group, RECORD_BYTES};
use compare::bytes::Bytes;
use compare::crossing::{rule_of, Fields};
use compare::memory::Memory;
use compare::settings::Settings;
use compare::shrink::{drops, less, shrink, Smaller};
use compare::single::{by_model, compare, Case, Event, Kind, Outcome, Play};
use model::engine::Rule;

/// What a difference is printed with runs its case again: with the seed alone
/// it may lie beyond the usual count.
#[test]
fn settings_to_run_again() {
    let settings = Settings { seed: 7, times: 10 };
    let shown = "CETSKOBI_SEED=7 CETSKOBI_TIMES=10";
    assert_eq!(settings.to_string(), shown);
}

/// Finds the wrong model, and gives the shrunk case.
fn caught(wrong: Play) -> Case {
    match compare(&Settings::USUAL, wrong) {
        Ok(_) => panic!("no difference was found"),
        Err(found) => {
            println!("{found}");
            found.shrunk
        }
    }
}

/// What the shrinker leaves of a case that needs one record alone.
fn one_record(case: &Case) {
    assert_eq!((case.table, case.store), (RECORD_BYTES, 192));
    assert_eq!((case.i, case.part, case.me.epoch), (0, 0, 0));
    assert!(case.me.number <= 2 && case.me.view.count_ones() == 2);
}

fn delivers(case: &Case, kind: u8) -> bool {
    matches!(&case.event, Event::Deliver { message, .. } if message.kind == kind)
}

#[test]
fn an_equal_invalidation_is_taken() {
    fn wrong(case: &Case, memory: &mut Memory) -> Outcome {
        let outcome = by_model(case, memory);
        if let Event::Deliver { message, .. } = &case.event {
            let stamp = (message.version, message.tie);
            if outcome.number == 0 && message.kind == 1 && stamp == case.record.stamp() {
                let taken = Fields {
                    state: 1,
                    writer: message.sender,
                    ..case.record
                };
                memory.put_record(case.i, &taken);
            }
        }
        outcome
    }
    let case = caught(wrong);
    one_record(&case);
    let Event::Deliver { message, value } = &case.event else {
        panic!("{case:?}");
    };
    assert_eq!((message.kind, message.version, message.tie), (1, 0, 0));
    assert_eq!((value.len(), case.record.len), (0, 0));
}

#[test]
fn a_second_acknowledgement_is_counted() {
    fn wrong(case: &Case, memory: &mut Memory) -> Outcome {
        let mut outcome = by_model(case, memory);
        if let Event::Deliver { message, .. } = &case.event {
            let counted = case.record.acks >> (message.sender % 16) & 1 == 1;
            let awaited =
                case.record.state >= 2 && (message.version, message.tie) == case.record.written();
            if outcome.number == 13 && counted && awaited {
                outcome.number = 0;
            }
        }
        outcome
    }
    let case = caught(wrong);
    one_record(&case);
    assert!(delivers(&case, 2));
    assert_eq!(case.record.state, 2);
    assert_eq!(case.record.acks.count_ones(), 1);
}

#[test]
fn acknowledgements_are_counted_not_compared() {
    fn wrong(case: &Case, memory: &mut Memory) -> Outcome {
        let mut outcome = by_model(case, memory);
        let enough = case.record.acks.count_ones() + 1 >= case.me.view.count_ones();
        let writing = case.record.state == 3;
        if case.event == Event::Validate && outcome.number == 15 && writing && enough {
            outcome.number = 0;
        }
        outcome
    }
    let case = caught(wrong);
    one_record(&case);
    assert_eq!(case.event, Event::Validate);
    assert_eq!(case.record.acks.count_ones(), 1);
}

/// The last acknowledgement by the wrong models below: the record before it.
fn last_by(wrong: Play) -> (Fields, u16) {
    let case = caught(wrong);
    assert_eq!((case.table, case.store, case.i), (RECORD_BYTES, 192, 0));
    assert!(delivers(&case, 2));
    let own = 1 << case.me.number;
    (case.record, case.me.view & !own)
}

/// What a wrong model does at an accepted ACK where `settles` says so: it
/// validates. Elsewhere it only counts.
fn settling(case: &Case, memory: &mut Memory, settles: fn(&Fields, u16) -> bool) -> Outcome {
    let mut outcome = by_model(case, memory);
    let Some(mut record) = memory.record(case.i) else {
        return outcome;
    };
    if outcome.number == 0 && delivers(case, 2) {
        let settled = settles(
            &Fields {
                acks: record.acks,
                ..case.record
            },
            case.me.view,
        );
        let (version, tie) = record.stamp();
        record.state = if settled { 0 } else { case.record.state };
        outcome.sent = if settled {
            (3, tie, version)
        } else {
            (0, 0, 0)
        };
        memory.put_record(case.i, &record);
    }
    outcome
}

#[test]
fn the_last_acknowledgement_is_only_counted() {
    fn wrong(case: &Case, memory: &mut Memory) -> Outcome {
        settling(case, memory, |_, _| false)
    }
    let (record, _) = last_by(wrong);
    assert!(record.state >= 3);
}

#[test]
fn the_last_acknowledgement_is_found_by_a_count() {
    fn wrong(case: &Case, memory: &mut Memory) -> Outcome {
        settling(case, memory, |record, view| {
            record.state >= 3 && record.acks.count_ones() + 1 >= view.count_ones()
        })
    }
    let (record, others) = last_by(wrong);
    assert!(record.state >= 3 && others.count_ones() == 2);
    assert_eq!((record.acks & others, record.acks.count_ones()), (0, 1));
}

#[test]
fn an_overtaken_write_is_settled() {
    fn wrong(case: &Case, memory: &mut Memory) -> Outcome {
        settling(case, memory, |record, view| {
            // Its own number is never among the acknowledgements.
            (view & !record.acks).count_ones() == 1
        })
    }
    let (record, others) = last_by(wrong);
    assert_eq!((record.state, others.count_ones()), (2, 1));
}

/// A replay from invalid-write by the wrong models below: whether the last writer
/// is in the view.
fn replay_by(wrong: Play) -> (Case, bool) {
    let case = caught(wrong);
    one_record(&case);
    assert_eq!((&case.event, case.record.state), (&Event::Replay, 2));
    let present = case.me.view >> case.record.writer & 1 == 1;
    (case, present)
}

/// As it was before document 02's Wish 2.
#[test]
fn a_replay_of_an_invalid_write_is_refused() {
    fn wrong(case: &Case, memory: &mut Memory) -> Outcome {
        let before = memory.clone();
        let mut outcome = by_model(case, memory);
        if case.event == Event::Replay && outcome.number == 0 && case.record.state == 2 {
            memory.clone_from(&before);
            (outcome.number, outcome.sent) = (16, (0, 0, 0));
        }
        outcome
    }
    let (_, present) = replay_by(wrong);
    assert!(!present);
}

/// The last writer is asked after at invalid alone.
#[test]
fn an_invalid_write_is_replayed_though_its_writer_is_there() {
    fn wrong(case: &Case, memory: &mut Memory) -> Outcome {
        let outcome = by_model(case, memory);
        if case.event == Event::Replay && outcome.number == 16 && case.record.state == 2 {
            let replayed = Fields {
                state: 4,
                writer: case.me.number,
                written_version: case.record.version,
                written_tie: case.record.tie,
                acks: 0,
                ..case.record
            };
            memory.put_record(case.i, &replayed);
            let (version, tie) = replayed.stamp();
            let sent = (1, tie, version);
            return Outcome {
                number: 0,
                sent,
                ..outcome
            };
        }
        outcome
    }
    let (_, present) = replay_by(wrong);
    assert!(present);
}

/// What a wrong model keeps of the write that a replay should give up.
fn keeping(case: &Case, memory: &mut Memory, keep: fn(&Fields, &mut Fields)) -> Outcome {
    let outcome = by_model(case, memory);
    let replayed = case.event == Event::Replay && outcome.number == 0;
    if let Some(mut record) = memory.record(case.i).filter(|_| replayed) {
        if case.record.state == 2 {
            keep(&case.record, &mut record);
            memory.put_record(case.i, &record);
        }
    }
    outcome
}

#[test]
fn the_acknowledgements_of_a_write_that_is_given_up_are_kept() {
    fn wrong(case: &Case, memory: &mut Memory) -> Outcome {
        keeping(case, memory, |before, after| after.acks = before.acks)
    }
    let (case, _) = replay_by(wrong);
    assert_eq!(case.record.acks.count_ones(), 1);
}

#[test]
fn the_stamp_of_a_write_that_is_given_up_is_kept() {
    fn wrong(case: &Case, memory: &mut Memory) -> Outcome {
        keeping(case, memory, |before, after| {
            (after.written_version, after.written_tie) = before.written();
        })
    }
    let (case, _) = replay_by(wrong);
    assert_ne!(case.record.stamp(), case.record.written());
}

// Document 02, Wish 5: wrong asks and commits.

/// A commit where question 26 refused it but `takes` does not look so closely: a write.
fn committing(case: &Case, memory: &mut Memory, takes: fn(&Fields, (u32, u8)) -> bool) -> Outcome {
    let outcome = by_model(case, memory);
    match &case.event {
        Event::Commit { opened, value } if outcome.number == 26 => {
            let value = value.clone();
            let write = Case {
                event: Event::Write { value },
                ..case.clone()
            };
            match takes(&case.record, *opened) {
                true => by_model(&write, memory),
                false => outcome,
            }
        }
        _ => outcome,
    }
}

/// A commit on one record by the wrong models: the record, and the stamp brought.
fn commit_by(wrong: Play) -> (Fields, (u32, u8)) {
    let case = caught(wrong);
    one_record(&case);
    let Event::Commit { opened, .. } = case.event else {
        panic!("{case:?}");
    };
    (case.record, opened)
}

#[test]
fn a_commit_compares_the_version_alone() {
    fn wrong(case: &Case, memory: &mut Memory) -> Outcome {
        committing(case, memory, |held, opened| {
            held.state == 0 && held.version == opened.0
        })
    }
    let (held, opened) = commit_by(wrong);
    assert_eq!((held.state, held.version, opened.0), (0, 0, 0));
    assert_eq!(held.tie.abs_diff(opened.1), 1);
}

#[test]
fn a_commit_compares_the_tie_breaker_alone() {
    fn wrong(case: &Case, memory: &mut Memory) -> Outcome {
        committing(case, memory, |held, opened| {
            held.state == 0 && held.tie == opened.1
        })
    }
    let (held, opened) = commit_by(wrong);
    assert_eq!((held.state, held.tie, opened.1), (0, 0, 0));
    assert_eq!(held.version.abs_diff(opened.0), 1);
}

/// Four bits of it.
#[test]
fn a_commit_cuts_the_tie_breaker() {
    fn wrong(case: &Case, memory: &mut Memory) -> Outcome {
        committing(case, memory, |held, (version, tie)| {
            held.state == 0 && held.stamp() == (version, tie & 15)
        })
    }
    let (held, opened) = commit_by(wrong);
    assert_eq!((held.state, held.version), (0, 0));
    assert_eq!(opened, (0, held.tie + 16));
}

/// As a plain write looks: valid or invalid.
#[test]
fn a_commit_at_invalid_is_taken() {
    fn wrong(case: &Case, memory: &mut Memory) -> Outcome {
        committing(case, memory, |held, opened| {
            held.state == 1 && held.stamp() == opened
        })
    }
    let (held, opened) = commit_by(wrong);
    assert_eq!((held.state, held.stamp(), opened), (1, (0, 0), (0, 0)));
}

/// 26 is asked after 8, or after 9.
#[test]
fn the_stamp_of_a_commit_is_asked_too_late() {
    fn after(case: &Case, memory: &mut Memory, question: u8) -> Outcome {
        let mut outcome = by_model(case, memory);
        let long = case.event.value().is_some_and(|value| value.len() > 192);
        let last = case.record.version == u32::MAX;
        if outcome.number == 26 && [long, last][usize::from(question - 8)] {
            outcome.number = question;
        }
        outcome
    }
    let (held, _) = commit_by(|case, memory| after(case, memory, 8));
    assert_eq!(held.version, 0);
    let (held, _) = commit_by(|case, memory| after(case, memory, 9));
    assert_eq!(held.version, u32::MAX);
}

/// A commit that is refused as a write would be.
#[test]
fn a_commit_answers_7() {
    fn wrong(case: &Case, memory: &mut Memory) -> Outcome {
        let mut outcome = by_model(case, memory);
        if outcome.number == 26 && case.record.state >= 2 {
            outcome.number = 7;
        }
        outcome
    }
    let (held, _) = commit_by(wrong);
    assert_eq!(held.state, 2);
}

/// It keeps the stamp that it was opened with.
#[test]
fn a_commit_does_not_count_up() {
    fn wrong(case: &Case, memory: &mut Memory) -> Outcome {
        let mut outcome = by_model(case, memory);
        let committed = matches!(case.event, Event::Commit { .. }) && outcome.number == 0;
        if let Some(mut record) = memory.record(case.i).filter(|_| committed) {
            (record.version, record.written_version) = (case.record.version, case.record.version);
            outcome.sent.2 = record.version;
            memory.put_record(case.i, &record);
        }
        outcome
    }
    let (held, opened) = commit_by(wrong);
    assert_eq!((held.state, held.stamp(), opened), (0, (0, 0), (0, 0)));
}

/// What a wrong model hands out: the record that shows it.
fn ask_by(wrong: Play) -> Fields {
    let case = caught(wrong);
    one_record(&case);
    assert_eq!(case.event, Event::Ask);
    case.record
}

#[test]
fn an_ask_hands_out_the_last_write_stamp() {
    fn wrong(case: &Case, memory: &mut Memory) -> Outcome {
        let mut outcome = by_model(case, memory);
        if (&case.event, outcome.number) == (&Event::Ask, 0) {
            outcome.opened = case.record.written();
        }
        outcome
    }
    let held = ask_by(wrong);
    assert_eq!(held.state, 0);
    assert_ne!(held.stamp(), held.written());
}

#[test]
fn a_refused_ask_hands_out_the_stamp() {
    fn wrong(case: &Case, memory: &mut Memory) -> Outcome {
        let mut outcome = by_model(case, memory);
        if (&case.event, outcome.number) == (&Event::Ask, 6) {
            outcome.opened = case.record.stamp();
        }
        outcome
    }
    let held = ask_by(wrong);
    assert_eq!(held.state, 1);
    assert_ne!(held.stamp(), (0, 0));
}

#[test]
fn an_ask_moves_the_record() {
    fn wrong(case: &Case, memory: &mut Memory) -> Outcome {
        let outcome = by_model(case, memory);
        if (&case.event, outcome.number) == (&Event::Ask, 0) {
            memory.lend().0[RECORD_BYTES * case.i + 15] ^= 1;
        }
        outcome
    }
    assert_eq!(ask_by(wrong), Fields::default());
}

#[test]
fn an_ask_of_an_invalid_record_is_taken() {
    fn wrong(case: &Case, memory: &mut Memory) -> Outcome {
        let mut outcome = by_model(case, memory);
        if (&case.event, outcome.number) == (&Event::Ask, 6) && case.record.state == 1 {
            outcome.number = 0;
        }
        outcome
    }
    assert_eq!(ask_by(wrong).state, 1);
}

// Document 02, Wish 6: wrong rules of ties. Packets have theirs in `fetch`, `pack`,
// `accept` and `deliver_packet`.

/// A delivery goes by this byte of the rule.
fn by_rule(case: &Case, memory: &mut Memory, rule: u8) -> Outcome {
    let Event::Deliver { .. } = case.event else {
        return by_model(case, memory);
    };
    let mut other = case.clone();
    other.me.settings = Group { rule };
    let me = case.me;
    Outcome {
        me,
        ..by_model(&other, memory)
    }
}

/// An INV that ties, by the wrong models below: the byte of the rule, and the two
/// tie-breakers.
fn tie_by(wrong: Play) -> (u8, u8, u8) {
    let case = caught(wrong);
    one_record(&case);
    let Event::Deliver { message, .. } = &case.event else {
        panic!("{case:?}");
    };
    assert_eq!((message.kind, message.version), (1, case.record.version));
    (case.me.settings.rule, message.tie, case.record.tie)
}

#[test]
fn the_rule_is_ignored() {
    let (rule, inv, held) = tie_by(|case, memory| by_rule(case, memory, 1));
    assert_eq!((rule, inv.abs_diff(held)), (2, 1));
    let (rule, inv, held) = tie_by(|case, memory| by_rule(case, memory, 2));
    assert_eq!((rule, inv.abs_diff(held)), (0, 1));
}

/// Some other byte is taken for the new rule: 0, any above 2, or any that is even.
#[test]
fn a_byte_is_the_wrong_rule() {
    let (rule, ..) = tie_by(|case, memory| match case.me.settings.rule {
        0 => by_rule(case, memory, 2),
        _ => by_model(case, memory),
    });
    assert_eq!(rule, 0);
    let (rule, ..) = tie_by(|case, memory| match case.me.settings.rule {
        3.. => by_rule(case, memory, 2),
        _ => by_model(case, memory),
    });
    assert_eq!(rule, 3);
    let (rule, ..) = tie_by(|case, memory| match case.me.settings.rule {
        byte if byte > 2 && byte % 2 == 0 => by_rule(case, memory, 2),
        _ => by_model(case, memory),
    });
    assert_eq!(rule, 4);
    // One byte alone.
    let (rule, ..) = tie_by(|case, memory| match case.me.settings.rule {
        0x82 => by_rule(case, memory, 2),
        _ => by_model(case, memory),
    });
    assert_eq!(rule, 0x82);
}

/// An accepted INV by another order: taken where `later` says so of its stamp, the
/// record's and the rule.
fn ordered(
    case: &Case,
    memory: &mut Memory,
    later: fn((u32, u8), (u32, u8), Rule) -> bool,
) -> Outcome {
    let before = memory.clone();
    let outcome = by_model(case, memory);
    let Event::Deliver { message, value } = &case.event else {
        return outcome;
    };
    if outcome.number != 0 || message.kind != 1 {
        return outcome;
    }
    memory.clone_from(&before);
    let Message {
        version,
        tie,
        sender,
        ..
    } = *message;
    let held = case.record;
    if later((version, tie), held.stamp(), rule_of(case.me.settings)) {
        let writing = matches!(held.state, 2 | 3);
        let taken = Fields {
            state: if writing { 2 } else { 1 },
            version,
            tie,
            writer: sender,
            len: value.len() as u8,
            ..held
        };
        memory.put_record(case.i, &taken);
        let mut slot = [0; 192];
        slot[..value.len()].copy_from_slice(value);
        memory.put_slot(case.i, &slot);
    }
    outcome
}

/// The new rule compares versions the other way too.
#[test]
fn the_lower_version_wins() {
    let case = caught(|case, memory| {
        ordered(case, memory, |inv, held, rule| match rule {
            Rule::Higher => inv > held,
            Rule::Lower => inv < held,
        })
    });
    one_record(&case);
    assert_eq!(case.me.settings.rule, 2);
    let Event::Deliver { message, .. } = &case.event else {
        panic!("{case:?}");
    };
    assert_eq!(message.version.abs_diff(case.record.version), 1);
}

/// Ties are won by equal numbers, under the new rule alone.
#[test]
fn equal_numbers_win() {
    let (rule, inv, held) = tie_by(|case, memory| {
        ordered(case, memory, |inv, held, rule| match rule {
            Rule::Higher => inv > held,
            Rule::Lower => inv.0 > held.0 || inv.0 == held.0 && inv.1 <= held.1,
        })
    });
    assert_eq!((rule, inv, held), (2, 0, 0));
}

/// The rule of a start or a view by the wrong models: the case.
fn admission_by(wrong: Play, kind: Kind) -> Case {
    let case = caught(wrong);
    assert_eq!(case.kind(), kind);
    case
}

/// A rule that turns round at a view; one that a view sets back to the old; one that it
/// does not name.
#[test]
fn a_view_changes_the_rule() {
    // What this makes of the rule that an accepted view gives.
    fn after(case: &Case, memory: &mut Memory, made: fn(&Case, u8) -> u8) -> Outcome {
        let mut outcome = by_model(case, memory);
        if case.kind() == Kind::View && outcome.number == 0 {
            outcome.me.settings.rule = made(case, outcome.me.settings.rule);
        }
        outcome
    }
    let turned = |case: &Case, memory: &mut Memory| after(case, memory, |_, rule| 3 - rule);
    let case = admission_by(turned, Kind::View);
    assert_eq!(case.me.settings.rule, 0);
    let reset = |case: &Case, memory: &mut Memory| after(case, memory, |_, _| 1);
    let case = admission_by(reset, Kind::View);
    assert_eq!(case.me.settings.rule, 2);
    let unnamed =
        |case: &Case, memory: &mut Memory| after(case, memory, |case, _| case.me.settings.rule);
    let case = admission_by(unnamed, Kind::View);
    assert_eq!(case.me.settings.rule, 0);
}

/// A refused view names the rule, and does not give the byte back.
#[test]
fn a_refused_view_names_the_rule() {
    let case = admission_by(
        |case, memory| {
            let mut outcome = by_model(case, memory);
            if case.kind() == Kind::View && outcome.number != 0 && outcome.me.settings.rule != 2 {
                outcome.me.settings.rule = 1;
            }
            outcome
        },
        Kind::View,
    );
    assert_eq!(case.me.settings.rule, 0);
}

/// A start that always has the old rule; one that keeps the byte, accepted and refused.
#[test]
fn a_start_has_another_rule() {
    let old = |case: &Case, memory: &mut Memory| {
        let mut outcome = by_model(case, memory);
        if case.kind() == Kind::Start {
            outcome.me.settings.rule = 1;
        }
        outcome
    };
    let case = admission_by(old, Kind::Start);
    assert_eq!(case.me.settings.rule, 2);
    fn kept(case: &Case, memory: &mut Memory, refused: bool) -> Outcome {
        let mut outcome = by_model(case, memory);
        if case.kind() == Kind::Start && (outcome.number != 0) == refused {
            outcome.me.settings = case.me.settings;
        }
        outcome
    }
    for kept in [
        (|case, memory| kept(case, memory, false)) as Play,
        |case, memory| kept(case, memory, true),
    ] {
        let case = admission_by(kept, Kind::Start);
        assert_eq!(case.me.settings.rule, 0);
    }
}

/// By the new rule a fresh record has the highest number of the view.
#[test]
fn a_start_has_the_highest_number() {
    let case = admission_by(
        |case, memory| {
            let outcome = by_model(case, memory);
            let started = case.kind() == Kind::Start && outcome.number == 0;
            if started && rule_of(case.me.settings) == Rule::Lower {
                let highest = 15 - case.me.view.leading_zeros() as u8;
                for i in 0..memory.table().len() / RECORD_BYTES {
                    let Some(mut record) = memory.record(i) else {
                        continue;
                    };
                    (record.tie, record.writer, record.written_tie) = (highest, highest, highest);
                    memory.put_record(i, &record);
                }
            }
            outcome
        },
        Kind::Start,
    );
    one_record(&case);
    assert_eq!(case.me.settings.rule, 2);
}

#[test]
fn a_later_validation_is_taken() {
    fn wrong(case: &Case, memory: &mut Memory) -> Outcome {
        let mut outcome = by_model(case, memory);
        if outcome.number == 10 && delivers(case, 3) {
            outcome.number = 0;
        }
        outcome
    }
    let case = caught(wrong);
    assert_eq!((case.table, case.store), (RECORD_BYTES, 192));
    let Event::Deliver { message, .. } = case.event else {
        panic!("{case:?}");
    };
    assert_eq!(case.me.epoch.abs_diff(message.epoch), 1);
}

#[test]
fn the_rest_of_the_store_is_not_zero() {
    fn wrong(case: &Case, memory: &mut Memory) -> Outcome {
        let last = memory.slot(case.i).map_or(0, |slot| slot[191]);
        let outcome = by_model(case, memory);
        if let (Event::Write { value }, 0) = (&case.event, outcome.number) {
            if value.len() < 192 {
                memory.lend().1[192 * case.i + 191] = last;
            }
        }
        outcome
    }
    let case = caught(wrong);
    one_record(&case);
    assert_eq!(
        case.event,
        Event::Write {
            value: Bytes::default()
        }
    );
    let (last, rest) = case.slot.split_last().expect("192 bytes");
    assert!(*last != 0 && rest.iter().all(|&byte| byte == 0));
}

#[test]
fn another_record_moves() {
    fn wrong(case: &Case, memory: &mut Memory) -> Outcome {
        let outcome = by_model(case, memory);
        let more = memory.table().len() > RECORD_BYTES;
        if case.event == Event::Replay && outcome.number == 0 && more {
            let other = if case.i == 0 { RECORD_BYTES } else { 0 };
            memory.lend().0[other + 12] ^= 1;
        }
        outcome
    }
    let case = caught(wrong);
    assert_eq!((case.table, case.store), (2 * RECORD_BYTES, 384));
    assert_eq!((case.event, case.i), (Event::Replay, 0));
}

#[test]
fn bytes_that_are_no_record_are_rewritten() {
    fn wrong(case: &Case, memory: &mut Memory) -> Outcome {
        let outcome = by_model(case, memory);
        if outcome.number == 5 && case.record.state > 4 {
            memory.put_record(case.i, &Fields::default());
        }
        outcome
    }
    let case = caught(wrong);
    one_record(&case);
    let no_state = Fields {
        state: 5,
        ..Fields::default()
    };
    assert_eq!(case.record, no_state);
}

#[test]
fn the_last_byte_of_a_record_moves() {
    fn wrong(case: &Case, memory: &mut Memory) -> Outcome {
        let outcome = by_model(case, memory);
        if let (Event::Write { .. }, 0) = (&case.event, outcome.number) {
            memory.lend().0[RECORD_BYTES * case.i + 15] = 0;
        }
        outcome
    }
    let case = caught(wrong);
    one_record(&case);
    let last = Fields {
        unused: 1,
        ..Fields::default()
    };
    assert_eq!(case.record, last);
}

#[test]
fn a_start_clears_the_last_bytes() {
    fn wrong(case: &Case, memory: &mut Memory) -> Outcome {
        let outcome = by_model(case, memory);
        if (&case.event, outcome.number) == (&Event::Start, 0) {
            let records = memory.lend().0.as_chunks_mut::<RECORD_BYTES>().0;
            records.iter_mut().for_each(|record| record[15] = 0);
        }
        outcome
    }
    let case = caught(wrong);
    one_record(&case);
    assert_eq!((case.event, case.record.unused), (Event::Start, 1));
}

#[test]
fn bytes_over_are_no_hindrance() {
    // The records before them are a table.
    fn wrong(case: &Case, memory: &mut Memory) -> Outcome {
        let mut whole = Memory::default();
        let records = memory.table().as_chunks::<RECORD_BYTES>().0;
        whole.lay(records.as_flattened(), memory.store());
        let outcome = by_model(case, memory);
        match outcome.number {
            2 => by_model(case, &mut whole),
            _ => outcome,
        }
    }
    let case = caught(wrong);
    assert_eq!((case.table, case.store), (RECORD_BYTES + 1, 192));
}

/// 8 after 9, of this kind of event.
fn too_late(case: &Case, memory: &mut Memory, kind: Kind) -> Outcome {
    let mut outcome = by_model(case, memory);
    if outcome.number == 8 && case.record.version == u32::MAX && case.kind() == kind {
        outcome.number = 9;
    }
    outcome
}

#[test]
fn a_question_is_asked_too_late() {
    let value = || Bytes(vec![0; 193]);
    let opened = (u32::MAX, 0);
    let wrongs: [(Play, Event); 2] = [
        (
            |case, memory| too_late(case, memory, Kind::Write),
            Event::Write { value: value() },
        ),
        (
            |case, memory| too_late(case, memory, Kind::Commit),
            Event::Commit {
                opened,
                value: value(),
            },
        ),
    ];
    for (wrong, event) in wrongs {
        let case = caught(wrong);
        one_record(&case);
        assert_eq!(case.event, event);
        let last = Fields {
            version: u32::MAX,
            ..Fields::default()
        };
        assert_eq!(case.record, last);
    }
}

/// A part of this kind of event begins behind its place.
fn elsewhere(case: &Case, memory: &mut Memory, kind: Kind) -> Outcome {
    let mut outcome = by_model(case, memory);
    if outcome.part.1 > 3 && case.kind() == kind {
        outcome.part.0 += 1;
    }
    outcome
}

#[test]
fn a_part_begins_elsewhere() {
    let wrongs: [(Play, Event); 2] = [
        (
            |case, memory| elsewhere(case, memory, Kind::Read),
            Event::Read,
        ),
        (
            |case, memory| elsewhere(case, memory, Kind::Ask),
            Event::Ask,
        ),
    ];
    for (wrong, event) in wrongs {
        let case = caught(wrong);
        one_record(&case);
        assert_eq!((case.event, case.record.len), (event, 4));
    }
}

#[test]
fn a_refused_view_is_taken_on() {
    fn wrong(case: &Case, memory: &mut Memory) -> Outcome {
        let mut outcome = by_model(case, memory);
        if let (18, Event::View { set, .. }) = (outcome.number, &case.event) {
            outcome.me.view = *set;
        }
        outcome
    }
    let case = caught(wrong);
    assert!(matches!(case.event, Event::View { epoch: 0, set: 0 }));
    assert_eq!(case.me.view, 3);
}

/// Lists of numbers, for the shrinker itself.
#[derive(Clone, Debug, PartialEq)]
struct List(Vec<u64>);

impl Smaller for List {
    fn smaller(&self) -> Box<dyn Iterator<Item = List> + '_> {
        let numbers = self.0.iter().enumerate();
        let lesser = numbers.flat_map(move |(k, &number)| {
            less(number).map(move |other| {
                let mut list = self.clone();
                list.0[k] = other;
                list
            })
        });
        Box::new(drops(&self.0).map(List).chain(lesser))
    }
}

#[test]
fn the_shrinker_ends_at_the_least() {
    let wide = List((0..400).map(|k| k * 7919 % 1000).collect());
    // Two numbers, each above 700, in this order.
    let differs = |list: &List| {
        let great = list.0.iter().filter(|&&number| number > 700).count();
        (great >= 2).then(|| format!("{great} great ones"))
    };
    let found = shrink(wide.clone(), String::new(), differs);
    assert_eq!(found.shrunk, List(vec![701, 701]));
    assert_eq!((found.first, &found.what[..]), (wide, "2 great ones"));
}
