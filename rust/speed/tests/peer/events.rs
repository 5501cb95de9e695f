//! Single events on memory of any kind: sound and unsound records, bytes that
//! are no record, tables and stores of any length.

use compare::memory::Memory;
use compare::settings::Settings;
use compare::single::{compare, Case, Event, Outcome};
use speed::peer;

pub fn by_peer(case: &Case, memory: &mut Memory) -> Outcome {
    let (me, i) = (case.me, case.i);
    let (table, store) = memory.lend();
    let answer = match &case.event {
        Event::Start => {
            let started = peer::start(me.number, me.view, me.settings, table, store);
            return Outcome::admitted(started);
        }
        Event::View { epoch, set } => return Outcome::admitted(peer::view(me, *epoch, *set)),
        Event::Read => return Outcome::of_read(me, i, peer::read(me, table, store, i)),
        Event::Write { value } => peer::write(me, table, store, i, value),
        Event::Ask => return Outcome::of_ask(me, i, peer::ask(me, table, store, i)),
        Event::Commit { opened, value } => peer::commit(me, table, store, i, *opened, value),
        Event::Replay => peer::replay(me, table, store, i),
        Event::Deliver { message, value } => peer::deliver(me, table, store, i, *message, value),
        Event::Validate => peer::validate(me, table, store, i),
        Event::Resend => peer::resend(me, table, store, i),
    };
    Outcome::of(me, answer)
}

/// Every answer of every event, and every acceptance at every state.
#[test]
fn random_events() {
    let settings = Settings::from_env();
    match compare(&settings, by_peer) {
        Ok(tally) => {
            println!("{tally}");
            assert!(tally.total() >= 1_000_000);
            assert_eq!(tally.stray(), 0);
            assert!(tally.least() >= 100, "some answer is rare:\n{tally}");
            // 02, Wish 2: some 28,000 accepted at invalid, and at invalid-write, and some
            // 5,000 refused there, the last writer being in the view.
            for [accepted, refused] in tally.replays() {
                assert!(accepted >= 20_000 && refused >= 3_000, "{tally}");
            }
            // 02, Wishes 5 and 6: as in compare's own test.
            tally.opened_often();
            tally.tied_often();
        }
        Err(found) => panic!("{settings}\n{found}"),
    }
}

/// A peer that counts the last ACK of a write or a replay alone is found.
#[test]
fn a_peer_that_only_counts_is_found() {
    fn wrong(case: &Case, memory: &mut Memory) -> Outcome {
        let mut outcome = by_peer(case, memory);
        let delivered = matches!(case.event, Event::Deliver { .. });
        let moved = memory.record(case.i);
        if let (true, 3, Some(mut record)) = (delivered, outcome.sent.0, moved) {
            record.state = case.record.state;
            memory.put_record(case.i, &record);
            outcome.sent = (0, 0, 0);
        }
        outcome
    }
    let found = compare(&Settings::USUAL, wrong).expect_err("a difference");
    println!("{found}");
    assert!(found.shrunk.record.state >= 3);
}

/// A peer that refuses a replay from invalid-write, as before 02, Wish 2, is found.
#[test]
fn a_peer_that_does_not_replay_is_found() {
    fn wrong(case: &Case, memory: &mut Memory) -> Outcome {
        let before = memory.clone();
        let mut outcome = by_peer(case, memory);
        if (&case.event, case.record.state, outcome.number) == (&Event::Replay, 2, 0) {
            memory.clone_from(&before);
            (outcome.number, outcome.sent) = (16, (0, 0, 0));
        }
        outcome
    }
    let found = compare(&Settings::USUAL, wrong).expect_err("a difference");
    println!("{found}");
    assert_eq!(found.shrunk.record.state, 2);
}

/// 02, Wish 5: a peer that commits on the version alone, or on a record that may be
/// written, and one whose ask hands out the last-write timestamp, are found.
#[test]
fn a_peer_that_saves_over_what_was_not_seen_is_found() {
    // Where question 26 refuses, but for the version and, if `valid`, the state.
    fn instead(case: &Case, memory: &mut Memory, valid: bool) -> Outcome {
        let outcome = by_peer(case, memory);
        let Event::Commit { opened, value } = &case.event else {
            return outcome;
        };
        let good = !valid || case.record.state == 0 && opened.0 == case.record.version;
        let (me, i) = (case.me, case.i);
        let (table, store) = memory.lend();
        match outcome.number {
            26 if good => Outcome::of(me, peer::write(me, table, store, i, value)),
            _ => outcome,
        }
    }
    let found = compare(&Settings::USUAL, |case, memory| instead(case, memory, true));
    let shrunk = found.expect_err("a difference").shrunk;
    let Event::Commit { opened, .. } = shrunk.event else {
        panic!("{shrunk:?}");
    };
    assert_eq!(opened.0, shrunk.record.version);
    assert_ne!(opened.1, shrunk.record.tie);
    let found = compare(&Settings::USUAL, |case, memory| {
        instead(case, memory, false)
    });
    println!("{}", found.expect_err("a difference"));

    let found = compare(&Settings::USUAL, |case, memory| {
        let mut outcome = by_peer(case, memory);
        if (&case.event, outcome.number) == (&Event::Ask, 0) {
            outcome.opened = case.record.written();
        }
        outcome
    });
    let shrunk = found.expect_err("a difference").shrunk;
    assert_eq!(shrunk.event, Event::Ask);
    assert_ne!(shrunk.record.stamp(), shrunk.record.written());
}

/// 02, Wish 6: a peer that ignores the rule, and one whose view sets it back to the old,
/// are found.
#[test]
fn a_peer_with_another_rule_is_found() {
    fn ignores(case: &Case, memory: &mut Memory) -> Outcome {
        let mut other = case.clone();
        if let Event::Deliver { .. } = case.event {
            other.me.settings.rule = 1;
        }
        let mut outcome = by_peer(&other, memory);
        if let Event::Deliver { .. } = case.event {
            outcome.me = case.me;
        }
        outcome
    }
    let found = compare(&Settings::USUAL, ignores).expect_err("a difference");
    println!("{found}");
    assert_eq!(found.shrunk.me.settings.rule, 2);

    fn resets(case: &Case, memory: &mut Memory) -> Outcome {
        let mut outcome = by_peer(case, memory);
        if matches!(case.event, Event::View { .. }) && outcome.number == 0 {
            outcome.me.settings.rule = 1;
        }
        outcome
    }
    let found = compare(&Settings::USUAL, resets).expect_err("a difference");
    println!("{found}");
    assert_eq!(found.shrunk.me.settings.rule, 2);
}

/// A wrong peer is found.
#[test]
fn a_wrong_peer_is_found() {
    // An older INV leaves no ACK.
    fn wrong(case: &Case, memory: &mut Memory) -> Outcome {
        let before = memory.clone();
        let mut outcome = by_peer(case, memory);
        if outcome.sent.0 == 2 && *memory == before {
            outcome.sent = (0, 0, 0);
        }
        outcome
    }
    let found = compare(&Settings::USUAL, wrong).expect_err("a difference");
    println!("{found}");
}
