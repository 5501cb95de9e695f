//! Deliveries out of packets, on memory of any kind, and in whole groups.

use cetskobi::raw::Settings as Group;
use compare::group::{self, by_packet};
use compare::memory::Memory;
use compare::packet::deliver::{by_model, compare, Case};
use compare::settings::Settings;
use compare::single::{on_table, Outcome};

#[test]
fn random_deliveries() {
    let settings = Settings::from_env();
    match compare(&settings, by_model) {
        Ok(tally) => {
            for answer in Case::answers() {
                let times = tally.answers[answer];
                println!("{times:8} answers {answer}");
                assert!(times >= 100, "{answer}: only {times} times");
            }
            println!("the last ACK at X, W, R: {:?}", tally.last);
            assert!(tally.last.iter().all(|&times| times >= 100));
            // 02, Wish 6: the rarest are 27 before 21 and 20 by byte 0 alone.
            tally.heads.often(&[0, 21, 22, 23], 100);
            assert!(tally.answers[27] >= 10_000);
            // Some 5,200 of each.
            println!("ties by each rule, not taken and taken: {:?}", tally.ties);
            assert!(tally.ties.as_flattened().iter().all(|&times| times >= 3000));
        }
        Err(found) => panic!("{settings}\n{found}"),
    }
}

#[test]
fn groups_by_packet() {
    let settings = Settings::from_env();
    match group::compare(&settings, by_packet, on_table) {
        Ok(tally) => {
            // 02, Wish 2: replays from invalid-write, whose INVs come in packets, and what
            // comes back. 1,229, 255 and 131 were counted.
            for (name, floor) in [
                ("Replay at InvalidWrite", 800),
                ("given up: the last Ack, Valid", 120),
                ("given up: a greater Inv, Invalid", 60),
            ] {
                let [old, new] = tally.get(name).copied().unwrap_or_default();
                let times = old + new;
                assert!(times >= floor, "{name}: only {times} times");
                assert!(old.min(new) >= floor / 4, "{name}: {old} and {new} times");
            }
        }
        Err(found) => panic!("{settings}\n{found}"),
    }
}

#[test]
fn a_wrong_order_is_found() {
    // The delivery's questions before the packet's.
    fn wrong(case: &Case, memory: &mut Memory) -> Outcome {
        let mut outcome = by_model(case, memory);
        if outcome.number == 23 && case.lent.me.number > 15 {
            outcome.number = 1;
        }
        outcome
    }
    let found = compare(&Settings::USUAL, wrong).expect_err("a difference");
    println!("{found}");
    assert_eq!(found.shrunk.lent.me.number, 16);
}

/// 02, Wish 6: a delivery that goes by the packet's rule, and not by the group's: it
/// takes a packet of the other rule in. One that asks 27 after the questions of the
/// delivery.
#[test]
fn wrong_rules_are_found() {
    fn packets(case: &Case, memory: &mut Memory) -> Outcome {
        let before = memory.clone();
        let outcome = by_model(case, memory);
        if outcome.number != 27 {
            return outcome;
        }
        memory.clone_from(&before);
        let mut other = case.clone();
        let rule = case.packet[0];
        other.lent.me.settings = Group { rule };
        Outcome {
            me: case.lent.me,
            ..by_model(&other, memory)
        }
    }
    let found = compare(&Settings::USUAL, packets).expect_err("a difference");
    println!("{found}");
    assert!(found.what.contains("number: 27"));

    fn late(case: &Case, memory: &mut Memory) -> Outcome {
        let mut outcome = by_model(case, memory);
        if outcome.number == 27 && case.lent.me.number > 15 {
            outcome.number = 1;
        }
        outcome
    }
    let found = compare(&Settings::USUAL, late).expect_err("a difference");
    println!("{found}");
    assert_eq!(found.shrunk.lent.me.number, 16);
}
