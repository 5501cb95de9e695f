//! Who gets a message, and the bytes that it takes along.

use cetskobi::raw::{Answer, Replica, GONE};
use compare::leaving::{by_model, compare};
use compare::memory::Memory;
use compare::settings::Settings;

#[test]
fn after_random_events() {
    let settings = Settings::from_env();
    match compare(&settings, by_model) {
        Ok(tally) => {
            println!("{tally:?}");
            assert!(tally.kinds.iter().all(|&times| times >= 1000));
            assert!(tally.sent[1..].iter().all(|&times| times >= 1000));
            assert!(tally.last >= 1000);
            // Some 3,100 of each.
            assert!(tally.replayed.iter().all(|&times| times >= 2000));
            // Writes and, 02, Wish 5, commits: 6,397 and 5,463.
            assert!(tally.saved.iter().all(|&times| times >= 3500));
            assert!(tally.bodies >= 1000 && tally.gone.iter().all(|&times| times >= 1000));
        }
        Err(found) => panic!("{settings}\n{found}"),
    }
}

#[test]
fn a_wrong_recipient_is_found() {
    fn wrong(me: Replica, memory: &Memory, i: usize, left: Answer, sender: u8) -> (u16, usize) {
        let (to, len) = by_model(me, memory, i, left, sender);
        let own = 1u16.checked_shl(me.number.into()).unwrap_or(0);
        (if left.kind == 3 { to | own } else { to }, len)
    }
    let found = compare(&Settings::USUAL, wrong).expect_err("a difference");
    println!("{found}");
    assert_eq!((found.shrunk.kind, found.shrunk.event.me.number), (3, 0));
}

/// As it was before: whatever text the record has now.
#[test]
fn a_newer_text_under_an_older_timestamp_is_found() {
    fn wrong(me: Replica, memory: &Memory, i: usize, left: Answer, sender: u8) -> (u16, usize) {
        let (to, len) = by_model(me, memory, i, left, sender);
        let record = memory.table().chunks_exact(16).nth(i);
        match record {
            Some(record) if len == GONE && record[14] <= 192 => (to, record[14].into()),
            _ => (to, len),
        }
    }
    let found = compare(&Settings::USUAL, wrong).expect_err("a difference");
    println!("{found}");
    assert_eq!(found.shrunk.kind, 1);
}
