//! Single events, also on unsound records and wrong memory.

use cetskobi::raw::{Message, Replica, Settings as Group, RECORD_BYTES};
use compare::bytes::Bytes;
use compare::crossing::Fields;
use compare::settings::Settings;
use compare::shrink::shrink;
use compare::single::{by_engine, by_model, compare, Bench, Case, Event, Outcome};

#[test]
fn random_events() {
    let settings = Settings::from_env();
    match compare(&settings, by_model) {
        Ok(tally) => {
            println!("{tally}");
            assert!(tally.total() >= 1_000_000);
            assert_eq!(tally.stray(), 0);
            assert!(tally.least() >= 100, "some answer is rare:\n{tally}");
            // Some 28,000 are accepted at invalid, and at invalid-write; and some 5,000
            // refused there, the last writer being in the view.
            let [invalid, invalid_write] = tally.replays();
            for [accepted, refused] in [invalid, invalid_write] {
                assert!(accepted >= 20_000 && refused >= 3_000, "{tally}");
            }
            tally.opened_often();
            tally.tied_often();
        }
        Err(found) => panic!("{settings}\n{found}"),
    }
}

/// Laptop 2 with view {1,2,5} at epoch 9, in a group with the old rule.
const ME: Replica = Replica {
    number: 2,
    settings: Group { rule: 1 },
    view: 0b10_0110,
    epoch: 9,
};

/// No two bytes behind the state are alike.
const RECORD: Fields = Fields {
    state: 0,
    tie: 4,
    writer: 3,
    written_tie: 6,
    version: 0x1112_1314,
    written_version: 0x3132_3334,
    acks: 0x8122,
    len: 62,
    unused: 0xaa,
};

/// Every event on a record, with the messages that this one takes.
fn events() -> Vec<Event> {
    let deliver = |kind, (version, tie), value: &[u8]| Event::Deliver {
        message: Message {
            kind,
            sender: 5,
            tie,
            epoch: ME.epoch,
            version,
        },
        value: Bytes(value.to_vec()),
    };
    let value = || Bytes(b"wing 62".to_vec());
    let commit = |opened| Event::Commit {
        opened,
        value: value(),
    };
    vec![
        Event::Start,
        Event::Read,
        Event::Write { value: value() },
        Event::Ask,
        commit(RECORD.stamp()),
        commit(RECORD.written()),
        Event::Replay,
        Event::Validate,
        Event::Resend,
        deliver(1, RECORD.stamp(), b"wing 63"),
        deliver(1, (RECORD.version + 1, 0), b"wing 64"),
        // Ties: each rule takes one of them.
        deliver(1, (RECORD.version, RECORD.tie - 1), b"wing 65"),
        deliver(1, (RECORD.version, RECORD.tie + 1), b"wing 66"),
        deliver(2, RECORD.written(), b""),
        deliver(3, RECORD.stamp(), b""),
    ]
}

/// The same by both sides; or it fails, and shows a small case.
fn same(settings: &Settings, bench: &mut Bench, case: Case) -> Outcome {
    let mut difference = |case: &Case| bench.difference(case, by_model);
    difference(&case).unwrap_or_else(|what| {
        let found = shrink(case, what, |case| difference(case).err());
        panic!("{settings}\n{found}");
    })
}

/// Every byte of a record with every value, at every state, for every event, under
/// each rule.
#[test]
fn every_byte_of_a_record() {
    let settings = Settings::from_env();
    let mut bench = Bench::new(&mut settings.rng("every byte"));
    let mut accepted = [0; 2];
    for (event, rule) in events().into_iter().flat_map(|e| [(e.clone(), 1), (e, 2)]) {
        let me = Replica {
            settings: Group { rule },
            ..ME
        };
        for (state, place) in (0..5).flat_map(|s| (0..RECORD_BYTES).map(move |k| (s, k))) {
            for value in 0..=u8::MAX {
                let mut bytes = Fields { state, ..RECORD }.bytes();
                bytes[place] = value;
                let mut case = Case::on(me, 1, event.clone());
                case.lend(3);
                case.part = 1 + usize::from(value) % 100;
                case.record = Fields::of(&bytes);
                assert_eq!(case.record.bytes(), bytes);
                let outcome = same(&settings, &mut bench, case);
                accepted[usize::from(rule == 2)] += u64::from(outcome.number == 0);
            }
        }
    }
    println!("{accepted:?} accepted");
    assert!(accepted.iter().all(|&times| times >= 10_000));
}

/// 02, Wish 6: every byte of an identity's rule, for every event at every state, and
/// for views. 2 is the new rule, every other byte the old: a start and an accepted view
/// name it so, and a tie is decided so.
#[test]
fn every_byte_of_a_rule() {
    let settings = Settings::from_env();
    let mut bench = Bench::new(&mut settings.rng("every rule"));
    let view = |epoch| Event::View { epoch, set: 0b110 };
    let all = [events(), vec![view(ME.epoch), view(ME.epoch + 1)]].concat();
    let (mut admitted, mut kept, mut ties) = (0, 0, [0; 2]);
    for rule in 0..=u8::MAX {
        let me = Replica {
            settings: Group { rule },
            ..ME
        };
        let named = Group {
            rule: if rule == 2 { 2 } else { 1 },
        };
        for (event, state) in all.iter().flat_map(|e| (0..5).map(move |s| (e, s))) {
            let mut case = Case::on(me, 1, event.clone());
            case.lend(3);
            case.part = 1;
            case.record = Fields { state, ..RECORD };
            // As `event` leaves it in the engine.
            let mut memory = bench.lay(&case).clone();
            by_engine(&case, &mut memory);
            let outcome = same(&settings, &mut bench, case);
            match event {
                Event::Start => {
                    assert_eq!((outcome.number, outcome.me.settings), (0, named));
                    admitted += 1;
                }
                Event::View { .. } if outcome.number == 0 => {
                    assert_eq!(outcome.me.settings, named);
                    admitted += 1;
                }
                _ => {
                    assert_eq!(outcome.me, me, "as it was passed");
                    kept += 1;
                }
            }
            let Event::Deliver { message, .. } = event else {
                continue;
            };
            let tied = message.version == RECORD.version && message.tie != RECORD.tie;
            if message.kind == 1 && tied {
                let wins = (message.tie > RECORD.tie) != (rule == 2);
                let now = memory.record(1).expect("there are three");
                let tie = if wins { message.tie } else { RECORD.tie };
                assert_eq!((now.version, now.tie), (RECORD.version, tie), "{rule}");
                ties[usize::from(wins)] += 1;
            }
        }
    }
    assert_eq!((admitted, ties), (256 * 5 * 2, [256 * 5; 2]));
    assert!(kept >= 256 * 5 * 10);
}
