//! Who gets a message, and the bytes that it takes along, of memory of any kind.

use cetskobi::sys::Answer;
use compare::crossing::Fields;
use compare::settings::Settings;
use compare::single::{some_case, some_number, some_word, Bench};
use model::rng::Rng;
use speed::pointers::GONE;
use speed::{engine, peer};

const CASES: usize = 400_000;
const KINDS: [u8; 6] = [0, 1, 2, 3, 4, 255];

/// An answer of any kind, mostly with the timestamp of the record.
fn some_left(rng: &mut Rng, record: &Fields) -> Answer {
    let mut left = Answer {
        number: 0,
        kind: [1, 1, 1, KINDS[rng.below(6)]][rng.below(4)],
        tie: record.tie,
        version: record.version,
    };
    match rng.below(8) {
        0 => left.tie = some_number(rng),
        1 => left.version = some_word(rng),
        2 => left.number = some_number(rng),
        _ => {}
    }
    left
}

#[test]
fn bytes_along() {
    let settings = Settings::from_env();
    let mut rng = settings.rng("bytes along");
    let mut bench = Bench::new(&mut rng);
    let (mut gone, mut none, mut some) = (0, 0, 0);
    for _ in 0..CASES * settings.times {
        let case = some_case(&mut rng);
        let left = some_left(&mut rng, &case.record);
        let memory = bench.lay(&case);
        let (table, store, i) = (memory.table(), memory.store(), case.i);
        let along = peer::body(table, store, i, left);
        assert_eq!(
            along,
            engine::body(table, store, i, left),
            "{settings}: peer, engine. {left:?} of {case:?}"
        );
        match along {
            GONE => gone += 1,
            0 => none += 1,
            _ => some += 1,
        }
    }
    println!("{gone} gone, {none} with no bytes, {some} with some");
    assert!(gone.min(none).min(some) >= 1000);
}

#[test]
fn recipients() {
    let settings = Settings::from_env();
    let mut rng = settings.rng("recipients");
    let mut counts = [0; KINDS.len()];
    for _ in 0..CASES * settings.times {
        let me = some_case(&mut rng).me;
        let (k, sender) = (rng.below(KINDS.len()), some_number(&mut rng));
        let by_engine = engine::recipients(me, KINDS[k], sender);
        let by_peer = peer::recipients(me, KINDS[k], sender);
        let asked = (me, KINDS[k], sender);
        assert_eq!(by_engine, by_peer, "{settings}: engine, peer of {asked:?}");
        counts[k] += u64::from(by_peer != 0);
    }
    println!("somebody gets it, by kind: {KINDS:?} {counts:?}");
    assert!(counts[1..4].iter().all(|&times| times >= 1000));
}
