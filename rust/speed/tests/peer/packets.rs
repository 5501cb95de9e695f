//! Packets, whole and damaged, and lists of messages, good and bad.

use cetskobi::sys::{Accepted, Arrival, Fetched, Settings as Group, Written};
use compare::memory::Memory;
use compare::packet::accept::{self, Side};
use compare::packet::facts::Told;
use compare::packet::{arrive, deliver, fetch, pack};
use compare::settings::Settings;
use compare::single::Outcome;
use speed::peer;

use crate::often;

#[test]
fn fetched() {
    let settings = Settings::from_env();
    match fetch::compare(&settings, peer::fetch) {
        Ok(tally) => {
            let answers = [0, 20, 21, 22, 23, 27];
            often("fetch", &tally.answers, &answers, 1000);
            tally.heads.often(&[0, 21, 22, 23], 5000);
        }
        Err(found) => panic!("{settings}\n{found}"),
    }
}

#[test]
fn packed() {
    let settings = Settings::from_env();
    match pack::compare(&settings, peer::pack) {
        Ok(tally) => {
            often("pack", &tally.answers, &[0, 24, 25], 1000);
            assert!(tally.rules.iter().all(|&times| times >= 50_000));
        }
        Err(found) => panic!("{settings}\n{found}"),
    }
}

#[test]
fn delivered() {
    fn by_peer(case: &deliver::Case, memory: &mut Memory) -> Outcome {
        let (table, store) = memory.lend();
        let me = case.lent.me;
        let answer = peer::deliver_packet(me, table, store, &case.packet, case.i);
        Outcome::of(me, answer)
    }
    let settings = Settings::from_env();
    match deliver::compare(&settings, by_peer) {
        Ok(tally) => {
            let answers = deliver::Case::answers();
            often("delivery from a packet", &tally.answers, &answers, 100);
            println!("the last ACK at X, W, R: {:?}", tally.last);
            assert!(tally.last.iter().all(|&times| times >= 100));
            tally.heads.often(&[0, 21, 22, 23], 100);
            println!("ties by each rule, not taken and taken: {:?}", tally.ties);
            assert!(tally.ties.as_flattened().iter().all(|&times| times >= 3000));
        }
        Err(found) => panic!("{settings}\n{found}"),
    }
}

const PEER: Side = Side {
    accept: peer::accept,
    fetch: |_, packet, facts, i| peer::fetch_accepted(packet, facts, i),
};

/// With facts of another packet, or made-up ones, each case of the header.
fn each_case(what: &str, counts: &[u64; 5]) {
    for (told, &times) in Told::ALL.iter().zip(counts) {
        println!("{times:8} times {what} with foreign facts: {told:?}");
        assert!(times >= 1000, "{what}: {told:?} {times} times");
    }
}

#[test]
fn accepted() {
    let settings = Settings::from_env();
    match accept::compare(&settings, PEER) {
        Ok(tally) => {
            often("accept", &tally.packets, &[0, 20, 21, 22, 27], 1000);
            let answers = [0, 20, 21, 22, 23, 27];
            often("accepted fetch", &tally.own, &answers, 1000);
            each_case("accepted fetch", &tally.foreign);
            assert!(tally.unasked >= 1000 && tally.unruled >= 1000);
            tally.heads.often(&[0, 21, 22], 1000);
        }
        Err(found) => panic!("{settings}\n{found}"),
    }
}

fn arrives(case: &arrive::Case, memory: &mut Memory) -> Arrival {
    let deliver::Case { lent, packet, i } = &case.delivery;
    let facts = case.facts;
    let facts = facts.unwrap_or_else(|| peer::accept(lent.me.settings, packet));
    let (table, store) = memory.lend();
    peer::deliver_accepted(lent.me, table, store, packet, facts, *i)
}

#[test]
fn arrived() {
    let settings = Settings::from_env();
    match arrive::compare(&settings, arrives) {
        Ok(tally) => {
            let answers = deliver::Case::answers();
            often("accepted delivery", &tally.own, &answers, 100);
            assert!(tally.later >= 100);
            each_case("accepted delivery", &tally.foreign);
            let answers = [0, 1, 2, 3, 4, 5, 10, 11, 12, 13, 14];
            often("delivery of an entry", &tally.entries, &answers, 100);
            assert!(tally.unasked >= 1000 && tally.unruled >= 1000);
            tally.heads.often(&[0, 21, 22, 23], 50);
            println!("ties by each rule, not taken and taken: {:?}", tally.ties);
            assert!(tally.ties.as_flattened().iter().all(|&times| times >= 1500));
        }
        Err(found) => panic!("{settings}\n{found}"),
    }
}

/// Wrong peers are found.
#[test]
fn wrong_peers_are_found() {
    // It trusts the facts: 22 is not answered.
    fn trusts(_: Group, packet: &[u8], facts: Accepted, i: usize) -> Fetched {
        let right = peer::fetch_accepted(packet, facts, i);
        if Told::of(packet, facts, i) == Told::NoBytes {
            return Fetched { number: 0, ..right };
        }
        right
    }
    let side = Side {
        fetch: trusts,
        ..PEER
    };
    let found = accept::compare(&Settings::USUAL, side).expect_err("a difference");
    println!("{found}");

    // It tells nothing of a refused message.
    fn silent(case: &arrive::Case, memory: &mut Memory) -> Arrival {
        let right = arrives(case, memory);
        match right.answer.number {
            0 => right,
            _ => Arrival { index: 0, ..right },
        }
    }
    let found = arrive::compare(&Settings::USUAL, silent).expect_err("a difference");
    println!("{found}");

    // 02, Wish 6: it always writes 1.
    fn writes_1(_: Group, words: &[u32], bodies: &[u8], out: &mut [u8]) -> Written {
        peer::pack(Group { rule: 1 }, words, bodies, out)
    }
    let found = pack::compare(&Settings::USUAL, writes_1).expect_err("a difference");
    println!("{found}");
    assert_eq!(found.shrunk.settings.rule, 2);

    // It takes the packet's rule for the group's.
    fn any_rule(_: Group, packet: &[u8], i: usize) -> Fetched {
        let rule = packet.first().copied().unwrap_or(0);
        peer::fetch(Group { rule }, packet, i)
    }
    let found = fetch::compare(&Settings::USUAL, any_rule).expect_err("a difference");
    println!("{found}");
}
