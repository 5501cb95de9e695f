//! Messages, good and bad, packed into outputs of any size.

use cetskobi::raw::{Settings as Group, Written};
use compare::packet::pack::{by_engine, by_model, compare, Case, Pack};
use compare::settings::Settings;

#[test]
fn random_lists() {
    let settings = Settings::from_env();
    match compare(&settings, by_model) {
        Ok(tally) => {
            for answer in [0, 24, 25] {
                let times = tally.answers[answer];
                println!("{times:8} answers {answer}");
                assert!(times >= 1000, "{answer}: only {times} times");
            }
            println!("{:8} of 1,400 bytes", tally.full);
            println!("{:8} of 1,401 bytes", tally.over);
            assert!(tally.full >= 100 && tally.over >= 100);
            // 02, Wish 6: 93,541 and 93,693 were counted. Each was refused by 27 in a
            // group with the other rule.
            println!("{:?} under the rules", tally.rules);
            assert!(tally.rules.iter().all(|&times| times >= 50_000));
        }
        Err(found) => panic!("{settings}\n{found}"),
    }
}

/// The row of the ringing table, into an output of 20 bytes and of 19.
#[test]
fn the_papers_packet() {
    let mut packet = [1, 1, 0, 20, 2, 5, 0, 0, 0, 0, 0, 7, 0, 0, 0, 1, 2, 0, 20, 0];
    // 02, Wish 6: byte 0 is the number of the group's rule, and every byte is a rule.
    for rule in 0..=255 {
        packet[0] = if rule == 2 { 2 } else { 1 };
        let group = Group { rule };
        for pack in [by_engine, by_model] {
            let mut out = [9; 21];
            let ack = [2, 5, 0, 7, 1, 2, 0];
            let written = pack(group, &ack, &[], &mut out);
            assert_eq!((written.number, written.len), (0, 20));
            assert_eq!((&out[..20], out[20]), (&packet[..], 9), "{group:?}");
            let mut short = [9; 19];
            let written = pack(group, &ack, &[], &mut short);
            assert_eq!((written.number, written.len, short), (25, 0, [9; 19]));
        }
    }
}

/// Seven texts, the last of 132 bytes and of 133, into an output with room for both.
#[test]
fn packets_of_1400_and_1401() {
    for (last, number, len) in [(132, 0, 1400), (133, 25, 0)] {
        let lens = [192, 192, 192, 192, 192, 192, last];
        let words = lens.map(|len| [1, 5, 0, 7, 1, 2, len]);
        let bodies = vec![7; lens.iter().sum::<u32>() as usize];
        for (pack, rule) in [
            (by_engine as Pack, 1),
            (by_engine, 2),
            (by_model, 1),
            (by_model, 2),
        ] {
            let group = Group { rule };
            let written = pack(group, words.as_flattened(), &bodies, &mut [9; 1500]);
            assert_eq!((written.number, written.len), (number, len));
        }
    }
}

/// Finds the wrong writer, and gives the shrunk case.
fn caught(wrong: Pack) -> Case {
    let found = compare(&Settings::USUAL, wrong).expect_err("a difference");
    println!("{found}");
    assert!(found.shrunk.words.len() <= 7 && found.shrunk.bodies.is_empty());
    found.shrunk
}

/// Wrong writers are found, by small lists.
#[test]
fn wrong_writers() {
    fn past(group: Group, words: &[u32], bodies: &[u8], out: &mut [u8]) -> Written {
        let written = by_model(group, words, bodies, out);
        if let (0, Some(byte)) = (written.number, out.get_mut(written.len)) {
            *byte = 0;
        }
        written
    }
    fn order(group: Group, words: &[u32], bodies: &[u8], out: &mut [u8]) -> Written {
        let mut written = by_model(group, words, bodies, out);
        if written.number == 24 && out.len() < 20 {
            written.number = 25;
        }
        written
    }
    fn narrow(group: Group, words: &[u32], bodies: &[u8], out: &mut [u8]) -> Written {
        let narrow: Vec<u32> = words.iter().map(|word| word & 0xffff).collect();
        match by_model(group, words, bodies, out) {
            Written { number: 24, .. } => by_model(group, &narrow, bodies, out),
            written => written,
        }
    }
    for wrong in [past, order, narrow] {
        caught(wrong);
    }
}

/// 02, Wish 6: a writer that always writes 1, and one that writes the byte as it was
/// passed.
#[test]
fn wrong_rules_are_written() {
    fn always_1(_: Group, words: &[u32], bodies: &[u8], out: &mut [u8]) -> Written {
        by_model(Group { rule: 1 }, words, bodies, out)
    }
    let case = caught(always_1);
    assert_eq!((case.settings.rule, case.out), (2, 20));

    fn as_passed(group: Group, words: &[u32], bodies: &[u8], out: &mut [u8]) -> Written {
        let written = by_model(group, words, bodies, out);
        if written.number == 0 {
            out[0] = group.rule;
        }
        written
    }
    let case = caught(as_passed);
    assert_eq!((case.settings.rule, case.out), (0, 20));
}
