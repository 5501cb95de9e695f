//! The list for each kind of driver, at three laptops of four, or two, under both
//! rules of ties.

use cetskobi::{Laptop, Leaving, Members, Record, Refusal, Rule, State, Timestamp};
use settle::{by_hand, by_packet, driver, drivers, follow, held, latest, most, recipe, steps};
use settle::{Event, Halt, Step};

const TEXT: &[u8] = b"Robin, wing 73";

/// Laptops 0 to 3 with one record, all in the view.
fn four(rule: Rule) -> Vec<Laptop> {
    let start = |n| Laptop::start(n, 0b1111, rule, 1).expect("a fresh start");
    (0..4).map(start).collect()
}

/// A situation without a tie: the lists are the same under both rules.
fn by_each_rule(situation: impl Fn(Vec<Laptop>)) {
    for &rule in Rule::ALL {
        situation(four(rule));
    }
}

/// Laptop `n` saves.
fn save(laptops: &mut [Laptop], n: usize) -> Leaving<'static> {
    let inv = laptops[n].write(0, TEXT).expect("a save");
    inv.into_owned()
}

/// A message comes to laptop `n`; what leaves.
fn comes(laptops: &mut [Laptop], n: usize, message: &Leaving) -> Option<Leaving<'static>> {
    by_hand(&mut laptops[n], message).expect("accepted")
}

/// These are struck off; those that are left hear of it.
fn strike(laptops: &mut Vec<Laptop>, off: &[u8]) {
    laptops.retain(|l| !off.contains(&l.number()));
    let view: Members = laptops.iter().map(Laptop::number).collect();
    for laptop in laptops {
        laptop.change_view(1, view).expect("a smaller view");
    }
}

/// A list as one would write it down: `0 resends`, `1 takes 0`.
fn lines(steps: &[Step]) -> Vec<String> {
    let line = |Step { at, event }: &Step| match event {
        Event::Validate => format!("{at} validates"),
        Event::Resend => format!("{at} resends"),
        Event::Replay => format!("{at} replays"),
        Event::Deliver { left } => format!("{at} takes {left}"),
    };
    steps.iter().map(line).collect()
}

/// The lists of all that can drive are these, in this order, and after each all show
/// the text. The first is the recipe's.
fn each_settles(laptops: &[Laptop], lists: &[&[&str]]) {
    let (settings, held) = (laptops[0].settings(), held(laptops, 0));
    let all = drivers(settings, &held).into_iter();
    let all: Vec<Vec<Step>> = all.map(|first| steps(settings, &held, first)).collect();
    assert_eq!(all.iter().map(|l| lines(l)).collect::<Vec<_>>(), lists);
    assert_eq!(recipe(settings, &held).as_ref(), all.first());
    for steps in all {
        assert!(steps.len() <= most(laptops.len()));
        for carry in [by_hand, by_packet] {
            let mut laptops = laptops.to_vec();
            assert_eq!(follow(&steps, &mut laptops, 0, carry), Ok(()));
            for laptop in &laptops {
                assert_eq!(laptop.read(0), Ok(TEXT), "{laptop:?}");
            }
            assert_eq!(recipe(settings, &self::held(&laptops, 0)), Some(vec![]));
        }
    }
}

/// One alone can drive, by this list.
fn settles(laptops: &[Laptop], lines: &[&str]) {
    each_settles(laptops, &[lines]);
}

#[test]
fn a_save_that_nobody_heard_of() {
    by_each_rule(|mut laptops| {
        let _lost = save(&mut laptops, 1);
        strike(&mut laptops, &[3]);
        let invs = ["1 resends", "0 takes 0", "2 takes 0"];
        let acks = ["1 takes 1", "1 takes 2"];
        // The VAL left with the last ACK.
        let vals = ["0 takes 4", "2 takes 4"];
        settles(&laptops, &[&invs[..], &acks, &vals].concat());
    });
}

#[test]
fn a_save_that_one_has_acknowledged() {
    by_each_rule(|mut laptops| {
        let inv = save(&mut laptops, 1);
        let ack = comes(&mut laptops, 2, &inv).expect("an ACK");
        comes(&mut laptops, 1, &ack);
        strike(&mut laptops, &[3]);
        let inv = ["1 resends", "0 takes 0", "1 takes 1"];
        settles(&laptops, &[&inv[..], &["0 takes 2", "2 takes 2"]].concat());
    });
}

#[test]
fn a_save_that_waited_for_the_dead_alone() {
    by_each_rule(|mut laptops| {
        let inv = save(&mut laptops, 1);
        for n in [0, 2] {
            let ack = comes(&mut laptops, n, &inv).expect("an ACK");
            comes(&mut laptops, 1, &ack);
        }
        strike(&mut laptops, &[3]);
        settles(&laptops, &["1 validates", "0 takes 0", "2 takes 0"]);
    });
}

/// Its VAL reached 2 alone.
#[test]
fn a_finished_save() {
    by_each_rule(|mut laptops| {
        let inv = save(&mut laptops, 1);
        let mut val = None;
        for n in [0, 2, 3] {
            let ack = comes(&mut laptops, n, &inv).expect("an ACK");
            val = comes(&mut laptops, 1, &ack);
        }
        comes(&mut laptops, 2, &val.expect("a VAL"));
        strike(&mut laptops, &[3]);
        settles(&laptops, &["1 resends", "0 takes 0"]);
    });
}

/// 1 died; 2 and 3 have its save, and 0 has not.
#[test]
fn a_dead_laptops_save() {
    by_each_rule(|mut laptops| {
        let inv = save(&mut laptops, 1);
        for n in [2, 3] {
            comes(&mut laptops, n, &inv);
        }
        strike(&mut laptops, &[1]);
        let by_2 = [
            &["2 replays", "0 takes 0", "3 takes 0"][..],
            &["2 takes 1", "2 takes 2"],
            &["0 takes 4", "3 takes 4"],
        ];
        let by_3 = [
            &["3 replays", "0 takes 0", "2 takes 0"][..],
            &["3 takes 1", "3 takes 2"],
            &["0 takes 4", "2 takes 4"],
        ];
        each_settles(&laptops, &[&by_2.concat(), &by_3.concat()]);

        // 3 has begun to replay it, and 0 has acknowledged: that goes on, or 2 begins.
        let inv = laptops[2].replay(0).expect("a replay").into_owned();
        let ack = comes(&mut laptops, 0, &inv).expect("an ACK");
        comes(&mut laptops, 2, &ack);
        let by_3 = ["3 resends", "2 takes 0", "3 takes 1"];
        let by_3 = [&by_3[..], &["0 takes 2", "2 takes 2"]];
        each_settles(&laptops, &[&by_3.concat(), &by_2.concat()]);
    });
}

/// Laptops 0 and 2 save at once, and nobody hears of it: who wins by the group's rule
/// drives, and its text stands.
#[test]
fn two_saves_at_once() {
    for (rule, winner, loser) in [(Rule::Higher, 2, 0), (Rule::Lower, 0, 2)] {
        let mut laptops = four(rule);
        let lesser = laptops[loser].write(0, b"Wren").expect("a save");
        let _lost = lesser.into_owned();
        let _lost = save(&mut laptops, winner);
        strike(&mut laptops, &[3]);
        let held = held(&laptops, 0);
        let tie = winner as u8;
        assert_eq!(latest(rule, &held), Some(Timestamp { version: 1, tie }));
        let driver = driver(rule, &held).map(|first| first.at);
        assert_eq!(driver, Some(tie));
        let list = match rule {
            Rule::Higher => [
                &["2 resends", "0 takes 0", "1 takes 0"][..],
                &["2 takes 1", "2 takes 2"],
                &["0 takes 4", "1 takes 4"],
            ],
            Rule::Lower => [
                &["0 resends", "1 takes 0", "2 takes 0"][..],
                &["0 takes 1", "0 takes 2"],
                &["1 takes 4", "2 takes 4"],
            ],
        };
        settles(&laptops, &list.concat());

        // By the other rule it is the wrong driver's list: its VAL is refused.
        let other = [Rule::Lower, Rule::Higher][usize::from(rule == Rule::Lower)];
        let wrong = recipe(other, &held).expect("somebody begins");
        assert_eq!(wrong[0].at, loser as u8);
        let halt = follow(&wrong, &mut laptops, 0, by_hand);
        let refusal = Refusal::StrayVal;
        let step = wrong.len() - [1, 2][usize::from(winner == 0)];
        assert_eq!(halt, Err(Halt::Refused { step, refusal }));
    }
}

/// 2's save overtook that of 0, and 1 has it too. 2 died, and so did 3: either of
/// those that are left can drive.
#[test]
fn a_dead_winner_and_two_that_are_left() {
    let mut laptops = four(Rule::Higher);
    let lesser = laptops[0].write(0, b"Wren").expect("a save");
    let _lost = lesser.into_owned();
    let inv = save(&mut laptops, 2);
    for n in [0, 1] {
        comes(&mut laptops, n, &inv);
    }
    strike(&mut laptops, &[2, 3]);
    let by_0 = ["0 replays", "1 takes 0", "0 takes 1", "1 takes 2"];
    let by_1 = ["1 replays", "0 takes 0", "1 takes 1", "0 takes 2"];
    each_settles(&laptops, &[&by_0, &by_1]);

    // 1 has begun, and its INV is lost: who goes on comes first.
    let inv = laptops[1].replay(0).expect("a replay").into_owned();
    let goes_on = ["1 resends", "0 takes 0", "1 takes 1", "0 takes 2"];
    each_settles(&laptops, &[&goes_on, &by_0]);

    // It came. 0 had that timestamp from 2, and can still take over.
    let ack = comes(&mut laptops, 0, &inv).expect("an ACK");
    each_settles(&laptops, &[&goes_on, &by_0]);

    // 1 is finished, and says so again; or 0 takes over, and need not tell 1.
    let val = comes(&mut laptops, 1, &ack).expect("a VAL");
    each_settles(&laptops, &[&["1 resends", "0 takes 0"], &by_0[..3]]);

    // Now all show it. 1 could say so again, and the recipe has nothing to do.
    comes(&mut laptops, 0, &val);
    let (rule, held) = (Rule::Higher, held(&laptops, 0));
    let all = drivers(rule, &held).into_iter();
    let all = all.map(|first| lines(&steps(rule, &held, first)));
    assert_eq!(all.collect::<Vec<_>>(), [["1 resends"]]);
    assert_eq!(recipe(rule, &held), Some(Vec::new()));
}

/// The same by the new rule: 0's save overtook that of 2.
#[test]
fn a_dead_winner_of_the_new_rule() {
    let mut laptops = four(Rule::Lower);
    let lesser = laptops[2].write(0, b"Wren").expect("a save");
    let _lost = lesser.into_owned();
    let inv = save(&mut laptops, 0);
    for n in [1, 2] {
        comes(&mut laptops, n, &inv);
    }
    strike(&mut laptops, &[0, 3]);
    let by_1 = ["1 replays", "2 takes 0", "1 takes 1", "2 takes 2"];
    let by_2 = ["2 replays", "1 takes 0", "2 takes 1", "1 takes 2"];
    each_settles(&laptops, &[&by_1, &by_2]);

    // 1 has begun, and its INV is lost.
    let _lost = laptops[0].replay(0).expect("a replay").into_owned();
    let goes_on = ["1 resends", "2 takes 0", "1 takes 1", "2 takes 2"];
    each_settles(&laptops, &[&goes_on, &by_2]);
}

/// 2's save overtook that of 0, which 1 had acknowledged, and 2 died.
#[test]
fn an_overtaken_save() {
    let mut laptops = four(Rule::Higher);
    let lesser = save(&mut laptops, 0);
    let inv = save(&mut laptops, 2);
    comes(&mut laptops, 0, &inv);
    // It does not count for the replay.
    let ack = comes(&mut laptops, 1, &lesser).expect("an ACK");
    comes(&mut laptops, 0, &ack);
    strike(&mut laptops, &[2]);
    let invs = ["0 replays", "1 takes 0", "3 takes 0"];
    let acks = ["0 takes 1", "0 takes 2"];
    let vals = ["1 takes 4", "3 takes 4"];
    settles(&laptops, &[&invs[..], &acks, &vals].concat());
}

/// The same by the new rule: 0's save overtook that of 2.
#[test]
fn an_overtaken_save_by_the_new_rule() {
    let mut laptops = four(Rule::Lower);
    let lesser = save(&mut laptops, 2);
    let inv = save(&mut laptops, 0);
    comes(&mut laptops, 2, &inv);
    let ack = comes(&mut laptops, 1, &lesser).expect("an ACK");
    comes(&mut laptops, 2, &ack);
    strike(&mut laptops, &[0]);
    let invs = ["2 replays", "1 takes 0", "3 takes 0"];
    let acks = ["2 takes 1", "2 takes 2"];
    let vals = ["1 takes 4", "3 takes 4"];
    settles(&laptops, &[&invs[..], &acks, &vals].concat());
}

/// The cases that crates/hermes/specs/SettlingWitness.antt computes, of the old rule:
/// the lists are the same.
#[test]
fn the_lists_that_are_computed_in_the_logic() {
    let start = |n| Laptop::start(n, 0b111, Rule::Higher, 1).expect("a fresh start");
    let three = || (0..3).map(start).collect::<Vec<_>>();

    // `lost_val`, then `dead_winner` with `dead_winner_by_other`
    let mut laptops = three();
    let _overtaken = save(&mut laptops, 0);
    let inv = save(&mut laptops, 2);
    for n in [0, 1] {
        let ack = comes(&mut laptops, n, &inv).expect("an ACK");
        comes(&mut laptops, 2, &ack);
    }
    settles(&laptops, &["2 resends", "0 takes 0", "1 takes 0"]);
    strike(&mut laptops, &[2]);
    let replay = ["0 replays", "1 takes 0", "0 takes 1", "1 takes 2"];
    let by_other = ["1 replays", "0 takes 0", "1 takes 1", "0 takes 2"];
    each_settles(&laptops, &[&replay, &by_other]);

    // `lost_save`
    let mut laptops = three();
    let _lost = save(&mut laptops, 0);
    let invs = ["0 resends", "1 takes 0", "2 takes 0"];
    let acks = ["0 takes 1", "0 takes 2"];
    let vals = ["1 takes 4", "2 takes 4"];
    settles(&laptops, &[&invs[..], &acks, &vals].concat());

    // `vain_save`
    let mut laptops = three();
    let inv = save(&mut laptops, 1);
    let ack = comes(&mut laptops, 0, &inv).expect("an ACK");
    comes(&mut laptops, 1, &ack);
    strike(&mut laptops, &[2]);
    settles(&laptops, &["1 validates", "0 takes 0"]);
}

/// What no event leaves: the latest is valid where it is, its last writer is away,
/// and 1 waits with an older one.
#[test]
fn nobody_can_begin() {
    let record = |state, version| Record {
        state,
        timestamp: Timestamp { version, tie: 2 },
        writer: 2,
        written: Timestamp::default(),
        acks: Members::default(),
        len: 0,
    };
    let held = [(0, record(State::Valid, 2)), (1, record(State::Invalid, 1))];
    for &rule in Rule::ALL {
        assert_eq!(drivers(rule, &held), []);
        assert_eq!(recipe(rule, &held), None);
    }
}

#[test]
fn a_list_that_does_not_fit_comes_to_a_halt() {
    let mut laptops = four(Rule::Lower);
    let _lost = save(&mut laptops, 1);
    let mut halts = |at, event| {
        let steps = [Step { at, event }];
        follow(&steps, &mut laptops, 0, by_hand).expect_err("a wrong list")
    };
    let refusal = Refusal::NotFinished;
    let refused = Halt::Refused { step: 0, refusal };
    assert_eq!(halts(1, Event::Validate), refused);
    let nothing = Event::Deliver { left: 0 };
    assert_eq!(halts(1, nothing), Halt::NoMessage { step: 0 });
    assert_eq!(halts(4, Event::Resend), Halt::NoLaptop { step: 0 });
}
