//! The checks can fail: each deliberate fault is reported, with its seed, what
//! each laptop holds, and the events that led there.

use cetskobi::{Rule, Timestamp};
use nets::{run, Cause, Disagreement, Failure, Fault, Settings};

/// The default morning, with this fault.
fn failure(fault: Fault) -> Failure {
    failure_of(Settings::default(), fault)
}

/// The default morning of before document 02's Wish 6.
fn by_the_old_rule(fault: Fault) -> Failure {
    let old = Settings {
        seed: 111,
        rule: Rule::Higher,
        ..Settings::default()
    };
    failure_of(old, fault)
}

fn failure_of(settings: Settings, fault: Fault) -> Failure {
    let settings = Settings {
        fault: Some(fault),
        ..settings
    };
    let failure = failed(&settings);
    assert_eq!(failure.seed, settings.seed);
    // A heading, and a line for each laptop.
    assert_eq!(failure.holdings.len(), 1 + 11, "{failure}");
    failure
}

fn failed(settings: &Settings) -> Failure {
    match run(settings, |_| ()) {
        Ok(report) => panic!("{:?} was not noticed:\n{report}", settings.fault),
        Err(failure) => *failure,
    }
}

fn two_screens(failure: &Failure) -> bool {
    matches!(
        failure.cause,
        Cause::Disagreement(Disagreement::TwoScreens { .. })
    )
}

#[test]
fn a_text_altered_in_flight() {
    let failure = failure(Fault::Text);
    assert!(two_screens(&failure), "{failure}");
    let said = failure.to_string();
    assert!(
        said.contains("FAILED with seed") && said.contains("VAL"),
        "{said}"
    );
}

/// Laptop 0's save is altered on its way to laptop 1, by the last bit of its
/// first byte, and is shown there when the VAL comes.
#[test]
fn what_each_laptop_holds_is_printed() {
    let failure = failed(&Settings {
        seed: 59,
        laptops: 2,
        records: 1,
        rings: 1,
        recaptures: 0,
        deaths: 0,
        late: 0,
        ticks: 100,
        loss: 0,
        repeat: 0,
        delay: 1,
        fault: Some(Fault::Text),
        ..Settings::default()
    });
    let said = failure.to_string();
    let begins = r#"FAILED with seed 59 at tick 46: no agreement: laptops 0 and 1 stand in each other's view and show record 0 valid, but not the same
what each laptop holds of record 0:
  laptop  ties to  epoch  view   state  timestamp  last writer  last write  acknowledged  bytes  text
       0  lower        0  {0,1}  valid  (1,0)                0  (1,0)       {1}              27  "Robin, wing 55, weight 18.4"
       1  lower        0  {0,1}  valid  (1,0)                0  (0,0)       {}               27  "Sobin, wing 55, weight 18.4"
the last events on record 0:
"#;
    assert!(said.starts_with(begins), "{said}");
}

/// A laptop that missed the change of membership takes a validation of the new
/// group; the one struck off still shows the older text.
#[test]
fn the_fault_at_the_first_station() {
    let failure = failure(Fault::Epoch);
    assert!(two_screens(&failure), "{failure}");
    let last = failure.events.last().expect("events");
    assert!(
        last.contains("deliver VAL") && last.contains("of epoch 1"),
        "{failure}"
    );
}

#[test]
fn an_acknowledgement_in_anothers_name() {
    let failure = failure(Fault::Sender);
    assert!(matches!(failure.cause, Cause::Disagreement(_)), "{failure}");
}

/// The morning ends although the bird's save never comes.
#[test]
fn saves_that_are_refused() {
    let failure = failure(Fault::Save);
    assert!(matches!(failure.cause, Cause::Unsaved { .. }), "{failure}");
}

/// Of how many laptops the line has this part.
fn tells(failure: &Failure, part: &str) -> usize {
    let told = failure.holdings.iter().filter(|h| h.contains(part));
    told.count()
}

const fn stamp(version: u32, tie: u8) -> Timestamp {
    Timestamp { version, tie }
}

/// What a plain write lets happen, and a commit does not (document 02, Wish 5): laptops
/// 0 and 7 open record 1173, which tells of one capture. 0 saves, and that is finished;
/// 7 saves over it, unseen. By the old rule it was 1 and 5, with record 3052.
#[test]
fn saves_over_what_the_ringer_has_not_seen() {
    for (failure, record, saved, over, again, led, laptops) in [
        (
            failure(Fault::Blind),
            1173,
            stamp(3, 7),
            stamp(2, 0),
            " (4,0) ",
            " (after 87)",
            11,
        ),
        (
            by_the_old_rule(Fault::Blind),
            3052,
            stamp(3, 5),
            stamp(2, 1),
            " (4,1) ",
            " (after 45)",
            10,
        ),
    ] {
        let cause = Cause::Unseen {
            record,
            saved,
            over,
        };
        assert_eq!(failure.cause, cause, "{failure}");
        // The capture came back with the fourth save, from the slip, and as the third:
        // on each laptop, but for one that had died, the number shows that a save has
        // gone.
        let numbers = [again, "; 2: ", "; 3: ", "; 4: ", led];
        let told = numbers.map(|part| tells(&failure, part));
        assert_eq!(told, [laptops, 0, laptops, 0, laptops], "{failure}");
    }
}

/// The fate of a save is not asked for: laptops 4 and 9 saved record 3538 on one
/// timestamp, 4's save stands, and 9's bird is in no record. By the old rule it was 1's
/// bird, as 7's save of record 740 stood.
#[test]
fn replaced_saves_that_are_not_entered_again() {
    for (failure, record, saved, parts) in [
        (
            failure(Fault::Forget),
            3538,
            stamp(2, 9),
            [" (2,4) ", "; 2: Blue tit", " (2,9) "],
        ),
        (
            by_the_old_rule(Fault::Forget),
            740,
            stamp(2, 1),
            [" (2,7) ", "Reed warbler", "Blue tit"],
        ),
    ] {
        let cause = Cause::Untold { record, saved };
        assert_eq!(failure.cause, cause, "{failure}");
        let told = parts.map(|part| tells(&failure, part));
        assert_eq!(told, [11, 11, 0], "{failure}");
    }
}

#[test]
fn validations_that_nobody_takes() {
    let failure = failure(Fault::Val);
    assert!(
        matches!(failure.cause, Cause::Unsettled { .. }),
        "{failure}"
    );
}

/// As before document 02's Wish 2: laptop 9 sits in invalid-write, its save overtaken by
/// that of 4, which was struck off. The others have a save that was made later, and
/// loses to that of 4. By the old rule it was 1, overtaken by 7, and seven others waited
/// for its VAL.
#[test]
fn overtaken_saves_that_are_not_given_up() {
    for (failure, record, right) in [
        (failure(Fault::Replay), 3538, [1, 0, 9, 1]),
        (by_the_old_rule(Fault::Replay), 740, [1, 7, 2, 1]),
    ] {
        let cause = Cause::Unsettled { record };
        assert_eq!(failure.cause, cause, "{failure}");
        let state = |state: &str| {
            let of = |line: &&String| line.split_whitespace().nth(4) == Some(state);
            failure.holdings.iter().filter(of).count()
        };
        let states = ["invalid-write", "invalid", "valid", "write"].map(state);
        assert_eq!(states, right, "{failure}");
    }
}

/// Both rules, and no other station.
fn alone() -> [Settings; 2] {
    [Rule::Higher, Rule::Lower].map(|rule| Settings {
        rule,
        neighbours: 0,
        ..Settings::default()
    })
}

/// Laptop 10 was started with the other rule of ties (document 02, Wish 6). All that it
/// sends is refused by 27, and it refuses all that the others send. Agreement holds, and
/// no save is ever finished, as each waits for it, or its for the others.
#[test]
fn a_laptop_of_the_other_rule() {
    for settings in alone() {
        let rule = settings.rule;
        let failure = failure_of(settings, Fault::Rule);
        let never = matches!(failure.cause, Cause::Unsettled { .. } | Cause::NoWay { .. });
        assert!(never, "{failure}");
        let odd = failure.holdings.iter().filter(|line| {
            let mut words = line.split_whitespace();
            let of_ten = words.next() == Some("10");
            words.next() != Some(rule.name()) && of_ten
        });
        assert_eq!(odd.count(), 1, "{failure}");
        // Each of the eleven has sent packets that were refused, by 27 and nothing else:
        // those of the others by 10, and its own by the others.
        assert_eq!(failure.refused.len(), 11, "{failure}");
        for (n, line) in failure.refused.iter().enumerate() {
            let by_ten = line.ends_with(" refused by 27, at {10}");
            let begins = format!("laptop {n}: ");
            assert!(line.starts_with(&begins) && by_ten == (n < 10), "{failure}");
        }
        let own = " refused by 27, at {0,1,2,3,4,5,6,7,8,9}";
        assert!(failure.refused[10].ends_with(own), "{failure}");
        assert!(failure.to_string().contains(own), "{failure}");
    }
}

/// The same where the other station is on air, which has that very rule: laptop 10 takes
/// its packets in.
#[test]
fn a_laptop_of_the_other_stations_rule() {
    let failure = failure(Fault::Rule);
    let taken_in = matches!(failure.cause, Cause::TakenIn { laptop: 10, .. });
    assert!(taken_in, "{failure}");
}

/// Laptop 10 compares by the other rule, and nobody refuses anything. The first tie that
/// it hears of goes the wrong way there.
#[test]
fn a_laptop_that_compares_by_the_other_rule() {
    for settings in alone() {
        let rule = settings.rule;
        let failure = failure_of(settings, Fault::Tie);
        let Cause::WrongTie {
            laptop,
            winner,
            loser,
            ..
        } = failure.cause
        else {
            panic!("{failure}");
        };
        assert_eq!((laptop, winner.version), (10, loser.version), "{failure}");
        assert!(winner.later(loser, rule), "{failure}");
        assert_eq!(failure.refused, Vec::<String>::new(), "{failure}");
    }
}

/// Hut software that takes the rule from the packet, and not from its group: the first
/// packet of the other station comes in.
#[test]
fn a_rule_taken_from_the_packet() {
    for rule in [Rule::Higher, Rule::Lower] {
        let settings = Settings {
            rule,
            ..Settings::default()
        };
        let failure = failure_of(settings, Fault::Byte);
        let taken_in = matches!(failure.cause, Cause::TakenIn { .. });
        assert!(taken_in, "{failure}");
        let last = failure.events.last().expect("events");
        assert!(last.contains("deliver "), "{failure}");
    }
}
