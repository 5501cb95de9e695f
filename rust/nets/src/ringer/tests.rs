//! Two or three laptops and their ringers, tick by tick.

use super::*;
use crate::chain;
use crate::plan::MEASURING;
use crate::settings::Settings;
use cetskobi::Rule;

/// So many laptops with one record, their huts, and ringers with a bird each, who
/// measure so long.
fn nets<const N: usize>(measuring: [Tick; N]) -> (Group, Vec<Hut>, Ringers) {
    nets_with(Rule::Lower, measuring)
}

/// What they measure.
const MEASURED: [&str; 3] = ["Wren", "Wren, fat 3", "Wren, moulting"];

fn nets_with<const N: usize>(rule: Rule, measuring: [Tick; N]) -> (Group, Vec<Hut>, Ringers) {
    let settings = Settings {
        laptops: N as u8,
        records: 1,
        rule,
        ..Settings::default()
    };
    let visit = |(laptop, (measuring, measured)): (u8, (Tick, &str))| {
        let bird = Bird {
            tick: 0,
            laptop,
            record: 0,
            recapture: true,
            measuring,
        };
        Visit::new(bird, measured.to_owned())
    };
    let birds = (0..).zip(measuring.into_iter().zip(MEASURED));
    let ringers = Ringers {
        visits: birds.map(visit).collect(),
        last_save: 0,
        counts: Visits::default(),
    };
    let huts = (0..N as u8).map(|n| Hut::new(n, rule, None)).collect();
    let group = Group::start(&settings).expect("a group");
    (group, huts, ringers)
}

/// The ringers alone, up to this tick, with these laptops.
fn up_to(tick: Tick, group: &mut Group, huts: &mut [Hut], ringers: &mut Ringers, usable: u16) {
    while group.now < tick {
        let usable = Members::from(usable);
        ringers.tick(group, huts, usable).expect("agreement");
        group.now += 1;
    }
}

const BOTH: u16 = 0b11;

/// What this hut has to send comes to that one.
fn heard_by(from: usize, to: usize, group: &mut Group, huts: &mut [Hut]) {
    for (_, bytes) in huts[from].packets() {
        huts[to].packet_came(group, &bytes).expect("agreement");
    }
}

/// The same of two.
fn heard(from: usize, group: &mut Group, huts: &mut [Hut]) {
    heard_by(from, 1 - from, group, huts);
}

/// How many captures the text tells of at this laptop, all birds among them.
fn told(group: &Group, ringers: &Ringers, laptop: u8) -> usize {
    let told = chain::look(group, &ringers.slips(), group.laptop(laptop));
    told.expect("every bird is told of").captures
}

/// 0 saves at 3. 1, who opened the record as well, hears of that before she
/// commits: she is refused, and as long as the record is not valid she is shown
/// nothing; then she adds to what 0 saved.
#[test]
fn who_is_refused_opens_again() {
    let (mut group, mut huts, mut ringers) = nets([3, 6]);
    let (group, huts) = (&mut group, &mut huts[..]);
    up_to(4, group, huts, &mut ringers, BOTH);
    assert_eq!(ringers.saved(), 1);
    heard(0, group, huts);
    // Refused at 6; not shown at 11.
    up_to(12, group, huts, &mut ringers, BOTH);
    let refused = Visits {
        openings: 3,
        unshown: 1,
        refused: 1,
        ..Visits::default()
    };
    assert_eq!(ringers.counts, refused);
    assert_eq!(group.counts.unseen, 1);
    heard(1, group, huts);
    heard(0, group, huts);
    // Shown at 16, and committed at 19.
    up_to(19, group, huts, &mut ringers, BOTH);
    assert_eq!(ringers.waiting(), Some(0));
    up_to(20, group, huts, &mut ringers, BOTH);
    assert_eq!(ringers.waiting(), None);
    let saved = Visits {
        openings: 4,
        mended: 1,
        again: 1,
        ..refused
    };
    assert_eq!(ringers.counts, saved);
    heard(1, group, huts);
    heard(0, group, huts);
    let text: &[u8] = b"Wren; 2: Wren, fat 3 (after 0)";
    assert_eq!(group.laptop(1).read(0), Ok(text));
    assert_eq!(told(group, &ringers, 1), 2);
    // 0 is told that another save stands there, and finds her bird in it, once.
    heard(1, group, huts);
    up_to(30, group, huts, &mut ringers, BOTH);
    let found = Visits {
        openings: 5,
        found: 1,
        ..saved
    };
    assert_eq!(ringers.counts, found);
    assert_eq!(
        (ringers.waiting(), ringers.slips()[0].saves.len()),
        (None, 1)
    );
}

/// 0's save is finished when 1 commits: the record is valid, with another
/// timestamp than the one that she saw.
#[test]
fn a_valid_record_is_refused_too() {
    let (mut group, mut huts, mut ringers) = nets([3, 6]);
    let (group, huts) = (&mut group, &mut huts[..]);
    up_to(4, group, huts, &mut ringers, BOTH);
    for from in [0, 1, 0] {
        heard(from, group, huts);
    }
    assert!(group.laptop(1).shows_valid(0));
    up_to(7, group, huts, &mut ringers, BOTH);
    assert_eq!((ringers.counts.refused, group.counts.unseen), (1, 1));
    assert_eq!(ringers.saved(), 1);
}

/// Two ringers of one laptop: the first one's save waits there, and a plain write
/// would be refused too, by 7.
#[test]
fn two_ringers_of_one_laptop() {
    let (mut group, mut huts, mut ringers) = nets([3, 6]);
    let (group, huts) = (&mut group, &mut huts[..]);
    // 1 cannot be used, and its ringer has seen nothing yet.
    up_to(7, group, huts, &mut ringers, 0b01);
    assert_eq!((ringers.counts.refused, group.counts.unseen), (1, 0));
    assert_eq!((ringers.saved(), ringers.counts.moved), (1, 0));
}

/// Who wins and who loses if 0 and 1 save at once (document 02, Wish 6).
const TIES: [(Rule, usize, usize); 2] = [(Rule::Higher, 1, 0), (Rule::Lower, 0, 1)];

/// Both commit on one timestamp: both are accepted, and the winner's stands (document
/// 02, Wishes 5 and 6). The other is told, and enters hers again.
#[test]
fn two_commits_on_one_timestamp() {
    for (rule, wins, loses) in TIES {
        let (mut group, mut huts, mut ringers) = nets_with(rule, [3, 3]);
        let (group, huts) = (&mut group, &mut huts[..]);
        up_to(4, group, huts, &mut ringers, BOTH);
        assert_eq!((ringers.waiting(), ringers.counts.refused), (None, 0));
        heard(wins, group, huts);
        // Replaced, and the record is not valid: she is not troubled yet.
        up_to(10, group, huts, &mut ringers, BOTH);
        assert_eq!(ringers.counts.openings, 2);
        for from in [loses, wins] {
            heard(from, group, huts);
        }
        for n in [0, 1] {
            assert_eq!(group.laptop(n).read(0), Ok(MEASURED[wins].as_bytes()));
        }
        assert_eq!(group.counts.overtaken, 1);
        // Opened at 10, committed at 13.
        up_to(13, group, huts, &mut ringers, BOTH);
        assert_eq!(ringers.waiting(), Some(0));
        up_to(14, group, huts, &mut ringers, BOTH);
        for from in [loses, wins, loses] {
            heard(from, group, huts);
        }
        let again = Visits {
            openings: 3,
            replaced: 1,
            birds: 1,
            // 0 is the lower half of the two.
            in_charge: u64::from(loses == 0),
            ..Visits::default()
        };
        assert_eq!((ringers.waiting(), ringers.counts), (None, again));
        assert_eq!(ringers.last_save, 3, "both birds had been saved by then");
        let [first, second] = [wins, loses].map(|n| MEASURED[n]);
        let text = format!("{first}; 2: {second} (after {wins})");
        for n in [0, 1] {
            assert_eq!(group.laptop(n).read(0), Ok(text.as_bytes()));
            assert_eq!(told(group, &ringers, n), 2);
        }
    }
}

/// The loser's save is finished although the other has saved too, who acknowledges a
/// lesser one. Then the winner's comes.
#[test]
fn a_finished_save_is_crossed() {
    for (rule, wins, loses) in TIES {
        let (mut group, mut huts, mut ringers) = nets_with(rule, [3, 3]);
        let (group, huts) = (&mut group, &mut huts[..]);
        up_to(4, group, huts, &mut ringers, BOTH);
        let greater = huts[wins].packets();
        for from in [loses, wins, loses] {
            heard(from, group, huts);
        }
        let stands = group.laptop(loses as u8).read(0);
        assert_eq!(stands, Ok(MEASURED[loses].as_bytes()));
        up_to(8, group, huts, &mut ringers, BOTH);
        assert_eq!(ringers.counts.openings, 2);
        for (_, bytes) in greater {
            huts[loses].packet_came(group, &bytes).expect("agreement");
        }
        for from in [loses, wins] {
            heard(from, group, huts);
        }
        up_to(12, group, huts, &mut ringers, BOTH);
        let counts = &ringers.counts;
        assert_eq!((counts.replaced, counts.crossed, counts.taken), (1, 1, 0));
        assert_eq!(group.counts.overtaken, 0);
        for from in [loses, wins, loses] {
            heard(from, group, huts);
        }
        assert_eq!(told(group, &ringers, wins as u8), 2);
    }
}

/// A record that was opened at a laptop which died is opened anew at the next.
#[test]
fn who_cannot_use_a_laptop_goes_to_the_next() {
    let (mut group, mut huts, mut ringers) = nets([3, 6]);
    let (group, huts) = (&mut group, &mut huts[..]);
    up_to(2, group, huts, &mut ringers, BOTH);
    up_to(3, group, huts, &mut ringers, 0b10);
    assert_eq!(ringers.counts.moved, 1);
    let laptops: Vec<u8> = ringers.visits.iter().map(Visit::laptop).collect();
    assert_eq!((laptops, ringers.counts.openings), (vec![1, 1], 2));
    // Opened at 3, and committed at 6, before the other.
    up_to(7, group, huts, &mut ringers, 0b10);
    assert_eq!(ringers.counts.openings, 3);
    assert_eq!((ringers.saved(), ringers.counts.refused), (1, 1));
    assert_eq!(ringers.slips()[0].saves.len(), 1);
}

/// 0 dies right after its save, and is struck off. `spread`: whether 2 had heard of it,
/// which then replays it. The next laptop, 1, has not.
fn dies(rule: Rule, spread: bool) -> (Group, Ringers) {
    let (mut group, mut huts, mut ringers) = nets_with(rule, [3, 900, 900]);
    let (g, h, left) = (&mut group, &mut huts[..], 0b110);
    up_to(4, g, h, &mut ringers, 0b111);
    if spread {
        heard_by(0, 2, g, h);
        h[2].packets();
    }
    // Nobody is told yet, and the save may still come.
    up_to(20, g, h, &mut ringers, left);
    assert_eq!(ringers.counts.openings, 3);
    for n in [1, 2] {
        h[n].view_came(g, 1, Members::from(left))
            .expect("agreement");
    }
    up_to(20 + MEASURING + 1, g, h, &mut ringers, left);
    assert_eq!(ringers.counts.openings, 4);
    // Both laptops hear each other, until all is quiet.
    for _ in 0..4 {
        heard_by(1, 2, g, h);
        heard_by(2, 1, g, h);
        up_to(g.now + 10, g, h, &mut ringers, left);
    }
    ringers.visits.truncate(1);
    assert_eq!(told(&group, &ringers, 1), 1);
    (group, ringers)
}

/// Nobody had heard of it: she enters her bird again, from the slip.
#[test]
fn a_save_that_died_with_its_laptop_is_entered_again() {
    let (group, ringers) = dies(Rule::Lower, false);
    let counts = &ringers.counts;
    assert_eq!((counts.taken, counts.birds, counts.moved), (1, 1, 0));
    assert_eq!((counts.replaced, counts.found), (0, 0));
    let r = group.record(2, 0).expect("a record");
    assert_eq!(r.timestamp.tie, 1);
}

/// 2 replays it while she enters the bird again at 1: of the two the winner by the rule
/// stands, hers of 1 or that of 0, and the text tells of the bird once.
#[test]
fn a_save_that_is_replayed_meanwhile_is_told_once() {
    for (rule, wins, found) in [(Rule::Higher, 1, 0), (Rule::Lower, 0, 1)] {
        let (group, ringers) = dies(rule, true);
        assert_eq!(ringers.slips()[0].saves.len(), 2);
        assert_eq!(ringers.counts.found, found, "{rule}");
        for n in [1, 2] {
            assert_eq!(group.laptop(n).read(0), Ok(&b"Wren"[..]));
            let stands = group.record(n, 0).map(|r| r.timestamp.tie);
            assert_eq!(stands, Some(wins), "{rule}");
        }
    }
}
