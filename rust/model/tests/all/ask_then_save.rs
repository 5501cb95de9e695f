//! Ask for a record, then save it (02, Wish 5): a ringer opens an old record,
//! measures the bird, and saves over what she saw.

use model::engine::{body, Answer, Record, Refusal, Rule, State, Timestamp};

use crate::group::{Event, Group};
use crate::support::{ack, from, inv, set, ts, val, winner, Member};

// One laptop: 2, view {1,2,5}.

/// Laptop 2 shows 5's "wing 62" of (1,5).
fn shown(rule: Rule) -> Member {
    let mut member = Member::ringing_by(rule);
    let saved = from(5, inv(1, 5));
    assert_eq!(member.deliver(&saved, b"wing 62"), Ok(Some(ack(1, 5))));
    assert_eq!(member.deliver(&from(5, val(1, 5)), b""), Ok(None));
    member
}

/// The commit is refused by 26, and nothing moves.
fn refuses(member: &mut Member, opened: Timestamp) {
    let before = member.clone();
    let answer = member.commit(0, opened, b"lost");
    assert_eq!(answer, Err(Refusal::NotAsOpened));
    assert_eq!(*member, before);
}

#[test]
fn she_saves_over_what_she_saw() {
    for rule in Rule::ALL {
        let mut member = shown(rule);
        let before = member.clone();
        assert_eq!(member.ask(0), Ok((&b"wing 62"[..], ts(1, 5))));
        assert_eq!(member, before);
        assert_eq!(member.commit(0, ts(1, 5), b"11 g"), Ok(Some(inv(2, 2))));
        let written = Record {
            state: State::Write,
            timestamp: ts(2, 2),
            last_writer: 2,
            last_write: ts(2, 2),
            acks: 0,
            len: 4,
        };
        assert_eq!(member.table, [written]);
        assert_eq!(&member.store[..5], b"11 g\0");
        assert!(member.store[5..].iter().all(|&byte| byte == 0));
        // What leaves is a write's.
        assert_eq!(body(inv(2, 2), &member.table, &member.store, 0), b"11 g");
        assert_eq!(member.replica.recipients(inv(2, 2), 0), set(&[1, 5]));
        assert_eq!(member.replica.envelope(0, inv(2, 2)), from(2, inv(2, 2)));
        assert_eq!(member.resend(0), Ok(Some(inv(2, 2))));
        assert_eq!(member.deliver(&from(1, ack(2, 2)), b""), Ok(None));
        let last = member.deliver(&from(5, ack(2, 2)), b"");
        assert_eq!(last, Ok(Some(val(2, 2))));
        assert_eq!(member.ask(0), Ok((&b"11 g"[..], ts(2, 2))));
    }
}

/// The stamp of a fresh start is handed out too, with the empty value.
#[test]
fn a_fresh_record() {
    for rule in Rule::ALL {
        let mut member = Member::ringing_by(rule);
        assert_eq!(member.ask(0), Ok((&b""[..], ts(0, 1))));
        assert_eq!(member.commit(0, ts(0, 1), b"first"), Ok(Some(inv(1, 2))));
    }
}

/// A refused ask hands out nothing, and what was there is no stamp to commit on.
#[test]
fn a_refused_ask() {
    for rule in Rule::ALL {
        let mut member = Member::ringing_by(rule);
        let saved = from(5, inv(1, 5));
        assert_eq!(member.deliver(&saved, b"wing 62"), Ok(Some(ack(1, 5))));
        assert_eq!(member.ask(0), Err(Refusal::NotReadable));
        for opened in [ts(0, 0), ts(0, 1), ts(1, 5)] {
            refuses(&mut member, opened);
        }
        // A plain write does not look.
        assert_eq!(member.write(0, b"over it"), Ok(Some(inv(2, 2))));
    }
}

/// A newer save comes between: refused while it is under way, and when it stands.
#[test]
fn a_newer_save_between() {
    for (rule, tie) in [(Rule::Higher, 6), (Rule::Lower, 4)] {
        for stamp in [(1, tie), (2, 1), (2, 5), (u32::MAX, 0)] {
            a_newer_save_between_by(rule, stamp);
        }
    }
}

fn a_newer_save_between_by(rule: Rule, (version, tie): (u32, u8)) {
    let mut member = shown(rule);
    let opened = member.ask(0).expect("accepted").1;
    let newer = from(1, inv(version, tie));
    let answer = member.deliver(&newer, b"newer");
    assert_eq!(answer, Ok(Some(ack(version, tie))));
    refuses(&mut member, opened);
    refuses(&mut member, ts(version, tie));
    assert_eq!(member.deliver(&from(1, val(version, tie)), b""), Ok(None));
    refuses(&mut member, opened);
    // She asks again, and sees it.
    let again = member.ask(0);
    assert_eq!(again, Ok((&b"newer"[..], ts(version, tie))));
}

/// An older INV between is no newer save: it is acknowledged, and the commit
/// accepted.
#[test]
fn an_older_save_between() {
    for (rule, tie) in [(Rule::Higher, 4), (Rule::Lower, 6)] {
        for stamp in [(1, 5), (1, tie), (0, 15), (0, 0)] {
            an_older_save_between_by(rule, stamp);
        }
    }
}

fn an_older_save_between_by(rule: Rule, (version, tie): (u32, u8)) {
    let mut member = shown(rule);
    let opened = member.ask(0).expect("accepted").1;
    let older = from(1, inv(version, tie));
    let answer = member.deliver(&older, b"older");
    assert_eq!(answer, Ok(Some(ack(version, tie))));
    assert_eq!(member.commit(0, opened, b"11 g"), Ok(Some(inv(2, 2))));
}

/// A view between does not matter, unless it strikes this laptop off.
#[test]
fn a_view_between() {
    for rule in Rule::ALL {
        let mut member = shown(rule);
        let opened = member.ask(0).expect("accepted").1;
        assert_eq!(member.view(1, set(&[1, 2])), Ok(None));
        let mut left = member.clone();
        assert_eq!(left.commit(0, opened, b"11 g"), Ok(Some(inv(2, 2))));
        assert_eq!(left.replica.recipients(inv(2, 2), 0), set(&[1]));
        member.replica.view = set(&[1, 5]);
        assert_eq!(member.ask(0), Err(Refusal::StruckOff));
        let before = member.clone();
        let answer = member.commit(0, opened, b"11 g");
        assert_eq!((answer, &member), (Err(Refusal::StruckOff), &before));
    }
}

/// The own save is a newer one too: one stamp takes one commit here.
#[test]
fn twice_on_one_stamp() {
    for rule in Rule::ALL {
        let mut member = shown(rule);
        let opened = member.ask(0).expect("accepted").1;
        assert_eq!(member.commit(0, opened, b"11 g"), Ok(Some(inv(2, 2))));
        // Under way, and settled.
        refuses(&mut member, opened);
        refuses(&mut member, ts(2, 2));
        assert_eq!(member.deliver(&from(1, ack(2, 2)), b""), Ok(None));
        assert!(member.deliver(&from(5, ack(2, 2)), b"").is_ok());
        refuses(&mut member, opened);
        assert_eq!(member.commit(0, ts(2, 2), b"12 g"), Ok(Some(inv(3, 2))));
    }
}

// Whole groups of 0, 1 and 2. Members are named by their places, which are their
// numbers.

const ALL: [usize; 3] = [0, 1, 2];
const FIRST: Timestamp = ts(0, 0);

fn group(rule: Rule) -> Group {
    Group::start(rule, &[0, 1, 2], set(&[0, 1, 2]), 1)
}

fn ask(group: &mut Group, at: usize) -> Timestamp {
    assert_eq!(group.checked(at, &Event::Ask { record: 0 }), Ok(None));
    let mut handed = group.opened[at][0].stamps();
    handed.next_back().expect("handed out")
}

fn commit(group: &mut Group, at: usize, opened: Timestamp) -> Answer {
    let value = text(at);
    let record = 0;
    let event = Event::Commit {
        record,
        opened,
        value,
    };
    group.checked(at, &event)
}

fn text(at: usize) -> Vec<u8> {
    format!("saved by {at}").into_bytes()
}

/// All show what this one saved, with this version.
fn all_show(group: &Group, version: u32, at: usize) {
    for member in &group.members {
        let shown = (&text(at)[..], ts(version, at as u8));
        assert_eq!(member.ask(0), Ok(shown), "{:?}", member.replica);
    }
}

/// Two laptops commit on one stamp, and the greater new stamp stands, as for
/// plain writes; whichever is first, and whatever is heard first. Which is the
/// greater depends on the rule of ties (02, Wish 6).
#[test]
fn two_commit_on_one_stamp() {
    let old = [([0, 1], 1), ([1, 0], 1), ([0, 2], 2), ([2, 1], 2)];
    let new = [([0, 1], 0), ([1, 0], 0), ([0, 2], 0), ([2, 1], 1)];
    for (rule, stories) in [(Rule::Higher, old), (Rule::Lower, new)] {
        for (savers, winner) in stories {
            two_commit_by(rule, savers, winner);
        }
    }
}

fn two_commit_by(rule: Rule, savers: [usize; 2], winner: usize) {
    for heard_first in [0, 1] {
        let mut group = group(rule);
        for at in savers {
            assert_eq!(ask(&mut group, at), FIRST);
        }
        for at in savers {
            let sent = inv(1, at as u8);
            assert_eq!(commit(&mut group, at, FIRST), Ok(Some(sent)));
        }
        let third = 3 - savers[0] - savers[1];
        let early = Event::Deliver { post: heard_first };
        assert!(group.checked(third, &early).is_ok());
        group.everything_arrives(0, &ALL);
        all_show(&group, 1, winner);
        // Neither can save once more on what it saw before.
        for at in savers {
            assert_eq!(commit(&mut group, at, FIRST), Err(Refusal::NotAsOpened));
        }
        all_show(&group, 1, winner);
    }
}

/// A commit and a plain write at once: the same.
#[test]
fn a_commit_and_a_write() {
    for rule in Rule::ALL {
        for (commits, writes) in [(0, 2), (2, 0)] {
            let mut group = group(rule);
            let opened = ask(&mut group, commits);
            let value = text(writes);
            let write = Event::Write { record: 0, value };
            assert!(group.checked(writes, &write).is_ok());
            assert!(commit(&mut group, commits, opened).is_ok());
            group.everything_arrives(0, &ALL);
            all_show(&group, 1, usize::from(winner(rule, &[0, 2])));
        }
    }
}

/// The first station's fault: the older text was edited and saved. 0 and 1 open
/// the record, 0 saves it, and 1's commit is refused: it asks again, sees 0's
/// remark, and saves over that.
#[test]
fn the_older_text_is_edited() {
    for rule in Rule::ALL {
        let mut group = group(rule);
        let seen = [0, 1].map(|at| ask(&mut group, at));
        assert_eq!(seen, [FIRST; 2]);
        assert_eq!(commit(&mut group, 0, FIRST), Ok(Some(inv(1, 0))));
        let post = Event::Deliver { post: 0 };
        assert_eq!(group.checked(1, &post), Ok(Some(ack(1, 0))));
        assert_eq!(commit(&mut group, 1, FIRST), Err(Refusal::NotAsOpened));
        group.everything_arrives(0, &ALL);
        assert_eq!(commit(&mut group, 1, FIRST), Err(Refusal::NotAsOpened));
        all_show(&group, 1, 0);

        let opened = ask(&mut group, 1);
        assert_eq!(opened, ts(1, 0));
        let post = group.posts.len();
        assert_eq!(commit(&mut group, 1, opened), Ok(Some(inv(2, 1))));
        group.everything_arrives(post, &ALL);
        all_show(&group, 2, 1);
    }
}
