//! Every order of the events of a small story. Messages are never used up, so
//! that each may be lost, late and repeated. All situations that can come about
//! are gone through, and demand 3 is checked in each, and what Wish 5 promises.
//!
//! All this by either rule of ties (02, Wish 6).
//!
//! Two saves (02, Wish 2): laptops 0, 1 and 2, of which each may save once, and
//! the view without the one that wins a tie. Ask, then save (02, Wish 5): two laptops ask, and commit on what
//! they were handed out, now or before.

use std::collections::HashSet;
use std::hash::{DefaultHasher, Hash, Hasher};

use model::engine::{Record, Refusal, Rule, State};

use crate::group::{Commit, Event, Group, Post};
use crate::support::{other, set, winner, Member};

/// A situation in brief: members with what they have handed out, posts,
/// validations, the latter two in any order. Two that differ but have it in common, which is unlikely, are taken
/// for one.
type Sum = [u64; 3];

fn hash(of: impl Hash) -> u64 {
    let mut hasher = DefaultHasher::new();
    of.hash(&mut hasher);
    hasher.finish()
}

fn sum(group: &Group) -> Sum {
    let members = group.members.iter().zip(&group.opened).map(|(m, opened)| {
        let record = m.table[0];
        let value = &m.slot(0)[..record.len.into()];
        hash((m.replica, record, value, opened))
    });
    let posts = group.posts.iter().map(|p| hash((p.envelope, &p.body)));
    let validations = group.validations.iter();
    let validations = validations.map(|v| hash((v.timestamp, v.view)));
    [
        hash(members.collect::<Vec<_>>()),
        posts.fold(0, u64::wrapping_add),
        validations.fold(0, u64::wrapping_add),
    ]
}

/// What may happen to a member: its own, and every delivery.
type Events = fn(&Group, usize) -> Vec<Event>;

/// Two saves.
fn two_saves(group: &Group, at: usize) -> Vec<Event> {
    let record = 0;
    let view = set(&[0, 1, 2]) & !set(&[winner(group.rule, &[0, 1, 2])]);
    let mut events = vec![
        Event::Replay { record },
        Event::Validate { record },
        Event::Resend { record },
        Event::View { epoch: 1, view },
    ];
    if group.members[at].table[0].timestamp.version == 0 {
        let value = format!("saved by {at}").into_bytes();
        events.push(Event::Write { record, value });
    }
    events
}

/// Ask, then save: commits on all stamps that were handed out, up to this version.
/// A third laptop only hears of it.
fn ask_then_save<const LAST: u32>(group: &Group, at: usize) -> Vec<Event> {
    let record = 0;
    if at > 1 {
        return vec![];
    }
    let mut events = vec![Event::Ask { record }];
    let version = group.members[at].table[0].timestamp.version;
    if version < LAST {
        let value = format!("{version} and one, by {at}").into_bytes();
        events.extend(group.opened[at][0].stamps().map(|opened| Event::Commit {
            record,
            opened,
            value: value.clone(),
        }));
    }
    events
}

/// What was found in all situations.
#[derive(Debug, Default)]
struct Found {
    situations: usize,
    /// Ways into them by a replay from invalid-write.
    given_up: usize,
    /// By a commit; and commits that 26 refused.
    commits: [usize; 2],
    valid_pairs: u32,
}

/// Laptops of these numbers, with this rule of ties.
fn laptops(rule: Rule, numbers: &[u8]) -> Group {
    Group::start(rule, numbers, set(numbers), 1)
}

/// Goes through all situations up to one against demand 3 or Wish 5; `besides` is
/// done to a record replayed from invalid-write, given the record before.
fn find(
    start: Group,
    events: Events,
    besides: impl Fn(&Record, &mut Record),
) -> Result<Found, String> {
    let mut found = Found::default();
    let mut ahead = vec![start];
    let mut seen: HashSet<Sum> = ahead.iter().map(sum).collect();
    while let Some(mut group) = ahead.pop() {
        found.situations += 1;
        found.valid_pairs += group.agreement()?;
        group.durability()?;
        let (posts, validations) = (group.posts.len(), group.validations.len());
        for at in 0..group.members.len() {
            let deliveries = (0..posts).map(|post| Event::Deliver { post });
            for event in events(&group, at).into_iter().chain(deliveries) {
                let before = group.members[at].clone();
                let opened = group.opened[at].clone();
                let answer = group.play(at, &event);
                group.opening()?;
                if let Event::Commit { .. } = event {
                    found.commits[0] += usize::from(answer.is_ok());
                    found.commits[1] += usize::from(answer == Err(Refusal::NotAsOpened));
                }
                if answer.is_ok() {
                    let held = &before.table[0];
                    let replay = matches!(event, Event::Replay { .. });
                    if replay && held.state == State::InvalidWrite {
                        found.given_up += 1;
                        besides(held, &mut group.members[at].table[0]);
                    }
                    said_once(&mut group);
                    if seen.insert(sum(&group)) {
                        ahead.push(group.clone());
                    }
                }
                // Back to the situation, for the next event.
                group.members[at] = before;
                group.opened[at] = opened;
                group.posts.truncate(posts);
                group.validations.truncate(validations);
            }
        }
    }
    Ok(found)
}

/// A message, or a validation, that was there already is not another one.
fn said_once(group: &mut Group) {
    if let Some((last, earlier)) = group.posts.split_last() {
        let same = |p: &Post| (p.envelope, &p.body) == (last.envelope, &last.body);
        if earlier.iter().any(same) {
            group.posts.pop();
        }
    }
    if let Some((last, earlier)) = group.validations.split_last() {
        if earlier.contains(last) {
            group.validations.pop();
        }
    }
}

#[test]
fn no_order_breaks_it() {
    for rule in Rule::ALL {
        let found = find(laptops(rule, &[0, 1, 2]), two_saves, |_, _| ()).expect("demand 3");
        println!("{found:?}");
        assert!(found.situations > 50_000, "{found:?}");
        assert!(found.given_up > 10_000, "{found:?}");
        assert!(found.valid_pairs > 10_000, "{found:?}");
    }
}

/// An engine that kept the acknowledgements of the save it gives up is found.
#[test]
fn kept_acknowledgements() {
    for rule in Rule::ALL {
        let found = find(laptops(rule, &[0, 1, 2]), two_saves, |before, after| {
            after.acks = before.acks;
        });
        assert!(found.is_err(), "{found:?}");
    }
}

/// A laptop that has the other rule is found: two of them save, and each keeps its
/// own text or each takes the other's.
#[test]
fn another_rule() {
    for rule in Rule::ALL {
        for at in 0..3 {
            let mut group = laptops(rule, &[0, 1, 2]);
            group.members[at].replica.settings.rule = other(rule);
            let found = find(group, two_saves, |_, _| ());
            assert!(found.is_err(), "{found:?}");
        }
    }
}

/// 02, Wish 5: between an accepted ask and an accepted commit on its stamp the
/// record kept stamp and bytes, and asks never hand out an earlier stamp.
#[test]
fn no_order_saves_over_what_was_not_seen() {
    for rule in Rule::ALL {
        let two = (laptops(rule, &[0, 1]), ask_then_save::<4> as Events);
        let three = (laptops(rule, &[0, 1, 2]), ask_then_save::<3> as Events);
        for (start, events) in [two, three] {
            let found = find(start, events, |_, _| ()).expect("Wish 5");
            println!("{found:?}");
            assert!(found.situations > 40_000, "{found:?}");
            let [accepted, refused] = found.commits;
            assert!(accepted > 3000 && refused > 20_000, "{found:?}");
            assert!(found.valid_pairs > 20_000, "{found:?}");
        }
    }
}

/// An engine that commits on the version alone is found.
#[test]
fn commits_on_the_version_alone() {
    for rule in Rule::ALL {
        let wrong: Commit = |member: &mut Member, record, opened, value| match member.ask(record) {
            Ok((_, held)) if held.version == opened.version => member.write(record, value),
            _ => Err(Refusal::NotAsOpened),
        };
        let mut group = laptops(rule, &[0, 1]);
        group.commit = wrong;
        let found = find(group, ask_then_save::<2>, |_, _| ());
        let what = found.expect_err("Wish 5");
        assert!(what.contains("saved over"), "{what}");
    }
}
