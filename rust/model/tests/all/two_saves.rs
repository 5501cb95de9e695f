//! A record hung after two saves (02, Wish 2): two huts save the same ring
//! together, and the laptop with the winning stamp dies.

use model::engine::{body, Answer, Envelope, Message, Record, Refusal, Rule, State};

use crate::group::{Event, Group};
use crate::support::{ack, from, inv, set, ts, val, Member};

// One laptop: 2, first view {1,2,3,5}.

/// Laptop 2 has saved (1,2), which 1 has acknowledged; 5's save (1,5) has
/// overtaken it.
fn overtaken() -> Member {
    let mut member = Member::start(Rule::Higher, 2, set(&[1, 2, 3, 5]), 1);
    assert_eq!(member.write(0, b"own"), Ok(Some(inv(1, 2))));
    assert_eq!(member.deliver(&from(1, ack(1, 2)), b""), Ok(None));
    let winner = from(5, inv(1, 5));
    assert_eq!(member.deliver(&winner, b"winner"), Ok(Some(ack(1, 5))));
    assert_eq!(member.table[0].state, State::InvalidWrite);
    member
}

/// Then 5 is struck off.
fn hung() -> Member {
    let mut member = overtaken();
    assert_eq!(member.view(1, set(&[1, 2, 3])), Ok(None));
    member
}

/// Then laptop 2 replays.
fn replayed() -> Member {
    let mut member = hung();
    assert_eq!(member.replay(0), Ok(Some(inv(1, 5))));
    assert_eq!(member.table, [REPLAYED]);
    member
}

/// Nothing is left of (1,2), nor of 1's acknowledgement of it.
const REPLAYED: Record = Record {
    state: State::Replay,
    timestamp: ts(1, 5),
    last_writer: 2,
    last_write: ts(1, 5),
    acks: 0,
    len: 6,
};

/// A message of epoch 1.
fn later(sender: u8, message: Message) -> Envelope {
    Envelope {
        epoch: 1,
        ..from(sender, message)
    }
}

/// The event is refused so, and nothing moves.
fn refuses(member: &mut Member, event: impl Fn(&mut Member) -> Answer, refusal: Refusal) {
    let before = member.clone();
    assert_eq!(event(member), Err(refusal));
    assert_eq!(*member, before);
}

#[test]
fn the_winner_must_be_struck_off() {
    let mut member = overtaken();
    refuses(&mut member, |m| m.replay(0), Refusal::NotReplayable);
    // A view without another laptop does not help.
    assert_eq!(member.view(1, set(&[1, 2, 5])), Ok(None));
    refuses(&mut member, |m| m.replay(0), Refusal::NotReplayable);
    assert_eq!(member.view(2, set(&[1, 2])), Ok(None));
    assert_eq!(member.replay(0), Ok(Some(inv(1, 5))));
    assert_eq!(member.table, [REPLAYED]);
}

#[test]
fn what_leaves() {
    let before = hung();
    let mut member = before.clone();
    assert_eq!(member.replay(0), Ok(Some(inv(1, 5))));
    assert_eq!(member.table, [REPLAYED]);
    assert_eq!(
        (&member.store, member.replica),
        (&before.store, before.replica)
    );
    let sent = inv(1, 5);
    assert_eq!(body(sent, &member.table, &member.store, 0), b"winner");
    assert_eq!(member.replica.recipients(sent, 0), set(&[1, 3]));
    assert_eq!(member.replica.envelope(0, sent), later(2, sent));
    // Once more by a resend, and not by a replay.
    assert_eq!(member.resend(0), Ok(Some(sent)));
    refuses(&mut member, |m| m.replay(0), Refusal::NotReplayable);
    refuses(&mut member, |m| m.write(0, b"new"), Refusal::NotWritable);
}

/// All three others acknowledged the save that is given up: that is no
/// acknowledgement of the winner's.
#[test]
fn a_save_that_all_acknowledged() {
    let mut member = overtaken();
    assert_eq!(member.deliver(&from(3, ack(1, 2)), b""), Ok(None));
    assert_eq!(member.deliver(&from(5, ack(1, 2)), b""), Ok(None));
    assert_eq!(member.table[0].acks, set(&[1, 3, 5]));
    assert_eq!(member.view(1, set(&[1, 2, 3])), Ok(None));
    refuses(&mut member, |m| m.validate(0), Refusal::NotFinished);
    assert_eq!(member.replay(0), Ok(Some(inv(1, 5))));
    assert_eq!(member.table, [REPLAYED]);
    refuses(&mut member, |m| m.validate(0), Refusal::NotFinished);
}

#[test]
fn acknowledgements_at_the_replay() {
    let mut member = replayed();
    for sender in [1, 3] {
        // Of the save that is given up. In a group it is of an earlier epoch,
        // and 10 is asked first.
        let early = |m: &mut Member| m.deliver(&from(sender, ack(1, 2)), b"");
        refuses(&mut member, early, Refusal::OtherEpoch);
        let stray = |m: &mut Member| m.deliver(&later(sender, ack(1, 2)), b"");
        refuses(&mut member, stray, Refusal::StrayAck);
    }
    assert_eq!(member.deliver(&later(1, ack(1, 5)), b""), Ok(None));
    let counted = Record {
        acks: set(&[1]),
        ..REPLAYED
    };
    assert_eq!(member.table, [counted]);
    let again = |m: &mut Member| m.deliver(&later(1, ack(1, 5)), b"");
    refuses(&mut member, again, Refusal::StrayAck);
    let stray = |m: &mut Member| m.deliver(&later(3, ack(1, 2)), b"");
    refuses(&mut member, stray, Refusal::StrayAck);

    let last = member.deliver(&later(3, ack(1, 5)), b"");
    assert_eq!(last, Ok(Some(val(1, 5))));
    let settled = Record {
        state: State::Valid,
        acks: set(&[1, 3]),
        ..REPLAYED
    };
    assert_eq!(member.table, [settled]);
    assert_eq!(member.replica.recipients(val(1, 5), 0), set(&[1, 3]));
    assert_eq!(member.read(0), Ok(&b"winner"[..]));
}

/// The last missing laptop is struck off during the replay.
#[test]
fn validate_at_the_replay() {
    let mut member = replayed();
    assert_eq!(member.deliver(&later(1, ack(1, 5)), b""), Ok(None));
    refuses(&mut member, |m| m.validate(0), Refusal::NotFinished);
    assert_eq!(member.view(2, set(&[1, 2])), Ok(None));
    assert_eq!(member.validate(0), Ok(Some(val(1, 5))));
    assert_eq!(member.read(0), Ok(&b"winner"[..]));
}

/// Another replayed the winner's save too, and was first.
#[test]
fn a_val_at_the_replay() {
    let mut member = replayed();
    let own = |m: &mut Member| m.deliver(&later(1, val(1, 2)), b"");
    refuses(&mut member, own, Refusal::StrayVal);
    assert_eq!(member.deliver(&later(1, val(1, 5)), b""), Ok(None));
    let settled = Record {
        state: State::Valid,
        ..REPLAYED
    };
    assert_eq!(member.table, [settled]);
    assert_eq!(member.read(0), Ok(&b"winner"[..]));
}

/// A greater INV makes the replay invalid, not invalid-write: there is no own
/// save any more.
#[test]
fn a_greater_inv_at_the_replay() {
    for (version, tie) in [(1, 6), (2, 1), (u32::MAX - 1, 0)] {
        let mut member = replayed();
        assert_eq!(member.deliver(&later(1, ack(1, 5)), b""), Ok(None));
        let greater = later(3, inv(version, tie));
        let answer = member.deliver(&greater, b"new");
        assert_eq!(answer, Ok(Some(ack(version, tie))));
        let expected = Record {
            state: State::Invalid,
            timestamp: ts(version, tie),
            last_writer: 3,
            last_write: ts(1, 5),
            acks: set(&[1]),
            len: 3,
        };
        assert_eq!(member.table, [expected]);
        for stamp in [ts(1, 2), ts(1, 5), ts(version, tie)] {
            let stray = |m: &mut Member| m.deliver(&later(3, Message::Ack(stamp)), b"");
            refuses(&mut member, stray, Refusal::StrayAck);
        }
        refuses(&mut member, |m| m.replay(0), Refusal::NotReplayable);
        // An invalid record may be written, an invalid-write one may not.
        assert_eq!(member.write(0, b"again"), Ok(Some(inv(version + 1, 2))));
    }
}

/// A greater INV of one in the view, before the replay, shuts that way again.
/// The own save is not given up: its acknowledgements are still counted.
#[test]
fn a_greater_inv_before_the_replay() {
    let mut member = hung();
    let greater = later(1, inv(2, 1));
    assert_eq!(member.deliver(&greater, b"new"), Ok(Some(ack(2, 1))));
    let expected = Record {
        state: State::InvalidWrite,
        timestamp: ts(2, 1),
        last_writer: 1,
        last_write: ts(1, 2),
        acks: set(&[1]),
        len: 3,
    };
    assert_eq!(member.table, [expected]);
    refuses(&mut member, |m| m.replay(0), Refusal::NotReplayable);
    assert_eq!(member.deliver(&later(3, ack(1, 2)), b""), Ok(None));
    assert_eq!(member.table[0].acks, set(&[1, 3]));
    refuses(&mut member, |m| m.validate(0), Refusal::NotFinished);
}

/// Another's replay of the winner's save is no greater: the last writer stays,
/// so that this laptop may replay too.
#[test]
fn another_replay_before_this_one() {
    let mut member = hung();
    let equal = later(1, inv(1, 5));
    let before = member.clone();
    assert_eq!(member.deliver(&equal, b"winner"), Ok(Some(ack(1, 5))));
    assert_eq!(member, before);
    assert_eq!(member.replay(0), Ok(Some(inv(1, 5))));
    assert_eq!(member.table, [REPLAYED]);
}

// Whole groups. Members are named by their places. The later place wins a tie: by
// the old rule the places are the numbers, by the new one these fall from 15.

fn number(rule: Rule, at: usize) -> u8 {
    match rule {
        Rule::Higher => at as u8,
        Rule::Lower => 15 - at as u8,
    }
}

/// The set of these places' numbers.
fn places(rule: Rule, places: &[usize]) -> u16 {
    let numbers = places.iter().map(|&at| number(rule, at));
    set(&numbers.collect::<Vec<_>>())
}

/// These members save at once. Their INVs are the first posts, in this order.
fn saved(rule: Rule, size: usize, savers: &[usize]) -> Group {
    let numbers: Vec<u8> = (0..size).map(|at| number(rule, at)).collect();
    let mut group = Group::start(rule, &numbers, set(&numbers), 1);
    for &at in savers {
        let value = text(at);
        let write = Event::Write { record: 0, value };
        let answer = group.play(at, &write);
        assert_eq!(answer, Ok(Some(inv(1, numbers[at]))));
    }
    group
}

fn text(at: usize) -> Vec<u8> {
    format!("saved by {at}").into_bytes()
}

fn deliver(group: &mut Group, at: usize, post: usize) {
    let answer = group.checked(at, &Event::Deliver { post });
    assert!(answer.is_ok(), "{answer:?}");
}

/// These members, and no others, are told that they are left.
fn strike_off_the_rest(group: &mut Group, left: &[usize]) {
    let view = places(group.rule, left);
    for &at in left {
        let event = Event::View { epoch: 1, view };
        assert_eq!(group.checked(at, &event), Ok(None));
    }
}

fn replay(group: &mut Group, at: usize) -> Answer {
    group.checked(at, &Event::Replay { record: 0 })
}

/// These members show what this one saved.
fn all_show(group: &Group, left: &[usize], saver: usize) {
    for &at in left {
        let member = &group.members[at];
        assert_eq!(member.read(0), Ok(&text(saver)[..]), "laptop {at}");
        let stamp = ts(1, number(group.rule, saver));
        assert_eq!(member.table[0].timestamp, stamp);
    }
}

fn states(group: &Group) -> Vec<State> {
    group.members.iter().map(|m| m.table[0].state).collect()
}

/// 0 and 2 save together, all hear of 2's, and 2 dies.
#[test]
fn the_winners_text_stands() {
    for rule in Rule::ALL {
        use State::{Invalid, InvalidWrite, Write};
        let mut group = saved(rule, 3, &[0, 2]);
        // 1 acknowledges 0's save, post 2.
        deliver(&mut group, 1, 0);
        deliver(&mut group, 0, 2);
        deliver(&mut group, 1, 1);
        deliver(&mut group, 0, 1);
        assert_eq!(states(&group), [InvalidWrite, Invalid, Write]);
        assert_eq!(replay(&mut group, 0), Err(Refusal::NotReplayable));
        strike_off_the_rest(&mut group, &[0, 1]);

        let post = group.posts.len();
        assert_eq!(replay(&mut group, 0), Ok(Some(inv(1, number(rule, 2)))));
        group.everything_arrives(post, &[0, 1]);
        all_show(&group, &[0, 1], 2);
        assert_eq!(group.validations.len(), 1);
        assert_eq!(group.validations[0].timestamp, ts(1, number(rule, 2)));
        assert_eq!(group.validations[0].view, places(rule, &[0, 1]));
    }
}

/// 2's INV came to 0 alone. 1 holds what 0 saved, or nothing, and may not
/// replay.
#[test]
fn one_laptop_holds_the_winners_text() {
    for rule in Rule::ALL {
        for heard in [false, true] {
            let mut group = saved(rule, 3, &[0, 2]);
            if heard {
                deliver(&mut group, 1, 0);
                deliver(&mut group, 0, 2);
            }
            deliver(&mut group, 0, 1);
            strike_off_the_rest(&mut group, &[0, 1]);
            assert_eq!(replay(&mut group, 1), Err(Refusal::NotReplayable));

            let post = group.posts.len();
            assert_eq!(replay(&mut group, 0), Ok(Some(inv(1, number(rule, 2)))));
            // An acknowledgement of the save given up does not validate.
            let validate = group.checked(0, &Event::Validate { record: 0 });
            assert_eq!(validate, Err(Refusal::NotFinished));
            group.everything_arrives(post, &[0, 1]);
            all_show(&group, &[0, 1], 2);
            assert_eq!(group.validations.len(), 1);
        }
    }
}

/// Everyone saves, and all who are left hear of the winner's save: nobody sits
/// in invalid. One of them replays, or all do.
#[test]
fn all_in_invalid_write() {
    for rule in Rule::ALL {
        for size in [3, 4] {
            let savers: Vec<usize> = (0..size).collect();
            let (&winner, left) = savers.split_last().expect("a saver");
            let first = left.iter().map(|&at| vec![at]);
            for replaying in first.chain([left.to_vec()]) {
                let mut group = saved(rule, size, &savers);
                for &at in left {
                    deliver(&mut group, at, winner);
                }
                strike_off_the_rest(&mut group, left);
                let overtaken = vec![State::InvalidWrite; winner];
                assert_eq!(states(&group)[..winner], overtaken);

                let post = group.posts.len();
                for &at in &replaying {
                    let sent = inv(1, number(rule, winner));
                    assert_eq!(replay(&mut group, at), Ok(Some(sent)));
                }
                group.everything_arrives(post, left);
                all_show(&group, left, winner);
            }
        }
    }
}

/// 2 and 3 die; 0 has heard of 3's save, 1 of 2's. Both replay, and the greater
/// stamp stands whichever is heard first.
#[test]
fn two_winners() {
    for rule in Rule::ALL {
        for order in [[0, 1], [1, 0]] {
            let mut group = saved(rule, 4, &[0, 1, 2, 3]);
            deliver(&mut group, 0, 3);
            deliver(&mut group, 1, 2);
            strike_off_the_rest(&mut group, &[0, 1]);
            assert_eq!(states(&group)[..2], [State::InvalidWrite; 2]);
            let post = group.posts.len();
            for at in order {
                assert!(replay(&mut group, at).is_ok());
            }
            group.everything_arrives(post, &[0, 1]);
            all_show(&group, &[0, 1], 3);
        }
    }
}

/// 0, 1 and 2 save together. 1 has acknowledged 0's save, 0 has acknowledged
/// 1's, and 0 alone has heard of the winner's; it replays.
fn replaying(rule: Rule) -> Group {
    let mut group = saved(rule, 3, &[0, 1, 2]);
    // Posts 3 and 4 are these ACKs.
    deliver(&mut group, 1, 0);
    deliver(&mut group, 0, 3);
    deliver(&mut group, 0, 1);
    deliver(&mut group, 1, 4);
    deliver(&mut group, 0, 2);
    strike_off_the_rest(&mut group, &[0, 1]);
    assert_eq!(group.members[0].table[0].acks, places(rule, &[1]));
    assert_eq!(replay(&mut group, 0), Ok(Some(inv(1, number(rule, 2)))));
    // 2, which has not acknowledged 1's save, is struck off.
    let validate = group.checked(1, &Event::Validate { record: 0 });
    assert_eq!(validate, Ok(Some(val(1, number(rule, 1)))));
    group
}

/// 1 shows its own save until it hears of the winner's.
#[test]
fn a_lesser_save_is_validated_meanwhile() {
    for rule in Rule::ALL {
        let mut group = replaying(rule);
        all_show(&group, &[1], 1);
        let validate = group.checked(0, &Event::Validate { record: 0 });
        assert_eq!(validate, Err(Refusal::NotFinished));
        let post = group.posts.len() - 2;
        assert_eq!(group.posts[post].envelope.message, inv(1, number(rule, 2)));
        group.everything_arrives(post, &[0, 1]);
        all_show(&group, &[0, 1], 2);
    }
}

/// Why the acknowledgements are emptied: with 1's kept, 0 would validate what 1
/// has not heard of, and both screens show valid with different texts.
#[test]
fn kept_acknowledgements_would_break_it() {
    for rule in Rule::ALL {
        let mut group = replaying(rule);
        group.members[0].table[0].acks = places(rule, &[1]);
        let validate = group.play(0, &Event::Validate { record: 0 });
        assert_eq!(validate, Ok(Some(val(1, number(rule, 2)))));
        assert!(group.agreement().is_err());
        assert!(group.durability().is_err());
    }
}
