//! A group at work: its members, every message that ever left, the views that
//! the warden issues, demand 3 in both halves, and what Wish 5 promises.

use model::engine::{
    body, has, number, Answer, Envelope, Message, Replica, Rule, State, Timestamp,
};
use model::opened::{Held, Opened};

use crate::support::Member;

/// A message that left, with the bytes it left with, and whom it is for.
#[derive(Clone, Debug)]
pub struct Post {
    pub envelope: Envelope,
    pub body: Vec<u8>,
    pub to: u16,
}

/// A validation: an accepted Validate, or the last ACK of a write or a replay,
/// with which a VAL leaves too (02, Wish 1).
#[derive(Clone, Copy, Debug, PartialEq)]
pub struct Validation {
    pub record: usize,
    pub timestamp: Timestamp,
    /// The finisher's view at that step.
    pub view: u16,
}

/// One entry of the list. The member is named by its place in the group.
#[derive(Clone, Debug)]
pub enum Event {
    Read {
        record: usize,
    },
    Write {
        record: usize,
        value: Vec<u8>,
    },
    Ask {
        record: usize,
    },
    Commit {
        record: usize,
        opened: Timestamp,
        value: Vec<u8>,
    },
    Replay {
        record: usize,
    },
    Deliver {
        post: usize,
    },
    Validate {
        record: usize,
    },
    Resend {
        record: usize,
    },
    View {
        epoch: u32,
        view: u16,
    },
}

/// A commit of this value to this record, on this stamp.
pub type Commit = fn(&mut Member, usize, Timestamp, &[u8]) -> Answer;

#[derive(Clone)]
pub struct Group {
    /// Of ties (02, Wish 6).
    pub rule: Rule,
    pub members: Vec<Member>,
    pub posts: Vec<Post>,
    pub validations: Vec<Validation>,
    /// By member and record.
    pub opened: Vec<Vec<Opened>>,
    /// The first that was against Wish 5's promises.
    against: Option<String>,
    /// The model's, unless a test puts a wrong one in its place.
    pub commit: Commit,
}

impl Group {
    /// All members have just started fresh, with one first view and this rule of
    /// ties.
    pub fn start(rule: Rule, numbers: &[u8], view: u16, records: usize) -> Group {
        let start = |&number| Member::start(rule, number, view, records);
        Group {
            rule,
            members: numbers.iter().map(start).collect(),
            posts: Vec::new(),
            validations: Vec::new(),
            opened: vec![vec![Opened::new(rule); records]; numbers.len()],
            against: None,
            commit: Member::commit,
        }
    }

    /// Plays one entry. A message that leaves joins the posts.
    pub fn play(&mut self, at: usize, event: &Event) -> Answer {
        let member = &mut self.members[at];
        let before = member.clone();
        let mut inv_sender = u8::MAX;
        // What a read or an ask hands out.
        let mut handed: Option<Held> = None;
        let (record, answer) = match *event {
            Event::Read { record } => {
                let read = member.read(record);
                handed = read
                    .ok()
                    .map(|value| (member.table[record].timestamp, value.to_vec()));
                (record, read.map(|_| None))
            }
            Event::Write { record, ref value } => (record, member.write(record, value)),
            Event::Ask { record } => {
                let ask = member.ask(record);
                handed = ask.ok().map(|(value, stamp)| (stamp, value.to_vec()));
                (record, ask.map(|_| None))
            }
            Event::Commit {
                record,
                opened,
                ref value,
            } => (record, (self.commit)(member, record, opened, value)),
            Event::Replay { record } => (record, member.replay(record)),
            Event::Validate { record } => (record, member.validate(record)),
            Event::Resend { record } => (record, member.resend(record)),
            Event::View { epoch, view } => (usize::MAX, member.view(epoch, view)),
            Event::Deliver { post } => {
                let Post { envelope, body, .. } = &self.posts[post];
                inv_sender = envelope.sender;
                (envelope.record, member.deliver(envelope, body))
            }
        };
        changes_only(&before, member, record, &answer);
        if let (Ok(_), Some(opened)) = (answer, self.opened[at].get_mut(record)) {
            let done = follow(opened, member, record, event, handed);
            self.against = self.against.take().or(done.err());
        }
        if let Ok(Some(message)) = answer {
            self.posts.push(Post {
                envelope: member.replica.envelope(record, message),
                body: body(message, &member.table, &member.store, record).to_vec(),
                to: member.replica.recipients(message, inv_sender),
            });
            let settles = matches!(event, Event::Validate { .. } | Event::Deliver { .. });
            if let (true, Message::Val(timestamp)) = (settles, message) {
                self.validations.push(Validation {
                    record,
                    timestamp,
                    view: member.replica.view,
                });
            }
        }
        answer
    }

    /// Plays one entry, after which demand 3 holds, and what Wish 5 promises.
    pub fn checked(&mut self, at: usize, event: &Event) -> Answer {
        let answer = self.play(at, event);
        assert!(self.agreement().is_ok(), "{:?}", self.agreement());
        assert_eq!(self.durability(), Ok(()));
        assert_eq!(self.opening(), Ok(()));
        answer
    }

    /// From this post on, all that leaves comes to those left whom it is for, in
    /// this order.
    pub fn everything_arrives(&mut self, mut post: usize, left: &[usize]) {
        while post < self.posts.len() {
            for &at in left {
                if has(self.posts[post].to, self.members[at].replica.number) {
                    // Some are answered already: a second VAL, say.
                    let _ = self.checked(at, &Event::Deliver { post });
                }
            }
            post += 1;
        }
    }

    /// Demand 3, first half: any two members that stand in each other's view
    /// and both show a record valid hold one stamp and the same bytes for it.
    /// Gives the count of such pairs.
    pub fn agreement(&self) -> Result<u32, String> {
        let mut pairs = 0;
        for (i, a) in self.members.iter().enumerate() {
            for b in &self.members[i + 1..] {
                if !has(a.replica.view, b.replica.number) || !has(b.replica.view, a.replica.number)
                {
                    continue;
                }
                for (record, (x, y)) in a.table.iter().zip(&b.table).enumerate() {
                    if x.state != State::Valid || y.state != State::Valid {
                        continue;
                    }
                    pairs += 1;
                    let one_stamp = x.timestamp == y.timestamp;
                    let same_bytes = x.len == y.len && a.slot(record) == b.slot(record);
                    if !one_stamp || !same_bytes {
                        let (a, b) = (a.replica, b.replica);
                        return Err(format!("record {record}: {a:?} {x:?}, {b:?} {y:?}"));
                    }
                }
            }
        }
        Ok(pairs)
    }

    /// 02, Wish 5: see `model::opened`.
    pub fn opening(&self) -> Result<(), String> {
        self.against.clone().map_or(Ok(()), Err)
    }

    /// Demand 3, second half: each member in the finisher's view of a
    /// validation, if it shows the record valid, shows that stamp or a later.
    pub fn durability(&self) -> Result<(), String> {
        for validation in &self.validations {
            for member in &self.members {
                let shown = &member.table[validation.record];
                let stamp = validation.timestamp;
                if has(validation.view, member.replica.number)
                    && shown.state == State::Valid
                    && stamp.is_after(shown.timestamp, self.rule)
                {
                    let replica = member.replica;
                    return Err(format!("{validation:?}, but {replica:?} {shown:?}"));
                }
            }
        }
        Ok(())
    }
}

/// After an accepted event of this member on this record, which handed this out.
fn follow(
    opened: &mut Opened,
    member: &Member,
    record: usize,
    event: &Event,
    handed: Option<Held>,
) -> Result<(), String> {
    let done = match (event, handed) {
        (Event::Commit { opened: stamp, .. }, _) => opened.commits(*stamp),
        (_, Some(held)) => opened.hands_out(held, matches!(event, Event::Ask { .. })),
        _ => Ok(()),
    };
    // The value, also of a record that is not valid.
    let found = &member.table[record];
    let value = &member.slot(record)[..usize::from(found.len)];
    opened.is_now(found.timestamp, value);
    let replica = member.replica;
    done.map_err(|what| format!("record {record} of {replica:?}: {what}"))
}

/// Demand 1: a refused event changes nothing; an accepted one only the named
/// record with its text, or the replica's view.
fn changes_only(before: &Member, after: &Member, record: usize, answer: &Answer) {
    if answer.is_err() {
        assert_eq!(after, before, "refused by {}", number(answer));
        return;
    }
    let Replica { epoch, view, .. } = after.replica;
    let expected = match record {
        // A view: number and settings stay.
        usize::MAX => Replica {
            epoch,
            view,
            ..before.replica
        },
        _ => before.replica,
    };
    assert_eq!(after.replica, expected);
    for other in (0..before.table.len()).filter(|&other| other != record) {
        assert_eq!(after.table[other], before.table[other]);
        assert_eq!(after.slot(other), before.slot(other));
    }
}
