use std::collections::BTreeMap;

use cetskobi::raw::{self, Accepted, Answer, Message, Replica};
use model::engine::{bit, has, Record, Rule, State, Timestamp};

use super::member::{Member, Stamp};
use super::{Entry, Run, Tally, What};
use crate::bytes::Bytes;
use crate::crossing::{is_after, other_rule, settings_of, Fields};
use crate::packet::EntryWords;
use crate::single::{by_engine, replica_of, tie, Case, Event, Kind, Outcome};

/// A message that left, with the bytes it left with, and whom it is for.
#[derive(Clone, Debug)]
pub struct Post {
    pub message: Message,
    pub i: usize,
    pub value: Bytes,
    pub to: u16,
}

/// How a message comes to a laptop of the engine.
pub type Carry = fn(&Post, Replica, &mut [u8], &mut [u8]) -> Answer;

/// The delivery by itself.
pub fn by_hand(post: &Post, me: Replica, table: &mut [u8], store: &mut [u8]) -> Answer {
    raw::deliver(me, table, store, post.i, post.message, &post.value)
}

/// The delivery out of a packet, where it is the second message.
pub fn by_packet(post: &Post, me: Replica, table: &mut [u8], store: &mut [u8]) -> Answer {
    let ack = [2, 0, 0, 0, 0, 0, 0];
    let mut packet = [0; 1400];
    // Were it refused, no packet would be delivered: the answers would differ.
    let words = [ack, post.entry()].concat();
    let written = raw::pack(me.settings, &words, &post.value, &mut packet);
    raw::deliver_packet(me, table, store, &packet[..written.len], 1)
}

impl Post {
    /// Its words in a packet.
    fn entry(&self) -> EntryWords {
        let message = self.message;
        [
            message.kind.into(),
            message.sender.into(),
            message.epoch,
            self.i as u32,
            message.version,
            message.tie.into(),
            self.value.len() as u32,
        ]
    }

    /// The bytes that it takes in a packet.
    pub fn size(&self) -> usize {
        16 + self.value.len()
    }

    /// Its delivery to this laptop.
    fn delivery(&self, me: Replica) -> Case {
        let event = Event::Deliver {
            message: self.message,
            value: self.value.clone(),
        };
        Case::on(me, self.i, event)
    }
}

/// The packet of these in a group with this rule, by the engine.
fn packet_of(rule: Rule, posts: &[&Post]) -> Result<Vec<u8>, String> {
    let words: Vec<EntryWords> = posts.iter().map(|post| post.entry()).collect();
    let bodies: Vec<&[u8]> = posts.iter().map(|post| &post.value[..]).collect();
    let mut packet = vec![0; 1400];
    let (words, bodies) = (words.as_flattened(), bodies.concat());
    let written = raw::pack(settings_of(rule), words, &bodies, &mut packet);
    if written.number != 0 {
        return Err(format!("no packet: {written:?}"));
    }
    packet.truncate(written.len);
    Ok(packet)
}

/// A packet that has come to a laptop, accepted once.
struct Arrived {
    at: usize,
    /// The posts that it was made of, by their ids; some may be none.
    of: Vec<usize>,
    packet: Vec<u8>,
    accepted: Accepted,
}

/// An event of the model on its own table and store.
pub type OnTable = fn(&Case, &mut [Record], &mut [u8]) -> Outcome;

pub struct Group {
    pub rule: Rule,
    pub members: Vec<Member>,
    /// By the id of the entry that the message left.
    pub posts: BTreeMap<usize, Post>,
    carry: Carry,
    other: OnTable,
    since: usize,
    /// The packet that the last entry took a message of.
    arrived: Option<Arrived>,
    /// By record and stamp: the laptops that have committed on it, a set.
    committed: BTreeMap<(usize, Stamp), u16>,
}

impl Group {
    /// All members have just started fresh, in memory that was not clean.
    pub fn start(run: &Run, carry: Carry, other: OnTable) -> Result<Group, String> {
        let member = |&number: &u8| Member::start(number, run);
        Ok(Group {
            rule: run.rule,
            members: run.numbers.iter().map(member).collect::<Result<_, _>>()?,
            posts: BTreeMap::new(),
            carry,
            other,
            since: 0,
            arrived: None,
            committed: BTreeMap::new(),
        })
    }

    pub fn records(&self) -> usize {
        self.members[0].table.len()
    }

    /// Plays one entry by both, and compares what it can have touched. The
    /// whole memory is compared now and then.
    pub fn play(&mut self, entry: &Entry, tally: &mut Tally) -> Result<(), String> {
        let at = |what: String| format!("entry {} at {}: {what}", entry.id, entry.at);
        let Some((case, outcome)) = self.by_engine(entry).map_err(at)? else {
            return Ok(());
        };
        let member = &mut self.members[entry.at];
        if outcome.number == 0 {
            member.opens(&case, &outcome).map_err(at)?;
        }
        member.look(case.i);
        let before = member.table.get(case.i).copied();
        let expected = match entry.what {
            What::OtherRule { .. } => refused(&case),
            _ => (self.other)(&case, &mut member.table, &mut member.store),
        };
        if outcome != expected {
            return Err(at(format!("engine {outcome:?}, other {expected:?}")));
        }
        member.me = outcome.me;
        member.same(case.i).map_err(at)?;
        let more = before.and_then(|before| given_up(member, &case, before, &outcome));
        let label = label(member, &case, before, &outcome);
        let mut labels = Vec::from_iter(more);
        labels.extend(self.committed(entry.at, &case, before, &outcome));
        labels.extend(before.and_then(|before| tied(&case, &before, &outcome)));
        if let What::Packet { of, k } = &entry.what {
            labels.push(format!("one pass: {label}"));
            if *k == 0 {
                let many = ["fewer than 8", "8 or more"][usize::from(of.len() >= 8)];
                labels.push(format!("one pass: of {many}"));
            }
        }
        labels.push(label);
        let rule = self.rule as usize;
        for label in labels {
            tally.entry(label).or_default()[rule] += 1;
        }

        if outcome.number == 0 {
            self.leave(entry.id, entry.at, &case, &outcome);
            let pairs = self.agreement(case.i)?;
            tally.entry("valid pairs".to_owned()).or_default()[rule] += pairs;
        }
        self.since += 1;
        if self.since >= 64.max(self.records() / 2) {
            self.since = 0;
            self.check_all()?;
        }
        Ok(())
    }

    /// 02, Wish 5: what a commit comes to besides. `before` is its record.
    fn committed(
        &mut self,
        at: usize,
        case: &Case,
        before: Option<Record>,
        outcome: &Outcome,
    ) -> Vec<String> {
        let (Event::Commit { opened, .. }, Some(before)) = (&case.event, before) else {
            return Vec::new();
        };
        let member = &self.members[at];
        let (stamp, held) = (Timestamp::new(opened.0, opened.1), before.timestamp);
        let asked = member.opened[case.i].stamps().any(|asked| asked == stamp);
        let valid = before.state == State::Valid;
        let mut labels = Vec::new();
        let mut is = |name: &str, so: bool| {
            if so {
                labels.push(format!("Commit: {name}"));
            }
        };
        match outcome.number {
            0 => {
                let by = self.committed.entry((case.i, *opened)).or_default();
                is("on what was handed out", asked);
                is("another did on this stamp", *by & !bit(case.me.number) != 0);
                *by |= bit(case.me.number);
            }
            26 => {
                let alike = (stamp.version == held.version, stamp.tie == held.tie);
                let older = asked && held.is_after(stamp, self.rule);
                is("a newer save is under way", !valid && older);
                is("a newer save came between", valid && older);
                is("its stamp, not valid", !valid && stamp == held);
                is("another version", valid && alike == (false, true));
                let tie = valid && alike == (true, false);
                is("another tie-breaker", tie && stamp.tie <= 15);
                is("a tie-breaker above 15", tie && stamp.tie > 15);
            }
            _ => {}
        }
        labels
    }

    /// The entry's event, and what the engine did. None for a delivery of
    /// nothing.
    fn by_engine(&mut self, entry: &Entry) -> Result<Option<(Case, Outcome)>, String> {
        let Some(member) = self.members.get_mut(entry.at) else {
            return Ok(None);
        };
        let of = match &entry.what {
            What::Own { i, event } => {
                // As a commit finds it.
                member.look(*i);
                let case = Case::on(member.me, *i, event.clone());
                let outcome = by_engine(&case, &mut member.memory);
                return Ok(Some((case, outcome)));
            }
            What::Deliver { of } => of,
            What::Packet { of, k } => return self.in_one_pass(entry.at, of, *k),
            What::OtherRule { of, accepted } => {
                return self.by_other_rule(entry.at, *of, *accepted)
            }
        };
        let Some(post) = self.posts.get(of) else {
            return Ok(None);
        };
        let case = post.delivery(member.me);
        let (table, store) = member.memory.lend();
        let answer = (self.carry)(post, member.me, table, store);
        Ok(Some((case, Outcome::of(member.me, answer))))
    }

    /// A post comes to the laptop at this place, in a packet of a group with the other
    /// rule.
    fn by_other_rule(
        &mut self,
        at: usize,
        of: usize,
        accepted: bool,
    ) -> Result<Option<(Case, Outcome)>, String> {
        let Some(post) = self.posts.get(&of) else {
            return Ok(None);
        };
        let packet = packet_of(other_rule(self.rule), &[post])?;
        let member = &mut self.members[at];
        let (me, case) = (member.me, post.delivery(member.me));
        let (table, store) = member.memory.lend();
        let answer = match accepted {
            true => {
                let facts = raw::accept(me.settings, &packet);
                raw::deliver_accepted(me, table, store, &packet, facts, 0).answer
            }
            false => raw::deliver_packet(me, table, store, &packet, 0),
        };
        // The model says the same: nothing moves.
        let model = model::packet::accept(replica_of(me).settings.rule, &packet);
        if model.err().map(|refusal| refusal.number()) != Some(answer.number) {
            return Err(format!("of the other rule: {answer:?}, {:?}", model.err()));
        }
        Ok(Some((case, Outcome::of(me, answer))))
    }

    /// The post that is the `k`th of these comes to the laptop at this place, in a
    /// packet of them all. If the entry before took a message of it too, it has been
    /// accepted then.
    fn in_one_pass(
        &mut self,
        at: usize,
        of: &[usize],
        k: usize,
    ) -> Result<Option<(Case, Outcome)>, String> {
        let there = |id: &usize| self.posts.get(id);
        let Some(post) = of.get(k).and_then(there) else {
            return Ok(None);
        };
        let arrived = match self.arrived.take() {
            Some(arrived) if (arrived.at, &arrived.of[..]) == (at, of) => arrived,
            _ => {
                let posts: Vec<&Post> = of.iter().filter_map(there).collect();
                let packet = packet_of(self.rule, &posts)?;
                let settings = self.members[at].me.settings;
                Arrived {
                    at,
                    of: of.to_vec(),
                    accepted: raw::accept(settings, &packet),
                    packet,
                }
            }
        };
        let i = of[..k].iter().filter_map(there).count();
        let member = &mut self.members[at];
        let case = post.delivery(member.me);
        let (table, store) = member.memory.lend();
        let Arrived {
            packet, accepted, ..
        } = &arrived;
        let arrival = raw::deliver_accepted(member.me, table, store, packet, *accepted, i);
        let told = (arrival.sender, arrival.epoch, arrival.index);
        if told != (post.message.sender, post.message.epoch, post.i) {
            return Err(format!("{post:?} arrives as {arrival:?}"));
        }
        self.arrived = Some(arrived);
        Ok(Some((case, Outcome::of(member.me, arrival.answer))))
    }

    /// A message that leaves joins the posts. A validation sets a floor for
    /// each laptop in the finisher's view: a Validate, or the last ACK, with
    /// which a VAL leaves too.
    fn leave(&mut self, id: usize, at: usize, case: &Case, outcome: &Outcome) {
        let member = &self.members[at];
        let (kind, tie, version) = outcome.sent;
        if kind == 0 {
            return;
        }
        let (me, i) = (member.me, case.i);
        let to = match &case.event {
            Event::Deliver { message, .. } if kind == 2 => 1 << message.sender,
            _ => me.view & !(1 << me.number),
        };
        let value = match (kind, member.memory.record(i), member.memory.slot(i)) {
            (1, Some(record), Some(slot)) => slot[..record.len.into()].to_vec(),
            _ => Vec::new(),
        };
        let message = Message {
            kind,
            sender: me.number,
            tie,
            epoch: me.epoch,
            version,
        };
        let value = Bytes(value);
        let post = Post {
            message,
            i,
            value,
            to,
        };
        self.posts.insert(id, post);
        if kind == 3 && case.event != Event::Resend {
            for other in &mut self.members {
                let stamp = (version, tie);
                let validated = is_after(stamp, other.floor[i], self.rule);
                if has(me.view, other.me.number) && validated {
                    other.floor[i] = stamp;
                }
            }
        }
    }

    /// Demand 3 for this record, of the engine's memory. Gives the count of
    /// pairs that both show it valid.
    fn agreement(&self, i: usize) -> Result<u64, String> {
        let mut pairs = 0;
        for (k, a) in self.members.iter().enumerate() {
            let Some(x) = a.shown(i) else {
                continue;
            };
            if is_after(a.floor[i], x.stamp(), self.rule) {
                let (me, floor) = (a.me, a.floor[i]);
                return Err(format!("{me:?} shows {x:?} of {i}, {floor:?} is validated"));
            }
            for b in &self.members[k + 1..] {
                let mutual = has(a.me.view, b.me.number) && has(b.me.view, a.me.number);
                let Some(y) = b.shown(i).filter(|_| mutual) else {
                    continue;
                };
                pairs += 1;
                let same = (x.stamp(), x.len) == (y.stamp(), y.len);
                if !same || a.memory.slot(i) != b.memory.slot(i) {
                    let (a, b) = (a.me, b.me);
                    return Err(format!("{a:?} shows {x:?} of {i}, {b:?} {y:?}"));
                }
            }
        }
        Ok(pairs)
    }

    /// Every byte of every member, guards included, and demand 3 for every
    /// record.
    pub fn check_all(&self) -> Result<(), String> {
        for (at, member) in self.members.iter().enumerate() {
            member.moved()?;
            if let Some(what) = member.memory.difference(&member.expected()) {
                return Err(format!("member {at}: {what} (engine, other)"));
            }
        }
        for i in 0..self.records() {
            self.agreement(i)?;
        }
        Ok(())
    }
}

/// What an entry comes to: its kind with the state that it was accepted at, or
/// with its answer.
fn label(member: &Member, case: &Case, before: Option<Record>, outcome: &Outcome) -> String {
    let kind = case.kind();
    let before = before.map(|record| record.state);
    let others = member.me.view & !bit(member.me.number);
    let all = member.table.get(case.i).map(|r| others & !r.acks == 0);
    match (outcome.number, before) {
        (0, Some(state)) if kind == Kind::Ack && all == Some(true) => {
            let val = ["no VAL", "VAL"][usize::from(outcome.sent.0 == 3)];
            format!("last Ack at {state:?}: {val}")
        }
        (0, Some(state)) if kind != Kind::View => format!("{kind:?} at {state:?}"),
        // The last writer is in the view.
        (16, Some(state @ (State::Invalid | State::InvalidWrite))) => {
            format!("{kind:?} at {state:?} answers 16")
        }
        (26, Some(state)) => format!("{kind:?} at {state:?} answers 26"),
        (number, _) => format!("{kind:?} answers {number}"),
    }
}

/// What a delivery from a packet of the other rule comes to.
fn refused(case: &Case) -> Outcome {
    let answer = Answer {
        number: 27,
        kind: 0,
        tie: 0,
        version: 0,
    };
    Outcome::of(case.me, answer)
}

/// 02, Wish 6: an INV that ties with its record, taken or not by the group's rule.
fn tied(case: &Case, before: &Record, outcome: &Outcome) -> Option<String> {
    let (Kind::Inv, Event::Deliver { message, .. }) = (case.kind(), &case.event) else {
        return None;
    };
    let stamp = (message.version, message.tie);
    let taken = tie(case.me, &Fields::of_record(before, 0), stamp, outcome)?;
    let what = ["not taken", "taken"][usize::from(taken)];
    Some(format!("a tie, {what}, at {:?}", before.state))
}

/// 02, Wish 2: a replay gives up this laptop's own save, which was overtaken. What
/// the entry comes to for a record that is in replay since, if it is about that.
fn given_up(member: &mut Member, case: &Case, before: Record, outcome: &Outcome) -> Option<String> {
    let after = member.table.get(case.i)?.state;
    let own = member.given_up.get_mut(case.i)?;
    let accepted = outcome.number == 0;
    if case.event == Event::Replay && accepted && before.state == State::InvalidWrite {
        *own = Some((before.last_write.version, before.last_write.tie));
        return None;
    }
    let stamp = (*own)?;
    if after != State::Replay {
        *own = None;
    }
    let Event::Deliver { message, .. } = &case.event else {
        return None;
    };
    let of_own = (message.version, message.tie) == stamp;
    match case.kind() {
        Kind::Ack if of_own => Some(format!("given up: its Ack answers {}", outcome.number)),
        Kind::Ack if outcome.sent.0 == 3 => Some(format!("given up: the last Ack, {after:?}")),
        Kind::Inv if accepted && after != State::Replay => {
            Some(format!("given up: a greater Inv, {after:?}"))
        }
        Kind::Val if accepted => Some(format!("given up: a Val, {after:?}")),
        _ => None,
    }
}
