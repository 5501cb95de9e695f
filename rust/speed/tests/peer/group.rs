//! Groups from their fresh start: every event in the states that events lead to,
//! messages by themselves, out of packets, and several in one pass, by both sides
//! side by side.

use std::collections::BTreeMap;

use cetskobi::sys::{Answer, Arrival, Message, Replica, Settings as GroupSettings};
use compare::bytes::Bytes;
use compare::crossing::{other_rule, rule_of, settings_of, Fields};
use compare::memory::Memory;
use compare::settings::Settings;
use compare::single::{by_engine, last_ack, some_bytes, tie, Case, Event, Kind, Outcome};
use model::engine::Rule;
use model::rng::Rng;
use speed::{engine, peer};

use crate::events::by_peer;
use crate::often;

const RUNS: usize = 1000;
const STEPS: usize = 1000;
const RECORDS: usize = 2;

/// What came about in all groups.
#[derive(Default)]
struct Tally {
    /// How often each kind of event gave each answer.
    answers: BTreeMap<Kind, [u64; 28]>,
    /// The last ACKs, as `last_ack` has them: at invalid-write, write and replay.
    last: [u64; 3],
    /// Replays at invalid and at invalid-write: accepted, and refused by question 16.
    replays: [[u64; 2]; 2],
    /// Messages that came with others in one pass.
    passed: u64,
    /// By the rule of ties (02, Wish 6): starts, accepted views, ties that were not
    /// taken and that were, and packets of the other rule.
    rules: [Ruled; 2],
}

#[derive(Clone, Copy, Debug, Default)]
struct Ruled {
    starts: u64,
    views: u64,
    ties: [u64; 2],
    others: u64,
}

/// A replica with the memory of both sides.
struct Member {
    me: Replica,
    engine: Memory,
    peer: Memory,
    /// By record: what the last accepted ask handed out.
    opened: [Option<(u32, u8)>; RECORDS],
}

/// A message that left, about record `i`, with its bytes.
#[derive(Clone)]
struct Post {
    message: Message,
    i: usize,
    body: Vec<u8>,
}

impl Post {
    /// Its words in a packet.
    fn entry(&self) -> [u32; 7] {
        let message = &self.message;
        [
            message.kind.into(),
            message.sender.into(),
            message.epoch,
            self.i as u32,
            message.version,
            message.tie.into(),
            self.body.len() as u32,
        ]
    }

    /// Its delivery to this replica.
    fn delivery(&self, me: Replica) -> Case {
        let (message, value) = (self.message, Bytes(self.body.clone()));
        Case::on(me, self.i, Event::Deliver { message, value })
    }
}

/// The packet of these in a group with these settings, alike by both sides.
fn packed(settings: GroupSettings, posts: &[Post]) -> Vec<u8> {
    let entries: Vec<[u32; 7]> = posts.iter().map(Post::entry).collect();
    let bodies: Vec<&[u8]> = posts.iter().map(|post| &post.body[..]).collect();
    let (entries, bodies) = (entries.as_flattened(), bodies.concat());
    let (mut x, mut y) = ([0; 1400], [0; 1400]);
    let written = engine::pack(settings, entries, &bodies, &mut x);
    assert_eq!(written, peer::pack(settings, entries, &bodies, &mut y));
    assert_eq!((written.number, x), (0, y));
    x[..written.len].to_vec()
}

/// A text to save, now and then one that is too long.
fn some_value(rng: &mut Rng) -> Bytes {
    let len = [0, 1, 192, 193, rng.below(193)][rng.below(5)];
    some_bytes(rng, len)
}

struct Group {
    /// Of all its members.
    settings: GroupSettings,
    members: Vec<Member>,
    posts: Vec<Post>,
    /// The views, by epoch.
    views: Vec<u16>,
    tally: Tally,
}

impl Group {
    /// Half of the groups have each rule.
    fn start(rng: &mut Rng, tally: Tally) -> Group {
        let settings = settings_of(Rule::ALL[rng.below(2)]);
        let mut numbers: Vec<u8> = (0..16).collect();
        while numbers.len() > 2 + rng.below(3) {
            numbers.remove(rng.below(numbers.len()));
        }
        let view = numbers.iter().map(|n| 1 << n).sum();
        let mut group = Group {
            settings,
            members: vec![],
            posts: vec![],
            views: vec![view],
            tally,
        };
        for (at, &number) in numbers.iter().enumerate() {
            let (mut table, mut store) = ([0; 16 * RECORDS], [0; 192 * RECORDS]);
            rng.fill(&mut table);
            rng.fill(&mut store);
            let mut memory = Memory::default();
            memory.lay(&table, &store);
            let (engine, peer) = (memory.clone(), memory);
            // The start names the view and the settings, and gives epoch 0.
            let me = Replica {
                number,
                settings,
                view,
                epoch: 0,
            };
            let opened = [None; RECORDS];
            group.members.push(Member {
                me,
                engine,
                peer,
                opened,
            });
            assert_eq!(group.play(at, 0, Event::Start), 0);
        }
        group
    }

    /// One entry of a run.
    fn step(&mut self, rng: &mut Rng) {
        let at = rng.below(self.members.len());
        let i = match rng.below(100) {
            0 => RECORDS,
            _ => rng.below(RECORDS),
        };
        let event = match rng.below(68) {
            0 => return self.strike(rng),
            1..4 => {
                let epoch = rng.below(self.views.len());
                // Now and then a wrong one.
                let wrong = u16::from(rng.chance(1, 10)) << rng.below(16);
                Event::View {
                    epoch: epoch as u32,
                    set: self.views[epoch] ^ wrong,
                }
            }
            4..8 => {
                let value = some_value(rng);
                Event::Write { value }
            }
            8..12 => Event::Read,
            12..18 => Event::Validate,
            18..22 => Event::Replay,
            22..26 => Event::Resend,
            // 02, Wish 5.
            60..64 => Event::Ask,
            64..68 => {
                let opened = self.some_opened(rng, at, i);
                let value = some_value(rng);
                Event::Commit { opened, value }
            }
            _ => return self.deliver(rng, at),
        };
        self.play(at, i, event);
    }

    /// Mostly what this member was handed out, which may be stale; else the record's
    /// timestamp, or one beside it.
    fn some_opened(&self, rng: &mut Rng, at: usize, i: usize) -> (u32, u8) {
        let member = &self.members[at];
        let held = member.engine.record(i).map_or((0, 0), |r| r.stamp());
        let opened = member.opened.get(i).copied().flatten().unwrap_or(held);
        match rng.below(8) {
            0 => held,
            1 => (opened.0, rng.below(16) as u8),
            2 => (opened.0.wrapping_sub(1), opened.1),
            3 => (held.0, held.1 | 16),
            _ => opened,
        }
    }

    /// A further view, within the last, of at least two. The member that is
    /// struck off is told later, or never.
    fn strike(&mut self, rng: &mut Rng) {
        let last = *self.views.last().expect("the first view");
        let member = &self.members[rng.below(self.members.len())];
        let next = last & !(1 << member.me.number);
        if next.count_ones() >= 2 {
            self.views.push(next);
        }
    }

    /// A message, mostly a late one, comes to a member: by itself, out of a packet, or
    /// with others in one pass.
    fn deliver(&mut self, rng: &mut Rng, at: usize) {
        let Some(post) = self.some_post(rng) else {
            return;
        };
        let one = std::slice::from_ref(&post);
        match rng.below(9) {
            0..4 => {
                let Case { i, event, .. } = post.delivery(self.members[at].me);
                self.play(at, i, event);
            }
            4..7 => {
                let packet = packed(self.settings, one);
                self.both(at, &post, |me, memory, by_engine| {
                    let (table, store) = memory.lend();
                    let deliver = [peer::deliver_packet, engine::deliver_packet];
                    deliver[usize::from(by_engine)](me, table, store, &packet, 0)
                });
            }
            7 => self.stray(at, one),
            _ => {
                let mut posts = vec![post];
                for _ in 0..rng.below(6) {
                    posts.extend(self.some_post(rng));
                }
                self.pass(at, &posts);
            }
        }
    }

    /// A packet of a group with the other rule: refused by 27, and nothing moves.
    fn stray(&mut self, at: usize, posts: &[Post]) {
        let rule = rule_of(self.settings);
        let packet = packed(settings_of(other_rule(rule)), posts);
        let Member {
            me, engine, peer, ..
        } = &mut self.members[at];
        let before = engine.clone();
        let (table, store) = engine.lend();
        let a = engine::deliver_packet(*me, table, store, &packet, 0);
        let all = engine::accept(me.settings, &packet);
        let b = engine::deliver_accepted(*me, table, store, &packet, all, 0);
        assert_eq!(all, peer::accept(me.settings, &packet));
        let (table, store) = peer.lend();
        let c = peer::deliver_packet(*me, table, store, &packet, 0);
        let d = peer::deliver_accepted(*me, table, store, &packet, all, 0);
        assert_eq!((all.number, all.count, a.number), (27, 0, 27));
        assert_eq!((a, a, b), (c, b.answer, d));
        assert_eq!((&*engine, &*peer), (&before, &before));
        self.tally.rules[rule as usize].others += 1;
    }

    fn some_post(&self, rng: &mut Rng) -> Option<Post> {
        let few = self.posts.len().min([10, 10, 10, 1000][rng.below(4)]);
        let k = self.posts.len().checked_sub(1 + rng.below(few))?;
        Some(self.posts[k].clone())
    }

    /// A packet of these is accepted once, and each of its messages delivered.
    fn pass(&mut self, at: usize, posts: &[Post]) {
        let settings = self.members[at].me.settings;
        let packet = packed(settings, posts);
        let all = engine::accept(settings, &packet);
        assert_eq!(all, peer::accept(settings, &packet));
        assert_eq!((all.number, usize::from(all.count)), (0, posts.len()));
        for (k, post) in posts.iter().enumerate() {
            self.both(at, post, |me, memory, by_engine| {
                let (table, store) = memory.lend();
                let deliver = [peer::deliver_accepted, engine::deliver_accepted];
                let deliver = deliver[usize::from(by_engine)];
                let arrival = deliver(me, table, store, &packet, all, k);
                let Arrival {
                    answer,
                    epoch,
                    sender,
                    index,
                } = arrival;
                let m = post.message;
                assert_eq!((epoch, sender, index), (m.epoch, m.sender, post.i));
                answer
            });
            self.tally.passed += 1;
        }
    }

    /// The delivery of this post by both sides, each on its memory.
    fn both(
        &mut self,
        at: usize,
        post: &Post,
        deliver: impl Fn(Replica, &mut Memory, bool) -> Answer,
    ) {
        let member = &mut self.members[at];
        let me = member.me;
        let before = member.engine.record(post.i);
        let a = Outcome::of(me, deliver(me, &mut member.engine, true));
        let b = Outcome::of(me, deliver(me, &mut member.peer, false));
        self.same(at, &post.delivery(me), before, &a, &b);
    }

    /// An event by both sides: its number.
    fn play(&mut self, at: usize, i: usize, event: Event) -> u8 {
        let member = &mut self.members[at];
        let case = Case::on(member.me, i, event);
        let before = member.engine.record(i);
        let a = by_engine(&case, &mut member.engine);
        let b = by_peer(&case, &mut member.peer);
        self.same(at, &case, before, &a, &b);
        a.number
    }

    /// Both sides did the same. What left joins the posts.
    fn same(&mut self, at: usize, case: &Case, before: Option<Fields>, a: &Outcome, b: &Outcome) {
        assert_eq!(a, b, "engine, peer: {:?} of {:?}", case.event, case.me);
        let member = &mut self.members[at];
        let difference = member.engine.difference(&member.peer);
        assert_eq!(difference, None, "{:?} of {:?}", case.event, case.me);
        // Every member keeps the settings of the group.
        assert_eq!(a.me.settings, self.settings, "{:?}", case.event);
        let tally = &mut self.tally;
        let counts = tally.answers.entry(case.kind()).or_default();
        counts[usize::from(a.number)] += 1;
        if let (Kind::Ack, Event::Deliver { message, .. }) = (case.kind(), &case.event) {
            let last = before.and_then(|before| last_ack(case.me, &before, message.sender, a));
            last.into_iter().for_each(|state| tally.last[state] += 1);
        }
        let ruled = &mut tally.rules[rule_of(self.settings) as usize];
        ruled.starts += u64::from(case.kind() == Kind::Start);
        ruled.views += u64::from(case.kind() == Kind::View && a.number == 0);
        if let (Kind::Inv, Event::Deliver { message, .. }) = (case.kind(), &case.event) {
            let stamp = (message.version, message.tie);
            let tied = before.and_then(|before| tie(case.me, &before, stamp, a));
            tied.into_iter()
                .for_each(|taken| ruled.ties[usize::from(taken)] += 1);
        }
        let state = before.map(|before| before.state);
        if let (Event::Replay, Some(state @ (1 | 2))) = (&case.event, state) {
            let replays = &mut tally.replays[usize::from(state) - 1];
            match a.number {
                0 => replays[0] += 1,
                16 => replays[1] += 1,
                _ => {}
            }
        }
        member.me = a.me;
        if (&case.event, a.number) == (&Event::Ask, 0) {
            member.opened[case.i] = Some(a.opened);
        }
        let (kind, tie, version) = a.sent;
        if kind == 0 {
            return;
        }
        let left = Answer {
            number: 0,
            kind,
            tie,
            version,
        };
        let (me, i) = (member.me, case.i);
        let (table, store) = (member.engine.table(), member.engine.store());
        let len = engine::body(table, store, i, left);
        assert_eq!(len, peer::body(table, store, i, left), "of {left:?}");
        let body = store[192 * i..][..len].to_vec();
        let message = Message {
            kind,
            sender: me.number,
            tie,
            epoch: me.epoch,
            version,
        };
        self.posts.push(Post { message, i, body });
    }
}

#[test]
fn random_groups() {
    let settings = Settings::from_env();
    // Shown if it fails.
    println!("{settings}");
    let mut rng = settings.rng("group of peers");
    let mut tally = Tally::default();
    for _ in 0..RUNS * settings.times {
        let mut group = Group::start(&mut rng, tally);
        for _ in 0..STEPS {
            group.step(&mut rng);
        }
        tally = group.tally;
    }
    let Tally {
        answers: tally,
        last,
        replays,
        passed,
        rules,
    } = tally;
    println!("{passed} messages in one pass");
    assert!(passed >= 100_000);
    let reached: [(Kind, &[usize]); 12] = [
        (Kind::Start, &[0]),
        (Kind::View, &[0, 3, 18, 19]),
        (Kind::Read, &[0, 3, 4, 6]),
        (Kind::Write, &[0, 3, 4, 7, 8]),
        (Kind::Ask, &[0, 3, 4, 6]),
        (Kind::Commit, &[0, 3, 4, 8, 26]),
        (Kind::Replay, &[0, 3, 4, 16]),
        (Kind::Validate, &[0, 3, 4, 15]),
        (Kind::Resend, &[0, 3, 4, 17]),
        (Kind::Inv, &[0, 3, 10, 11]),
        (Kind::Ack, &[0, 3, 10, 11, 13]),
        (Kind::Val, &[0, 3, 10, 11, 14]),
    ];
    for (kind, answers) in reached {
        often(&format!("{kind:?}"), &tally[&kind], answers, 20);
    }
    println!("the last ACK at X, W, R: {last:?}");
    assert!(last.iter().all(|&times| times >= 20));
    println!("replays at I, X, accepted and refused by 16: {replays:?}");
    // 162 and 4,524, 401 and 6,998 were counted.
    for ([accepted, refused], floor) in replays.into_iter().zip([[100, 3000], [200, 4000]]) {
        assert!(accepted >= floor[0] && refused >= floor[1], "{replays:?}");
    }
    // 02, Wish 6: 3,003 and 1,516 ties were counted under the old rule, 3,395 and 1,708
    // under the new.
    println!("under each rule: {rules:?}");
    for ruled in rules {
        assert!(ruled.starts >= 1000 && ruled.views >= 1500);
        assert!(ruled.ties[0] >= 1500 && ruled.ties[1] >= 800);
        assert!(ruled.others >= 15_000);
    }
}
