//! Who does what next, over a radio that loses, repeats and holds back, with
//! views that reach each laptop when they will.

use std::collections::VecDeque;

use model::engine::{bit, has, Rule, Timestamp};
use model::packet::{COUNT_LIMIT, PACKET_LIMIT};
use model::rng::Rng;

use super::{Group, Member, Post, Run, What};
use crate::bytes::Bytes;
use crate::crossing::Fields;
use crate::single::{some_bytes, some_number, some_word, Event};

/// Posts under way are at most so many; older ones are lost.
const UNDER_WAY: usize = 60;

pub struct Schedule {
    /// The views that the warden issues, by epoch, and how many are out.
    views: Vec<(u32, u16)>,
    issued: usize,
    /// A view goes out about once in so many entries.
    pace: usize,
    /// Posts under way: the entry's id, and the place of one it is for.
    under_way: Vec<(usize, usize)>,
    /// The next entry's id.
    id: usize,
    /// The records that most entries are about.
    hot: Vec<usize>,
    /// The last entry of one that sent something.
    last: Option<usize>,
    /// Entries that were asked for: they come next.
    asked: VecDeque<(usize, What)>,
    /// Messages come in packets too, several at once.
    packets: bool,
}

impl Schedule {
    /// A group that has just started, with its schedule.
    pub fn start(rng: &mut Rng, records: usize) -> (Run, Schedule) {
        let size = [2, 3, 3, 4, 4, 5, 7][rng.below(7)];
        Schedule::start_of(rng, size, records)
    }

    /// The same with so many laptops, 2 to 16.
    pub fn start_of(rng: &mut Rng, size: usize, records: usize) -> (Run, Schedule) {
        // Half of the groups have each rule (02, Wish 6).
        let rule = Rule::ALL[rng.below(2)];
        let numbers = some_numbers(rng, size);
        let mut view = numbers.iter().fold(0, |set, &number| set | bit(number));
        if rng.chance(1, 10) {
            // A number that no laptop has may stand in the first view.
            view |= bit(rng.below(16) as u8);
        }
        let hot = 1 + rng.below(8);
        let hot = (0..hot).map(|_| [rng.below(records), 0, records - 1][rng.below(3)]);
        let hot: Vec<usize> = hot.collect();
        let schedule = Schedule {
            views: some_views(rng, view),
            issued: 1,
            pace: [30, 80, 200][rng.below(3)],
            under_way: Vec::new(),
            id: 0,
            hot,
            last: None,
            asked: VecDeque::new(),
            packets: false,
        };
        let run = Run {
            rule,
            numbers,
            view,
            records,
            entries: Vec::new(),
        };
        (run, schedule)
    }

    /// From now on some messages come several at once, in packets that are accepted
    /// once.
    pub fn in_packets(&mut self) {
        self.packets = true;
    }

    /// Asks for an entry. Gives its id.
    pub fn ask(&mut self, at: usize, what: What) -> usize {
        self.asked.push_back((at, what));
        self.id + self.asked.len() - 1
    }

    /// The next entry, and the place of the laptop that it comes to.
    pub fn next(&mut self, rng: &mut Rng, group: &Group) -> (usize, What) {
        self.take_up(group);
        let (at, what) = match self.asked.pop_front() {
            Some(asked) => asked,
            None => {
                if self.issued < self.views.len() && rng.chance(1, self.pace) {
                    self.issued += 1;
                }
                self.choose(rng, group)
            }
        };
        self.last = Some(self.id);
        self.id += 1;
        (at, what)
    }

    fn choose(&mut self, rng: &mut Rng, group: &Group) -> (usize, What) {
        let i = match rng.below(40) {
            0 => rng.below(group.records() + 2),
            1 => usize::MAX - rng.below(2),
            2..6 => rng.below(group.records()),
            _ => self.hot[rng.below(self.hot.len())],
        };
        let anyone = rng.below(group.members.len());
        let at = |rng: &mut Rng, state: u8| match rng.below(4) {
            0 => anyone,
            _ => some_member(rng, group, i, |record| record.state == state),
        };
        let (at, event) = match rng.below(110) {
            0..4 => (anyone, Event::Read),
            4..10 => {
                let value = some_value(rng);
                (anyone, Event::Write { value })
            }
            // 02, Wish 5.
            100..105 => (at(rng, 0), Event::Ask),
            105..110 => return self.commit(rng, group, (anyone, i)),
            10..18 => return self.replay(rng, group, (anyone, i)),
            18..24 => {
                let state = 3 + rng.below(2) as u8;
                let any = (at(rng, state), i);
                return self.validate(rng, group, any);
            }
            24..27 => match self.strike(rng, group) {
                Some((at, epoch, set)) => (at, Event::View { epoch, set }),
                None => (at(rng, 4), Event::Validate),
            },
            27..32 => (anyone, Event::Resend),
            32..36 => {
                let (epoch, set) = match rng.below(3) {
                    0 => self.views[rng.below(self.issued)],
                    _ => self.views[self.issued - 1],
                };
                (anyone, Event::View { epoch, set })
            }
            36 if rng.chance(1, 3) => match self.strike_winner(rng, group) {
                Some((at, epoch, set)) => (at, Event::View { epoch, set }),
                None => (at(rng, 2), Event::Replay),
            },
            _ => return self.delivery(rng, group, anyone),
        };
        (at, What::Own { i, event })
    }

    /// Mostly where the last writer is gone.
    fn replay(&self, rng: &mut Rng, group: &Group, any: (usize, usize)) -> (usize, What) {
        let mut fit = vec![any];
        for (at, member) in group.members.iter().enumerate() {
            let gone = |record: Fields| {
                matches!(record.state, 1 | 2) && !has(member.me.view, record.writer)
            };
            let hot = self.hot.iter();
            let hot = hot.filter(|&&i| member.memory.record(i).is_some_and(gone));
            fit.extend(hot.map(|&i| (at, i)));
        }
        let (at, i) = rng.pick(&fit).unwrap_or(any);
        let event = Event::Replay;
        (at, What::Own { i, event })
    }

    /// A commit by a laptop that has asked, mostly on the last stamp that it was
    /// handed out, which may be stale; else on an earlier one, one beside it, that of
    /// the record, or any.
    fn commit(&self, rng: &mut Rng, group: &Group, any: (usize, usize)) -> (usize, What) {
        let last = |at: usize, i: usize| {
            let opened = group.members[at].opened.get(i);
            opened.and_then(|opened| opened.stamps().next_back())
        };
        let (mut fresh, mut asked) = (Vec::new(), vec![any]);
        for (at, member) in group.members.iter().enumerate() {
            for &i in &self.hot {
                let held = member.memory.record(i).filter(|record| record.state == 0);
                let held = held.map(|record| Timestamp::new(record.version, record.tie));
                match last(at, i) {
                    Some(stamp) if held == Some(stamp) => fresh.push((at, i)),
                    Some(_) => asked.push((at, i)),
                    None => {}
                }
            }
        }
        let fit = if rng.chance(1, 2) { fresh } else { asked };
        let (at, i) = rng.pick(&fit).unwrap_or(any);
        let member = &group.members[at];
        let held = member.memory.record(i).map_or((0, 0), |r| r.stamp());
        let (version, tie) = last(at, i).map_or(held, |last| (last.version, last.tie));
        let opened = match rng.below(16) {
            0 => {
                let all = member.opened.get(i).map(|opened| opened.stamps());
                let all: Vec<Timestamp> = all.into_iter().flatten().collect();
                let one = rng.pick(&all);
                one.map_or(held, |one| (one.version, one.tie))
            }
            1 => (version, rng.below(16) as u8),
            2 => (version, 16 + rng.below(240) as u8),
            3 => (version.wrapping_add(1), tie),
            4 => (version.wrapping_sub(1), tie),
            5 => held,
            6 => (some_word(rng), some_number(rng)),
            _ => (version, tie),
        };
        let value = some_value(rng);
        let event = Event::Commit { opened, value };
        (at, What::Own { i, event })
    }

    /// Often where no acknowledgement is missing: the last missing laptop was
    /// struck off.
    fn validate(&self, rng: &mut Rng, group: &Group, any: (usize, usize)) -> (usize, What) {
        let mut fit = vec![any];
        for (at, member) in group.members.iter().enumerate() {
            let others = member.me.view & !bit(member.me.number);
            let all = |record: Fields| record.state >= 3 && others & !record.acks == 0;
            let hot = self.hot.iter();
            let hot = hot.filter(|&&i| member.memory.record(i).is_some_and(all));
            fit.extend(hot.map(|&i| (at, i)));
        }
        let (at, i) = rng.pick(&fit).unwrap_or(any);
        let event = Event::Validate;
        (at, What::Own { i, event })
    }

    /// A laptop that waits for none but those that an issued view lacks, with
    /// that view: the separate validation is then the only way on. Replays are
    /// rare, so for one the warden issues such a view in the place of those to
    /// come.
    fn strike(&mut self, rng: &mut Rng, group: &Group) -> Option<(usize, u32, u16)> {
        let (last, within) = self.views[self.issued - 1];
        let mut fit = Vec::new();
        let mut replays = Vec::new();
        for (at, member) in group.members.iter().enumerate() {
            let own = bit(member.me.number);
            let hot = self.hot.iter().filter_map(|&i| member.memory.record(i));
            for record in hot.filter(|record| record.state >= 3) {
                for &(epoch, set) in &self.views[..self.issued] {
                    let all = set & !own & !record.acks == 0;
                    if epoch > member.me.epoch && set & own != 0 && all {
                        fit.push((at, epoch, set));
                    }
                }
                let set = within & (own | record.acks);
                if record.state == 4 && set & own != 0 && set.count_ones() >= 2 {
                    replays.push((at, last.checked_add(1)?, set));
                }
            }
        }
        let Some(issued) = rng.pick(&replays) else {
            return rng.pick(&fit);
        };
        self.views.truncate(self.issued);
        self.views.push((issued.1, issued.2));
        self.issued += 1;
        Some(issued)
    }

    /// A laptop in invalid-write, with a view that lacks its last writer: a replay
    /// is then the only way on, and gives its own save up. If no such view is out,
    /// the warden issues one in the place of those to come.
    fn strike_winner(&mut self, rng: &mut Rng, group: &Group) -> Option<(usize, u32, u16)> {
        let (last, within) = self.views[self.issued - 1];
        let mut fit = Vec::new();
        let mut new = Vec::new();
        for (at, member) in group.members.iter().enumerate() {
            let own = bit(member.me.number);
            let hot = self.hot.iter().filter_map(|&i| member.memory.record(i));
            for record in hot.filter(|record| record.state == 2) {
                let strikes = |set: u16| set & own != 0 && !has(set, record.writer);
                let issued = self.views[..self.issued].iter();
                let issued = issued.filter(|v| v.0 > member.me.epoch && strikes(v.1));
                fit.extend(issued.map(|&(epoch, set)| (at, epoch, set)));
                let set = within & !bit(record.writer);
                if strikes(set) && set.count_ones() >= 2 {
                    new.push((at, last.checked_add(1)?, set));
                }
            }
        }
        let issued = rng.pick(&fit).or_else(|| rng.pick(&new))?;
        if issued.1 > last {
            self.views.truncate(self.issued);
            self.views.push((issued.1, issued.2));
            self.issued += 1;
        }
        Some(issued)
    }

    /// The radio takes up what the last entry sent.
    fn take_up(&mut self, group: &Group) {
        let Some(id) = self.last.take() else {
            return;
        };
        let Some(post) = group.posts.get(&id) else {
            return;
        };
        for (at, member) in group.members.iter().enumerate() {
            if has(post.to, member.me.number) {
                self.under_way.push((id, at));
            }
        }
        let lost = self.under_way.len().saturating_sub(UNDER_WAY);
        self.under_way.drain(..lost);
    }

    /// Mostly a message under way, often a young one; now and then any message
    /// to anyone. Some are lost, some come again.
    fn delivery(&mut self, rng: &mut Rng, group: &Group, anyone: usize) -> (usize, What) {
        let count = self.under_way.len();
        if count == 0 || rng.chance(1, 12) {
            let of = match rng.below(3) {
                0 => rng.below(self.id + 1),
                _ => self.id.saturating_sub(rng.below(100)),
            };
            let before = group.posts.range(..=of).next_back();
            let of = before.map_or(of, |(&id, _)| id);
            return (anyone, What::Deliver { of });
        }
        let young = if rng.chance(2, 3) {
            count.min(6)
        } else {
            count
        };
        let chosen = count - 1 - rng.below(young);
        let (of, at) = self.under_way[chosen];
        if self.packets && rng.chance(1, 4) {
            return self.packet(rng, group, at);
        }
        if self.packets && rng.chance(1, 40) {
            let accepted = rng.chance(1, 2);
            return (at, What::OtherRule { of, accepted });
        }
        if rng.chance(9, 10) {
            self.under_way.remove(chosen);
        }
        if rng.chance(1, 30) {
            // Lost.
            self.under_way.pop();
        }
        (at, What::Deliver { of })
    }

    /// What is under way to this laptop, as far as it goes into a packet, and now and
    /// then what was sent to it lately, once more. Each message is an entry, and they
    /// come one after another.
    fn packet(&mut self, rng: &mut Rng, group: &Group, at: usize) -> (usize, What) {
        let number = group.members[at].me.number;
        let again = match rng.below(3) {
            0 => self.id.saturating_sub(30)..self.id,
            _ => 0..0,
        };
        let again = group.posts.range(again);
        let again = again.filter(|(_, post)| has(post.to, number));
        let under_way = self.under_way.iter().filter(|&&(_, to)| to == at);
        let ids = under_way.map(|&(id, _)| id).chain(again.map(|(&id, _)| id));

        let mut of: Vec<usize> = Vec::new();
        let mut room = PACKET_LIMIT - 4;
        for id in ids {
            let size = group.posts.get(&id).map_or(0, Post::size);
            if size <= room && of.len() < COUNT_LIMIT {
                room -= size;
                of.push(id);
            }
        }
        self.under_way
            .retain(|(id, to)| *to != at || !of.contains(id) || rng.chance(1, 10));
        for k in 1..of.len() {
            self.ask(at, What::Packet { of: of.clone(), k });
        }
        (at, What::Packet { of, k: 0 })
    }
}

/// A text to save, now and then one that is too long.
fn some_value(rng: &mut Rng) -> Bytes {
    let len = [4, 8, 192, 193, rng.below(193)][rng.below(5)];
    some_bytes(rng, len)
}

/// Different laptop numbers, in any order.
fn some_numbers(rng: &mut Rng, size: usize) -> Vec<u8> {
    let mut numbers: Vec<u8> = Vec::new();
    while numbers.len() < size {
        let number = rng.below(16) as u8;
        if !numbers.contains(&number) {
            numbers.push(number);
        }
    }
    numbers
}

/// One view per epoch number, each within all lower-numbered ones. The first is
/// that of the start.
fn some_views(rng: &mut Rng, first: u16) -> Vec<(u32, u16)> {
    let mut views = vec![(0, first)];
    let (mut epoch, mut view) = (0, first);
    for _ in 0..1 + rng.below(6) {
        epoch += 1 + rng.below(2) as u32;
        // A view of one laptop alone is refused.
        if rng.chance(2, 3) && (view.count_ones() > 2 || rng.chance(1, 8)) {
            let numbers: Vec<u8> = (0..16).filter(|&number| has(view, number)).collect();
            view &= !rng.pick(&numbers).map_or(0, bit);
        }
        views.push((epoch, view));
    }
    if rng.chance(1, 20) {
        views.push((u32::MAX, view));
    }
    views
}

/// Mostly one of the members whose record is so, else any.
fn some_member(rng: &mut Rng, group: &Group, i: usize, wanted: impl Fn(Fields) -> bool) -> usize {
    let fits = |member: &Member| member.memory.record(i).is_some_and(&wanted);
    let members = group.members.iter().enumerate();
    let fit: Vec<usize> = members.filter(|(_, m)| fits(m)).map(|(at, _)| at).collect();
    rng.pick(&fit)
        .unwrap_or_else(|| rng.below(group.members.len()))
}
