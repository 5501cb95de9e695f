//! A random schedule of a small group: who does what next, over a radio that
//! loses, repeats and holds back, with views that reach each member when they
//! will.

use model::engine::{bit, has, Rule, State, Timestamp};
use model::rng::Rng;

use crate::group::{Event, Group};
use crate::support::{set, winner, Member};

pub struct Schedule {
    /// The views that the warden issues, by epoch.
    views: Vec<(u32, u16)>,
    /// Posts on their way, each with the place of one member it is for.
    under_way: Vec<(usize, usize)>,
    /// How many of the group's posts the radio has taken up.
    taken: usize,
    /// The place of a member that does no more.
    dead: Option<usize>,
    /// Saves to begin with, the last first, and how many deliveries alone come
    /// after them.
    opening: Vec<(usize, Event)>,
    deliveries: usize,
}

impl Schedule {
    /// A group with this rule of ties that has just started, and its schedule. With
    /// `together`, most
    /// members begin by saving the same record, some messages arrive, and the
    /// one that wins a tie dies and is struck off first (02, Wish 2). Some of
    /// these saves are commits on the one stamp that all were handed out (Wish 5).
    pub fn start(rng: &mut Rng, rule: Rule, together: bool) -> (Group, Schedule) {
        let numbers = some_numbers(rng);
        let mut first = set(&numbers);
        if rng.chance(1, 10) {
            // A number that no replica has may stand in the first view.
            first |= bit(rng.below(16) as u8);
        }
        let wins = winner(rule, &numbers);
        let dead = numbers
            .iter()
            .position(|&number| together && number == wins);
        let mut schedule = Schedule {
            views: some_views(rng, first, dead.map(|at| numbers[at])),
            under_way: Vec::new(),
            taken: 0,
            dead,
            opening: Vec::new(),
            deliveries: 0,
        };
        if together {
            let asked = rng.chance(1, 2);
            let opened = Timestamp::new(0, first.trailing_zeros() as u8);
            for at in 0..numbers.len() {
                let value = some_value(rng);
                if rng.chance(4, 5) {
                    let save = if asked && rng.chance(4, 5) {
                        Event::Commit {
                            record: 0,
                            opened,
                            value,
                        }
                    } else {
                        Event::Write { record: 0, value }
                    };
                    schedule.opening.push((at, save));
                }
            }
            if asked {
                let asks = (0..numbers.len()).map(|at| (at, Event::Ask { record: 0 }));
                schedule.opening.extend(asks);
            }
            schedule.deliveries = rng.below(13);
        }
        let records = if rng.chance(1, 8) { 2 } else { 1 };
        (Group::start(rule, &numbers, first, records), schedule)
    }

    /// The next event, and the place of the member that it comes to. One that
    /// is going to be struck off may die after a write; the view without it
    /// then spreads in the place of its own events.
    pub fn next(&mut self, rng: &mut Rng, group: &Group) -> (usize, Event) {
        self.take_up(group);
        if let Some(save) = self.opening.pop() {
            return save;
        }
        if self.deliveries > 0 && !group.posts.is_empty() {
            self.deliveries -= 1;
            return self.delivery(rng, group);
        }
        let (at, event) = self.choose(rng, group);
        let number = group.members[at].replica.number;
        let mut views = self.views.iter();
        let without = views.find(|(_, view)| !has(*view, number));
        match (self.dead, without) {
            (Some(dead), Some(&(epoch, view))) if dead == at => {
                let other = (at + 1 + rng.below(group.members.len() - 1)) % group.members.len();
                (other, Event::View { epoch, view })
            }
            (None, Some(_)) if saves(&event) && rng.chance(1, 3) => {
                self.dead = Some(at);
                (at, event)
            }
            _ => (at, event),
        }
    }

    fn choose(&mut self, rng: &mut Rng, group: &Group) -> (usize, Event) {
        let record = rng.below(group.members[0].table.len());
        let anyone = rng.below(group.members.len());
        // Deliveries come from 44 on, once there are messages.
        let kinds = if group.posts.is_empty() { 44 } else { 112 };
        match rng.below(kinds) {
            0..2 => {
                // Sometimes a stray record.
                let record = record + rng.below(2);
                (anyone, Event::Read { record })
            }
            2..6 => {
                let value = some_value(rng);
                // Often by one that is going to be struck off.
                let last_view = self.views[self.views.len() - 1].1;
                let at = some_member(rng, group, |m| !has(last_view, m.replica.number));
                let at = if rng.chance(2, 3) { at } else { anyone };
                (at, Event::Write { record, value })
            }
            6..12 => {
                let at = some_member(rng, group, |m| {
                    let held = m.table[record];
                    let invalid = matches!(held.state, State::Invalid | State::InvalidWrite);
                    invalid && !has(m.replica.view, held.last_writer)
                });
                (at, Event::Replay { record })
            }
            12..20 => (self.waiting(rng, group, record), Event::Validate { record }),
            20..26 => match self.strike(rng, group, record) {
                Some((at, epoch, view)) => (at, Event::View { epoch, view }),
                None => (self.waiting(rng, group, record), Event::Validate { record }),
            },
            26..30 => (anyone, Event::Resend { record }),
            30..34 => {
                // Mostly the last view that anybody holds, so that it spreads.
                let last = group.members.iter().map(|m| m.replica.epoch).max();
                let mut chosen = self.views.iter().filter(|v| Some(v.0) == last);
                let (epoch, view) = match chosen.next() {
                    Some(&issued) if rng.chance(6, 7) => issued,
                    _ => self.views[rng.below(self.views.len())],
                };
                (anyone, Event::View { epoch, view })
            }
            34..39 => {
                let at = some_member(rng, group, |m| m.table[record].state == State::Valid);
                // Sometimes a stray record.
                let record = record + usize::from(rng.chance(1, 8));
                (at, Event::Ask { record })
            }
            39..44 => some_commit(rng, group, record),
            _ => self.delivery(rng, group),
        }
    }

    /// Mostly a member that waits for acknowledgements.
    fn waiting(&self, rng: &mut Rng, group: &Group, record: usize) -> usize {
        some_member(rng, group, |m| {
            matches!(m.table[record].state, State::Write | State::Replay)
        })
    }

    /// A member that waits for none but those that an issued view lacks, with
    /// that view: the separate validation is then the only way on.
    fn strike(&self, rng: &mut Rng, group: &Group, record: usize) -> Option<(usize, u32, u16)> {
        let mut fit = Vec::new();
        for (at, member) in group.members.iter().enumerate() {
            let held = member.table[record];
            let own = bit(member.replica.number);
            let missing = |view: u16| view & !own & !held.acks != 0;
            if !matches!(held.state, State::Write | State::Replay) {
                continue;
            }
            for &(epoch, view) in &self.views {
                if epoch > member.replica.epoch && view & own != 0 && !missing(view) {
                    fit.push((at, epoch, view));
                }
            }
        }
        rng.pick(&fit)
    }

    /// The radio takes up what has left since.
    fn take_up(&mut self, group: &Group) {
        for post in self.taken..group.posts.len() {
            let to = group.posts[post].to;
            let members = group.members.iter().enumerate();
            let meant = members.filter(|(_, member)| has(to, member.replica.number));
            self.under_way.extend(meant.map(|(at, _)| (post, at)));
        }
        self.taken = group.posts.len();
    }

    /// Mostly a message under way, often a young one; now and then any message
    /// to anyone. Some are lost, some come again.
    fn delivery(&mut self, rng: &mut Rng, group: &Group) -> (usize, Event) {
        if rng.chance(1, 10) {
            let last = self.under_way.len().saturating_sub(1);
            self.under_way.truncate(last);
        }
        let count = self.under_way.len();
        if count == 0 || rng.chance(1, 8) {
            let post = rng.below(group.posts.len());
            return (rng.below(group.members.len()), Event::Deliver { post });
        }
        let young = if rng.chance(1, 2) {
            count.min(4)
        } else {
            count
        };
        let chosen = count - 1 - rng.below(young);
        let (post, at) = self.under_way[chosen];
        if rng.chance(7, 8) {
            self.under_way.remove(chosen);
        }
        (at, Event::Deliver { post })
    }
}

/// Distinct replica numbers, in any order.
fn some_numbers(rng: &mut Rng) -> Vec<u8> {
    let size = [2, 3, 3, 4, 4][rng.below(5)];
    let mut numbers: Vec<u8> = Vec::new();
    while numbers.len() < size {
        let number = rng.below(16) as u8;
        if !numbers.contains(&number) {
            numbers.push(number);
        }
    }
    numbers
}

/// One view per epoch number, each within all lower-numbered ones. The first is
/// that of the start. Whoever is to go first is struck off before any other.
fn some_views(rng: &mut Rng, first: u16, mut to_go: Option<u8>) -> Vec<(u32, u16)> {
    let mut issued = vec![(0, first)];
    let (mut epoch, mut view) = (0, first);
    for _ in 0..=rng.below(3) {
        epoch += 1 + rng.below(2) as u32;
        for _ in 0..[0, 1, 1, 1, 1, 2][rng.below(6)] {
            let there: Vec<u8> = (0..16).filter(|&number| has(view, number)).collect();
            let struck = to_go.take().or_else(|| rng.pick(&there));
            view &= !struck.map_or(0, bit);
        }
        issued.push((epoch, view));
    }
    if rng.chance(1, 20) {
        issued.push((u32::MAX, view));
    }
    issued
}

/// Mostly one of the members for which this holds, else any.
fn some_member(rng: &mut Rng, group: &Group, wanted: impl Fn(&Member) -> bool) -> usize {
    let count = group.members.len();
    let places = 0..count;
    let fit: Vec<usize> = places.filter(|&at| wanted(&group.members[at])).collect();
    match rng.pick(&fit) {
        Some(at) if rng.chance(7, 8) => at,
        _ => rng.below(count),
    }
}

/// A save of this member's own.
fn saves(event: &Event) -> bool {
    matches!(event, Event::Write { .. } | Event::Commit { .. })
}

/// A commit by one that has asked, mostly on the last stamp that it was given;
/// else on an earlier one, on one beside it, or on one made up.
fn some_commit(rng: &mut Rng, group: &Group, record: usize) -> (usize, Event) {
    let stamps = |at: usize| group.opened[at][record].stamps();
    let asked = (0..group.members.len()).filter(|&at| stamps(at).next().is_some());
    let asked: Vec<usize> = asked.collect();
    let at = rng.pick(&asked).unwrap_or(rng.below(group.members.len()));
    let held = group.members[at].table[record].timestamp;
    let last = stamps(at).next_back().unwrap_or(held);
    let opened = match rng.below(10) {
        0 => {
            let all: Vec<Timestamp> = stamps(at).collect();
            rng.pick(&all).unwrap_or(held)
        }
        1 => Timestamp::new(last.version, rng.below(18) as u8),
        2 => Timestamp::new(last.version.wrapping_sub(1 + rng.below(2) as u32), last.tie),
        // That of a record which may be under way.
        3 => held,
        _ => last,
    };
    let value = some_value(rng);
    let commit = Event::Commit {
        record,
        opened,
        value,
    };
    (at, commit)
}

/// A text of its own, so that two writes are told apart. Sometimes too long.
fn some_value(rng: &mut Rng) -> Vec<u8> {
    let len = [4, 8, 16, 192, rng.below(194)][rng.below(5)];
    let mut value = vec![0; len];
    rng.fill(&mut value);
    value
}
