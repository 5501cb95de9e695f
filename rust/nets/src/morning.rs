//! One morning, tick by tick.

use std::collections::BTreeMap;

use cetskobi::{Laptop, Members, Refusal};

use crate::air::Air;
use crate::chain::{self, Told};
use crate::failure::{Cause, Failure};
use crate::group::Group;
use crate::hut::{Done, Hut, WAIT_VAL};
use crate::layout::grouped;
use crate::link::Link;
use crate::neighbours::Neighbours;
use crate::plan::Plan;
use crate::report::Report;
use crate::ringer::Ringers;
use crate::settings::{Part, Settings};
use crate::settled::{self, Settled};
use crate::unsettled::{self, Unsettled};
use crate::Tick;

/// So many calms after the link has healed, the last view is in and the last
/// bird is saved, nothing may change any more.
const CALMS: Tick = 10;

/// Plays one morning; `progress` is told each tick.
///
/// # Errors
///
/// The first check that failed.
///
/// # Panics
///
/// If no group has these settings: see [`Settings::check`].
pub fn run(settings: &Settings, mut progress: impl FnMut(u32)) -> Result<Report, Box<Failure>> {
    let mut morning = Morning::new(settings);
    loop {
        progress(morning.group.now);
        let done = morning.step().and_then(|()| morning.look());
        match done.and_then(|()| morning.end()) {
            Ok(None) => morning.group.now += 1,
            Ok(Some(end)) => return Ok(morning.report(end)),
            Err(cause) => return Err(Box::new(morning.failure(cause))),
        }
    }
}

/// What is left in the end.
#[derive(Clone, Copy, Debug, PartialEq, Eq)]
struct End {
    settled: Settled,
    told: Told,
}

/// Packets of the group's own laptops that were refused as a whole: by the sender and
/// the number of the question how many, and at which laptops.
#[derive(Clone, Debug, Default, PartialEq, Eq)]
struct Packets(BTreeMap<(u8, u8), (u64, Members)>);

impl Packets {
    fn refused(&mut self, from: u8, to: u8, refusal: Refusal) {
        let (count, at) = self.0.entry((from, refusal.number())).or_default();
        *count += 1;
        *at = at.into_iter().chain([to]).collect();
    }

    /// As lines.
    fn told(&self) -> Vec<String> {
        let line = |((from, number), (count, at)): (&(u8, u8), &(u64, Members))| {
            let count = grouped(*count);
            format!("laptop {from}: {count} refused by {number}, at {at}")
        };
        self.0.iter().map(line).collect()
    }
}

struct Morning {
    settings: Settings,
    plan: Plan,
    group: Group,
    huts: Vec<Hut>,
    link: Link,
    air: Air,
    neighbours: Neighbours,
    ringers: Ringers,
    refused: Packets,
    /// Copies that reached a dead laptop.
    to_the_dead: u64,
    /// What was open when all had heard of the last view.
    unsettled: Option<Unsettled>,
}

impl Morning {
    fn new(settings: &Settings) -> Morning {
        let plan = Plan::new(settings);
        let hut = |n| Hut::new(n, settings.spoken_at(n), settings.fault);
        Morning {
            settings: settings.clone(),
            group: Group::start(settings).expect("settings that were checked start a group"),
            huts: (0..settings.laptops).map(hut).collect(),
            link: Link::new(settings),
            air: Air::new(settings.laptops, settings.ticks),
            neighbours: Neighbours::start(settings).expect("a group of the same size"),
            refused: Packets::default(),
            ringers: Ringers::new(&plan.birds, settings.rng(Part::Texts)),
            plan,
            to_the_dead: 0,
            unsettled: None,
        }
    }

    /// All events of one tick.
    fn step(&mut self) -> Done {
        // Who sleeps or wakes; then who is told that it is struck off.
        self.serve();
        self.views()?;
        self.serve();
        self.arrivals()?;
        self.other_station()?;
        self.ringers()?;
        if self.group.now == self.settings.ticks {
            self.link.heal();
        }
        for n in self.plan.awake(self.group.now) {
            self.huts[usize::from(n)].tick(&mut self.group)?;
        }
        self.send();
        Ok(())
    }

    /// Views that reach a laptop now.
    fn views(&mut self) -> Done {
        let now = self.group.now;
        let awake = self.plan.awake(now);
        let issues = self.plan.issues.iter();
        for issue in issues.filter(|i| i.tick == now && awake.contains(i.laptop)) {
            let hut = &mut self.huts[usize::from(issue.laptop)];
            hut.view_came(&mut self.group, issue.epoch, issue.view)?;
            self.neighbours
                .view_came(issue.laptop, issue.epoch, issue.view);
        }
        Ok(())
    }

    fn arrivals(&mut self) -> Done {
        let awake = self.plan.awake(self.group.now);
        for heard in self.link.arrivals(self.group.now) {
            if !awake.contains(heard.to) {
                self.to_the_dead += 1;
                continue;
            }
            let hut = &mut self.huts[usize::from(heard.to)];
            if let Some(refusal) = hut.packet_came(&mut self.group, &heard.bytes)? {
                self.refused.refused(heard.from, heard.to, refusal);
            }
        }
        Ok(())
    }

    /// Packets of the other station, which a hut takes for packets as any.
    fn other_station(&mut self) -> Done {
        let now = self.group.now;
        for packet in self.neighbours.on_air(now, self.plan.awake(now)) {
            let (to, bytes) = (packet.to, &packet.bytes);
            let before = self.group.laptop(to).clone();
            let whole = self.huts[usize::from(to)].packet_came(&mut self.group, bytes)?;
            let refused = [whole, self.group.deliver_fetched(to, bytes)];
            let since = self.group.laptop(to);
            self.neighbours.came(&packet, refused, before, since)?;
        }
        Ok(())
    }

    /// Laptops that run and have not been told that they are struck off.
    fn usable(&self) -> Members {
        let told = |n: &u8| !self.group.laptop(*n).view().contains(*n);
        let awake = self.plan.awake(self.group.now).into_iter();
        awake.filter(|n| !told(n)).collect()
    }

    fn serve(&mut self) {
        let usable = self.usable();
        self.group.times.serve(self.group.now, usable);
    }

    fn ringers(&mut self) -> Done {
        let usable = self.usable();
        let (group, huts) = (&mut self.group, &mut self.huts);
        self.ringers.tick(group, huts, usable)
    }

    fn send(&mut self) {
        let now = self.group.now;
        for n in self.plan.awake(now) {
            let weak = self.plan.is_weak(n, now);
            for (to, bytes) in self.huts[usize::from(n)].packets() {
                self.air.sent(now, n, bytes.len());
                self.link.send(now, n, to, &bytes, weak);
            }
        }
    }

    /// Looks once what it would take to settle every record: when all laptops of
    /// the last view have heard of it, or, without deaths, when the link heals.
    fn look(&mut self) -> Result<(), Cause> {
        let members = self.plan.members;
        let heard = |n| self.group.laptop(n).view() == members;
        let now = match self.plan.deaths.is_empty() {
            true => self.group.now == self.settings.ticks,
            false => members.into_iter().all(heard),
        };
        if now && self.unsettled.is_none() {
            self.unsettled = Some(unsettled::look(&self.group, members)?);
        }
        Ok(())
    }

    /// Whether the morning is over: None as long as it goes on. It ends when
    /// nothing has changed for a calm, in which every hut has sent all that it
    /// sends again, and all of it was heard.
    fn end(&self) -> Result<Option<End>, Cause> {
        let now = self.group.now;
        let calm = WAIT_VAL + self.link.longest();
        let last_view = self.plan.issues.last().map_or(0, |i| i.tick);
        let healed = self.settings.ticks.max(last_view);
        if now < healed.max(self.group.last_change) + calm {
            let bound = healed.max(self.ringers.last_save) + CALMS * calm;
            let record = self.group.last_changed;
            return match now < bound {
                true => Ok(None),
                false => Err(Cause::Restless { record }),
            };
        }
        let members = self.plan.members.into_iter();
        let members: Vec<&Laptop> = members.map(|n| self.group.laptop(n)).collect();
        let settled = settled::look(&self.group, &members)?;
        if let Some(record) = self.ringers.waiting() {
            // Its record is valid everywhere, so it can be saved, or entered again.
            return Err(Cause::Unsaved { record });
        }
        let told = chain::look(&self.group, &self.ringers.slips(), members[0])?;
        if let Some(((laptop, number), _)) = self.refused.0.first_key_value() {
            return Err(Cause::Refused {
                record: self.group.last_changed,
                laptop: *laptop,
                number: *number,
            });
        }
        Ok(Some(End { settled, told }))
    }

    fn report(self, end: End) -> Report {
        let (ties, lower) = (self.group.saves.ties(), self.group.lower_half());
        Report {
            settings: self.settings,
            ties: self.group.ties.report(ties, lower),
            neighbours: self.neighbours.heard,
            plan: self.plan,
            times: self.group.times.report(self.group.now),
            visits: self.ringers.counts,
            air: self.air,
            events: self.group.counts,
            link: self.link.counts,
            to_the_dead: self.to_the_dead,
            checks: self.group.agreement.checks,
            saved: self.ringers.saved(),
            unsettled: self.unsettled.expect("looked at when the link healed"),
            settled: end.settled,
            told: end.told,
            last_change: self.group.last_change,
            ticks: self.group.now,
            missed: self.huts.into_iter().flat_map(|h| h.missed).collect(),
        }
    }

    fn failure(&self, cause: Cause) -> Failure {
        Failure {
            seed: self.settings.seed,
            tick: self.group.now,
            holdings: self.group.holdings(cause.record()),
            events: self.group.history.of(cause.record()),
            refused: self.refused.told(),
            cause,
        }
    }
}

#[cfg(test)]
mod tests {
    use super::*;

    /// A morning past the bound, in which a record has just changed.
    #[test]
    fn records_that_change_without_end_are_a_failure() {
        let mut morning = Morning::new(&Settings::default());
        morning.group.now = 100_000;
        morning.group.last_change = 99_999;
        morning.group.last_changed = 7;
        assert_eq!(morning.end(), Err(Cause::Restless { record: 7 }));
    }

    /// A morning without birds that is over. A packet of its own that was refused is a
    /// failure, though all else is well.
    #[test]
    fn a_refused_packet_is_a_failure() {
        let mut morning = Morning::new(&Settings {
            laptops: 3,
            rings: 0,
            recaptures: 0,
            deaths: 0,
            late: 0,
            ..Settings::default()
        });
        morning.group.now = 10_000;
        assert!(morning.end().is_ok_and(|end| end.is_some()));
        morning.refused.refused(2, 1, Refusal::OtherRule);
        morning.refused.refused(2, 0, Refusal::OtherRule);
        let refused = Cause::Refused {
            record: 0,
            laptop: 2,
            number: 27,
        };
        assert_eq!(morning.end(), Err(refused));
        let said = morning.failure(refused).to_string();
        assert!(
            said.contains("\n  laptop 2: 2 refused by 27, at {0,1}\n"),
            "{said}"
        );
    }
}
