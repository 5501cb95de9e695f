//! What the morning brings: birds, deaths and views, all known beforehand to
//! the simulation and to nobody in it.

use cetskobi::{Members, Rule};
use model::rng::Rng;

use crate::settings::{Part, Settings};
use crate::Tick;

/// A bird in the hand: at this laptop, from this tick on.
#[derive(Clone, Copy, Debug, PartialEq, Eq)]
pub(crate) struct Bird {
    pub tick: Tick,
    pub laptop: u8,
    pub record: usize,
    pub recapture: bool,
    /// Ticks between opening its record and saving over it.
    pub measuring: Tick,
}

/// A laptop's end. Its radio is weak first: few hear its last packets.
#[derive(Clone, Copy, Debug)]
pub(crate) struct Death {
    pub laptop: u8,
    pub weak: Tick,
    pub tick: Tick,
    /// If it only slept: when it wakes, struck off without knowing.
    pub wakes: Option<Tick>,
}

impl Death {
    /// From the given tick on, unless and until it wakes.
    fn since(&self, tick: Tick, now: Tick) -> bool {
        tick <= now && self.wakes.is_none_or(|wakes| now < wakes)
    }
}

/// A view on its way from the warden to one laptop.
#[derive(Clone, Copy, Debug)]
pub(crate) struct Issue {
    pub tick: Tick,
    pub laptop: u8,
    pub epoch: u32,
    pub view: Members,
}

/// All of it, in order of ticks.
#[derive(Clone, Debug)]
pub(crate) struct Plan {
    pub birds: Vec<Bird>,
    /// Birds that two laptops have at once.
    pub pairs: Vec<(Bird, Bird)>,
    pub deaths: Vec<Death>,
    pub late: Members,
    pub issues: Vec<Issue>,
    /// All laptops, and those that are never struck off.
    pub all: Members,
    pub members: Members,
}

impl Plan {
    pub fn new(settings: &Settings) -> Plan {
        let mut rng = settings.rng(Part::Plan);
        let mut birds = rings(settings, &mut rng);
        let mut pairs = recaptures(settings, &mut rng, &mut birds);
        birds.sort_by_key(|b| (b.tick, b.record, b.laptop));
        let deaths = deaths(settings, &mut rng, &pairs);
        linger(settings, &mut birds, &mut pairs, &deaths);
        let all: Members = (0..settings.laptops).collect();
        let dies = |n: &u8| deaths.iter().any(|d| d.laptop == *n);
        let members = all.into_iter().filter(|n| !dies(n)).collect();
        let late = late(settings, &mut rng, members);
        let issues = issues(settings, &mut rng, &deaths, late);
        Plan {
            birds,
            pairs,
            deaths,
            late,
            issues,
            all,
            members,
        }
    }

    /// In how many pairs one ringer takes longer than the other.
    pub fn apart(&self) -> usize {
        let differ = |(a, b): &&(Bird, Bird)| a.measuring != b.measuring;
        self.pairs.iter().filter(differ).count()
    }

    /// The laptops that run, struck off or not.
    pub fn awake(&self, now: Tick) -> Members {
        let off = |n: &u8| {
            self.deaths
                .iter()
                .any(|d| d.laptop == *n && d.since(d.tick, now))
        };
        self.all.into_iter().filter(|n| !off(n)).collect()
    }

    /// Whether the laptop's radio is weak.
    pub fn is_weak(&self, laptop: u8, now: Tick) -> bool {
        self.deaths
            .iter()
            .any(|d| d.laptop == laptop && d.since(d.weak, now))
    }
}

/// Each ring has a record of its own, anywhere in the table.
fn rings(settings: &Settings, rng: &mut Rng) -> Vec<Bird> {
    let mut records: Vec<usize> = (0..settings.records).collect();
    (0..settings.rings)
        .map(|n| {
            let other = n + rng.below(records.len() - n);
            records.swap(n, other);
            Bird {
                tick: below(rng, settings.ticks),
                laptop: laptop(rng, settings),
                record: records[n],
                recapture: false,
                measuring: MEASURING,
            }
        })
        .collect()
}

/// Birds met again after they were ringed; one time in four two huts think
/// that they have the bird. Gives those pairs.
fn recaptures(settings: &Settings, rng: &mut Rng, birds: &mut Vec<Bird>) -> Vec<(Bird, Bird)> {
    let ringed = birds.clone();
    let mut pairs = Vec::new();
    let mut left = settings.recaptures;
    while left > 0 {
        let Some(ring) = rng.pick(&ringed) else { break };
        let tick = ring.tick + below(rng, settings.ticks - ring.tick);
        let first = Bird {
            tick,
            laptop: laptop(rng, settings),
            recapture: true,
            ..ring
        };
        birds.push(first);
        left -= 1;
        if left > 0 && rng.chance(1, 4) {
            let apart = 1 + rng.below(usize::from(settings.laptops) - 1) as u8;
            let laptop = (first.laptop + apart) % settings.laptops;
            let second = Bird { laptop, ..first };
            birds.push(second);
            pairs.push((first, second));
            left -= 1;
        }
    }
    pairs
}

/// Laptops die at the worst moment: while they and another hut save one bird, and
/// theirs is the save that wins.
fn deaths(settings: &Settings, rng: &mut Rng, pairs: &[(Bird, Bird)]) -> Vec<Death> {
    let mut deaths: Vec<Death> = Vec::new();
    while deaths.len() < usize::from(settings.deaths) {
        let pair = pairs.get(rng.below(pairs.len() + 1));
        let third = settings.ticks / 3;
        let (laptop, saves) = match pair {
            Some((a, b)) if (third..=2 * third).contains(&a.tick) => {
                let wins = match settings.rule {
                    Rule::Higher => a.laptop.max(b.laptop),
                    Rule::Lower => a.laptop.min(b.laptop),
                };
                (wins, a.tick + MEASURING)
            }
            Some(_) if rng.chance(9, 10) => continue,
            _ => (laptop(rng, settings), third + below(rng, third)),
        };
        if deaths.iter().all(|d| d.laptop != laptop) {
            let tick = saves + 1 + below(rng, 12);
            let sleeps = deaths.len() < usize::from(settings.sleepers);
            deaths.push(Death {
                laptop,
                weak: saves,
                tick,
                wakes: sleeps.then(|| tick + 50 + below(rng, 100)),
            });
        }
    }
    deaths.sort_by_key(|d| d.tick);
    deaths
}

/// Two times in three the second ringer of a pair takes longer than the first, whose
/// save may come between. Where one of the two laptops dies, both save at once.
fn linger(settings: &Settings, birds: &mut [Bird], pairs: &mut [(Bird, Bird)], deaths: &[Death]) {
    let mut rng = settings.rng(Part::Hands);
    for (first, second) in pairs {
        let longer = match rng.chance(2, 3) {
            true => 1 + below(&mut rng, LINGERING),
            false => 0,
        };
        let dies = |b: &Bird| {
            let at = |d: &Death| d.laptop == b.laptop && d.weak == b.tick + MEASURING;
            deaths.iter().any(at)
        };
        if dies(first) || dies(second) {
            continue;
        }
        let planned = birds.iter_mut().find(|b| **b == *second);
        second.measuring += longer;
        if let Some(bird) = planned {
            *bird = *second;
        }
    }
}

fn late(settings: &Settings, rng: &mut Rng, members: Members) -> Members {
    let mut rest: Vec<u8> = members.into_iter().collect();
    (0..settings.late.min(rest.len() as u8))
        .map(|_| rest.swap_remove(rng.below(rest.len())))
        .collect()
}

/// The warden notices a death after a while and issues the next view, which
/// some get late. One who only slept is told later still.
fn issues(settings: &Settings, rng: &mut Rng, deaths: &[Death], late: Members) -> Vec<Issue> {
    let mut view: Members = (0..settings.laptops).collect();
    let mut noticed = 0;
    let mut issues = Vec::new();
    for (epoch, death) in (1..).zip(deaths) {
        view = view.into_iter().filter(|n| *n != death.laptop).collect();
        noticed = noticed.max(death.tick + 20 + below(rng, 40));
        let mut issue = |laptop: u8, tick: Tick| {
            issues.push(Issue {
                tick,
                laptop,
                epoch,
                view,
            });
        };
        for laptop in view {
            let on_the_way = 1 + below(rng, 10);
            let held = match late.contains(laptop) {
                true => settings.lateness,
                false => 0,
            };
            issue(laptop, noticed + on_the_way + held);
        }
        if let Some(wakes) = death.wakes {
            issue(death.laptop, wakes.max(noticed) + settings.lateness);
        }
    }
    issues.sort_by_key(|i| (i.tick, i.epoch, i.laptop));
    issues
}

/// Ticks between opening a bird's record and saving over it, and the most that one
/// ringer takes longer than another.
pub(crate) const MEASURING: Tick = 3;
const LINGERING: Tick = 60;

fn laptop(rng: &mut Rng, settings: &Settings) -> u8 {
    rng.below(usize::from(settings.laptops)) as u8
}

fn below(rng: &mut Rng, limit: Tick) -> Tick {
    rng.below(limit as usize) as Tick
}
