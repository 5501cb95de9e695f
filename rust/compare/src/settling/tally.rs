use std::collections::BTreeMap;
use std::fmt;

use cetskobi::{Rule, State};
use settle::{Event, Held, Step};

use super::look::{Copies, Settled};

/// How a list begins: by the driver's event and its state before.
#[derive(Clone, Copy, Debug, PartialEq, Eq, PartialOrd, Ord)]
pub enum Kind {
    /// All show it valid.
    Nothing,
    ResendAtWrite,
    ResendAtReplay,
    /// All that are left have acknowledged.
    ValidateAtWrite,
    ValidateAtReplay,
    ResendAtValid,
    ReplayAtInvalid,
    ReplayAtInvalidWrite,
    /// A wrong recipe's.
    Other,
}

impl Kind {
    /// All that a right recipe has, with a word for the table.
    pub const ALL: [(Kind, &str); 8] = [
        (Kind::Nothing, "nothing"),
        (Kind::ResendAtWrite, "W resend"),
        (Kind::ResendAtReplay, "R resend"),
        (Kind::ValidateAtWrite, "W validate"),
        (Kind::ValidateAtReplay, "R validate"),
        (Kind::ResendAtValid, "V resend"),
        (Kind::ReplayAtInvalid, "I replay"),
        (Kind::ReplayAtInvalidWrite, "X replay"),
    ];

    pub fn of(held: &[Held], steps: &[Step]) -> Kind {
        let Some(first) = steps.first() else {
            return Kind::Nothing;
        };
        let driver = held.iter().find(|(n, _)| *n == first.at);
        match (driver.map(|(_, r)| r.state), first.event) {
            (Some(State::Write), Event::Resend) => Kind::ResendAtWrite,
            (Some(State::Replay), Event::Resend) => Kind::ResendAtReplay,
            (Some(State::Write), Event::Validate) => Kind::ValidateAtWrite,
            (Some(State::Replay), Event::Validate) => Kind::ValidateAtReplay,
            (Some(State::Valid), Event::Resend) => Kind::ResendAtValid,
            (Some(State::Invalid), Event::Replay) => Kind::ReplayAtInvalid,
            (Some(State::InvalidWrite), Event::Replay) => Kind::ReplayAtInvalidWrite,
            _ => Kind::Other,
        }
    }
}

/// What came about: situations of one record at all laptops of a view.
#[derive(Clone, Debug, Default)]
pub struct Tally {
    /// By how many laptops the view has, and by kind.
    pub kinds: BTreeMap<(usize, Kind), u64>,
    /// By how many laptops the view has: those that took exactly 3k - 2 events.
    pub at_bound: BTreeMap<usize, u64>,
    /// Events in all.
    pub events: u64,
    /// Lists of other drivers, by how many laptops the view has, by the kind of the
    /// recipe's list, and by kind; and their events in all.
    pub others: BTreeMap<(usize, Kind, Kind), u64>,
    pub other_events: u64,
    /// Groups looked at; with laptops outside the view; with laptops that were
    /// late and were told of it now.
    pub groups: u64,
    pub outside: u64,
    pub late: u64,
    /// Views that lack a laptop.
    pub absent: u64,
    /// By the rule of ties, as `Rule::ALL` has them: situations; and those in which
    /// laptops held stamps of the latest version with different tie-breakers.
    pub rules: [u64; 2],
    pub ties: [u64; 2],
}

impl Tally {
    pub(super) fn group(&mut self, copies: &Copies) {
        self.groups += 1;
        self.outside += u64::from(copies.outside() > 0);
        self.late += u64::from(copies.told > 0);
    }

    pub(super) fn record(&mut self, view: u16, settled: &Settled) {
        let (kind, events) = settled.recipe;
        let k = view.count_ones() as usize;
        let rule = usize::from(settled.rule == Rule::Lower);
        self.rules[rule] += 1;
        self.ties[rule] += u64::from(settled.tied);
        *self.kinds.entry((k, kind)).or_default() += 1;
        *self.at_bound.entry(k).or_default() += u64::from(events == 3 * k - 2);
        self.events += events as u64;
        for (other, events) in &settled.others {
            *self.others.entry((k, kind, *other)).or_default() += 1;
            self.other_events += *events as u64;
        }
    }

    /// How often this kind came, with k laptops.
    pub fn times(&self, k: usize, kind: Kind) -> u64 {
        self.kinds.get(&(k, kind)).copied().unwrap_or(0)
    }

    /// How many other drivers there were with k laptops, where not all showed the
    /// record valid.
    pub fn others_with(&self, k: usize) -> u64 {
        let open = |key: &(usize, Kind, Kind)| key.0 == k && key.1 != Kind::Nothing;
        let others = self.others.iter().filter(|(key, _)| open(key));
        others.map(|(_, times)| times).sum()
    }

    /// How many other drivers there were of each kind, beside each kind of recipe.
    pub fn beside(&self) -> BTreeMap<(Kind, Kind), u64> {
        let mut beside = BTreeMap::new();
        for ((_, recipe, other), times) in &self.others {
            *beside.entry((*recipe, *other)).or_default() += times;
        }
        beside
    }

    pub fn situations(&self) -> u64 {
        self.kinds.values().sum()
    }
}

impl fmt::Display for Tally {
    fn fmt(&self, f: &mut fmt::Formatter<'_>) -> fmt::Result {
        write!(f, " k")?;
        for (_, name) in Kind::ALL {
            write!(f, "{name:>11}")?;
        }
        writeln!(f, "{:>13}{:>9}", "3k-2 events", "others")?;
        for (&k, at_bound) in &self.at_bound {
            write!(f, "{k:2}")?;
            for (kind, _) in Kind::ALL {
                write!(f, "{:11}", self.times(k, kind))?;
            }
            writeln!(f, "{at_bound:13}{:9}", self.others_with(k))?;
        }
        let (situations, events) = (self.situations(), self.events);
        writeln!(f, "{situations} situations, {events} events")?;
        for (rule, (times, ties)) in Rule::ALL.iter().zip(self.rules.iter().zip(self.ties)) {
            writeln!(
                f,
                "{times} under the {rule} number's rule, {ties} with a tie"
            )?;
        }
        let (others, events) = (self.others.values().sum::<u64>(), self.other_events);
        writeln!(f, "{others} lists of other drivers, {events} events")?;
        for ((recipe, other), times) in self.beside() {
            writeln!(f, "{times:9} {other:?} beside {recipe:?}")?;
        }
        let (groups, outside, late) = (self.groups, self.outside, self.late);
        write!(
            f,
            "{groups} groups: {outside} with laptops outside the view, {late} with late ones; {} lacked a laptop",
            self.absent
        )
    }
}
