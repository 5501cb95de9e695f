//! What a morning is like.

use cetskobi::{Record, Rule};
use model::rng::Rng;

use crate::fault::Fault;
use crate::Tick;

/// Sizes of the group and of the morning, and the link's faults.
#[derive(Clone, Debug, PartialEq, Eq)]
pub struct Settings {
    /// The beginning of all random numbers.
    pub seed: u64,
    /// Laptops in the group at the start.
    pub laptops: u8,
    /// Records of each laptop.
    pub records: usize,
    /// The group's rule of ties, with which all of its laptops start (document 02,
    /// Wish 6).
    pub rule: Rule,
    /// Birds ringed: saves to records that were empty.
    pub rings: usize,
    /// Birds met again: saves over a record that was opened.
    pub recaptures: usize,
    /// Laptops that die and are struck off.
    pub deaths: u8,
    /// How many of those only slept: they wake without knowing that they are
    /// struck off, and are told late.
    pub sleepers: u8,
    /// Laptops that get a new view late.
    pub late: u8,
    /// How much later they get it.
    pub lateness: Tick,
    /// Until when birds come; then the link heals.
    pub ticks: Tick,
    /// Copies of packets that the link loses, of 100.
    pub loss: u8,
    /// Copies that it repeats, of 100.
    pub repeat: u8,
    /// The most ticks that a packet usually takes; a few take far longer.
    pub delay: Tick,
    /// Of 100 ticks those in which the other station saves, while birds come: a group
    /// on the same channel, with the other rule of ties.
    pub neighbours: u8,
    /// What is deliberately broken, to see the checks at work.
    pub fault: Option<Fault>,
}

impl Default for Settings {
    fn default() -> Settings {
        Settings {
            seed: 560,
            laptops: 11,
            records: Record::COUNT_MAX,
            // The season's groups are formed under the new one.
            rule: Rule::Lower,
            rings: 600,
            recaptures: 40,
            deaths: 1,
            sleepers: 0,
            late: 2,
            lateness: 300,
            ticks: 2000,
            loss: 30,
            repeat: 10,
            delay: 6,
            neighbours: 1,
            fault: None,
        }
    }
}

/// The parts of the simulation that take random numbers.
#[derive(Clone, Copy, Debug)]
pub(crate) enum Part {
    Plan,
    Link,
    Texts,
    Hands,
    Neighbours,
}

impl Settings {
    /// The usual ones, with the seed of CETSKOBI_SEED if that is set.
    ///
    /// # Errors
    ///
    /// That it is no number.
    pub fn from_env() -> Result<Settings, String> {
        let mut settings = Settings::default();
        if let Ok(seed) = std::env::var("CETSKOBI_SEED") {
            let wrong = |_| format!("CETSKOBI_SEED is no number: {seed}");
            settings.seed = seed.parse().map_err(wrong)?;
        }
        Ok(settings)
    }

    /// The random numbers of one part: how many one takes does not change
    /// another's.
    pub(crate) fn rng(&self, part: Part) -> Rng {
        let mut seeds = Rng::new(self.seed);
        for _ in 0..part as usize {
            seeds.next_u64();
        }
        Rng::new(seeds.next_u64())
    }

    /// Whether such a morning can be played.
    ///
    /// # Errors
    ///
    /// What is wrong, in plain words.
    pub fn check(&self) -> Result<(), String> {
        let most = Record::COUNT_MAX;
        let stay = self.laptops.saturating_sub(self.deaths);
        ask(
            (2..=16).contains(&self.laptops),
            "a group has 2 to 16 laptops",
        )?;
        ask(
            (1..=most).contains(&self.records),
            "a laptop has 1 to 4096 records",
        )?;
        ask(
            self.rings <= self.records,
            "each ring needs a record of its own",
        )?;
        ask(
            self.recaptures == 0 || self.rings > 0,
            "who is met again was ringed before",
        )?;
        ask(
            self.recaptures <= 100_000,
            "at most 100000 birds are met again",
        )?;
        ask(stay >= 2, "two laptops must stay in the view")?;
        ask(
            self.sleepers <= self.deaths,
            "only laptops that are struck off sleep",
        )?;
        ask(self.late <= stay, "no more laptops can be late than stay")?;
        ask(
            self.lateness <= 100_000,
            "a view is at most 100000 ticks late",
        )?;
        ask(
            (100..=100_000).contains(&self.ticks),
            "a morning has 100 to 100000 ticks",
        )?;
        ask(self.loss <= 90, "at most 90 of 100 packets are lost")?;
        ask(self.repeat <= 90, "at most 90 of 100 packets are repeated")?;
        ask(
            (1..=1000).contains(&self.delay),
            "a packet takes 1 to 1000 ticks",
        )?;
        ask(
            self.neighbours <= 100,
            "the other station saves in at most 100 of 100 ticks",
        )
    }

    /// The rule that this laptop is started with: the group's, unless the last one is
    /// to be started with the other.
    pub(crate) fn started_with(&self, laptop: u8) -> Rule {
        let odd = matches!(self.fault, Some(Fault::Rule | Fault::Tie));
        match odd && laptop + 1 == self.laptops {
            true => other(self.rule),
            false => self.rule,
        }
    }

    /// The rule by which its hut reads and writes packets: its laptop's, unless that
    /// is to be hidden.
    pub(crate) fn spoken_at(&self, laptop: u8) -> Rule {
        match self.fault {
            Some(Fault::Tie) => self.rule,
            _ => self.started_with(laptop),
        }
    }
}

/// The other one of the two rules.
pub(crate) const fn other(rule: Rule) -> Rule {
    match rule {
        Rule::Higher => Rule::Lower,
        Rule::Lower => Rule::Higher,
    }
}

fn ask(holds: bool, rule: &str) -> Result<(), String> {
    match holds {
        true => Ok(()),
        false => Err(rule.to_owned()),
    }
}
