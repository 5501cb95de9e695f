//! What is printed of a morning.

use std::fmt;

use cetskobi::{Refusal, Rule};

use crate::air::Air;
use crate::chain::Told;
use crate::counts::Counts;
use crate::figures::Figures;
use crate::group::EventCounts;
use crate::history::Kind;
use crate::layout::{grouped, line, line_of, seconds};
use crate::link::LinkCounts;
use crate::neighbours::Heard;
use crate::plan::{Death, Plan};
use crate::ringer::Visits;
use crate::settings::Settings;
use crate::settled::Settled;
use crate::spread::Spread;
use crate::ties::TiesReport;
use crate::times::TimesReport;
use crate::unsettled::Unsettled;
use crate::Tick;

/// A morning on which every check held.
#[derive(Clone, Debug)]
pub struct Report {
    pub(crate) settings: Settings,
    pub(crate) plan: Plan,
    pub(crate) times: TimesReport,
    pub(crate) visits: Visits,
    pub(crate) air: Air,
    pub(crate) events: EventCounts,
    pub(crate) ties: TiesReport,
    pub(crate) neighbours: Heard,
    pub(crate) link: LinkCounts,
    pub(crate) to_the_dead: u64,
    pub(crate) checks: u64,
    pub(crate) saved: usize,
    pub(crate) unsettled: Unsettled,
    pub(crate) settled: Settled,
    pub(crate) told: Told,
    pub(crate) last_change: Tick,
    pub(crate) ticks: Tick,
    /// How long each view was missing after its laptop had heard of it.
    pub(crate) missed: Vec<Tick>,
}

impl Report {
    /// All events, refused ones included.
    pub fn events(&self) -> u64 {
        self.events.events.iter().sum()
    }

    /// Messages that left events.
    pub fn messages(&self) -> u64 {
        self.events.messages.iter().sum()
    }

    /// Events refused by this question.
    pub fn refused(&self, refusal: Refusal) -> u64 {
        self.events
            .refused
            .get(&refusal.number())
            .copied()
            .unwrap_or(0)
    }

    /// Rings and recaptures that were saved.
    pub fn saved(&self) -> usize {
        self.saved
    }

    /// How often ringers opened a record, and how often it could not be shown.
    pub fn openings(&self) -> [u64; 2] {
        [self.visits.openings, self.visits.unshown]
    }

    /// Commits, those that question 26 refused, and those of them whose bird was
    /// opened again and saved.
    pub fn commits(&self) -> [u64; 3] {
        let commits = self.events.events[Kind::Commit as usize];
        [commits, self.visits.refused, self.visits.mended]
    }

    /// Commits that question 26 refused when a bird was to be entered again, and which
    /// were not needed: what stood there told of it.
    pub fn spared(&self) -> u64 {
        self.visits.spared
    }

    /// Commits refused by 26 where a plain write would have been accepted, over a
    /// newer text that the ringer had not seen.
    pub fn unseen(&self) -> u64 {
        self.events.unseen
    }

    /// Plain writes.
    pub fn writes(&self) -> u64 {
        self.events.events[Kind::Write as usize]
    }

    /// Saves: one of each bird, and one for each time that it was entered again.
    pub fn saves(&self) -> u64 {
        self.events.accepted[Kind::Commit as usize]
    }

    /// Captures of which the texts tell in the end, and how many more they are than the
    /// birds: told twice, as their ringers could not know.
    pub fn told(&self) -> [usize; 2] {
        let captures = self.told.captures;
        [captures, captures.saturating_sub(self.saved)]
    }

    /// Captures that the texts have no room for in words: by their number and their
    /// laptop alone.
    pub fn left_out(&self) -> usize {
        self.told.captures - self.told.in_words
    }

    /// Saves replaced by another that had not heard of them, and whose bird was entered
    /// again; how many of these were finished before; and saves whose bird was entered
    /// again at another laptop, as theirs died or was struck off.
    pub fn entered_again(&self) -> [u64; 3] {
        let visits = &self.visits;
        [visits.replaced, visits.crossed, visits.taken]
    }

    /// How often one ring was saved at once, with one version, by two laptops or more;
    /// how often a laptop that had one of these saves heard of another, so that the
    /// group's rule decided which of the two stands there.
    pub fn ties(&self) -> [u64; 2] {
        [self.ties.all as u64, self.ties.met]
    }

    /// Saves that lost a tie; how many of these were of the lower half of the numbers;
    /// and how many of that half had lost by the other rule.
    pub fn lost_ties(&self) -> [usize; 3] {
        let ties = &self.ties;
        [ties.lost, ties.in_charge, ties.otherwise]
    }

    /// Of the replaced saves whose bird was entered again those of the lower half of the
    /// numbers.
    pub fn replaced_in_charge(&self) -> u64 {
        self.visits.in_charge
    }

    /// Packets of the other station that a hut heard, all of them refused by 27; and how
    /// many of these would have changed a record, had they been of this group.
    pub fn other_station(&self) -> [u64; 2] {
        [self.neighbours.packets, self.neighbours.otherwise]
    }

    /// Saves of laptops that died or were struck off, of which none that stayed had
    /// heard.
    pub fn lost(&self) -> usize {
        self.settled.lost
    }

    /// Records that are valid on all laptops of the newest view, with one timestamp
    /// and the text saved with it.
    pub fn settled(&self) -> usize {
        self.settled.settled
    }

    /// Records that were open when all laptops of the newest view had heard of it,
    /// the events that would have settled them, and the most for one of them.
    pub fn unsettled(&self) -> [usize; 3] {
        let Unsettled {
            records,
            events,
            most,
            ..
        } = self.unsettled;
        [records, events, most]
    }

    /// Validations: by the last acknowledgement, and by an event of their own,
    /// where the last laptop that was missing was struck off.
    pub fn validations(&self) -> [u64; 2] {
        let own = self.events.accepted[Kind::Validate as usize];
        [self.events.completed, own]
    }

    /// Replays that were accepted.
    pub fn replays(&self) -> u64 {
        self.events.accepted[Kind::Replay as usize]
    }

    /// Saves overtaken by another laptop's, so that invalid-write came about.
    pub fn overtaken(&self) -> u64 {
        self.events.overtaken
    }

    /// Overtaken saves that were given up by a replay from invalid-write: the
    /// later one's laptop was struck off.
    pub fn given_up(&self) -> u64 {
        self.events.given_up
    }

    /// Entries of packets that were looked at to take the messages out that came:
    /// each once to accept its packet and once to be taken. And how many it would
    /// be, if at each message the whole packet were looked at. Both are reckoned out
    /// of the messages of each packet: nobody counts inside the engine.
    pub fn entries(&self) -> [u64; 2] {
        [2 * self.events.arrived, self.events.walked]
    }

    /// How often a laptop heard of a view by a message's epoch before the warden's
    /// word came, and the longest time between the two.
    pub fn views_missed(&self) -> (usize, u32) {
        let longest = self.missed.iter().max().copied();
        (self.missed.len(), longest.unwrap_or(0))
    }

    /// Bytes that all laptops send an hour, while birds come.
    pub fn bytes_an_hour(&self) -> u64 {
        self.air.group()
    }

    /// How many saves were finished, were replaced by a later one, and neither.
    pub fn ends_of_saves(&self) -> [usize; 3] {
        let count = |spread: Option<Spread>| spread.map_or(0, |s| s.count);
        let times = &self.times;
        [count(times.finished), count(times.replaced), times.left]
    }

    /// Events for each save that was finished or replaced, in tenths. None
    /// without such a save.
    fn tenths_a_save(&self) -> Option<u64> {
        let [finished, replaced, _] = self.ends_of_saves();
        let saves = (finished + replaced) as u64;
        (self.events() * 10 + saves / 2).checked_div(saves)
    }

    /// The counts, which an engineer asks for.
    pub fn counts(&self) -> Counts<'_> {
        Counts(self)
    }

    /// The whole in one line.
    pub fn line(&self) -> String {
        format!(
            "seed {}: agreed after {} events; {} messages in {} packets of {} bytes; {} ties; {} given up; {} refused by 26; {} entered again; {} ticks",
            self.settings.seed,
            grouped(self.events()),
            grouped(self.messages()),
            grouped(self.link.packets),
            grouped(self.link.bytes),
            self.ties.all,
            self.given_up(),
            self.visits.refused,
            self.visits.replaced + self.visits.taken,
            grouped(self.ticks.into()),
        )
    }

    fn heading(&self, f: &mut fmt::Formatter<'_>) -> fmt::Result {
        let s = &self.settings;
        writeln!(f, "A morning at the nets, seed {}", s.seed)?;
        writeln!(
            f,
            "  {} laptops of {} records, ties to the {} number; the link loses {} of 100 packets and repeats {}",
            s.laptops,
            grouped(s.records as u64),
            s.rule,
            s.loss,
            s.repeat
        )?;
        let pairs = self.plan.pairs.len();
        let at_once = pairs - self.plan.apart();
        writeln!(
            f,
            "  {} birds ringed, {} met again; {pairs} times two laptops opened one bird at once, and {at_once} times were to save it so",
            s.rings, s.recaptures
        )?;
        for (epoch, death) in (1..).zip(&self.plan.deaths) {
            let Death { laptop, tick, .. } = death;
            match death.wakes {
                None => write!(f, "  laptop {laptop} died at {}", seconds(*tick))?,
                Some(wakes) => write!(
                    f,
                    "  laptop {laptop} slept from {} to {}",
                    seconds(*tick),
                    seconds(wakes)
                )?,
            }
            writeln!(f, " and was struck off: epoch {epoch}")?;
        }
        if !self.plan.late.is_empty() && !self.plan.deaths.is_empty() {
            writeln!(
                f,
                "  laptops {} heard of it {} later than the others",
                self.plan.late,
                seconds(s.lateness)
            )?;
        }
        Ok(())
    }

    fn outcome(&self, f: &mut fmt::Formatter<'_>) -> fmt::Result {
        line(
            f,
            "agreement",
            self.checks,
            "records checked, after every event, and it held",
        )?;
        let tenths = self.tenths_a_save();
        let events = tenths.map_or("-".to_owned(), |n| {
            format!("{}.{}", grouped(n / 10), n % 10)
        });
        let remark = "of the engine, refused ones too, for each save finished or replaced";
        line_of(f, "events a save", &events, remark)?;
        // Reckoned, two for each message, and not counted.
        let [once, each] = self.entries().map(grouped);
        let packets = grouped(self.events.packets);
        let remark =
            format!("in {packets} packets: {once} entries looked at, and {each} without Wish 4");
        line(f, "messages heard", self.events.arrived, &remark)?;
        line(
            f,
            "refused by 15",
            self.refused(Refusal::NotFinished),
            "validations that still lacked an acknowledgement",
        )?;
        line(
            f,
            "overtaken",
            self.overtaken(),
            "saves that met a later one of another laptop: invalid-write",
        )?;
        line(
            f,
            "  given up",
            self.given_up(),
            "by a replay of the later one, whose laptop was struck off",
        )?;
        self.ties_met(f)?;
        self.commits_made(f)?;
        self.birds(f)?;
        let (views, longest) = self.views_missed();
        let lead = match views {
            0 => String::new(),
            _ => format!("up to {} ", seconds(longest)),
        };
        let remark = format!("heard of by a message's epoch {lead}before the warden's word");
        line(f, "views missed", views as u64, &remark)?;
        let [packets, otherwise] = self.other_station();
        let remark =
            "packets heard of a group with the other rule: all refused by 27, nothing changed";
        line(f, "other station", packets, remark)?;
        let remark = "of them would have changed a record here, but for their byte 0";
        line(f, "  otherwise", otherwise, remark)?;
        self.open(f)?;
        line(
            f,
            "settled",
            self.settled.settled as u64,
            "records valid with one text on every laptop of the view",
        )?;
        let remark = format!(
            "the link healed at {}, and nothing changed after {}",
            seconds(self.settings.ticks),
            seconds(self.last_change)
        );
        line(f, "seconds", self.ticks.into(), &remark)
    }
}

impl Report {
    /// Saves at once, and to whom they went.
    fn ties_met(&self, f: &mut fmt::Formatter<'_>) -> fmt::Result {
        let ties = &self.ties;
        let rule = self.settings.rule;
        let met = match ties.decided == ties.all {
            true => String::new(),
            false => format!("{} met, and ", grouped(ties.decided as u64)),
        };
        let remark = format!(
            "times a ring was saved at once, with one version: {met}all to the {rule} number"
        );
        line(f, "ties", ties.all as u64, &remark)?;
        let remark = "times a laptop that had one of the saves heard of another";
        line(f, "  met", ties.met, remark)?;
        let lower = self.lower_half();
        let [was, other] = [ties.in_charge, ties.otherwise].map(|n| grouped(n as u64));
        let by = match rule {
            Rule::Higher => "new",
            Rule::Lower => "old",
        };
        let remark =
            format!("saves; {was} of ringers in charge ({lower}), by the {by} rule {other}");
        line(f, "  lost", ties.lost as u64, &remark)
    }

    /// The numbers of the ringers in charge.
    fn lower_half(&self) -> String {
        match self.settings.laptops / 2 {
            1 => "laptop 0".to_owned(),
            n => format!("laptops 0 to {}", n - 1),
        }
    }

    /// What ringers committed, and what was refused.
    fn commits_made(&self, f: &mut fmt::Formatter<'_>) -> fmt::Result {
        let [commits, refused, mended] = self.commits();
        let remark = "by ringers, over what they had opened";
        line(f, "commits", commits, remark)?;
        let (mended, birds) = (grouped(mended), grouped(self.visits.again));
        let mut remark = format!(
            "saved since it was opened; {mended} shown what stands, and saved: {birds} birds"
        );
        if self.spared() > 0 {
            remark += &format!("; {} found there", grouped(self.spared()));
        }
        line(f, "  refused by 26", refused, &remark)?;
        let remark = "newer texts that a plain write would have gone over instead";
        line(f, "  unseen", self.unseen(), remark)
    }

    /// What became of the birds.
    fn birds(&self, f: &mut fmt::Formatter<'_>) -> fmt::Result {
        let visits = &self.visits;
        line(f, "birds saved", self.saved as u64, "all that came")?;
        let remark = "opened at a laptop that died or was struck off, saved at another";
        line(f, "  elsewhere", visits.moved, remark)?;
        let [replaced, crossed, taken] = self.entered_again();
        let again = replaced + taken;
        let birds = grouped(visits.birds);
        let remark = format!("from the slip, as no text told of them: {birds} birds");
        line(f, "  entered again", again, &remark)?;
        let (lower, of_lower) = (self.lower_half(), grouped(self.replaced_in_charge()));
        let remark = format!(
            "by a save of another laptop that had not heard of them; {of_lower} at {lower}"
        );
        line(f, "    replaced", replaced, &remark)?;
        let remark = "of the replaced were finished before";
        line(f, "    crossed", crossed, remark)?;
        let remark = "their laptop died or was struck off: entered at another";
        line(f, "    laptop gone", taken, remark)?;
        let remark = "times a later save stood in their place, and told of them";
        line(f, "  found", visits.found, remark)?;
        let [told, twice] = self.told().map(|n| n as u64);
        let remark = match twice {
            0 => "all: the texts tell of each, once".to_owned(),
            _ => format!(
                "all; told twice, as the ringer could not know: {}",
                grouped(twice)
            ),
        };
        line(f, "  in the records", told - twice, &remark)?;
        let remark = "of these by number and laptop alone: 192 bytes were full";
        line(f, "    left out", self.left_out() as u64, remark)?;
        let remark = "nobody had heard of them when their laptop died: entered again";
        line(f, "saves lost", self.lost() as u64, remark)
    }

    /// What was open at one moment, and what would have settled it.
    fn open(&self, f: &mut fmt::Formatter<'_>) -> fmt::Result {
        let open = &self.unsettled;
        let moment = match self.plan.deaths.len() {
            0 => "the link healed".to_owned(),
            epoch => format!("all had heard of epoch {epoch}"),
        };
        let remark = format!("records at {}, when {moment}", seconds(open.tick));
        line(f, "unsettled", open.records as u64, &remark)?;
        let (k, most) = (open.laptops, open.most);
        let bound = settle::most(k);
        let remark =
            format!("would settle them, at most {most} for one; 3k - 2 is {bound} for {k} laptops");
        line(f, "  events", open.events as u64, &remark)
    }
}

impl fmt::Display for Report {
    fn fmt(&self, f: &mut fmt::Formatter<'_>) -> fmt::Result {
        self.heading(f)?;
        writeln!(f, "\n{}", Figures(self))?;
        self.outcome(f)
    }
}
