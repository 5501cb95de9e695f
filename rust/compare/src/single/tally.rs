use std::collections::BTreeMap;
use std::fmt;

use cetskobi::raw::{Replica, RECORD_BYTES};
use model::engine::{bit, has, Rule};

use super::{Case, Event, Kind, Outcome};
use crate::crossing::{is_after, rule_of, settings_of, Fields};

/// How often each kind of event gave each answer.
#[derive(Clone, Debug, Default)]
pub struct Tally {
    /// In groups with the old rule of ties, and with the new.
    answers: [[[u64; 28]; Kind::ALL.len()]; 2],
    /// Accepted, by the state before: also what was not a move of each state.
    accepted: [[u64; 5]; Kind::ALL.len()],
    /// Accepted INVs that were not greater, by the state.
    older: [u64; 5],
    /// Accepted ACKs that were the last, as `last_ack` has them.
    last: [u64; 3],
    /// Accepted ACKs after which as many are counted as the view has others,
    /// or more, but one of the view is missing; by the state, as above.
    many: [u64; 3],
    /// Replays refused by question 16, by the state: with the last writer gone,
    /// and with it in the view.
    unreplayed: [[u64; 5]; 2],
    /// Commits refused by question 26, by what is so there.
    uncommitted: [u64; NOT_AS_OPENED.len()],
    /// Refused by question 2, by what is wrong with the memory.
    sizes: [u64; SIZES.len()],
    /// Refused by question 5, by what alone is wrong with the record.
    unsound: [u64; UNSOUND.len()],
    /// Ties, as `tie` has them: by the rule, not taken and taken, and by the state.
    ties: [[[u64; 5]; 2]; 2],
    /// Starts and views: accepted and refused, of a rule passed as 1, as 2 and as any
    /// other byte. The identity has the rule as it should.
    admitted: [[[u64; 3]; 2]; 2],
    /// Of these, where it has not.
    misruled: u64,
    /// Accepted, by the byte of the rule that was passed.
    bytes: BTreeMap<u8, u64>,
}

type Test = fn(&Case) -> bool;

/// What may be wrong with lent memory, and the test of it.
const SIZES: [(&str, Test); 7] = [
    ("no records", |case| case.table == 0),
    ("4,097 records", |case| case.table == 4097 * RECORD_BYTES),
    ("bytes over in the table", |case| {
        case.table % RECORD_BYTES != 0
    }),
    ("bytes over and a store for the rest", |case| {
        case.table % RECORD_BYTES != 0 && case.store == 192 * (case.table / RECORD_BYTES)
    }),
    ("no store", |case| case.store == 0 && case.table > 0),
    ("a short store", |case| case.store < 12 * case.table),
    ("a long store", |case| case.store > 12 * case.table),
];

/// What may be wrong with the record, and the test of it.
const UNSOUND: [(&str, Test); 6] = [
    ("no state", |case| case.record.state > 4),
    ("a tie-breaker above 15", |case| case.record.tie > 15),
    ("a last writer above 15", |case| case.record.writer > 15),
    ("a last-write tie-breaker above 15", |case| {
        case.record.written_tie > 15
    }),
    ("a length above 192", |case| case.record.len > 192),
    ("its own acknowledgement", |case| {
        has(case.record.acks, case.me.number)
    }),
];

/// What a commit can find that question 26 refuses (02, Wish 5), and the test of it.
const NOT_AS_OPENED: [(&str, Test); 12] = [
    ("its timestamp, at I", |case| brings(case, 1)),
    ("its timestamp, at X", |case| brings(case, 2)),
    ("its timestamp, at W", |case| brings(case, 3)),
    ("its timestamp, at R", |case| brings(case, 4)),
    ("another version alone, at V", |case| {
        differs(case, |(version, tie), held| {
            version != held.0 && tie == held.1
        })
    }),
    ("another tie-breaker alone, at V", |case| {
        differs(case, |(version, tie), held| {
            version == held.0 && tie != held.1 && tie <= 15
        })
    }),
    ("a tie-breaker above 15 alone, at V", |case| {
        differs(case, |(version, tie), held| version == held.0 && tie > 15)
    }),
    ("an older timestamp, at V", |case| {
        let rule = rule_of(case.me.settings);
        differs(case, |opened, held| is_after(held, opened, rule))
    }),
    ("a newer timestamp, at V", |case| {
        let rule = rule_of(case.me.settings);
        differs(case, |opened, held| is_after(opened, held, rule))
    }),
    ("the last-write timestamp, at V", |case| {
        differs(case, |opened, _| opened == case.record.written())
    }),
    ("a value too long as well", |case| {
        case.event.value().is_some_and(|value| value.len() > 192)
    }),
    ("the last version as well", |case| {
        case.record.version == u32::MAX
    }),
];

/// A commit on the timestamp that the record has in this state.
fn brings(case: &Case, state: u8) -> bool {
    let stamp = case.record.stamp();
    case.record.state == state
        && matches!(case.event, Event::Commit { opened, .. } if opened == stamp)
}

/// A commit on a timestamp that differs so from that of a valid record.
fn differs(case: &Case, so: impl Fn((u32, u8), (u32, u8)) -> bool) -> bool {
    let stamp = case.record.stamp();
    case.record.state == 0
        && matches!(case.event, Event::Commit { opened, .. } if so(opened, stamp))
}

impl Tally {
    pub fn count(&mut self, case: &Case, outcome: &Outcome) {
        let kind = case.kind();
        let rule = rule_of(case.me.settings);
        self.answers[rule as usize][kind as usize][usize::from(outcome.number)] += 1;
        if outcome.number == 0 {
            *self.bytes.entry(case.me.settings.rule).or_default() += 1;
        }
        self.admit(case, outcome);
        match outcome.number {
            2 => {
                for (count, (_, wrong)) in self.sizes.iter_mut().zip(SIZES) {
                    *count += u64::from(wrong(case));
                }
            }
            26 => {
                for (count, (_, so)) in self.uncommitted.iter_mut().zip(NOT_AS_OPENED) {
                    *count += u64::from(so(case));
                }
            }
            5 => {
                let faults = UNSOUND.map(|(_, wrong)| wrong(case));
                if faults.iter().filter(|&&wrong| wrong).count() == 1 {
                    for (count, wrong) in self.unsound.iter_mut().zip(faults) {
                        *count += u64::from(wrong);
                    }
                }
            }
            _ => {}
        }
        let state = usize::from(case.record.state);
        if outcome.number == 16 {
            let present = has(case.me.view, case.record.writer);
            self.unreplayed[usize::from(present)][state] += 1;
        }
        if outcome.number != 0 || state >= 5 {
            return;
        }
        let of_record = !matches!(kind, Kind::Start | Kind::View);
        if let (Kind::Ack, Event::Deliver { message, .. }) = (kind, &case.event) {
            let others = case.me.view & !bit(case.me.number);
            let counted = case.record.acks | bit(message.sender);
            match last_ack(case.me, &case.record, message.sender, outcome) {
                Some(at) => self.last[at] += 1,
                None if others & !counted != 0 && counted.count_ones() >= others.count_ones() => {
                    self.many[state - 2] += 1;
                }
                None => {}
            }
        }
        if let (Kind::Inv, Event::Deliver { message, .. }) = (kind, &case.event) {
            let stamp = (message.version, message.tie);
            if let Some(taken) = tie(case.me, &case.record, stamp, outcome) {
                self.ties[rule as usize][usize::from(taken)][state] += 1;
            }
        }
        match &case.event {
            Event::Deliver { message, .. }
                if kind == Kind::Inv
                    && !is_after((message.version, message.tie), case.record.stamp(), rule) =>
            {
                self.older[state] += 1;
            }
            _ if of_record => self.accepted[kind as usize][state] += 1,
            _ => {}
        }
    }

    /// A start or a view: the identity has the rule as 1 or 2, whatever byte was passed;
    /// that of a refused view has the byte.
    fn admit(&mut self, case: &Case, outcome: &Outcome) {
        let kinds = [Kind::Start, Kind::View];
        let Some(event) = kinds.iter().position(|&kind| kind == case.kind()) else {
            return;
        };
        let refused = outcome.number != 0;
        let passed = case.me.settings;
        let named = match refused && case.kind() == Kind::View {
            true => passed,
            false => settings_of(rule_of(passed)),
        };
        if outcome.me.settings != named {
            self.misruled += 1;
            return;
        }
        let byte = [1, 2].iter().position(|&byte| byte == passed.rule);
        self.admitted[event][usize::from(refused)][byte.unwrap_or(2)] += 1;
    }

    /// The least of all counts that can be: every answer of every kind under each rule,
    /// every acceptance at every state that allows it, everything that can be wrong,
    /// every tie under each rule at every state, every start and view, and every byte
    /// of a rule.
    pub fn least(&self) -> u64 {
        let answers = self.answers.iter().flat_map(|by_kind| {
            Kind::ALL.iter().flat_map(|&kind| {
                let counts = &by_kind[kind as usize];
                kind.answers().iter().map(|&answer| counts[answer])
            })
        });
        let accepted = Kind::ALL.iter().flat_map(|&kind| {
            let counts = &self.accepted[kind as usize];
            states(kind).iter().map(|&state| counts[state])
        });
        let wrong = self.sizes.into_iter().chain(self.unsound);
        let wrong = wrong.chain(self.uncommitted);
        let acks = self.last.into_iter().chain(self.many);
        let [gone, present] = &self.unreplayed;
        let unreplayed = UNREPLAYED.iter().map(|&state| gone[state]);
        let unreplayed = unreplayed.chain(*present);
        let all = answers.chain(accepted).chain(self.older);
        let all = all.chain(acks).chain(unreplayed).chain(wrong);
        let ties = self.ties.as_flattened().as_flattened();
        let admitted = self.admitted.as_flattened().as_flattened();
        let rules = ties.iter().chain(admitted).copied();
        all.chain(rules).chain([self.rarest()]).min().unwrap_or(0)
    }

    /// 02, Wish 6: half of the events are under each rule; ties came often, taken and
    /// not taken under each; and so did starts and views, whose identities all have the
    /// rule as they should.
    pub fn tied_often(&self) {
        let [old, new] = Rule::ALL.map(|rule| self.under(rule));
        assert!(
            old.abs_diff(new) <= (old + new) / 50,
            "{old}, {new}\n{self}"
        );
        for by_taken in self.ties {
            for by_state in by_taken {
                assert!(by_state.iter().sum::<u64>() >= 4000, "{self}");
            }
        }
        for [accepted, refused] in self.admitted {
            assert!(accepted.iter().all(|&times| times >= 8000), "{self}");
            assert!(refused.iter().all(|&times| times >= 3000), "{self}");
        }
        assert_eq!(self.misruled, 0, "{self}");
    }

    /// Replays at invalid and at invalid-write: accepted, and refused by question
    /// 16, as the last writer is in the view.
    pub fn replays(&self) -> [[u64; 2]; 2] {
        let accepted = &self.accepted[Kind::Replay as usize];
        [1, 2].map(|state| [accepted[state], self.unreplayed[1][state]])
    }

    /// 02, Wish 5: asks and commits came often, with every answer of their own; and 26
    /// in each of its cases.
    pub fn opened_often(&self) {
        let of = |kind, answer| self.times(kind, answer);
        let ask = [0, 6].map(|answer| of(Kind::Ask, answer));
        let commit = [0, 26, 8, 9].map(|answer| of(Kind::Commit, answer));
        let counts = [&ask[..], &commit].concat();
        let floors = [45_000, 9_000, 35_000, 15_000, 3_000, 2_800];
        let often = counts
            .iter()
            .zip(floors)
            .all(|(&times, floor)| times >= floor);
        assert!(often, "{counts:?} of {floors:?}\n{self}");
        assert!(self.uncommitted.iter().all(|&times| times >= 700), "{self}");
    }

    /// Answers that no event of this kind can give.
    pub fn stray(&self) -> u64 {
        let strays = Kind::ALL.iter().flat_map(|&kind| {
            let answers = (0..28).filter(move |answer| !kind.answers().contains(answer));
            answers.map(move |answer| self.times(kind, answer))
        });
        strays.sum()
    }

    /// How often this kind gave this answer.
    fn times(&self, kind: Kind, answer: usize) -> u64 {
        let rules = self.answers.iter();
        rules.map(|by_kind| by_kind[kind as usize][answer]).sum()
    }

    /// How often the rarest byte of a rule came.
    fn rarest(&self) -> u64 {
        let times = |byte: u8| self.bytes.get(&byte).copied().unwrap_or(0);
        (0..=u8::MAX).map(times).min().unwrap_or(0)
    }

    /// How many events there were in groups with this rule.
    fn under(&self, rule: Rule) -> u64 {
        self.answers[rule as usize].as_flattened().iter().sum()
    }

    pub fn total(&self) -> u64 {
        self.under(Rule::Higher) + self.under(Rule::Lower)
    }
}

/// A tie (02, Wish 6): an accepted INV of the record's version and of another
/// tie-breaker. Gives whether it is taken by the identity's rule.
pub fn tie(me: Replica, before: &Fields, inv: (u32, u8), outcome: &Outcome) -> Option<bool> {
    let tied = inv.0 == before.version && inv.1 != before.tie;
    let wins = is_after(inv, before.stamp(), rule_of(me.settings));
    (outcome.number == 0 && tied).then_some(wins)
}

/// The last ACK: an accepted one after which every other laptop in the view is
/// counted. With it a VAL leaves from write and replay, and nothing from
/// invalid-write (02, Wish 1): else it is none. Gives 0 for an ACK at
/// invalid-write, 1 at write, 2 at replay.
pub fn last_ack(me: Replica, before: &Fields, sender: u8, outcome: &Outcome) -> Option<usize> {
    let others = me.view & !bit(me.number);
    let all = others & !(before.acks | bit(sender)) == 0;
    let at = [2, 3, 4].iter().position(|&state| state == before.state)?;
    let (val, tie, version) = outcome.sent;
    let leaves = match at {
        0 => outcome.sent == (0, 0, 0),
        _ => val == 3 && (version, tie) == before.stamp(),
    };
    (outcome.number == 0 && all && leaves).then_some(at)
}

/// The states in which no record is replayed, though its last writer be gone.
const UNREPLAYED: [usize; 3] = [0, 3, 4];

/// The states at which an event of this kind can be accepted.
fn states(kind: Kind) -> &'static [usize] {
    match kind {
        Kind::Start | Kind::View | Kind::Unknown => &[],
        Kind::Read | Kind::Ask | Kind::Commit => &[0],
        Kind::Write => &[0, 1],
        Kind::Replay => &[1, 2],
        Kind::Inv => &[0, 1, 2, 3, 4],
        Kind::Ack => &[2, 3, 4],
        Kind::Val => &[1, 2, 3, 4],
        Kind::Validate => &[3, 4],
        Kind::Resend => &[0, 3, 4],
    }
}

impl fmt::Display for Tally {
    fn fmt(&self, f: &mut fmt::Formatter<'_>) -> fmt::Result {
        for kind in Kind::ALL {
            write!(f, "{:9}", format!("{kind:?}").to_lowercase())?;
            for &answer in kind.answers() {
                write!(f, " {answer}:{}", self.times(kind, answer))?;
            }
            writeln!(f)?;
            for &state in states(kind) {
                let count = self.accepted[kind as usize][state];
                write!(
                    f,
                    "{}{}:{count}",
                    if state == states(kind)[0] {
                        "          accepted at "
                    } else {
                        " "
                    },
                    letter(state)
                )?;
            }
            if !states(kind).is_empty() {
                writeln!(f)?;
            }
        }
        write!(f, "          inv not greater at")?;
        for (state, count) in self.older.iter().enumerate() {
            write!(f, " {}:{count}", letter(state))?;
        }
        writeln!(f)?;
        for (what, counts) in [
            ("the last ack", self.last),
            ("as many acks, not all,", self.many),
        ] {
            let [x, w, r] = counts;
            writeln!(f, "          {what} at X:{x} W:{w} R:{r}")?;
        }
        for (rule, by_taken) in Rule::ALL.iter().zip(self.ties) {
            for (what, by_state) in ["not taken", "taken"].iter().zip(by_taken) {
                write!(f, "          a tie, {rule:?}, {what}, at")?;
                for (state, count) in by_state.iter().enumerate() {
                    write!(f, " {}:{count}", letter(state))?;
                }
                writeln!(f)?;
            }
        }
        for (event, by_answer) in ["start", "view"].iter().zip(self.admitted) {
            for (answer, [old, new, any]) in ["accepted", "refused"].iter().zip(by_answer) {
                write!(f, "          {event} {answer}, with the rule as ")?;
                writeln!(f, "1:{old} 2:{new} another byte:{any}")?;
            }
        }
        let [old, new] = Rule::ALL.map(|rule| self.under(rule));
        let (rarest, misruled) = (self.rarest(), self.misruled);
        write!(
            f,
            "          {old} under the old rule, {new} under the new; "
        )?;
        writeln!(f, "the rarest byte of a rule {rarest}, {misruled} misruled")?;
        let [gone, present] = &self.unreplayed;
        write!(f, "          no replay, the last writer gone, at")?;
        for state in UNREPLAYED {
            write!(f, " {}:{}", letter(state), gone[state])?;
        }
        write!(f, "; in the view, at")?;
        for (state, count) in present.iter().enumerate() {
            write!(f, " {}:{count}", letter(state))?;
        }
        writeln!(f)?;
        for (count, (name, _)) in self.uncommitted.iter().zip(NOT_AS_OPENED) {
            writeln!(f, "          {count} commits refused by 26: {name}")?;
        }
        let sizes = self.sizes.iter().zip(SIZES);
        for (count, (name, _)) in sizes.chain(self.unsound.iter().zip(UNSOUND)) {
            writeln!(f, "          {count} with {name}")?;
        }
        Ok(())
    }
}

fn letter(state: usize) -> char {
    ['V', 'I', 'X', 'W', 'R'][state]
}
