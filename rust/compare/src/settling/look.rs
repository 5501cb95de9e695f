use cetskobi::raw::{self, Replica};
use cetskobi::{Laptop, Lent, Record, Rule, Settings, State, Timestamp};
use model::engine::{has, Slot};
use settle::{by_hand, by_packet, follow, held, steps, Carry, Event, Held, Step};

use super::Kind;
use crate::group::Group;
use crate::memory::Memory;

/// Which lists are followed, in groups with these settings.
#[derive(Clone, Copy)]
pub struct Rules {
    /// The recipe's.
    pub recipe: fn(Settings, &[Held]) -> Option<Vec<Step>>,
    /// The first events of all that can drive.
    pub drivers: fn(Settings, &[Held]) -> Vec<Step>,
}

impl Rules {
    /// Those of `rust/settle`.
    pub const RIGHT: Rules = Rules {
        recipe: settle::recipe,
        drivers: settle::drivers,
    };
}

/// A copy of the group's memory, in which all laptops of a view are at its epoch.
pub struct Copies<'a> {
    group: &'a Group,
    laptops: Vec<(Replica, Memory)>,
    view: u16,
    /// Laptops of the view that were told of it now.
    pub told: usize,
}

impl Copies<'_> {
    /// Who is late is given the view. None if one of its laptops does not exist, or
    /// is beyond that epoch.
    pub fn of(group: &Group, epoch: u32, view: u16) -> Result<Option<Copies<'_>>, String> {
        let mut told = 0;
        let mut laptops = Vec::new();
        for member in &group.members {
            let mut me = member.me;
            if has(view, me.number) && me.epoch < epoch {
                let admission = raw::view(me, epoch, view);
                if admission.number != 0 {
                    return Err(format!("{me:?} answers {} to the view", admission.number));
                }
                me = admission.replica;
                told += 1;
            }
            laptops.push((me, member.memory.clone()));
        }
        let there = laptops
            .iter()
            .filter(|(me, _)| has(view, me.number) && (me.epoch, me.view) == (epoch, view));
        let all = there.count() == view.count_ones() as usize;
        Ok(all.then_some(Copies {
            group,
            laptops,
            view,
            told,
        }))
    }

    /// How many laptops are outside the view: dead, struck off, or at another epoch.
    pub fn outside(&self) -> usize {
        self.laptops.len() - self.view.count_ones() as usize
    }

    /// The laptops of the view.
    fn lent(&mut self) -> Vec<Lent<'_>> {
        let of_view = self.laptops.iter_mut();
        let of_view = of_view.filter(|l| has(self.view, l.0.number));
        let lent = of_view.map(|(me, memory)| {
            let (table, store) = memory.lend();
            Laptop::from_parts(*me, table, store)
        });
        lent.collect()
    }

    /// Follows a list: then all of the view show record `i` with the latest timestamp
    /// and its text. After that it is put back, and all is as it was.
    fn follow(&mut self, i: usize, steps: &[Step], latest: &Text) -> Result<(), String> {
        let mut laptops = self.lent();
        if steps.len() > 3 * laptops.len() - 2 {
            return Err(format!("too many: {steps:?}"));
        }
        // Both ways that a message comes.
        let carry: Carry<_, _> = [by_hand, by_packet][i % 2];
        follow(steps, &mut laptops, i, carry).map_err(|halt| format!("{halt} of {steps:?}"))?;
        for laptop in &laptops {
            let now = laptop.record(i);
            let same = now.is_some_and(|r| r.timestamp == latest.0.timestamp);
            if !laptop.shows_valid(i) || !same {
                return Err(format!("{laptop:?} has {now:?} after {steps:?}"));
            }
            if !same_text(latest, &text(laptop, i)?) {
                return Err(format!("{laptop:?} has another text after {steps:?}"));
            }
        }
        self.put_back(i)
    }

    /// Who can act on record `i`, of those that hold this timestamp: the first event
    /// that the engine accepts from each.
    fn able(&mut self, i: usize, latest: Timestamp) -> Result<Vec<Step>, String> {
        let mut able = Vec::new();
        for laptop in &mut self.lent() {
            let at = laptop.number();
            if laptop.record(i).is_some_and(|r| r.timestamp == latest) {
                let all = [Event::Validate, Event::Resend, Event::Replay];
                let mut all = all.map(|event| Step { at, event }).into_iter();
                let laptop = std::slice::from_mut(laptop);
                able.extend(all.find(|step| follow(&[*step], laptop, i, by_hand).is_ok()));
            }
        }
        self.put_back(i)?;
        Ok(able)
    }

    /// Puts record `i` back at the laptops of the view. Nothing else has moved.
    fn put_back(&mut self, i: usize) -> Result<(), String> {
        for ((me, memory), member) in self.laptops.iter_mut().zip(&self.group.members) {
            let before = &member.memory;
            let moved = has(self.view, me.number);
            if let (true, Some(record), Some(slot)) = (moved, before.record(i), before.slot(i)) {
                memory.put_record(i, &record);
                memory.put_slot(i, slot);
            }
            if let Some(what) = memory.difference(before) {
                return Err(format!("{me:?}: {what} (after, before)"));
            }
        }
        Ok(())
    }
}

/// A record, and its bytes in the store.
type Text = (Record, Slot);

fn text(laptop: &Lent, i: usize) -> Result<Text, String> {
    let slot = laptop.store().as_chunks().0.get(i);
    let text = laptop.record(i).zip(slot.copied());
    text.ok_or_else(|| format!("{laptop:?} has no record {i}"))
}

fn same_text(one: &Text, other: &Text) -> bool {
    (one.0.len, one.1) == (other.0.len, other.1)
}

/// The record with the latest timestamp, by the group's rule. All that hold that have
/// one text.
fn latest(laptops: &[Lent], rule: Rule, i: usize) -> Result<Text, String> {
    let texts: Result<Vec<Text>, String> = laptops.iter().map(|l| text(l, i)).collect();
    let texts = texts?;
    let order = |a: &&Text, b: &&Text| a.0.timestamp.compare(b.0.timestamp, rule);
    let latest = texts.iter().max_by(order);
    let latest = *latest.ok_or("no laptop has it")?;
    let mut holders = texts.iter().filter(|t| t.0.timestamp == latest.0.timestamp);
    match holders.all(|t| same_text(t, &latest)) {
        true => Ok(latest),
        false => Err(format!("several texts of {:?}", latest.0)),
    }
}

/// How a list begins, and how many events it takes.
pub type List = (Kind, usize);

/// What settled a record.
pub struct Settled {
    pub rule: Rule,
    /// At the outset some laptop held the latest timestamp's version with another
    /// tie-breaker.
    pub tied: bool,
    /// The recipe's list, and those of the other drivers.
    pub recipe: List,
    pub others: Vec<List>,
}

/// Follows the recipe for record `i`, and then the list of every other driver, each
/// on the same memory; no other can drive.
pub fn settles(copies: &mut Copies, i: usize, rules: Rules) -> Result<Settled, String> {
    let laptops = copies.lent();
    let settings = laptops.first().ok_or("no laptops")?.settings();
    let held = held(&laptops, i);
    let latest = latest(&laptops, settings.rule, i)?;
    let list = |steps: &[Step]| (Kind::of(&held, steps), steps.len());

    let recipe = (rules.recipe)(settings, &held);
    let recipe = recipe.ok_or_else(|| format!("nobody begins: {held:?}"))?;
    let all_valid = held.iter().all(|(_, r)| r.state == State::Valid);
    if all_valid != recipe.is_empty() {
        return Err(format!("{} steps from {held:?}", recipe.len()));
    }
    copies.follow(i, &recipe, &latest)?;

    let drivers = (rules.drivers)(settings, &held);
    let first = recipe.first();
    if first.is_some_and(|first| !drivers.contains(first)) {
        return Err(format!("{first:?} is none of {drivers:?}"));
    }
    let mut others = Vec::new();
    for other in drivers.iter().filter(|other| Some(*other) != first) {
        let steps = steps(settings, &held, *other);
        copies.follow(i, &steps, &latest)?;
        others.push(list(&steps));
    }
    let mut able = copies.able(i, latest.0.timestamp)?;
    able.retain(|step| !drivers.contains(step));
    if !able.is_empty() {
        return Err(format!("{able:?} can drive too, beside {drivers:?}"));
    }
    let Timestamp { version, tie } = latest.0.timestamp;
    let ties = |r: &Record| r.timestamp.version == version && r.timestamp.tie != tie;
    Ok(Settled {
        rule: settings.rule,
        tied: held.iter().any(|(_, r)| ties(r)),
        recipe: list(&recipe),
        others,
    })
}
