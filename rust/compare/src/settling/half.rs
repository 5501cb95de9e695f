//! A part of the recipe, in the group itself: so large groups too finish saves, or
//! nearly do.

use cetskobi::{Record, Settings};
use model::engine::has;
use model::rng::Rng;
use settle::{recipe, Held, Step};

use crate::group::{Group, Member, Schedule, What};
use crate::single::Event;

/// The schedule is asked for a part of the recipe of some record, at the newest
/// view that any laptop holds.
pub fn settle(rng: &mut Rng, group: &Group, schedule: &mut Schedule) {
    let held = group.members.iter().map(|m| (m.me.epoch, m.me.view));
    let Some((epoch, set)) = held.max() else {
        return;
    };
    let members = group.members.iter().enumerate();
    let members: Vec<(usize, &Member)> = members.filter(|(_, m)| has(set, m.me.number)).collect();
    if members.len() < set.count_ones() as usize {
        return;
    }
    let i = rng.below(group.records());
    let own = |event| What::Own { i, event };
    for (at, member) in &members {
        if member.me.epoch < epoch {
            schedule.ask(*at, own(Event::View { epoch, set }));
        }
    }
    let record = |m: &Member| Record::from_bytes(m.memory.record(i)?.bytes());
    let held = members
        .iter()
        .filter_map(|(_, m)| Some((m.me.number, record(m)?)));
    let mut held: Vec<Held> = held.collect();
    held.sort_by_key(|h| h.0);
    let settings = Settings::from(members[0].1.me.settings);
    let steps = recipe(settings, &held).unwrap_or_default();
    let part = steps.len() - [0, rng.below(steps.len() + 1)][rng.below(2)];
    // Of these some are left out.
    let lost = [0, 8][rng.below(2)];
    let mut ids = Vec::new();
    for Step { at, event } in &steps[..part] {
        let at = members.iter().find(|(_, m)| m.me.number == *at);
        let Some((at, _)) = at else { return };
        let what = match event {
            settle::Event::Validate => own(Event::Validate),
            settle::Event::Resend => own(Event::Resend),
            settle::Event::Replay => own(Event::Replay),
            settle::Event::Deliver { .. } if rng.chance(lost, 100) => own(Event::Read),
            settle::Event::Deliver { left } => What::Deliver { of: ids[*left] },
        };
        ids.push(schedule.ask(*at, what));
    }
}
