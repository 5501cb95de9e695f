//! Which laptops shall settle their records.

use model::engine::{bit, has};
use model::rng::Rng;

use crate::group::Group;

/// A view with its epoch: one that some laptop holds, the newest, or one that the
/// warden issues now.
pub fn some(rng: &mut Rng, group: &Group) -> (u32, u16) {
    let held: Vec<(u32, u16)> = group
        .members
        .iter()
        .map(|m| (m.me.epoch, m.me.view))
        .collect();
    let newest = held.iter().copied().max().unwrap_or((0, 0));
    let struck = match rng.below(5) {
        0 => return rng.pick(&held).unwrap_or(newest),
        1 => return newest,
        2 => any(rng, newest.1),
        3 => missing(rng, group, newest.1),
        _ => writer(rng, group),
    };
    // A number that no laptop has goes first.
    let numbers = group.members.iter().map(|m| bit(m.me.number));
    let view = newest.1 & !struck & numbers.fold(0, |set, one| set | one);
    match newest.0.checked_add(1) {
        Some(epoch) if view.count_ones() >= 2 => (epoch, view),
        _ => newest,
    }
}

/// A few laptops, or many.
fn any(rng: &mut Rng, view: u16) -> u16 {
    let (times, of) = [(1, 8), (1, 3), (2, 3)][rng.below(3)];
    let numbers = (0..16).filter(|&number| has(view, number));
    numbers
        .filter(|_| rng.chance(times, of))
        .fold(0, |set, n| set | bit(n))
}

/// Those that a laptop still waits for in write or replay: a few, if it can be.
fn missing(rng: &mut Rng, group: &Group, view: u16) -> u16 {
    let mut fit = Vec::new();
    for member in &group.members {
        let records = (0..group.records()).filter_map(|i| member.memory.record(i));
        let waiting = records.filter(|record| record.state >= 3);
        fit.extend(waiting.map(|record| view & !record.acks & !bit(member.me.number)));
    }
    let some: [u16; 3] = std::array::from_fn(|_| rng.pick(&fit).unwrap_or(0));
    let fewest = some.into_iter().min_by_key(|set| set.count_ones());
    fewest.unwrap_or(0)
}

/// The last writer that a laptop waits for in invalid or invalid-write.
fn writer(rng: &mut Rng, group: &Group) -> u16 {
    let mut fit = Vec::new();
    for member in &group.members {
        let records = (0..group.records()).filter_map(|i| member.memory.record(i));
        let waiting = records.filter(|record| matches!(record.state, 1 | 2));
        fit.extend(waiting.map(|record| bit(record.writer)));
    }
    rng.pick(&fit).unwrap_or(0)
}
