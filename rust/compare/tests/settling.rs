//! Document 02, Wish 3: from any situation a record settles by at most 3k - 2
//! events, whoever drives of those that can, and by no fewer in the worst.

use std::collections::HashSet;

use cetskobi::{Laptop, Leaving, Rule, Settings as Group, State, Timestamp};
use compare::settings::Settings;
use compare::settling::{compare, Kind, Rules, Tally};
use settle::{by_hand, by_packet, driver, drivers, follow, held, latest, recipe, steps};
use settle::{Event, Held, Step};

/// How the list begins, the views of how many laptops that can be so at, and how
/// often it came, at least, over all of these.
const KINDS: [(Kind, std::ops::RangeInclusive<usize>, u64); 7] = [
    (Kind::Nothing, 2..=16, 100_000),
    (Kind::ResendAtWrite, 2..=16, 50_000),
    (Kind::ResendAtValid, 2..=16, 5000),
    // Somebody was struck off before.
    (Kind::ResendAtReplay, 2..=15, 3000),
    (Kind::ValidateAtWrite, 2..=15, 5000),
    (Kind::ReplayAtInvalid, 2..=15, 10_000),
    (Kind::ReplayAtInvalidWrite, 2..=15, 2000),
];

/// Two views came: of 14 laptops at most, and rare in such.
const VALIDATE_AT_REPLAY: u64 = 300;

/// How the recipe's list begins, how that of another driver does, and how often it
/// came, at least. No others come: beside a write nobody else can drive, and what
/// is valid on all can only be said again.
const OTHERS: [(Kind, Kind, u64); 18] = [
    (Kind::Nothing, Kind::ResendAtValid, 100_000),
    (Kind::ResendAtReplay, Kind::ResendAtReplay, 800),
    (Kind::ResendAtReplay, Kind::ValidateAtReplay, 30),
    (Kind::ResendAtReplay, Kind::ResendAtValid, 200),
    (Kind::ResendAtReplay, Kind::ReplayAtInvalid, 3000),
    (Kind::ResendAtReplay, Kind::ReplayAtInvalidWrite, 500),
    (Kind::ValidateAtReplay, Kind::ResendAtReplay, 80),
    (Kind::ValidateAtReplay, Kind::ValidateAtReplay, 10),
    (Kind::ValidateAtReplay, Kind::ResendAtValid, 15),
    (Kind::ValidateAtReplay, Kind::ReplayAtInvalid, 100),
    (Kind::ValidateAtReplay, Kind::ReplayAtInvalidWrite, 20),
    (Kind::ResendAtValid, Kind::ResendAtValid, 5),
    (Kind::ResendAtValid, Kind::ReplayAtInvalid, 150),
    (Kind::ResendAtValid, Kind::ReplayAtInvalidWrite, 20),
    (Kind::ReplayAtInvalid, Kind::ReplayAtInvalid, 30_000),
    (Kind::ReplayAtInvalid, Kind::ReplayAtInvalidWrite, 3000),
    (Kind::ReplayAtInvalidWrite, Kind::ReplayAtInvalid, 3000),
    (Kind::ReplayAtInvalidWrite, Kind::ReplayAtInvalidWrite, 800),
];

fn often(tally: &Tally) {
    for (kind, sizes, floor) in KINDS {
        for k in sizes.clone() {
            assert!(tally.times(k, kind) > 0, "no {kind:?} with {k} laptops");
        }
        let times: u64 = sizes.map(|k| tally.times(k, kind)).sum();
        assert!(times >= floor, "{kind:?}: only {times} times");
    }
    let times: u64 = (2..=14)
        .map(|k| tally.times(k, Kind::ValidateAtReplay))
        .sum();
    assert!(times >= VALIDATE_AT_REPLAY, "only {times} times");
    for k in 2..=16 {
        let at_bound = tally.at_bound.get(&k).copied().unwrap_or(0);
        assert!(
            at_bound > 0,
            "3k - 2 events are never needed with {k} laptops"
        );
    }
    assert!(tally.outside > 0 && tally.late > 0);
    // 02, Wish 6: 15,351 and 17,000 ties were counted.
    assert!(tally.rules.iter().all(|&times| times >= 150_000));
    assert!(tally.ties.iter().all(|&times| times >= 8000));

    let mut beside = tally.beside();
    for (recipe, other, floor) in OTHERS {
        let times = beside.remove(&(recipe, other)).unwrap_or(0);
        assert!(
            times >= floor,
            "{other:?} beside {recipe:?}: only {times} times"
        );
    }
    assert!(beside.is_empty(), "{beside:?}");
    // Somebody was struck off before.
    for k in 2..=15 {
        assert!(
            tally.others_with(k) > 0,
            "no other drivers with {k} laptops"
        );
    }
}

#[test]
fn random_situations() {
    let settings = Settings::from_env();
    match compare(&settings, Rules::RIGHT) {
        Ok(tally) => {
            println!("{tally}");
            often(&tally);
        }
        Err(found) => panic!("{settings}\n{found}"),
    }
}

/// So many laptops with one record; these have saved at once, each a text of its own,
/// and all that they sent is lost.
fn unheard(rule: Rule, laptops: u8, savers: &[u8]) -> Vec<Laptop> {
    let view = (1u32 << laptops) - 1;
    let start = |n| Laptop::start(n, view as u16, rule, 1).expect("a fresh start");
    let mut group: Vec<Laptop> = (0..laptops).map(start).collect();
    for &saver in savers {
        let inv = group[usize::from(saver)].write(0, &[saver]);
        let _lost = inv.expect("a save");
    }
    group
}

/// Whether all show the save.
fn settled(group: &[Laptop], saver: u8) -> bool {
    let saved = Timestamp {
        version: 1,
        tie: saver,
    };
    let shows = |l: &Laptop| l.record(0).is_some_and(|r| r.timestamp == saved);
    let text = |l: &Laptop| l.read(0).is_ok_and(|text| text == [saver]);
    group.iter().all(|l| text(l) && shows(l))
}

#[test]
fn a_save_that_nobody_heard_of_takes_3k_less_2() {
    for (k, &rule) in (2..=16).flat_map(|k| Rule::ALL.iter().map(move |rule| (k, rule))) {
        for saver in 0..k {
            let mut group = unheard(rule, k, &[saver]);
            let steps = recipe(rule, &held(&group, 0)).expect("the saver begins");
            assert_eq!(steps.len(), 3 * usize::from(k) - 2);
            assert_eq!(follow(&steps, &mut group, 0, by_packet), Ok(()));
            assert!(settled(&group, saver));
        }
    }
}

/// Document 02, Wish 6: several save at once, and nobody hears of it. Who wins by the
/// group's rule drives, and its text is left on all, by as many events.
#[test]
fn saves_at_once_settle_by_the_rule() {
    for (k, &rule) in (2..=16).flat_map(|k| Rule::ALL.iter().map(move |rule| (k, rule))) {
        let pairs = (0..k).flat_map(|a| (a + 1..k).map(move |b| vec![a, b]));
        for savers in pairs.chain([(0..k).collect()]) {
            let winner = match rule {
                Rule::Higher => savers.iter().max(),
                Rule::Lower => savers.iter().min(),
            };
            let winner = *winner.expect("two or more");
            let mut group = unheard(rule, k, &savers);
            let steps = recipe(rule, &held(&group, 0)).expect("the winner begins");
            assert_eq!(steps.len(), 3 * usize::from(k) - 2);
            assert_eq!(steps[0].at, winner);
            assert_eq!(follow(&steps, &mut group, 0, by_packet), Ok(()));
            assert!(settled(&group, winner), "{rule}: {savers:?}");
        }
    }
}

/// The messages that left a list of events: places in one list of all messages.
type Air = u64;

/// One event of the record, if it is accepted, and the messages after it.
fn act(
    laptop: &mut Laptop,
    event: Event,
    air: Air,
    messages: &mut Vec<Leaving<'static>>,
) -> Option<Air> {
    let left = match event {
        Event::Validate => laptop.validate(0).map(|left| Some(left.into_owned())),
        Event::Resend => laptop.resend(0).map(|left| Some(left.into_owned())),
        Event::Replay => laptop.replay(0).map(|left| Some(left.into_owned())),
        Event::Deliver { left } => by_hand(laptop, &messages[left]),
    };
    let Some(left) = left.ok()? else {
        return Some(air);
    };
    let known = messages.iter().position(|message| *message == left);
    let place = known.unwrap_or_else(|| {
        messages.push(left);
        messages.len() - 1
    });
    assert!(place < 64, "more messages than bits");
    Some(air | 1 << place)
}

/// The fewest events, of all lists, after which all show the save. No write and no
/// view is among them; a message can be delivered to anybody, any number of times,
/// once it has left an event of the list.
fn fewest(group: Vec<Laptop>, saver: u8) -> Option<usize> {
    let mut messages = Vec::new();
    let mut seen = HashSet::new();
    // All that lists of so many events come to, but for what shorter ones do.
    let mut level = vec![(group, 0)];
    for events in 0.. {
        if level.is_empty() {
            break;
        }
        if level.iter().any(|(group, _)| settled(group, saver)) {
            println!("{events} events; {} situations before", seen.len());
            return Some(events);
        }
        let mut next = Vec::new();
        for (group, air) in level {
            let mut all = vec![Event::Validate, Event::Resend, Event::Replay];
            let left = (0..messages.len()).filter(|m| air >> m & 1 == 1);
            all.extend(left.map(|left| Event::Deliver { left }));
            for at in 0..group.len() {
                for event in &all {
                    let mut group = group.clone();
                    let Some(air) = act(&mut group[at], *event, air, &mut messages) else {
                        continue;
                    };
                    let memory = group.iter().map(|l| [l.table(), l.store()].concat());
                    if seen.insert((memory.collect::<Vec<_>>(), air)) {
                        next.push((group, air));
                    }
                }
            }
        }
        level = next;
    }
    None
}

/// The bound cannot be bettered, whoever has saved.
#[test]
fn no_shorter_list_settles() {
    // With no other save the rule is never asked: of many laptops by the old one alone.
    for (rule, most) in [(Rule::Higher, 7), (Rule::Lower, 5)] {
        for (k, saver) in (2..=most).flat_map(|k| (0..k).map(move |n| (k, n))) {
            let bound = 3 * usize::from(k) - 2;
            let group = unheard(rule, k, &[saver]);
            assert_eq!(fewest(group, saver), Some(bound), "{rule}: {k}, {saver}");
        }
    }
}

/// Nor of two saves at once.
#[test]
fn no_shorter_list_settles_a_tie() {
    for (&rule, k) in Rule::ALL.iter().flat_map(|rule| [(rule, 2), (rule, 3)]) {
        let winner = if rule == Rule::Higher { k - 1 } else { 0 };
        let bound = 3 * usize::from(k) - 2;
        let group = unheard(rule, k, &[0, k - 1]);
        assert_eq!(fewest(group, winner), Some(bound), "{rule}: {k}");
    }
}

/// Wrong rules are found, by what this says, after so few entries.
fn caught(wrong: Rules, says: &str, entries: usize) {
    let found = compare(&Settings::USUAL, wrong).expect_err("they are wrong");
    println!("{found}");
    assert!(found.what.contains(says), "{says}");
    assert!(found.shrunk.run.entries.len() <= entries);
}

/// The recipe is wrong.
fn lists(recipe: fn(Group, &[Held]) -> Option<Vec<Step>>) -> Rules {
    let drivers = Rules::RIGHT.drivers;
    Rules { recipe, drivers }
}

/// The other drivers are wrong.
fn driven(drivers: fn(Group, &[Held]) -> Vec<Step>) -> Rules {
    let recipe = Rules::RIGHT.recipe;
    Rules { recipe, drivers }
}

fn all_valid(held: &[Held]) -> bool {
    held.iter().all(|(_, r)| r.state == State::Valid)
}

/// All that hold the latest timestamp in such a state, by this event.
fn holders(group: Group, held: &[Held], event: Event, fits: fn(State) -> bool) -> Vec<Step> {
    let latest = latest(group, held);
    let holders = held.iter().filter(|(_, r)| Some(r.timestamp) == latest);
    let fit = holders.filter(|(_, r)| fits(r.state));
    fit.map(|(at, _)| Step { at: *at, event }).collect()
}

fn waits(state: State) -> bool {
    matches!(state, State::Invalid | State::InvalidWrite)
}

#[test]
fn the_lowest_holder_in_any_state_is_no_driver() {
    fn wrong(group: Group, held: &[Held]) -> Option<Vec<Step>> {
        let replay = holders(group, held, Event::Replay, waits);
        let resend = holders(group, held, Event::Resend, |state| !waits(state));
        let any = replay.into_iter().chain(resend);
        let lowest = any.min_by_key(|step| step.at)?;
        let first = driver(group, held)?;
        match all_valid(held) || first.at == lowest.at {
            true => recipe(group, held),
            false => Some(steps(group, held, lowest)),
        }
    }
    caught(lists(wrong), "refused (16)", 2);
}

/// Whoever waits, though the last writer is in the view.
#[test]
fn the_living_are_not_taken_over() {
    fn wrong(group: Group, held: &[Held]) -> Vec<Step> {
        let mut drivers = drivers(group, held);
        drivers.retain(|step| step.event != Event::Replay);
        drivers.extend(holders(group, held, Event::Replay, waits));
        drivers
    }
    caught(driven(wrong), "refused (16)", 2);
}

/// Whoever shows it, though another was the last writer.
#[test]
fn the_last_writer_alone_says_it_again() {
    fn wrong(group: Group, held: &[Held]) -> Vec<Step> {
        let mut drivers = drivers(group, held);
        if !all_valid(held) {
            let valid = |state| state == State::Valid;
            drivers.extend(holders(group, held, Event::Resend, valid));
        }
        drivers
    }
    caught(driven(wrong), "refused (17)", 7);
}

/// A save or a replay that was overtaken elsewhere.
#[test]
fn a_lesser_save_does_not_go_on() {
    fn wrong(group: Group, held: &[Held]) -> Vec<Step> {
        let mut drivers = drivers(group, held);
        let under_way = |(_, r): &&Held| matches!(r.state, State::Write | State::Replay);
        let lesser = held.iter().filter(under_way).map(|(at, _)| *at);
        let lesser = lesser.filter(|at| drivers.iter().all(|step| step.at != *at));
        let event = Event::Resend;
        let lesser: Vec<Step> = lesser.map(|at| Step { at, event }).collect();
        drivers.extend(lesser);
        drivers
    }
    caught(driven(wrong), "refused (14)", 2);
}

#[test]
fn the_recipes_driver_is_one_of_them() {
    fn wrong(group: Group, held: &[Held]) -> Vec<Step> {
        let skipped = usize::from(!all_valid(held));
        drivers(group, held).into_iter().skip(skipped).collect()
    }
    caught(driven(wrong), "is none of []", 1);
}

/// The recipe's driver alone.
#[test]
fn no_driver_is_left_out() {
    fn wrong(group: Group, held: &[Held]) -> Vec<Step> {
        drivers(group, held).into_iter().take(1).collect()
    }
    caught(driven(wrong), "can drive too", 4);
}

#[test]
fn the_earliest_timestamp_is_not_driven() {
    fn wrong(group: Group, held: &[Held]) -> Option<Vec<Step>> {
        let mut reversed = held.to_vec();
        for (_, r) in &mut reversed {
            let Timestamp { version, tie } = r.timestamp;
            r.timestamp.version = u32::MAX - version;
            r.timestamp.tie = u8::MAX - tie;
        }
        recipe(group, &reversed)
    }
    caught(lists(wrong), "refused (14)", 1);
}

#[test]
fn every_val_is_needed() {
    fn wrong(group: Group, held: &[Held]) -> Option<Vec<Step>> {
        let mut steps = recipe(group, held)?;
        if steps.len() > 1 {
            steps.pop();
        }
        Some(steps)
    }
    caught(lists(wrong), "state: Invalid,", 1);
}

/// An INV to those that have acknowledged: their second ACK is refused.
#[test]
fn acknowledgements_are_not_asked_for_again() {
    fn wrong(group: Group, held: &[Held]) -> Option<Vec<Step>> {
        let mut forgotten = held.to_vec();
        forgotten
            .iter_mut()
            .for_each(|(_, r)| r.acks = Default::default());
        recipe(group, &forgotten)
    }
    caught(lists(wrong), "refused (13)", 4);
}

/// All that are left have acknowledged: no ACK comes that would settle the record.
#[test]
fn a_validation_is_needed() {
    fn wrong(group: Group, held: &[Held]) -> Option<Vec<Step>> {
        let mut steps = recipe(group, held)?;
        if let Some(first) = steps.first_mut().filter(|s| s.event == Event::Validate) {
            first.event = Event::Resend;
        }
        Some(steps)
    }
    caught(lists(wrong), "state: Write,", 4);
}

/// One more event than the bound, all accepted.
#[test]
fn a_resend_too_many_is_found() {
    fn wrong(group: Group, held: &[Held]) -> Option<Vec<Step>> {
        let mut steps = recipe(group, held)?;
        let first = steps.first().copied().filter(|s| s.event == Event::Resend);
        steps.extend(first.filter(|_| steps.len() == 3 * held.len() - 2));
        Some(steps)
    }
    caught(lists(wrong), "too many", 1);
}

/// What all show valid needs no event.
#[test]
fn a_valid_record_is_left_alone() {
    fn wrong(group: Group, held: &[Held]) -> Option<Vec<Step>> {
        let resend = |at| Step {
            at,
            event: Event::Resend,
        };
        let last = held.iter().find(|(n, r)| all_valid(held) && r.writer == *n);
        last.map(|(at, _)| vec![resend(*at)])
            .or_else(|| recipe(group, held))
    }
    caught(lists(wrong), "1 steps", 0);
}

/// Document 02, Wish 6: the recipe goes by one rule, whichever the group has; and the
/// drivers do.
#[test]
fn the_other_rules_latest_is_not_driven() {
    fn old(_: Group, held: &[Held]) -> Option<Vec<Step>> {
        recipe(Rule::Higher, held)
    }
    fn new(_: Group, held: &[Held]) -> Option<Vec<Step>> {
        recipe(Rule::Lower, held)
    }
    // Two saves: the lesser one's VAL is refused.
    caught(lists(old), "refused (14)", 2);
    caught(lists(new), "refused (14)", 2);
    fn drivers_old(_: Group, held: &[Held]) -> Vec<Step> {
        drivers(Rule::Higher, held)
    }
    caught(driven(drivers_old), "is none of", 2);
}
