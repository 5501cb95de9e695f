//! Whole groups at work: every laptop's memory by the engine and by the model,
//! compared after every event; and demand 3 of what the engine holds.

mod member;
mod play;
mod run;
mod schedule;

pub use member::Member;
pub use play::{by_hand, by_packet, Carry, Group, OnTable, Post};
pub use run::{Entry, Run, What};
pub use schedule::Schedule;

use std::collections::BTreeMap;

use crate::settings::Settings;
use crate::shrink::{shrink, Found};

/// How often each thing came about, in groups with the old rule of ties and with the
/// new.
pub type Tally = BTreeMap<String, [u64; 2]>;

/// Records, entries and runs of each size.
const SIZES: [(usize, usize, usize); 4] = [
    (64, 500, 2500),
    (100, 2000, 100),
    (1000, 4000, 20),
    (4096, 20_000, 6),
];

/// Random runs by the engine and by `other`, which is the model; messages come
/// as `carry` brings them.
pub fn compare(
    settings: &Settings,
    carry: Carry,
    other: OnTable,
) -> Result<Tally, Box<Found<Run>>> {
    compare_runs(settings, carry, other, false)
}

/// The same, but some messages come several at once, in packets that are accepted
/// once; the others come out of packets of their own.
pub fn compare_in_packets(settings: &Settings, other: OnTable) -> Result<Tally, Box<Found<Run>>> {
    compare_runs(settings, by_packet, other, true)
}

fn compare_runs(
    settings: &Settings,
    carry: Carry,
    other: OnTable,
    packets: bool,
) -> Result<Tally, Box<Found<Run>>> {
    let mut rng = settings.rng("group");
    let mut tally = Tally::new();
    for (records, entries, runs) in SIZES {
        for _ in 0..runs * settings.times {
            let (mut run, mut schedule) = Schedule::start(&mut rng, records);
            if packets {
                schedule.in_packets();
            }
            let mut play = |run: &mut Run| {
                let mut group = Group::start(run, carry, other)?;
                for id in 0..entries {
                    let (at, what) = schedule.next(&mut rng, &group);
                    run.entries.push(Entry { id, at, what });
                    group.play(&run.entries[id], &mut tally)?;
                }
                group.check_all()
            };
            if let Err(what) = play(&mut run) {
                let again = |run: &Run| run.play(carry, other).err();
                return Err(Box::new(shrink(run, what, again)));
            }
            tally.entry("runs".to_owned()).or_default()[run.rule as usize] += 1;
        }
    }
    Ok(tally)
}
