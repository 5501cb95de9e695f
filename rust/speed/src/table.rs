//! The table of all sides, and the rules: an event's cost grows neither with the table nor with
//! the packet, and a packet in one pass stays near the model's.

use crate::cases::{self, Visit};
use crate::count::{instructions, Which};
use crate::measure::{ratios, Ratio, Ratios};
use crate::packets;
use crate::side::{About, Side};

/// The records of the table that times are taken on.
const RECORDS: usize = 64;
/// Calls for a count.
const CALLS: u64 = 20;
/// Records of the two tables that are compared, and how far two counts may be apart.
const FEW: usize = 1;
const MANY: usize = 4096;
const PERCENT: u64 = 2;
/// A full packet in one pass, and how much of the model's instructions it may take.
const PASS: &str = "fetch-pass";
const PASS_PERCENT: u64 = 125;

/// Times of every case.
#[derive(Default)]
struct Times(Vec<(About, Ratios)>);

impl Visit for Times {
    fn case<E: Side, C: Side, M: Side>(
        &mut self,
        about: About,
        (engine, peer): (impl FnOnce() -> E, Option<impl FnOnce() -> C>),
        model: impl FnOnce() -> M,
    ) {
        let (mut engine, mut peer, mut model) = (engine(), peer.map(|peer| peer()), model());
        about.check_all(&mut engine);
        if let Some(peer) = &mut peer {
            about.check_all(peer);
        }
        about.check_all(&mut model);
        let ratios = ratios(&about, &mut engine, &mut peer, &mut model);
        self.0.push((about, ratios));
    }
}

pub fn print() -> Result<(), String> {
    let mut times = Times::default();
    cases::all(RECORDS, &mut times);

    println!("| case | engine, instructions | at 4,096 records | C, instructions | engine : C | model, instructions | engine : model | time : C, best | time : C, median | time : model, best | time : model, median |");
    println!("|---|--:|--:|--:|--:|--:|--:|--:|--:|--:|--:|");
    let mut grown = vec![];
    for (about, ratios) in &times.0 {
        let count = |which, records| count(about.name, which, records);
        let engine = count(Which::Engine, FEW)?;
        let model = count(Which::Model, FEW)?;
        let mut many = String::new();
        if about.flat {
            let engine_many = count(Which::Engine, MANY)?;
            if grows(engine, engine_many) {
                grown.push(about.name);
            }
            many = thousands(engine_many);
        }
        let mut cells = vec![about.title.to_owned(), thousands(engine), many];
        cells.extend(match ratios.peer {
            Some(_) => beside(engine, count(Which::Peer, FEW)?),
            None => Default::default(),
        });
        cells.extend(beside(engine, model));
        cells.extend(ratios.peer.as_ref().map(shown).unwrap_or_default());
        cells.extend(shown(&ratios.model));
        println!("| {} |", cells.join(" | "));
    }
    verdict(&[(TABLE, grown)])
}

/// The count of another side, and the engine's divided by it.
fn beside(engine: u64, other: u64) -> [String; 2] {
    let ratio = engine as f64 / other as f64;
    [thousands(other), format!("{ratio:.2}")]
}

fn shown(time: &Ratio) -> [String; 2] {
    [time.best, time.median].map(|ratio| format!("{ratio:.2}"))
}

/// The names of the events under the rule, each call checked on all sides.
#[derive(Default)]
struct Flat(Vec<&'static str>);

impl Visit for Flat {
    fn case<E: Side, C: Side, M: Side>(
        &mut self,
        about: About,
        (engine, peer): (impl FnOnce() -> E, Option<impl FnOnce() -> C>),
        model: impl FnOnce() -> M,
    ) {
        if about.flat {
            about.check_all(&mut engine());
            if let Some(peer) = peer {
                about.check_all(&mut peer());
            }
            about.check_all(&mut model());
            self.0.push(about.name);
        }
    }
}

/// A rule, as it is said where it is broken.
type Rule = &'static str;
const TABLE: Rule = "the cost changes with the table";
const PACKET: Rule = "the cost changes with the packet";
const MODEL: Rule = "the cost is too far above the model's";

/// The rules alone.
pub fn flat() -> Result<(), String> {
    verdict(&[(TABLE, tables()?), (PACKET, messages()?), (MODEL, pass()?)])
}

fn count(name: &str, which: Which, records: usize) -> Result<u64, String> {
    instructions(name, which, CALLS, records).map_err(|e| e.to_string())
}

/// The events whose cost changes with the table.
fn tables() -> Result<Vec<&'static str>, String> {
    let mut events = Flat::default();
    cases::all(MANY, &mut events);
    let mut grown = vec![];
    for name in events.0 {
        let few = count(name, Which::Engine, FEW)?;
        let many = count(name, Which::Engine, MANY)?;
        println!("{name}: {few} instructions in a table of {FEW}, {many} in one of {MANY}");
        if grows(few, many) {
            grown.push(name);
        }
    }
    Ok(grown)
}

/// The accepted messages whose cost changes with their packet.
fn messages() -> Result<Vec<&'static str>, String> {
    let mut taken = Flat::default();
    packets::taken(&mut taken);
    let mut grown = vec![];
    for pair in taken.0.chunks_exact(2) {
        let (one, last) = (pair[0], pair[1]);
        let few = count(one, Which::Engine, FEW)?;
        let many = count(last, Which::Engine, FEW)?;
        println!("{one}: {few} instructions, {last}: {many}");
        if grows(few, many) {
            grown.push(last);
        }
    }
    Ok(grown)
}

/// The pass, if it costs too much beside the model's.
fn pass() -> Result<Vec<&'static str>, String> {
    let engine = count(PASS, Which::Engine, FEW)?;
    let model = count(PASS, Which::Model, FEW)?;
    let [_, ratio] = beside(engine, model);
    println!("{PASS}: {engine} instructions, {model} in the model: {ratio}");
    Ok(exceeds(engine, model).then_some(PASS).into_iter().collect())
}

fn grows(few: u64, many: u64) -> bool {
    few.abs_diff(many) * 100 > few * PERCENT
}

fn exceeds(engine: u64, model: u64) -> bool {
    engine * 100 > model * PASS_PERCENT
}

fn verdict(rules: &[(Rule, Vec<&str>)]) -> Result<(), String> {
    let broken = rules.iter().filter(|(_, names)| !names.is_empty());
    let lines: Vec<String> = broken
        .map(|(rule, names)| format!("{rule}: {}", names.join(", ")))
        .collect();
    match lines[..] {
        [] => Ok(()),
        _ => Err(lines.join("\n")),
    }
}

/// 12,345
fn thousands(n: u64) -> String {
    match n {
        0..1000 => n.to_string(),
        _ => format!("{},{:03}", thousands(n / 1000), n % 1000),
    }
}

#[cfg(test)]
mod tests {
    use super::*;

    #[test]
    fn a_cost_that_changes_is_seen() {
        assert!(!grows(1000, 1020) && !grows(1000, 980));
        assert!(grows(1000, 1021) && grows(1000, 979));
        // The last of 64 messages, if each were found by its number alone.
        assert!(grows(313, 1718));
    }

    #[test]
    fn a_pass_far_above_the_model_is_seen() {
        assert!(!exceeds(1250, 1000));
        assert!(exceeds(1251, 1000));
    }

    #[test]
    fn a_broken_rule_fails() {
        assert_eq!(verdict(&[(TABLE, vec![]), (MODEL, vec![])]), Ok(()));
        let broken = verdict(&[
            (TABLE, vec![]),
            (PACKET, vec!["a", "b"]),
            (MODEL, vec!["c"]),
        ]);
        let said = format!("{PACKET}: a, b\n{MODEL}: c");
        assert_eq!(broken, Err(said));
    }
}
