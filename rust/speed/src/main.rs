//! The engine's speed beside that of the C peer and of the model.
//!
//!     speed                              the table, in Markdown
//!     speed flat                         no event's cost grows with the table, no message's with the packet
//!     speed calls NAME SIDE CALLS RECORDS     so many calls, for callgrind

mod cases;
mod count;
mod lent;
mod measure;
mod packets;
mod plain;
mod scripts;
mod side;
mod table;

use std::env::args;
use std::process::ExitCode;

use cases::Visit;
use count::Which;
use side::{About, Side};

fn main() -> ExitCode {
    let args: Vec<String> = args().skip(1).collect();
    let args: Vec<&str> = args.iter().map(String::as_str).collect();
    let done = match args[..] {
        [] => table::print(),
        ["flat"] => table::flat(),
        ["calls", name, side, calls, records] => run(name, side, calls, records),
        _ => Err("speed, speed flat or speed calls NAME SIDE CALLS RECORDS".into()),
    };
    match done {
        Ok(()) => ExitCode::SUCCESS,
        Err(why) => {
            eprintln!("{why}");
            ExitCode::FAILURE
        }
    }
}

/// The calls of one case on one side.
struct Calls<'a> {
    name: &'a str,
    which: Which,
    calls: u64,
    found: bool,
}

impl Visit for Calls<'_> {
    fn case<E: Side, C: Side, M: Side>(
        &mut self,
        about: About,
        (engine, peer): (impl FnOnce() -> E, Option<impl FnOnce() -> C>),
        model: impl FnOnce() -> M,
    ) {
        if about.name != self.name {
            return;
        }
        self.found = true;
        match (self.which, peer) {
            (Which::Engine, _) => count::calls(&about, &mut engine(), self.calls),
            (Which::Peer, Some(peer)) => count::calls(&about, &mut peer(), self.calls),
            (Which::Peer, None) => self.found = false,
            (Which::Model, _) => count::calls(&about, &mut model(), self.calls),
        }
    }
}

fn run(name: &str, side: &str, calls: &str, records: &str) -> Result<(), String> {
    let number = |text: &str| text.parse::<u64>().map_err(|e| format!("{text}: {e}"));
    let mut visit = Calls {
        name,
        which: Which::of(side).ok_or(format!("no side {side}"))?,
        calls: number(calls)?,
        found: false,
    };
    cases::all(number(records)? as usize, &mut visit);
    packets::taken(&mut visit);
    visit.found.then_some(()).ok_or(format!("no case {name}"))
}
