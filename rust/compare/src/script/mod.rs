//! Scripts of the playing program.

mod some;
mod tally;

pub use some::some_script;
pub use tally::Tally;

use std::fmt;

use cetskobi::raw::{self, Played};
use model::player::{self, INPUT_LIMIT};

use crate::bytes::Bytes;
use crate::settings::Settings;
use crate::shrink::{drops, shrink, Found, Smaller};

/// The number of a script that is too long, or an output that is too short. No
/// question has it.
pub const BEYOND: u8 = 255;

/// What lay in the output before.
const OLD: u8 = 0xa5;

/// A script by its lines, without their line feeds.
#[derive(Clone, PartialEq)]
pub struct Script {
    pub lines: Vec<Bytes>,
    /// Does the last line end with a line feed?
    pub ended: bool,
    /// The output's bytes above what it must have, or below.
    pub room: isize,
}

impl Script {
    pub fn bytes(&self) -> Vec<u8> {
        let lines: Vec<&[u8]> = self.lines.iter().map(|line| &line[..]).collect();
        let mut bytes = lines.join(&b'\n');
        if self.ended {
            bytes.push(b'\n');
        }
        bytes
    }

    /// The output's bytes: 25 for each of the script's, and 2.
    fn out(&self, bytes: &[u8]) -> usize {
        (25 * bytes.len() + 2).saturating_add_signed(self.room)
    }
}

impl fmt::Debug for Script {
    fn fmt(&self, f: &mut fmt::Formatter<'_>) -> fmt::Result {
        let text = self.bytes();
        write!(f, "\"{}\"", text.escape_ascii())?;
        match self.room {
            0 => Ok(()),
            room => write!(f, " with {room} more bytes of output"),
        }
    }
}

/// Plays a script into an output.
pub type Play = fn(&[u8], &mut [u8]) -> Played;

pub fn by_engine(script: &[u8], out: &mut [u8]) -> Played {
    raw::play(script, out)
}

pub fn by_model(script: &[u8], out: &mut [u8]) -> Played {
    if script.len() > INPUT_LIMIT || out.len() < 25 * script.len() + 2 {
        return Played {
            number: BEYOND,
            len: 0,
        };
    }
    let printed = player::play(script);
    out[..printed.len()].copy_from_slice(&printed);
    Played {
        number: 0,
        len: printed.len(),
    }
}

/// The outputs of both sides.
#[derive(Default)]
struct Bench {
    engine: Vec<u8>,
    other: Vec<u8>,
}

impl Bench {
    /// What both print, or how they differ.
    fn difference(&mut self, script: &Script, other: Play) -> Result<&[u8], String> {
        let bytes = script.bytes();
        for out in [&mut self.engine, &mut self.other] {
            out.clear();
            out.resize(script.out(&bytes), OLD);
        }
        let a = by_engine(&bytes, &mut self.engine);
        let b = other(&bytes, &mut self.other);
        if a == b && self.engine == self.other {
            return Ok(&self.engine[..a.len]);
        }
        let show = |out: &[u8], played: Played| {
            let printed = out.get(..played.len).unwrap_or_default();
            let lines = String::from_utf8_lossy(printed).replace('\n', " / ");
            format!("{} with {}: {lines}", played.number, played.len)
        };
        let (a, b) = (show(&self.engine, a), show(&self.other, b));
        Err(format!("engine {a}, other {b}"))
    }
}

/// Random scripts of the usual count.
const SCRIPTS: usize = 25_000;

pub fn compare(settings: &Settings, other: Play) -> Result<Tally, Box<Found<Script>>> {
    let mut rng = settings.rng("script");
    let mut bench = Bench::default();
    let mut tally = Tally::default();
    for _ in 0..SCRIPTS * settings.times {
        let script = some_script(&mut rng);
        match bench.difference(&script, other) {
            Ok(printed) => tally.count(&script.lines, printed),
            Err(what) => {
                let again = |script: &Script| bench.difference(script, other).err();
                return Err(Box::new(shrink(script, what, again)));
            }
        }
    }
    Ok(tally)
}

impl Smaller for Script {
    fn smaller(&self) -> Box<dyn Iterator<Item = Script> + '_> {
        let fewer = drops(&self.lines).map(|lines| Script {
            lines,
            ..self.clone()
        });
        let shorter = (0..self.lines.len()).flat_map(move |k| {
            drops(&self.lines[k]).map(move |line| {
                let mut script = self.clone();
                script.lines[k] = Bytes(line);
                script
            })
        });
        let feed = self.ended.then(|| Script {
            ended: false,
            ..self.clone()
        });
        let room = (self.room != 0).then(|| Script {
            room: 0,
            ..self.clone()
        });
        Box::new(fewer.chain(room).chain(feed).chain(shorter))
    }
}
