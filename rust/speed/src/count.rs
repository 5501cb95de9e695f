//! Instructions of a call, counted by valgrind's callgrind.

use std::env::{current_exe, temp_dir};
use std::fs;
use std::io;
use std::process::{id, Command, Stdio};

use crate::side::{measured_calls, About, Side};

/// A side by name.
#[derive(Clone, Copy, PartialEq, Eq)]
pub enum Which {
    Engine,
    Peer,
    Model,
}

impl Which {
    pub fn name(self) -> &'static str {
        match self {
            Which::Engine => "engine",
            Which::Peer => "peer",
            Which::Model => "model",
        }
    }

    pub fn of(name: &str) -> Option<Which> {
        [Which::Engine, Which::Peer, Which::Model]
            .into_iter()
            .find(|w| w.name() == name)
    }
}

/// So many calls on the last record of the table, each freshly prepared.
pub fn calls(about: &About, side: &mut impl Side, calls: u64) {
    let last = about.records - 1;
    about.check(side, last);
    for _ in 0..calls {
        side.prepare(last);
        measured_calls(side, last, last + 1);
    }
}

/// Instructions per call: this program under callgrind, which counts inside
/// `measured_calls` alone.
pub fn instructions(name: &str, which: Which, calls: u64, records: usize) -> io::Result<u64> {
    let out = temp_dir().join(format!("speed-{}-{name}-{}-{records}", id(), which.name()));
    let status = Command::new("valgrind")
        .args(["--quiet", "--tool=callgrind"])
        .arg(format!("--callgrind-out-file={}", out.display()))
        .arg("--toggle-collect=*measured_calls*")
        .arg(current_exe()?)
        .args(["calls", name, which.name()])
        .args([calls.to_string(), records.to_string()])
        .stdout(Stdio::null())
        .status()?;
    let file = fs::read_to_string(&out);
    let _ = fs::remove_file(&out);
    let total = file?
        .lines()
        .find_map(|line| line.strip_prefix("summary: ")?.trim().parse::<u64>().ok())
        .filter(|_| status.success());
    total
        .map(|sum| sum / calls)
        .ok_or_else(|| io::Error::other(format!("callgrind counted nothing of {name}")))
}
