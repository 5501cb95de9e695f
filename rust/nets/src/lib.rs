//! A morning at the nets: a group of laptops on the proved engine, each with
//! hut software as docs/GUIDE.md has it, over a radio link that loses, repeats
//! and holds back packets. After every event the group's agreement is checked
//! as document 01 words it, and what document 02's Wish 5 promises of a laptop.
//!
//! [`run`] plays one morning. Equal [`Settings`] give equal [`Report`]s.

#![forbid(unsafe_code)]
#![warn(missing_docs)]

mod agreement;
mod air;
mod chain;
mod counts;
mod failure;
mod fate;
mod fault;
mod figures;
mod group;
mod history;
mod holdings;
mod hut;
mod layout;
mod link;
mod morning;
mod neighbours;
mod opening;
mod options;
mod outbox;
mod plan;
mod report;
mod ringer;
mod saves;
mod settings;
mod settled;
mod slip;
mod spread;
mod text;
mod ties;
mod times;
mod unsettled;
mod visit;

pub use agreement::Disagreement;
pub use counts::Counts;
pub use failure::{Cause, Failure};
pub use fault::Fault;
pub use morning::run;
pub use opening::Unkept;
pub use options::{Command, HELP};
pub use report::Report;
pub use settings::Settings;

/// The simulation's clock. A tick is a second, as in the guide; only the units
/// in the report rest on that.
pub(crate) type Tick = u32;
