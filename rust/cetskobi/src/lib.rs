//! The record engine of a bird-ringing group, for Rust.
//!
//! Two to sixteen laptops keep up to 4,096 ring records in step by the Hermes
//! protocol with membership epochs, over a radio link that loses, repeats and
//! holds back messages. The engine behind this crate is written in Rattle and
//! proved: for every input the answer, the records and the store are what
//! document 01 says, with Wishes 1, 2, 4, 5 and 6 of document 02. This crate calls
//! it with Rust's types and adds no rule.
//!
//! * [`Settings`] are what is fixed at a group's start: by which [`Rule`] a tie goes.
//! * [`Laptop`] is one laptop with its records. Each event on it is accepted,
//!   with what leaves, or refused with its [`Refusal`]; a refused event has
//!   changed nothing.
//! * [`Laptop::ask`] opens a record, and [`Laptop::commit`] saves over what was
//!   [`Opened`], if the record is still as it was opened.
//! * [`Leaving`] is what leaves an event: a message, its bytes and who gets it.
//!   [`Arriving`] is what comes in.
//! * [`packet`] puts messages into the bytes that go on air, and takes them out.
//!   [`Laptop::deliver_next`] takes a packet's messages in, one by one, and an
//!   [`Arrival`] is what came of one.
//! * [`play()`] plays a script of a small group, as the playing program does.
//! * [`raw`] has the exported functions as they are, over slices and numbers.
//!
//! ```
//! use cetskobi::{Laptop, Refusal, Rule};
//!
//! # fn main() -> Result<(), Refusal> {
//! // Laptops 0 and 1 of a group of two, one record each.
//! let mut net = Laptop::start(0, 0b11, Rule::Lower, 1)?;
//! let mut hut = Laptop::start(1, 0b11, Rule::Lower, 1)?;
//!
//! // A ringer at the net opens the record, and saves over what she saw. Until the
//! // hut has acknowledged, neither shows it.
//! let opened = net.ask(0)?;
//! assert_eq!(opened.text(), b"");
//! let inv = net.commit(opened, b"Blue tit, wing 62")?;
//! let ack = hut.deliver(inv.arriving())?.leaving();
//! let ack = ack.expect("an INV is acknowledged").into_owned();
//! assert_eq!(hut.read(0), Err(Refusal::NotReadable));
//!
//! // The last acknowledgement settles the record, and its validation leaves.
//! let val = net.deliver(ack.arriving())?.leaving();
//! let val = val.expect("the hut was the last that was missing");
//! assert_eq!(hut.deliver(val.arriving())?.leaving(), None);
//! assert_eq!(net.read(0)?, b"Blue tit, wing 62");
//! assert_eq!(hut.read(0)?, b"Blue tit, wing 62");
//! # Ok(())
//! # }
//! ```
//!
//! In a hut the messages go by radio, as [packets](packet).
//!
//! # What is the caller's
//!
//! The radio, choosing who is alive, and the disk. The agreement that is proved
//! of a whole group has premises that the caller keeps: the laptops of a group
//! have different numbers and equally many records, each starts fresh once with
//! the same settings and the same first view, and is never set back to an older
//! state; one view is issued for each epoch number, within all earlier ones; a delivered message
//! was sent by a laptop of the group and is unaltered.

#![warn(missing_docs)]
#![deny(unsafe_code)]

mod arrival;
mod arriving;
mod laptop;
mod leaving;
mod members;
mod message;
mod opened;
pub mod packet;
mod player;
pub mod raw;
mod record;
mod refusal;
mod settings;
pub mod sys;

pub use arrival::Arrival;
pub use arriving::Arriving;
pub use laptop::{Laptop, Lent};
pub use leaving::{Leaving, Reply};
pub use members::{Members, NumberTooLarge};
pub use message::{Envelope, Message};
pub use opened::{NotCommitted, Opened};
pub use player::{play, SCRIPT_MAX};
pub use record::{Record, State, Timestamp};
pub use refusal::Refusal;
pub use settings::{Rule, Settings};
pub use sys::Replica;
