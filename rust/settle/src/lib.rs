//! How a record settles (document 02, Wish 3).
//!
//! All k laptops of a view are at its epoch, and one record gets no further
//! write. Whatever was lost before, and whoever died, at most 3k - 2 events on
//! that record leave it valid on all k, with the latest timestamp that any of
//! them held, by their group's rule of ties (Wish 6), and with the bytes that went
//! with it. All of them are accepted, and each message that is delivered left one of
//! these very events.
//!
//! One of the laptops drives. [`recipe`] gives the list, from what they hold at the
//! outset, and [`follow`] has them do it. The recipe takes the first of the
//! [`drivers`]; any other settles the record as well. Lists and drivers are those of
//! crates/hermes/specs/Recipe.antt, of which all this is proved. No hut sees what all
//! others hold, so hut software gets there by its clocks instead (docs/GUIDE.md).
//!
//! What is passed in are all laptops of one view, each at its epoch, and no others,
//! and the settings of their group: nothing here looks at views or epochs. With one
//! too many or too few, or by another rule, a list may come to a [`Halt`], or end
//! before all show the record.
//!
//! ```
//! use cetskobi::{Laptop, Refusal, Rule};
//! use settle::{by_packet, follow, held, recipe};
//!
//! # fn main() -> Result<(), Refusal> {
//! let start = |number| Laptop::start(number, 0b111, Rule::Lower, 1);
//! let mut laptops = [start(0)?, start(1)?, start(2)?];
//! // Laptops 1 and 2 save, and their INVs are lost. The tie goes to the lower number.
//! let _lost = laptops[1].write(0, b"Wren")?;
//! let _lost = laptops[2].write(0, b"Robin")?;
//!
//! let steps = recipe(Rule::Lower, &held(&laptops, 0)).expect("somebody can begin");
//! assert_eq!((steps[0].at, steps.len()), (1, 3 * 3 - 2));
//! assert_eq!(follow(&steps, &mut laptops, 0, by_packet), Ok(()));
//! for laptop in &laptops {
//!     assert_eq!(laptop.read(0)?, b"Wren");
//! }
//! # Ok(())
//! # }
//! ```

#![forbid(unsafe_code)]
#![warn(missing_docs)]

mod follow;

pub use follow::{by_hand, by_packet, follow, Carry, Halt, Left};

use cetskobi::{Laptop, Members, Record, Settings, State, Timestamp};

/// A laptop of the view, and its record at the outset.
pub type Held = (u8, Record);

/// An event of the list.
#[derive(Clone, Copy, Debug, PartialEq, Eq)]
pub enum Event {
    /// Every other laptop has acknowledged: a VAL leaves.
    Validate,
    /// From write or replay an INV leaves, from valid a VAL.
    Resend,
    /// An INV leaves.
    Replay,
    /// The message that left this step of the list comes in.
    Deliver {
        /// The place of that step, from 0.
        left: usize,
    },
}

/// An event, and the laptop that does it.
#[derive(Clone, Copy, Debug, PartialEq, Eq)]
pub struct Step {
    /// The laptop's number.
    pub at: u8,
    /// The event.
    pub event: Event,
}

/// The most events that so many laptops need: 3k - 2.
pub const fn most(laptops: usize) -> usize {
    (3 * laptops).saturating_sub(2)
}

/// What the laptops of a view hold of record `i`. One that does not have it is left
/// out: of a number that no laptop has, nothing is held, and the [`recipe`] is empty.
pub fn held<T: AsRef<[u8]>, S: AsRef<[u8]>>(laptops: &[Laptop<T, S>], i: usize) -> Vec<Held> {
    let held = |l: &Laptop<T, S>| Some((l.number(), l.record(i)?));
    let mut held: Vec<Held> = laptops.iter().filter_map(held).collect();
    held.sort_by_key(|h| h.0);
    held
}

/// The latest timestamp that any of them holds, by their group's rule of ties: with
/// it the record settles.
pub fn latest(settings: impl Into<Settings>, held: &[Held]) -> Option<Timestamp> {
    let rule = settings.into().rule;
    let all = held.iter().map(|(_, r)| r.timestamp);
    all.max_by(|a, b| a.compare(*b, rule))
}

/// The events that settle a record which the laptops of a view hold so, in rising
/// order of their numbers; their group has these settings. None if nobody can begin:
/// that never happens in a group that keeps to the premises.
pub fn recipe(settings: impl Into<Settings>, held: &[Held]) -> Option<Vec<Step>> {
    let settings = settings.into();
    if held.iter().all(|(_, r)| r.state == State::Valid) {
        return Some(Vec::new());
    }
    driver(settings, held).map(|first| steps(settings, held, first))
}

/// Who drives the record by the [`recipe`], and by which event: the first of the
/// [`drivers`].
pub fn driver(settings: impl Into<Settings>, held: &[Held]) -> Option<Step> {
    drivers(settings, held).first().copied()
}

/// All that can drive the record, each with its event: any one of them settles it,
/// by its own [`steps`]. They hold the [`latest`] timestamp, and
///
/// - go on with a write or replay, or
/// - are valid and the last writer, and say so again, or
/// - are invalid or invalid-write, their last writer is not in the view, and they
///   take its save over,
///
/// in this order, and in each as in `held`. There is one at least, unless all show
/// the record valid; and then too its last writer can say so again, though nobody
/// needs it.
///
/// ```
/// use cetskobi::{Laptop, Refusal, Rule};
/// use settle::{by_packet, drivers, follow, held, steps};
///
/// # fn main() -> Result<(), Refusal> {
/// let start = |number| Laptop::start(number, 0b111, Rule::Lower, 1);
/// let mut laptops = vec![start(0)?, start(1)?, start(2)?];
/// // Laptop 2 saves, the others hear of it, and it dies.
/// let inv = laptops[2].write(0, b"Wren")?.into_owned();
/// laptops.pop();
/// for laptop in &mut laptops {
///     let _lost = laptop.deliver(inv.arriving())?;
///     laptop.change_view(1, 0b011)?;
/// }
///
/// let (settings, held) = (laptops[0].settings(), held(&laptops, 0));
/// let either = drivers(settings, &held);
/// assert_eq!(either.iter().map(|first| first.at).collect::<Vec<_>>(), [0, 1]);
/// for first in either {
///     let mut laptops = laptops.clone();
///     let steps = steps(settings, &held, first);
///     assert_eq!(follow(&steps, &mut laptops, 0, by_packet), Ok(()));
///     assert_eq!(laptops[0].read(0)?, b"Wren");
///     assert_eq!(laptops[1].read(0)?, b"Wren");
/// }
/// # Ok(())
/// # }
/// ```
pub fn drivers(settings: impl Into<Settings>, held: &[Held]) -> Vec<Step> {
    let latest = latest(settings, held);
    let in_view = |number| held.iter().any(|(n, _)| *n == number);
    let [mut go_on, mut say_again, mut take_over] = [const { Vec::new() }; 3];
    for &(at, r) in held.iter().filter(|(_, r)| Some(r.timestamp) == latest) {
        let by = |event| Step { at, event };
        match r.state {
            State::Write | State::Replay if missing(held, at, r.acks).is_empty() => {
                go_on.push(by(Event::Validate));
            }
            State::Write | State::Replay => go_on.push(by(Event::Resend)),
            State::Valid if r.writer == at => say_again.push(by(Event::Resend)),
            State::Invalid | State::InvalidWrite if !in_view(r.writer) => {
                take_over.push(by(Event::Replay));
            }
            _ => {}
        }
    }
    [go_on, say_again, take_over].concat()
}

/// The whole list, from the driver's event on: one of the [`drivers`] of `held`.
pub fn steps(settings: impl Into<Settings>, held: &[Held], first: Step) -> Vec<Step> {
    let driver = first.at;
    let of_driver = held.iter().find(|(n, _)| *n == driver);
    let invs = match (first.event, of_driver) {
        // It empties the acknowledgements.
        (Event::Replay, _) => missing(held, driver, Members::default()),
        (Event::Resend, Some((_, r))) if r.state != State::Valid => missing(held, driver, r.acks),
        // A VAL left.
        _ => Vec::new(),
    };
    let mut steps = vec![first];
    let deliver = |at, left| Step {
        at,
        event: Event::Deliver { left },
    };
    steps.extend(invs.iter().map(|n| deliver(*n, 0)));
    let acks = 1..1 + invs.len();
    steps.extend(acks.map(|left| deliver(driver, left)));
    // The VAL leaves with the last ACK, or left at once: in either case it is the
    // last message so far.
    let val = steps.len() - 1;
    let latest = latest(settings, held);
    let shown = |r: &Record| r.state == State::Valid && Some(r.timestamp) == latest;
    let waiting = held.iter().filter(|(n, r)| *n != driver && !shown(r));
    steps.extend(waiting.map(|(n, _)| deliver(*n, val)));
    steps
}

/// The other laptops that have not acknowledged.
fn missing(held: &[Held], driver: u8, acks: Members) -> Vec<u8> {
    let numbers = held.iter().map(|(n, _)| *n);
    numbers
        .filter(|n| *n != driver && !acks.contains(*n))
        .collect()
}
