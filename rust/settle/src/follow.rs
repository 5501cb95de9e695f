//! Laptops do what a list says.

use std::error::Error;
use std::fmt;

use cetskobi::{packet, Laptop, Leaving, Refusal, Reply};

use crate::{Event, Step};

/// What leaves an event, if anything does, or its refusal.
pub type Left = Result<Option<Leaving<'static>>, Refusal>;

/// How a message comes to a laptop.
pub type Carry<T, S> = fn(&mut Laptop<T, S>, &Leaving<'_>) -> Left;

/// The message by itself.
///
/// # Errors
///
/// As [`Laptop::deliver`].
pub fn by_hand<T, S>(to: &mut Laptop<T, S>, message: &Leaving<'_>) -> Left
where
    T: AsMut<[u8]>,
    S: AsMut<[u8]>,
{
    replied(to.deliver(message.arriving()))
}

/// The message in a packet of its own, by the laptop's settings, as the radio brings
/// it.
///
/// # Errors
///
/// As [`packet::pack`], then as [`Laptop::deliver_packet`].
pub fn by_packet<T, S>(to: &mut Laptop<T, S>, message: &Leaving<'_>) -> Left
where
    T: AsMut<[u8]>,
    S: AsMut<[u8]>,
{
    let mut bytes = [0; packet::PACKET_MAX];
    let len = packet::pack(to.settings(), [message], &mut bytes)?;
    replied(to.deliver_packet(&bytes[..len], 0))
}

fn replied(reply: Result<Reply<'_>, Refusal>) -> Left {
    Ok(reply?.leaving().map(Leaving::into_owned))
}

fn sent(left: Result<Leaving<'_>, Refusal>) -> Left {
    left.map(|left| Some(left.into_owned()))
}

/// Has the laptops of a view do the steps on record `i`; messages come as `carry`
/// brings them.
///
/// # Errors
///
/// The first step that could not be done. Those before it are done.
pub fn follow<T, S>(
    steps: &[Step],
    laptops: &mut [Laptop<T, S>],
    i: usize,
    carry: Carry<T, S>,
) -> Result<(), Halt>
where
    T: AsMut<[u8]>,
    S: AsMut<[u8]>,
{
    // What left each step.
    let mut air: Vec<Option<Leaving<'static>>> = Vec::new();
    for (step, Step { at, event }) in steps.iter().enumerate() {
        let laptop = laptops.iter_mut().find(|l| l.number() == *at);
        let laptop = laptop.ok_or(Halt::NoLaptop { step })?;
        let left = match event {
            Event::Validate => sent(laptop.validate(i)),
            Event::Resend => sent(laptop.resend(i)),
            Event::Replay => sent(laptop.replay(i)),
            Event::Deliver { left } => {
                let message = air.get(*left).and_then(Option::as_ref);
                carry(laptop, message.ok_or(Halt::NoMessage { step })?)
            }
        };
        air.push(left.map_err(|refusal| Halt::Refused { step, refusal })?);
    }
    Ok(())
}

/// Why a list came to a halt, and at which step, from 0.
#[derive(Clone, Copy, Debug, PartialEq, Eq)]
pub enum Halt {
    /// The event was refused.
    Refused {
        /// The step.
        step: usize,
        /// By this question.
        refusal: Refusal,
    },
    /// The step that should have sent it sent nothing.
    NoMessage {
        /// The step.
        step: usize,
    },
    /// There is no such laptop.
    NoLaptop {
        /// The step.
        step: usize,
    },
}

impl fmt::Display for Halt {
    fn fmt(&self, f: &mut fmt::Formatter<'_>) -> fmt::Result {
        match self {
            Halt::Refused { step, refusal } => write!(f, "step {step}: {refusal}"),
            Halt::NoMessage { step } => write!(f, "step {step} delivers nothing"),
            Halt::NoLaptop { step } => write!(f, "step {step} is at no laptop"),
        }
    }
}

impl Error for Halt {}
