//! What leaves an event.

use std::borrow::Cow;

use crate::{Arriving, Envelope, Members};

/// What leaves an event of a laptop: a message, the bytes that it takes along,
/// and who gets it. Only an event makes one, so the three belong together.
///
/// It borrows the laptop, whose next event may overwrite those bytes. Pack it
/// before that event ([`packet::pack`](crate::packet::pack)), or keep it:
///
/// ```
/// #![deny(unused_must_use)]
/// use cetskobi::{packet, Laptop, Leaving, Refusal, Rule};
///
/// # fn main() -> Result<(), Refusal> {
/// let mut net = Laptop::start(0, 0b11, Rule::Lower, 2)?;
/// let mut outbox: Vec<Leaving<'static>> = Vec::new();
/// outbox.push(net.write(0, b"Wren")?.into_owned());
/// outbox.push(net.write(1, b"Robin")?.into_owned());
///
/// let mut bytes = [0; packet::PACKET_MAX];
/// let len = packet::pack(net.settings(), &outbox, &mut bytes)?;
/// assert_eq!(len, 4 + 2 * 16 + 9);
/// # Ok(())
/// # }
/// ```
///
/// One that nobody looks at is a message that nobody hears, and does not
/// compile under the same lint:
///
/// ```compile_fail
/// #![deny(unused_must_use)]
/// # use cetskobi::{Laptop, Refusal, Rule};
/// # fn main() -> Result<(), Refusal> {
/// # let mut net = Laptop::start(0, 0b11, Rule::Lower, 2)?;
/// net.write(0, b"Wren")?;
/// # Ok(())
/// # }
/// ```
///
/// Thrown away by name, as by `.ok()`, `.is_ok()` or `Ok(_)`, it goes without a
/// warning, and counts as lost on air: a resend mends that.
///
/// A further event, which may bring the record a newer text, does not compile
/// while an earlier message still wants its bytes:
///
/// ```compile_fail,E0499
/// # use cetskobi::{packet, Laptop, Refusal, Rule};
/// # fn main() -> Result<(), Refusal> {
/// # let mut net = Laptop::start(0, 0b11, Rule::Lower, 2)?;
/// # let mut bytes = [0; packet::PACKET_MAX];
/// let wren = net.write(0, b"Wren")?;
/// let robin = net.write(1, b"Robin")?;
/// let len = packet::pack(Rule::Lower, [wren, robin], &mut bytes)?;
/// # Ok(())
/// # }
/// ```
#[derive(Clone, Debug, PartialEq, Eq, Hash)]
#[must_use = "a message that is not sent is heard by nobody"]
pub struct Leaving<'a> {
    pub(crate) envelope: Envelope,
    pub(crate) body: Cow<'a, [u8]>,
    pub(crate) recipients: Members,
}

impl<'a> Leaving<'a> {
    /// The message.
    pub const fn envelope(&self) -> Envelope {
        self.envelope
    }

    /// The bytes that it takes along: an INV the record's value, others none.
    pub fn body(&self) -> &[u8] {
        &self.body
    }

    /// Who gets it: an ACK the sender of its INV, others all others in the view.
    pub const fn recipients(&self) -> Members {
        self.recipients
    }

    /// The same with bytes of its own, for an outbox.
    pub fn into_owned(self) -> Leaving<'static> {
        Leaving {
            body: Cow::Owned(self.body.into_owned()),
            ..self
        }
    }

    /// The same as it arrives, for a group in one memory: tests and simulations.
    pub fn arriving(&self) -> Arriving<'_> {
        Arriving::new(self.envelope, &self.body)
    }
}

/// What a delivery answers: for an INV an ACK leaves, for the last ACK of a
/// write or replay a VAL, and otherwise nothing.
///
/// It borrows the laptop as [`Leaving`] does, and dropped unseen it does not
/// compile either:
///
/// ```compile_fail
/// #![deny(unused_must_use)]
/// # use cetskobi::{Arriving, Laptop, Refusal};
/// # fn came(hut: &mut Laptop, message: Arriving) -> Result<(), Refusal> {
/// hut.deliver(message)?;
/// # Ok(())
/// # }
/// ```
///
/// A packet's messages, one after another:
///
/// ```
/// #![deny(unused_must_use)]
/// # use cetskobi::{packet, Laptop, Leaving, Refusal};
/// # fn came(hut: &mut Laptop, outbox: &mut Vec<Leaving>, bytes: &[u8]) -> Result<(), Refusal> {
/// let mut messages = packet::messages(hut.settings(), bytes)?;
/// while let Some(arrival) = hut.deliver_next(&mut messages) {
///     // A refused message is one message: go on with the next.
///     let Ok(reply) = arrival.reply() else { continue };
///     outbox.extend(reply.leaving().map(Leaving::into_owned));
/// }
/// # Ok(())
/// # }
/// ```
#[derive(Clone, Debug, PartialEq, Eq, Hash)]
#[must_use = "a message that is not sent is heard by nobody"]
pub struct Reply<'a> {
    pub(crate) leaving: Option<Leaving<'a>>,
}

impl<'a> Reply<'a> {
    /// The message that leaves, if one does.
    #[must_use = "a message that is not sent is heard by nobody"]
    pub fn leaving(self) -> Option<Leaving<'a>> {
        self.leaving
    }
}
