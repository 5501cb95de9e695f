//! What arrives at a laptop.

use crate::Envelope;

/// A message that arrives, with the bytes that it took along: what
/// [`Laptop::deliver`](crate::Laptop::deliver) takes.
///
/// It comes out of a packet ([`packet::fetch`](crate::packet::fetch),
/// [`packet::messages`](crate::packet::messages)), or of what left a laptop in the
/// same memory ([`Leaving::arriving`](crate::Leaving::arriving)).
#[derive(Clone, Copy, Debug, PartialEq, Eq, Hash)]
pub struct Arriving<'a> {
    envelope: Envelope,
    body: &'a [u8],
}

impl<'a> Arriving<'a> {
    /// For software with a wire format of its own: the message and its bytes,
    /// both as they left one laptop. With other bytes, and be they none, two
    /// laptops may show different texts for one timestamp. Only a packet is asked for
    /// its group's rule ([`OtherRule`](crate::Refusal::OtherRule)): here the caller sees
    /// to it that no message of another group comes in.
    pub const fn new(envelope: Envelope, body: &'a [u8]) -> Arriving<'a> {
        Arriving { envelope, body }
    }

    /// The message.
    pub const fn envelope(&self) -> Envelope {
        self.envelope
    }

    /// The bytes that it took along: out of a packet, a part of the packet itself.
    pub const fn body(&self) -> &'a [u8] {
        self.body
    }
}
