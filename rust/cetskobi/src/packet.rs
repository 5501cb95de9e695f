//! Packets: several messages with their bodies in at most 1,400 bytes.
//!
//! What [`pack`] writes reads back as the same messages, and a packet that
//! [`fetch`] accepts is the one that [`pack`] makes of its messages. All of them take
//! the [`Settings`] of the group: a packet of a group with the other
//! [`Rule`](crate::Rule) is refused ([`OtherRule`](Refusal::OtherRule)).
//!
//! [`messages`] looks at a packet as a whole, once. Then each of its messages is
//! taken in constant time, to be delivered ([`Laptop::deliver_next`]) or to be
//! looked at. [`fetch`] and [`Laptop::deliver_packet`] look at the whole packet
//! for one message.
//!
//! ```
//! use cetskobi::{packet, Laptop, Refusal, Rule};
//!
//! # fn main() -> Result<(), Refusal> {
//! let mut laptop = Laptop::start(2, 0b10_0110, Rule::Lower, 8)?;
//! let settings = laptop.settings(); // now: what leaves borrows the laptop
//! let inv = laptop.write(7, b"Wren")?;
//! let mut bytes = [0; packet::PACKET_MAX];
//! let (to, len) = (inv.recipients(), packet::pack(settings, [inv], &mut bytes)?);
//! assert_eq!((to.to_string().as_str(), len), ("{1,5}", 24)); // to the radio: &bytes[..len]
//!
//! // What the radio brought: laptop 5 acknowledges.
//! let received = [2, 1, 0, 20, 2, 5, 0, 0, 0, 0, 0, 7, 0, 0, 0, 1, 2, 0, 20, 0];
//! let mut messages = packet::messages(settings, &received)?;
//! while let Some(arrival) = laptop.deliver_next(&mut messages) {
//!     // A refused message is one message: go on with the next.
//!     let Ok(reply) = arrival.reply() else { continue };
//!     assert_eq!(reply.leaving(), None); // laptop 1 is still missing
//! }
//! assert!(laptop.record(7).is_some_and(|r| r.acks.contains(5)));
//! # Ok(())
//! # }
//! ```
//!
//! [`Laptop::deliver_next`]: crate::Laptop::deliver_next
//! [`Laptop::deliver_packet`]: crate::Laptop::deliver_packet

use std::borrow::Borrow;
use std::iter::FusedIterator;

use crate::sys::{Accepted, Fetched, MESSAGE_WORDS};
use crate::{raw, Arriving, Envelope, Leaving, Message, Refusal, Settings};

/// The most bytes of a packet.
pub const PACKET_MAX: usize = 1400;
/// The most messages of a packet.
pub const MESSAGES_MAX: usize = 64;
/// The bytes before the contents table.
pub const HEAD_LEN: usize = 4;
/// The bytes of one message in the contents table; its body follows the table.
pub const ENTRY_LEN: usize = 16;

/// Message `i` of a packet of a group with these settings. The whole packet is
/// judged first, at each call: for more than one of its messages there is
/// [`messages`].
///
/// # Errors
///
/// [`PacketHead`](Refusal::PacketHead) for bytes that are no packet;
/// [`OtherRule`](Refusal::OtherRule) for a packet of a group with the other rule;
/// [`PacketContents`](Refusal::PacketContents) and
/// [`PacketEntry`](Refusal::PacketEntry) for bytes that are no packet either;
/// [`PacketIndex`](Refusal::PacketIndex) for a packet with no message `i`.
pub fn fetch(
    settings: impl Into<Settings>,
    packet: &[u8],
    i: usize,
) -> Result<Arriving<'_>, Refusal> {
    arriving(packet, raw::fetch(settings.into().into(), packet, i))
}

/// What arrives by a fetch from this packet.
fn arriving(packet: &[u8], f: Fetched) -> Result<Arriving<'_>, Refusal> {
    Refusal::check(f.number)?;
    let message = Message::of(f.kind, f.version, f.tie).ok_or(Refusal::PacketEntry)?;
    let envelope = Envelope {
        sender: f.sender,
        epoch: f.epoch,
        record: f.index,
        message,
    };
    Ok(Arriving::new(envelope, &packet[f.at..][..f.len]))
}

/// The messages of a packet of a group with these settings, in their order. The
/// whole packet is judged here, once.
///
/// # Errors
///
/// [`PacketHead`](Refusal::PacketHead) for bytes that are no packet;
/// [`OtherRule`](Refusal::OtherRule) for a packet of a group with the other rule;
/// [`PacketContents`](Refusal::PacketContents) and
/// [`PacketEntry`](Refusal::PacketEntry) for bytes that are no packet either.
pub fn messages(settings: impl Into<Settings>, packet: &[u8]) -> Result<Messages<'_>, Refusal> {
    let settings = settings.into();
    let accepted = raw::accept(settings.into(), packet);
    Refusal::check(accepted.number)?;
    Ok(Messages {
        settings,
        packet,
        accepted,
        next: 0,
    })
}

/// The messages of an accepted packet that were not taken yet, in their order:
/// [`messages`].
///
/// [`Laptop::deliver_next`](crate::Laptop::deliver_next) takes one and delivers
/// it; as an iterator it gives them to look at, or for
/// [`Laptop::deliver`](crate::Laptop::deliver). Both take constant time, and `len`
/// says how many are left. What one laptop has taken is gone for another: clone it
/// to deliver one packet to several laptops of the group in one memory.
#[derive(Clone, Debug)]
#[must_use = "no message has been taken in"]
pub struct Messages<'a> {
    /// By which the packet was judged.
    settings: Settings,
    packet: &'a [u8],
    /// What is known of these very bytes.
    accepted: Accepted,
    /// The number of the next message, at most the count.
    next: usize,
}

impl<'a> Messages<'a> {
    /// Takes the next message: its packet, what is known of that, and the message's
    /// number.
    fn advance(&mut self) -> Option<(&'a [u8], Accepted, usize)> {
        let i = self.next;
        if i == usize::from(self.accepted.count) {
            return None;
        }
        self.next += 1;
        Some((self.packet, self.accepted, i))
    }

    /// The same for a laptop with these settings. What is known of the packet was
    /// judged by others, if they are not the same: then it is judged again.
    pub(crate) fn advance_by(&mut self, settings: Settings) -> Option<(&'a [u8], Accepted, usize)> {
        let (packet, accepted, i) = self.advance()?;
        if settings == self.settings {
            return Some((packet, accepted, i));
        }
        Some((packet, raw::accept(settings.into(), packet), i))
    }
}

impl<'a> Iterator for Messages<'a> {
    type Item = Arriving<'a>;

    fn next(&mut self) -> Option<Arriving<'a>> {
        let (packet, accepted, i) = self.advance()?;
        let came = arriving(packet, raw::fetch_accepted(packet, accepted, i));
        Some(came.expect("an accepted packet has as many messages as it counts"))
    }

    fn size_hint(&self) -> (usize, Option<usize>) {
        let left = usize::from(self.accepted.count) - self.next;
        (left, Some(left))
    }
}

impl ExactSizeIterator for Messages<'_> {}

impl FusedIterator for Messages<'_> {}

/// Writes what left events of a group with these settings as one packet to the
/// front of `out`, and gives its length. The rest of `out` is untouched, all of it
/// if refused.
///
/// It takes `[inv]` right after its event, or `&outbox`, a `Vec<Leaving<'static>>`.
/// What leaves borrows its laptop: ask that for its settings before the event.
///
/// # Errors
///
/// [`PacketMessages`](Refusal::PacketMessages) unless there are 1 to 64
/// messages; [`PacketRoom`](Refusal::PacketRoom) if the packet would be longer
/// than 1,400 bytes or than `out`.
pub fn pack<'a, M>(
    settings: impl Into<Settings>,
    messages: M,
    out: &mut [u8],
) -> Result<usize, Refusal>
where
    M: IntoIterator<Item: Borrow<Leaving<'a>>>,
{
    let (mut words, mut bodies) = (Vec::new(), Vec::new());
    // One message beyond the most is as wrong as a thousand.
    for message in messages.into_iter().take(MESSAGES_MAX + 1) {
        let message = message.borrow();
        words.extend(entry_of(message));
        bodies.extend_from_slice(message.body());
    }
    let written = raw::pack(settings.into().into(), &words, &bodies, out);
    Refusal::check(written.number)?;
    Ok(written.len)
}

/// The words of one message: kind, sender, epoch, record, version, tie-breaker, body length.
fn entry_of(leaving: &Leaving<'_>) -> [u32; MESSAGE_WORDS] {
    // What fits no word fits no packet either: question 24 refuses it.
    let word = |n: usize| u32::try_from(n).unwrap_or(u32::MAX);
    let envelope = leaving.envelope();
    let timestamp = envelope.message.timestamp();
    [
        u32::from(envelope.message.kind()),
        u32::from(envelope.sender),
        envelope.epoch,
        word(envelope.record),
        timestamp.version,
        u32::from(timestamp.tie),
        word(leaving.body().len()),
    ]
}
