//! What came of a packet's message.

use crate::{Refusal, Reply};

/// A packet's message that was delivered: which one it was, and what leaves, or
/// the refusal. [`Laptop::deliver_next`](crate::Laptop::deliver_next) gives it.
///
/// Sender, epoch and record are told also where the delivery was refused. So a
/// laptop hears that it missed a view: by a message of a greater epoch than its
/// own, whichever question refused it, 10 or an earlier one.
///
/// ```
/// #![deny(unused_must_use)]
/// use cetskobi::{packet, Laptop, Refusal, Rule};
///
/// # fn main() -> Result<(), Refusal> {
/// # let mut net = Laptop::start(0, 0b111, Rule::Lower, 1)?;
/// # let mut hut = Laptop::start(1, 0b111, Rule::Lower, 1)?;
/// # let mut bytes = [0; packet::PACKET_MAX];
/// // Of {0,1,2} laptop 2 was struck off. 0 has been told so, 1 has not.
/// net.change_view(1, 0b011)?;
/// let len = packet::pack(net.settings(), [net.write(0, b"Wren")?], &mut bytes)?;
///
/// let (epoch, view) = (hut.epoch(), hut.view()); // before: an arrival borrows the laptop
/// let mut heard = None;
/// let mut messages = packet::messages(hut.settings(), &bytes[..len])?;
/// while let Some(arrival) = hut.deliver_next(&mut messages) {
///     // A newer view is within this one, and so is its sender.
///     if arrival.epoch() > epoch && view.contains(arrival.sender()) {
///         heard = Some(arrival.epoch());
///     }
///     assert_eq!((arrival.sender(), arrival.record()), (0, 0));
///     assert_eq!(arrival.reply(), Err(Refusal::OtherEpoch));
/// }
/// assert_eq!(heard, Some(1)); // "a newer view was issued: ask the warden"
///
/// // With that view, of which the warden gives both epoch and laptops, it takes
/// // the message, once it comes again.
/// hut.change_view(1, 0b011)?;
/// let mut messages = packet::messages(hut.settings(), &bytes[..len])?;
/// let arrival = hut.deliver_next(&mut messages).expect("its one message");
/// assert!(arrival.reply()?.leaving().is_some());
/// assert_eq!(hut.deliver_next(&mut messages), None);
/// # Ok(())
/// # }
/// ```
///
/// It borrows the laptop as [`Reply`] does, and dropped unseen it does not
/// compile either. Always take its [`reply`](Arrival::reply): one that is only
/// asked for its epoch, or by `is_some`, goes without a warning, and what left
/// with it is as good as lost on air.
///
/// ```compile_fail
/// #![deny(unused_must_use)]
/// # use cetskobi::{packet, Laptop, Refusal};
/// # fn came(hut: &mut Laptop, bytes: &[u8]) -> Result<(), Refusal> {
/// let mut messages = packet::messages(hut.settings(), bytes)?;
/// hut.deliver_next(&mut messages);
/// # Ok(())
/// # }
/// ```
#[derive(Clone, Debug, PartialEq, Eq, Hash)]
#[must_use = "a message that is not sent is heard by nobody"]
pub struct Arrival<'a> {
    pub(crate) sender: u8,
    pub(crate) epoch: u32,
    pub(crate) record: usize,
    pub(crate) reply: Result<Reply<'a>, Refusal>,
}

impl<'a> Arrival<'a> {
    /// The number of the laptop that sent the message.
    pub const fn sender(&self) -> u8 {
        self.sender
    }

    /// The sender's epoch when it was sent. One that is greater than this laptop's
    /// says that it missed a view.
    pub const fn epoch(&self) -> u32 {
        self.epoch
    }

    /// The number of the record that it is about.
    pub const fn record(&self) -> usize {
        self.record
    }

    /// What its delivery answers.
    ///
    /// # Errors
    ///
    /// As [`Laptop::deliver`](crate::Laptop::deliver).
    pub fn reply(self) -> Result<Reply<'a>, Refusal> {
        self.reply
    }
}
