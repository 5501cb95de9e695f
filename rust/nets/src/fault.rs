//! Deliberate faults. Each breaks a premise of the agreement (docs/AGREEMENT.md)
//! or a rule of the guide, so that the checks can be seen to fail.

use cetskobi::{packet, raw, Message, Rule};
use model::rng::Rng;

/// What is broken.
#[derive(Clone, Copy, Debug, PartialEq, Eq)]
pub enum Fault {
    /// The link alters texts on their way.
    Text,
    /// Hut software hands messages of another epoch over as if they were of
    /// its own: the fault at the first station.
    Epoch,
    /// The link alters who acknowledged.
    Sender,
    /// Hut software drops validations.
    Val,
    /// Hut software never replays from invalid-write, as no laptop could before
    /// document 02's Wish 2.
    Replay,
    /// Hut software refuses the saves of one record in seven.
    Save,
    /// Hut software saves what was opened by a plain write, whatever stands there by
    /// then: the engine had nothing else before document 02's Wish 5.
    Blind,
    /// Hut software does not ask for the fate of a save: who was replaced is not told,
    /// and does not enter her bird again.
    Forget,
    /// The last laptop is started with the other rule of ties (document 02, Wish 6).
    Rule,
    /// The same, and its hut's software reads and writes packets by the group's rule,
    /// so that nobody notices.
    Tie,
    /// Hut software takes the rule from the packet and not from the group.
    Byte,
}

impl Fault {
    /// The fault of this name on the command line.
    ///
    /// # Errors
    ///
    /// The names there are.
    pub fn named(name: &str) -> Result<Fault, String> {
        match name {
            "text" => Ok(Fault::Text),
            "epoch" => Ok(Fault::Epoch),
            "sender" => Ok(Fault::Sender),
            "val" => Ok(Fault::Val),
            "replay" => Ok(Fault::Replay),
            "save" => Ok(Fault::Save),
            "blind" => Ok(Fault::Blind),
            "forget" => Ok(Fault::Forget),
            "rule" => Ok(Fault::Rule),
            "tie" => Ok(Fault::Tie),
            "byte" => Ok(Fault::Byte),
            _ => Err(
                "--fault: text, epoch, sender, val, replay, save, blind, forget, rule, tie or byte"
                    .to_owned(),
            ),
        }
    }
}

/// One packet in this many is altered.
const ALTERED: usize = 20;

/// The packet as a faulty link hands it on.
pub(crate) fn in_flight(
    fault: Fault,
    rule: Rule,
    bytes: &[u8],
    laptops: u8,
    rng: &mut Rng,
) -> Option<Vec<u8>> {
    let alters = matches!(fault, Fault::Text | Fault::Sender);
    if !alters || !rng.chance(1, ALTERED) {
        return None;
    }
    let mut out = bytes.to_vec();
    let accepted = raw::accept(rule.into(), bytes);
    for (k, m) in packet::messages(rule, bytes).ok()?.enumerate() {
        match (fault, m.envelope().message) {
            (Fault::Text, Message::Inv(_)) if !m.body().is_empty() => {
                out[raw::fetch_accepted(bytes, accepted, k).at] ^= 1;
            }
            (Fault::Sender, Message::Ack(_)) => {
                // The second byte of its entry.
                let sender = packet::HEAD_LEN + k * packet::ENTRY_LEN + 1;
                out[sender] = (out[sender] + 1) % laptops;
            }
            _ => {}
        }
    }
    Some(out)
}
