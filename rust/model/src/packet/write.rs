use super::{Entry, COUNT_LIMIT, ENTRY, HEAD, PACKET_LIMIT};
use crate::engine::{ask, Message, Refusal, Rule};

/// Writes the messages, with their bodies end to end, as one packet at the
/// beginning of `out`, and gives its length. Output past it is untouched. The
/// group's rule of ties is named by byte 0, and by nothing else (02, Wish 6).
///
/// Decision: the count is the slice's length.
pub fn write(
    rule: Rule,
    entries: &[Entry],
    bodies: &[u8],
    out: &mut [u8],
) -> Result<usize, Refusal> {
    ask_messages(entries, bodies)?;
    let contents_end = HEAD + ENTRY * entries.len();
    let total = contents_end + bodies.len();
    ask(total <= PACKET_LIMIT, Refusal::PacketRoom)?;
    let packet = out.get_mut(..total).ok_or(Refusal::PacketRoom)?;

    let (head, rest) = packet.split_at_mut(HEAD);
    let (contents, tail) = rest.split_at_mut(ENTRY * entries.len());
    let [high, low] = (total as u16).to_be_bytes();
    head.copy_from_slice(&[rule.byte(), entries.len() as u8, high, low]);
    let mut offset = contents_end;
    for (bytes, entry) in contents.as_chunks_mut().0.iter_mut().zip(entries) {
        *bytes = encode(entry, offset as u16);
        offset += usize::from(entry.len);
    }
    tail.copy_from_slice(bodies);
    Ok(total)
}

/// 01, question 24.
fn ask_messages(entries: &[Entry], bodies: &[u8]) -> Result<(), Refusal> {
    let good = (1..=COUNT_LIMIT).contains(&entries.len())
        && entries.iter().all(Entry::is_good)
        && entries.iter().map(|e| usize::from(e.len)).sum::<usize>() == bodies.len();
    ask(good, Refusal::PacketMessages)
}

/// The 16 bytes of a good entry.
fn encode(entry: &Entry, offset: u16) -> [u8; ENTRY] {
    let envelope = &entry.envelope;
    let kind = match envelope.message {
        Message::Inv(_) => 1,
        Message::Ack(_) => 2,
        Message::Val(_) => 3,
    };
    let timestamp = envelope.message.timestamp();
    let [e0, e1, e2, e3] = envelope.epoch.to_be_bytes();
    let [r0, r1] = (envelope.record as u16).to_be_bytes();
    let [v0, v1, v2, v3] = timestamp.version.to_be_bytes();
    let [o0, o1] = offset.to_be_bytes();
    let (sender, tie, len) = (envelope.sender, timestamp.tie, entry.len);
    [
        kind, sender, e0, e1, e2, e3, r0, r1, v0, v1, v2, v3, tie, o0, o1, len,
    ]
}
