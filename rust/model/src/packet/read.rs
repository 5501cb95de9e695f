use super::{Entry, COUNT_LIMIT, ENTRY, HEAD, PACKET_LIMIT};
use crate::engine::{ask, Answer, Envelope, Message, Record, Refusal, Replica, Rule, Timestamp};

/// Message `index` of the packet, with its body as that part of the packet, in a
/// group with this rule of ties: questions 20, 27, 21, 22 and 23 (02, Wish 6).
///
/// The whole packet is judged first, the entries behind `index` included. A
/// refused fetch gives no part; the paper's empty part stands for it.
pub fn fetch(rule: Rule, packet: &[u8], index: usize) -> Result<(Envelope, &[u8]), Refusal> {
    let (entries, mut offset) = ask_contents(rule, packet)?;
    let mut found = None;
    for (i, bytes) in entries.iter().enumerate() {
        let entry = decode(bytes, offset).ok_or(Refusal::PacketEntry)?;
        let end = offset + usize::from(entry.len);
        if i == index {
            found = Some((entry.envelope, offset..end));
        }
        offset = end;
    }
    ask(offset == packet.len(), Refusal::PacketEntry)?;

    let (envelope, place) = found.ok_or(Refusal::PacketIndex)?;
    Ok((envelope, &packet[place]))
}

/// Delivers message `index` of the packet: the questions of [`fetch`], with the
/// replica's rule of ties, then those of the delivery.
pub fn deliver(
    replica: &Replica,
    table: &mut [Record],
    store: &mut [u8],
    packet: &[u8],
    index: usize,
) -> Answer {
    let (envelope, body) = fetch(replica.settings.rule, packet, index)?;
    replica.deliver(table, store, &envelope, body)
}

/// A packet that questions 20, 27, 21 and 22 let pass. The whole of it was judged
/// once; each of its messages is then taken in constant time (02, Wish 4).
#[derive(Clone, Copy, Debug)]
pub struct Accepted<'a> {
    packet: &'a [u8],
    /// The contents table, an entry for each message.
    entries: &'a [[u8; ENTRY]],
}

/// Judges the whole packet, in a group with this rule of ties.
pub fn accept(rule: Rule, packet: &[u8]) -> Result<Accepted<'_>, Refusal> {
    let (entries, mut offset) = ask_contents(rule, packet)?;
    for bytes in entries {
        let entry = decode(bytes, offset).ok_or(Refusal::PacketEntry)?;
        offset += usize::from(entry.len);
    }
    ask(offset == packet.len(), Refusal::PacketEntry)?;
    Ok(Accepted { packet, entries })
}

impl<'a> Accepted<'a> {
    /// How many messages it has: 1 to 64.
    pub fn count(&self) -> usize {
        self.entries.len()
    }

    /// Message `index`, with its body as that part of the packet: what [`fetch`]
    /// gives of these bytes by the same rule. Of the questions only 23 is left.
    #[inline]
    pub fn message(&self, index: usize) -> Result<(Envelope, &'a [u8]), Refusal> {
        let bytes = self.entries.get(index).ok_or(Refusal::PacketIndex)?;
        let timestamp = timestamp_of(bytes);
        // Question 22 has let no other kind pass.
        let message = match bytes[0] {
            1 => Message::Inv(timestamp),
            2 => Message::Ack(timestamp),
            _ => Message::Val(timestamp),
        };
        let Entry { envelope, len } = entry_of(bytes, message);
        let offset = offset_of(bytes);
        // Nor a body that does not lie within the packet.
        let body = self.packet.get(offset..offset + usize::from(len));
        Ok((envelope, body.ok_or(Refusal::PacketEntry)?))
    }

    /// Delivers message `index`: question 23, then those of the delivery. The
    /// envelope tells which message came, also where its delivery is refused.
    ///
    /// Decision: the packet was accepted by the rule of the replica's group, and
    /// 27 is not asked again.
    pub fn deliver(
        &self,
        replica: &Replica,
        table: &mut [Record],
        store: &mut [u8],
        index: usize,
    ) -> Result<(Envelope, Answer), Refusal> {
        let (envelope, body) = self.message(index)?;
        Ok((envelope, replica.deliver(table, store, &envelope, body)))
    }
}

/// 01, questions 20 and 21, with 27 between. Gives the contents table, and where
/// it ends.
fn ask_contents(rule: Rule, packet: &[u8]) -> Result<(&[[u8; ENTRY]], usize), Refusal> {
    let end = HEAD + ENTRY * ask_head(rule, packet)?;
    let contents = packet.get(HEAD..end).ok_or(Refusal::PacketContents)?;
    Ok((contents.as_chunks().0, end))
}

/// 01, question 20, which lets byte 0 name either rule, then question 27 (02,
/// Wish 6). Gives the count of messages.
fn ask_head(rule: Rule, packet: &[u8]) -> Result<usize, Refusal> {
    let [byte, count, high, low, ..] = *packet else {
        return Err(Refusal::PacketHead);
    };
    let named = Rule::of_byte(byte);
    let count = usize::from(count);
    let total = usize::from(u16::from_be_bytes([high, low]));
    ask(
        named.is_some()
            && (1..=COUNT_LIMIT).contains(&count)
            && total == packet.len()
            && total <= PACKET_LIMIT,
        Refusal::PacketHead,
    )?;
    ask(named == Some(rule), Refusal::OtherRule)?;
    Ok(count)
}

/// 01, question 22, for one entry whose body would begin at `offset`.
fn decode(bytes: &[u8; ENTRY], offset: usize) -> Option<Entry> {
    let timestamp = timestamp_of(bytes);
    let message = match bytes[0] {
        1 => Message::Inv(timestamp),
        2 => Message::Ack(timestamp),
        3 => Message::Val(timestamp),
        _ => return None,
    };
    let entry = entry_of(bytes, message);
    (offset_of(bytes) == offset && entry.is_good()).then_some(entry)
}

// The fields of an entry: kind, sender, epoch (4), record (2), version (4),
// tie-breaker, body offset (2), body length.

/// The entry of these bytes, whose kind and timestamp make this message.
fn entry_of(bytes: &[u8; ENTRY], message: Message) -> Entry {
    let [_, sender, e0, e1, e2, e3, r0, r1, .., len] = *bytes;
    let envelope = Envelope {
        sender,
        epoch: u32::from_be_bytes([e0, e1, e2, e3]),
        record: usize::from(u16::from_be_bytes([r0, r1])),
        message,
    };
    Entry { envelope, len }
}

fn timestamp_of(bytes: &[u8; ENTRY]) -> Timestamp {
    let [.., v0, v1, v2, v3, tie, _, _, _] = *bytes;
    Timestamp::new(u32::from_be_bytes([v0, v1, v2, v3]), tie)
}

fn offset_of(bytes: &[u8; ENTRY]) -> usize {
    let [.., o0, o1, _] = *bytes;
    usize::from(u16::from_be_bytes([o0, o1]))
}
