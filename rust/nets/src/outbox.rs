//! Messages that wait for the end of the tick, to share packets.

use std::collections::BTreeMap;

use cetskobi::{packet, Leaving, Members, Rule};

/// What left an event, kept.
type Parcel = Leaving<'static>;

/// What one hut will send, by who shall hear it.
#[derive(Default)]
pub(crate) struct Outbox {
    waiting: BTreeMap<u16, Vec<Parcel>>,
}

impl Outbox {
    pub fn put(&mut self, left: Parcel) {
        let to = left.recipients().bits();
        let parcels = self.waiting.entry(to).or_default();
        // What is sent twice in one tick goes once.
        if parcels.iter().all(|p| p.envelope() != left.envelope()) {
            parcels.push(left);
        }
    }

    /// All of it as packets of a group with this rule of ties: as many messages in each
    /// as fit.
    pub fn packets(&mut self, rule: Rule) -> Vec<(Members, Vec<u8>)> {
        let waiting = std::mem::take(&mut self.waiting);
        let sets = waiting
            .into_iter()
            .map(|(to, parcels)| (Members::from(to), parcels));
        sets.flat_map(|(to, parcels)| {
            let packets: Vec<Vec<u8>> = loads(&parcels)
                .into_iter()
                .map(|load| packed(rule, load))
                .collect();
            packets.into_iter().map(move |p| (to, p))
        })
        .collect()
    }
}

/// The messages parted, in their order, into loads of at most 64 messages and
/// 1,400 bytes.
fn loads(parcels: &[Parcel]) -> Vec<&[Parcel]> {
    let mut loads = Vec::new();
    let (mut from, mut bytes) = (0, packet::HEAD_LEN);
    for (n, parcel) in parcels.iter().enumerate() {
        let more = packet::ENTRY_LEN + parcel.body().len();
        if n - from == packet::MESSAGES_MAX || bytes + more > packet::PACKET_MAX {
            loads.push(&parcels[from..n]);
            (from, bytes) = (n, packet::HEAD_LEN);
        }
        bytes += more;
    }
    loads.push(&parcels[from..]);
    loads
}

fn packed(rule: Rule, load: &[Parcel]) -> Vec<u8> {
    let mut bytes = vec![0; packet::PACKET_MAX];
    let len = packet::pack(rule, load, &mut bytes).expect("a load fits into a packet");
    bytes.truncate(len);
    bytes
}

#[cfg(test)]
mod tests {
    use super::*;
    use cetskobi::Laptop;

    /// The records of the messages in each packet.
    fn sent(rule: Rule, count: usize, len: usize) -> Vec<Vec<usize>> {
        let mut laptop = Laptop::start(0, 0b111, rule, 200).expect("a laptop");
        let mut outbox = Outbox::default();
        for i in 0..count {
            let inv = laptop.write(i, &vec![b'x'; len]).expect("a save");
            outbox.put(inv.into_owned());
            outbox.put(laptop.resend(i).expect("the same").into_owned());
        }
        let packets = outbox.packets(rule);
        assert!(outbox.packets(rule).is_empty());
        packets
            .iter()
            .map(|(to, bytes)| {
                assert_eq!(to.bits(), 0b110);
                assert_eq!(bytes[0], rule.number());
                let messages = packet::messages(rule, bytes).expect("a packet");
                messages.map(|m| m.envelope().record).collect()
            })
            .collect()
    }

    #[test]
    fn as_many_messages_as_fit_share_a_packet() {
        let sizes = |packets: Vec<Vec<usize>>| packets.iter().map(Vec::len).collect::<Vec<usize>>();
        for &rule in Rule::ALL {
            assert_eq!(sent(rule, 0, 0), Vec::<Vec<usize>>::new());
            assert_eq!(sent(rule, 1, 192), [vec![0]]);
            assert_eq!(sizes(sent(rule, 130, 0)), [64, 64, 2]);
            assert_eq!(sizes(sent(rule, 13, 192)), [6, 6, 1]);
            let all: Vec<usize> = sent(rule, 200, 31).concat();
            assert_eq!(all, (0..200).collect::<Vec<usize>>());
        }
    }
}
