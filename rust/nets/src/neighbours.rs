//! The other station: a group on the same channel, with the same numbers, the same
//! views at the same time, and the other rule of ties (document 02, Wish 6). So only
//! byte 0 tells its packets from this group's. Its own link is as good as can be.

use std::collections::VecDeque;

use cetskobi::{packet, Laptop, Leaving, Members, Refusal, Rule};
use model::rng::Rng;

use crate::failure::Cause;
use crate::settings::{other, Part, Settings};
use crate::{text, Tick};

/// A packet of its own, with one message.
#[derive(Clone, Debug, PartialEq, Eq)]
pub(crate) struct Packet {
    /// The hut here that hears it.
    pub to: u8,
    /// The record that it is about.
    pub record: usize,
    pub bytes: Vec<u8>,
}

/// What became here of its packets.
#[derive(Clone, Copy, Debug, Default, PartialEq, Eq)]
pub(crate) struct Heard {
    /// Packets that a hut heard: all were refused by 27, and nothing changed.
    pub packets: u64,
    /// Those of them that would have changed a record, had they been of this group.
    pub otherwise: u64,
}

pub(crate) struct Neighbours {
    rule: Rule,
    laptops: Vec<Laptop>,
    rng: Rng,
    /// Of 100 ticks those in which it saves, and until when.
    share: u8,
    until: Tick,
    pub heard: Heard,
}

impl Neighbours {
    pub fn start(settings: &Settings) -> Result<Neighbours, Refusal> {
        let rule = other(settings.rule);
        // A station that never saves needs no laptops.
        let count = match settings.neighbours {
            0 => 0,
            _ => settings.laptops,
        };
        let view: Members = (0..settings.laptops).collect();
        let laptops: Result<Vec<Laptop>, Refusal> = (0..count)
            .map(|n| Laptop::start(n, view, rule, settings.records))
            .collect();
        Ok(Neighbours {
            rule,
            laptops: laptops?,
            rng: settings.rng(Part::Neighbours),
            share: settings.neighbours,
            until: settings.ticks,
            heard: Heard::default(),
        })
    }

    /// A view comes here, and there to the laptop of that number.
    pub fn view_came(&mut self, laptop: u8, epoch: u32, view: Members) {
        if let Some(laptop) = self.laptops.get_mut(usize::from(laptop)) {
            // It has the same views in the same order, so it takes what is taken here.
            let _ = laptop.change_view(epoch, view);
        }
    }

    /// Now and then one of its laptops saves a record, and all that leaves then goes on
    /// air: each packet is heard by one hut here. Of both stations these laptops run.
    pub fn on_air(&mut self, now: Tick, awake: Members) -> Vec<Packet> {
        if now >= self.until || !self.rng.chance(self.share.into(), 100) {
            return Vec::new();
        }
        let awake: Vec<u8> = awake.into_iter().collect();
        let saver = self.rng.pick(&awake).unwrap_or_default();
        let record = self.rng.below(self.laptops[0].count());
        let text = text::of_bird(&mut self.rng, false);
        let packets = self.saved(saver, record, text.as_bytes(), &awake);
        let heard = |bytes| Packet {
            to: self.rng.pick(&awake).unwrap_or_default(),
            record,
            bytes,
        };
        packets.into_iter().map(heard).collect()
    }

    /// A save there, with all that follows at once, as packets. None if the record is
    /// still being saved.
    fn saved(&mut self, saver: u8, record: usize, text: &[u8], awake: &[u8]) -> Vec<Vec<u8>> {
        let mut packets = Vec::new();
        let mut air = VecDeque::new();
        let inv = self.laptops[usize::from(saver)].write(record, text);
        air.extend(inv.map(Leaving::into_owned));
        while let Some(left) = air.pop_front() {
            for n in left.recipients().into_iter().filter(|n| awake.contains(n)) {
                let reply = self.laptops[usize::from(n)].deliver(left.arriving());
                let left = reply.map(|reply| reply.leaving().map(Leaving::into_owned));
                air.extend(left.ok().flatten());
            }
            let mut bytes = vec![0; packet::PACKET_MAX];
            let len = packet::pack(self.rule, [left], &mut bytes).expect("one message fits");
            bytes.truncate(len);
            packets.push(bytes);
        }
        packets
    }

    /// What one of its packets did here: what it was refused by, as a whole and when its
    /// message was fetched, and the laptop as it was before and is since. It is to be
    /// refused by 27, both times, and nothing has changed.
    pub fn came(
        &mut self,
        packet: &Packet,
        refused: [Option<Refusal>; 2],
        mut before: Laptop,
        since: &Laptop,
    ) -> Result<(), Cause> {
        let record = packet.record;
        if refused != [Some(Refusal::OtherRule); 2] || before != *since {
            return Err(Cause::TakenIn {
                record,
                laptop: since.number(),
            });
        }
        self.heard.packets += 1;
        // The copy is of no further use: what if byte 0 were this group's?
        let mut bytes = packet.bytes.clone();
        bytes[0] = before.settings().rule.number();
        let _ = before.deliver_packet(&bytes, 0);
        let changed = before.record(record) != since.record(record);
        self.heard.otherwise += u64::from(changed);
        Ok(())
    }
}

#[cfg(test)]
mod tests {
    use super::*;
    use cetskobi::{Message, Timestamp};

    /// A station of three, beside a group with this rule, that saves at every tick.
    fn three(rule: Rule) -> (Settings, Neighbours) {
        let settings = Settings {
            laptops: 3,
            records: 1,
            rule,
            neighbours: 100,
            ..Settings::default()
        };
        let neighbours = Neighbours::start(&settings).expect("a group of three");
        (settings, neighbours)
    }

    const ALL: u16 = 0b111;

    /// Each packet has the other rule's byte, and one message: the kind, who sent it,
    /// its epoch and its timestamp.
    fn sent(rule: Rule, packets: &[Packet]) -> Vec<(u8, u8, u32, Timestamp)> {
        let message = |Packet { record, bytes, .. }: &Packet| {
            assert_eq!(bytes[0], other(rule).number());
            assert_eq!(
                packet::messages(rule, bytes).err(),
                Some(Refusal::OtherRule)
            );
            let mut messages = packet::messages(other(rule), bytes).expect("a packet");
            let e = messages.next().expect("a message").envelope();
            assert_eq!((messages.len(), e.record), (0, *record));
            (e.message.kind(), e.sender, e.epoch, e.message.timestamp())
        };
        packets.iter().map(message).collect()
    }

    /// An INV, an ACK of each other and a VAL; the next save has the next version, and
    /// after a view there is one laptop less.
    #[test]
    fn all_that_leaves_a_save_goes_on_air() {
        for &rule in Rule::ALL {
            let (_, mut station) = three(rule);
            let saved = |station: &mut Neighbours, awake: u16, version| {
                let packets = station.on_air(0, Members::from(awake));
                let heard = packets.iter().all(|p| awake & (1 << p.to) != 0);
                assert!(heard, "a hut that runs");
                let messages = sent(rule, &packets);
                let (_, saver, epoch, stamp) = messages[0];
                assert_eq!(stamp.version, version);
                assert!(messages.iter().all(|m| (m.2, m.3) == (epoch, stamp)));
                let kinds: Vec<u8> = messages.iter().map(|m| m.0).collect();
                let val = messages.last().map(|m| m.1);
                (kinds, val == Some(saver), epoch)
            };
            let stamp = Timestamp::default();
            let [inv, ack, val] = [
                Message::Inv(stamp),
                Message::Ack(stamp),
                Message::Val(stamp),
            ]
            .map(Message::kind);
            for version in [1, 2] {
                let all = (vec![inv, ack, ack, val], true, 0);
                assert_eq!(saved(&mut station, ALL, version), all);
            }
            for n in [0, 2] {
                station.view_came(n, 1, Members::from(0b101));
            }
            let two = (vec![inv, ack, val], true, 1);
            assert_eq!(saved(&mut station, 0b101, 3), two);
            // No birds come any more.
            let until = Settings::default().ticks;
            assert!(station.on_air(until, Members::from(ALL)).is_empty());
        }
    }

    #[test]
    fn a_station_that_never_saves() {
        let settings = Settings {
            neighbours: 0,
            ..Settings::default()
        };
        let mut station = Neighbours::start(&settings).expect("no group");
        station.view_came(0, 1, Members::from(0b11));
        for now in 0..settings.ticks {
            assert!(station.on_air(now, Members::from(ALL)).is_empty());
        }
    }

    /// What is asked of a packet that came.
    #[test]
    fn it_is_refused_by_27_and_nothing_changes() {
        let (settings, mut station) = three(Rule::Lower);
        let laptop = |text: &[u8]| {
            let started = Laptop::start(0, ALL, settings.rule, settings.records);
            let mut laptop = started.expect("a laptop");
            let _inv = laptop.write(0, text);
            laptop
        };
        let packets = station.saved(2, 0, b"Robin", &[0, 1, 2]);
        let inv = &Packet {
            to: 0,
            record: 0,
            bytes: packets[0].clone(),
        };
        let right = [Some(Refusal::OtherRule); 2];
        // By our rule 0's own save wins, and by theirs it would not.
        let wren = laptop(b"Wren");
        assert_eq!(station.came(inv, right, wren.clone(), &wren), Ok(()));
        let heard = |packets, otherwise| Heard { packets, otherwise };
        assert_eq!(station.heard, heard(1, 0));
        let fresh = Laptop::start(0, ALL, settings.rule, settings.records);
        let fresh = fresh.expect("a laptop");
        assert_eq!(station.came(inv, right, fresh.clone(), &fresh), Ok(()));
        assert_eq!(station.heard, heard(2, 1));

        let taken_in = Err(Cause::TakenIn {
            record: 0,
            laptop: 0,
        });
        for wrong in [None, Some(Refusal::PacketHead), Some(Refusal::OtherEpoch)] {
            for refused in [[wrong, right[1]], [right[0], wrong]] {
                let came = station.came(inv, refused, wren.clone(), &wren);
                assert_eq!(came, taken_in);
            }
        }
        let came = station.came(inv, right, wren, &laptop(b"Robin"));
        assert_eq!(came, taken_in);
        assert_eq!(station.heard, heard(2, 1));
    }
}
