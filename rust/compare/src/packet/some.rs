use cetskobi::raw::Settings;
use model::engine::Rule;
use model::packet::PACKET_LIMIT;
use model::rng::Rng;

use super::{packet_of, Letter};
use crate::crossing::{other_rule, rule_of};
use crate::single::{some_bytes, some_word};

const HEAD: usize = 4;
const ENTRY: usize = 16;

/// A good message, whose body has at most so many bytes.
pub fn some_letter(rng: &mut Rng, room: usize) -> Letter {
    let kind = 1 + rng.below(3) as u32;
    let len = match kind {
        1 => [0, 1, 192, rng.below(193), rng.below(20)][rng.below(5)].min(room),
        _ => 0,
    };
    let number = |rng: &mut Rng| [0, 15, rng.below(16) as u32][rng.below(3)];
    let record = [0, 7, 4095, rng.below(4096) as u32][rng.below(4)];
    Letter {
        words: [
            kind,
            number(rng),
            some_word(rng),
            record,
            some_word(rng),
            number(rng),
            len as u32,
        ],
        body: some_bytes(rng, len).0,
    }
}

/// Good messages of at most so many bytes in all, in a packet.
pub fn some_letters(rng: &mut Rng, room: usize) -> Vec<Letter> {
    let count = [1, 1, 2, 3, 5, 8, 20, 63, 64, 1 + rng.below(64)][rng.below(10)];
    let mut room = room - HEAD - ENTRY * count;
    let mut letters = Vec::new();
    for _ in 0..count {
        let letter = some_letter(rng, room);
        room -= letter.body.len();
        letters.push(letter);
    }
    letters
}

/// A packet of groups with this rule of ties that is whole.
pub fn some_packet(rng: &mut Rng, rule: Rule) -> Vec<u8> {
    packet_of(rule, &some_letters(rng, PACKET_LIMIT)).expect("good messages")
}

/// The rule of a packet that comes to a group with these settings: `times` out of `of`
/// the rule that the group does not have (02, Wish 6).
pub fn some_rule_for(rng: &mut Rng, settings: Settings, times: usize, of: usize) -> Rule {
    let own = rule_of(settings);
    match rng.chance(times, of) {
        true => other_rule(own),
        false => own,
    }
}

/// The total length is made that of the bytes.
pub fn set_total(packet: &mut [u8]) {
    let total = packet.len() as u16;
    if let Some(place) = packet.get_mut(2..4) {
        place.copy_from_slice(&total.to_be_bytes());
    }
}

/// One thing is damaged; often in a way that the first questions let pass.
pub fn damage(rng: &mut Rng, packet: &mut Vec<u8>) {
    let count = packet.get(1).map_or(0, |&count| usize::from(count));
    let contents = (HEAD + ENTRY * count).min(packet.len());
    match rng.below(16) {
        0 => packet.truncate(rng.below(packet.len() + 1)),
        1 => {
            packet.truncate(rng.below(packet.len() + 1));
            set_total(packet);
        }
        2 => packet.extend(some_bytes(rng, 1).0),
        3 => {
            let len = 1 + rng.below(40);
            packet.extend(some_bytes(rng, len).0);
            set_total(packet);
        }
        4 => {
            // One byte less or more within, with its total.
            let at = rng.below(packet.len() + 1);
            match packet.get(at) {
                Some(_) if rng.chance(1, 2) => drop(packet.remove(at)),
                _ => packet.insert(at, rng.next_u64() as u8),
            }
            set_total(packet);
        }
        5 => {
            let len = rng.below(60);
            *packet = some_bytes(rng, len).0;
        }
        6 => {
            // Any bytes, with a good head.
            let len = [1400, 1401, 1399, 4 + rng.below(1500)][rng.below(4)];
            *packet = some_bytes(rng, len).0;
            packet[..2].copy_from_slice(&[1 + rng.below(2) as u8, rng.below(70) as u8]);
            set_total(packet);
        }
        7 if !packet.is_empty() => {
            let at = [0, rng.below(packet.len().min(4))][rng.below(2)];
            packet[at] = [0, 1, 2, 3, 64, 65, 255, rng.next_u64() as u8][rng.below(8)];
        }
        8..14 if contents > HEAD => {
            let at = HEAD + rng.below(contents - HEAD);
            packet[at] = match rng.below(5) {
                0 => packet[at].wrapping_add(1),
                1 => packet[at].wrapping_sub(1),
                2 => packet[at] ^ 1 << rng.below(8),
                3 => [0, 15, 16, 192, 193, 255][rng.below(6)],
                _ => rng.next_u64() as u8,
            };
        }
        14 if count >= 2 && contents == HEAD + ENTRY * count => {
            // Two entries change places: their offsets do not.
            let (a, b) = (rng.below(count), rng.below(count));
            for k in 0..ENTRY {
                packet.swap(HEAD + ENTRY * a + k, HEAD + ENTRY * b + k);
            }
        }
        _ if !packet.is_empty() => {
            let at = rng.below(packet.len());
            packet[at] = rng.next_u64() as u8;
        }
        _ => packet.push(1),
    }
}
