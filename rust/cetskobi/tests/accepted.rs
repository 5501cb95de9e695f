//! A packet accepted once, through `raw`: its messages are those that a fetch
//! gives, whatever the packet. And facts that are not the packet's own, which
//! the header lets anybody pass: of another packet, or made up.

use cetskobi::raw::{self, Accepted, Answer, Arrival, Fetched, Message, Replica, Settings};

const RULE: Settings = Settings { rule: 2 };
const ME: Replica = Replica {
    number: 2,
    settings: RULE,
    view: 0b10_0110,
    epoch: 9,
};

/// For ME at two fresh records: an INV with four bytes, which is accepted; an ACK
/// of an older epoch, and one that nobody awaits; a VAL of a valid record, and one
/// of a newer epoch; an INV without bytes, for no record there.
#[rustfmt::skip]
const WORDS: [u32; 6 * raw::MESSAGE_WORDS] = [
    1, 5, 9, 1, 0x0102_0304, 4, 4,
    2, 5, 8, 1, 1, 2, 0,
    2, 5, 9, 1, 1, 2, 0,
    3, 1, 9, 0, 7, 1, 0,
    3, 1, 10, 0, 7, 1, 0,
    1, 1, 9, 4095, 3, 15, 0,
];

fn packet() -> Vec<u8> {
    let mut out = [0; 104];
    let written = raw::pack(RULE, &WORDS, b"wing", &mut out);
    assert_eq!((written.number, written.len), (0, out.len()));
    out.to_vec()
}

/// The packet cut short at every place, with a byte more, and with every other
/// value of every byte: most of them no packets, and some others.
fn altered() -> impl Iterator<Item = Vec<u8>> {
    let whole = packet();
    let cut: Vec<Vec<u8>> = (0..=whole.len()).map(|n| whole[..n].to_vec()).collect();
    let longer = [whole.clone(), vec![0]].concat();
    let places = (0..whole.len()).flat_map(|place| (0..=255).map(move |byte| (place, byte)));
    let changed = places.map(move |(place, byte)| {
        let mut packet = whole.clone();
        packet[place] = byte;
        packet
    });
    cut.into_iter().chain([longer]).chain(changed)
}

/// Numbers of messages: those that are there, those just beyond, and any.
#[rustfmt::skip]
const NUMBERS: [usize; 14] = [
    0, 1, 2, 3, 4, 5, 6, 63, 64, 254, 255, 256, usize::MAX / 16, usize::MAX,
];

/// A laptop's table and store.
type Memory = ([u8; 2 * raw::RECORD_BYTES], [u8; 2 * 192]);

/// Two fresh records, and a store that is not zero.
#[rustfmt::skip]
const MEMORY: Memory = ([
    0, 1, 1, 1, 0, 0, 0, 0, 0, 0, 0, 0, 0, 0, 0, 9,
    0, 1, 1, 1, 0, 0, 0, 0, 0, 0, 0, 0, 0, 0, 0, 9,
], [7; 2 * 192]);

/// A refused fetch.
fn unfetched(number: u8) -> Fetched {
    Fetched {
        number,
        kind: 0,
        sender: 0,
        tie: 0,
        epoch: 0,
        version: 0,
        index: 0,
        at: 0,
        len: 0,
    }
}

/// What the header says of message `i` by these facts, word by word.
fn by_the_header(packet: &[u8], accepted: Accepted, i: usize) -> Fetched {
    if i >= usize::from(accepted.count) {
        return unfetched(match accepted.number {
            0 => 23,
            number => number,
        });
    }
    let Some(&entry) = packet.get(4 + 16 * i..).and_then(|rest| rest.first_chunk()) else {
        return unfetched(21);
    };
    let [kind, sender, e0, e1, e2, e3, i0, i1, v0, v1, v2, v3, tie, at0, at1, len]: [u8; 16] =
        entry;
    let (at, len) = (
        usize::from(u16::from_be_bytes([at0, at1])),
        usize::from(len),
    );
    if packet.len() < at + len {
        return unfetched(22);
    }
    Fetched {
        number: 0,
        kind,
        sender,
        tie,
        epoch: u32::from_be_bytes([e0, e1, e2, e3]),
        version: u32::from_be_bytes([v0, v1, v2, v3]),
        index: usize::from(u16::from_be_bytes([i0, i1])),
        at,
        len,
    }
}

/// A fetch's message, delivered with its bytes.
fn delivered(packet: &[u8], f: Fetched) -> (Arrival, Memory) {
    let mut memory = MEMORY;
    let mut answer = Answer {
        number: f.number,
        kind: 0,
        tie: 0,
        version: 0,
    };
    if f.number == 0 {
        let message = Message {
            kind: f.kind,
            sender: f.sender,
            tie: f.tie,
            epoch: f.epoch,
            version: f.version,
        };
        let (table, store) = (&mut memory.0, &mut memory.1);
        let body = &packet[f.at..][..f.len];
        answer = raw::deliver(ME, table, store, f.index, message, body);
    }
    let arrival = Arrival {
        answer,
        epoch: f.epoch,
        sender: f.sender,
        index: f.index,
    };
    (arrival, memory)
}

/// Message `i` by these facts, fetched and delivered: what is fetched, and answer
/// and memory of its delivery, which are those of [`raw::deliver`].
fn taken(packet: &[u8], accepted: Accepted, i: usize) -> (Fetched, Answer, Memory) {
    let fetched = raw::fetch_accepted(packet, accepted, i);
    let mut memory = MEMORY;
    let (table, store) = (&mut memory.0, &mut memory.1);
    let arrival = raw::deliver_accepted(ME, table, store, packet, accepted, i);
    let right = delivered(packet, fetched);
    let what = || format!("{accepted:?}, message {i} of {packet:?}");
    assert_eq!((arrival, memory), right, "{}", what());
    assert!(arrival.answer.number == 0 || memory == MEMORY, "{}", what());
    (fetched, arrival.answer, memory)
}

#[test]
fn what_is_accepted_is_what_is_fetched() {
    let mut answers = [0; 256];
    for packet in altered() {
        let accepted = raw::accept(RULE, &packet);
        let first = raw::fetch(RULE, &packet, 0).number;
        assert_eq!(accepted.number, first, "{packet:?}");
        let count = (0..300).take_while(|i| raw::fetch(RULE, &packet, *i).number == 0);
        assert_eq!(usize::from(accepted.count), count.count(), "{packet:?}");
        for i in NUMBERS {
            let mut memory = MEMORY;
            let (table, store) = (&mut memory.0, &mut memory.1);
            let answer = raw::deliver_packet(ME, table, store, &packet, i);
            let each = (raw::fetch(RULE, &packet, i), answer, memory);
            let once = taken(&packet, accepted, i);
            assert_eq!(once, each, "message {i} of {packet:?}");
            answers[usize::from(answer.number)] += 1;
        }
    }
    // Each of these came about: accepted; refused by the delivery; no packet, or no message.
    for number in [0, 4, 10, 11, 13, 14, 20, 21, 22, 23, 27] {
        assert!(answers[number] > 10, "{number}: {} times", answers[number]);
    }
    // Ill-formed ones are refused with their packet.
    assert_eq!(answers[12], 0);
}

#[test]
fn facts_that_are_not_the_packets_own() {
    let mut answers = [0; 256];
    for packet in altered() {
        let counts = [0, 1, 5, 6, 7, 64, 255];
        let facts = counts.iter().flat_map(|&count| {
            let numbers = [0, 5, 22, 255].into_iter();
            numbers.map(move |number| Accepted { number, count })
        });
        for accepted in facts {
            for i in NUMBERS {
                let (fetched, answer, _) = taken(&packet, accepted, i);
                let right = by_the_header(&packet, accepted, i);
                assert_eq!(fetched, right, "{accepted:?}, message {i} of {packet:?}");
                answers[usize::from(answer.number)] += 1;
            }
        }
    }
    // Also 12, which no packet of its own facts gets; and the made-up 5 and 255.
    for number in [0, 4, 5, 10, 11, 12, 13, 14, 21, 22, 23, 255] {
        assert!(answers[number] > 10, "{number}: {} times", answers[number]);
    }
    assert_eq!(answers[20], 0);
}

/// The same part of other bytes: what stands around a packet does not matter.
#[test]
fn nothing_outside_the_packet_is_read() {
    let whole = packet();
    for around in [0, 1, 0xee, 0xff] {
        for len in 0..=whole.len() {
            let mut bytes = vec![around; 64 + len + 8192];
            bytes[64..][..len].copy_from_slice(&whole[..len]);
            let part = &bytes[64..][..len];
            assert_eq!(raw::accept(RULE, part), raw::accept(RULE, &whole[..len]));
            for count in [6, 255] {
                let accepted = Accepted { number: 0, count };
                for i in NUMBERS {
                    assert_eq!(
                        taken(part, accepted, i),
                        taken(&whole[..len], accepted, i),
                        "{len} bytes, message {i}"
                    );
                }
            }
        }
    }
}
