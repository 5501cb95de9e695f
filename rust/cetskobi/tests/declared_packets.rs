//! The exported functions of what leaves, of packets and of the playing program,
//! through their declarations.

use cetskobi::sys::*;

const HIGHER: Settings = Settings { rule: 1 };
const LOWER: Settings = Settings { rule: 2 };

const ME: Replica = Replica {
    number: 2,
    settings: LOWER,
    view: 0b10_0110,
    epoch: 9,
};

/// An INV of (16909060,4) from 5 at epoch 9 for record 1, with four bytes; an
/// ACK of (1,2) from 5 at epoch 0 for record 7.
const WORDS_OF_TWO: [u32; 2 * MESSAGE_WORDS] = [1, 5, 9, 1, 0x0102_0304, 4, 4, 2, 5, 0, 7, 1, 2, 0];
/// Of a group with the new rule: byte 0 is 2.
const PACKET_OF_TWO: [u8; 40] = [
    2, 2, 0, 40, //
    1, 5, 0, 0, 0, 9, 0, 1, 1, 2, 3, 4, 4, 0, 36, 4, //
    2, 5, 0, 0, 0, 0, 0, 7, 0, 0, 0, 1, 2, 0, 40, 0, //
    b'w', b'i', b'n', b'g',
];

const INV: Fetched = Fetched {
    number: 0,
    kind: 1,
    sender: 5,
    tie: 4,
    epoch: 9,
    version: 0x0102_0304,
    index: 1,
    at: 36,
    len: 4,
};
const ACK: Fetched = Fetched {
    number: 0,
    kind: 2,
    sender: 5,
    tie: 2,
    epoch: 0,
    version: 1,
    index: 7,
    at: 40,
    len: 0,
};

/// A fetch refused by this question.
const fn unfetched(number: u8) -> Fetched {
    Fetched {
        number,
        kind: 0,
        sender: 0,
        tie: 0,
        epoch: 0,
        version: 0,
        index: 0,
        at: 0,
        len: 0,
    }
}

/// What is known of `PACKET_OF_TWO`.
const TWO: Accepted = Accepted {
    number: 0,
    count: 2,
};

/// `PACKET_OF_TWO` with another byte at this place.
fn with(place: usize, byte: u8) -> [u8; 40] {
    let mut packet = PACKET_OF_TWO;
    packet[place] = byte;
    packet
}

#[test]
fn body() {
    let writing = [3, 2, 2, 2, 6, 0, 0, 0, 6, 0, 0, 0, 0, 0, 62, 9];
    let table = [[0; RECORD_BYTES], writing].concat();
    let store = [7; 2 * 192];
    let (t, s) = (table.as_ptr(), store.as_ptr());
    let room = |store_len, i, kind, version, tie| {
        let left = Answer {
            number: 0,
            kind,
            tie,
            version,
        };
        unsafe { cetskobi_body(t, table.len(), s, store_len, i, left) }
    };
    let call = |i, kind, version, tie| room(store.len(), i, kind, version, tie);
    assert_eq!(call(1, 1, 6, 2), 62);
    assert_eq!(call(1, 2, 6, 2), 0);
    assert_eq!(call(1, 3, 6, 2), 0);
    assert_eq!(call(0, 1, 0, 0), 0);
    assert_eq!(call(1, 1, 5, 2), GONE);
    assert_eq!(call(1, 1, 6, 5), GONE);
    assert_eq!(call(2, 1, 6, 2), GONE);
    assert_eq!(call(usize::MAX, 1, 6, 2), GONE);
    assert_eq!(room(2 * 192 - 1, 1, 1, 6, 2), GONE);
}

#[test]
fn recipients() {
    let call = |kind, sender| unsafe { cetskobi_recipients(ME, kind, sender) };
    assert_eq!(call(0, 5), 0);
    assert_eq!(call(1, 5), 0b10_0010);
    assert_eq!(call(2, 5), 0b10_0000);
    assert_eq!(call(2, 16), 0);
    assert_eq!(call(3, 5), 0b10_0010);
}

#[test]
fn fetch() {
    let by = |settings, packet: &[u8], i| unsafe {
        cetskobi_fetch(settings, packet.as_ptr(), packet.len(), i)
    };
    let call = |i| by(LOWER, &PACKET_OF_TWO, i);
    assert_eq!(call(0), INV);
    assert_eq!(call(1), ACK);
    assert_eq!(call(2), unfetched(23));
    // 27 after 20, and before 21, 22 and 23: of every message alike.
    for i in [0, 1, 2, usize::MAX] {
        for (settings, other) in [(LOWER, HIGHER), (HIGHER, LOWER)] {
            let packet = with(0, other.rule);
            assert_eq!(by(settings, &packet, i), unfetched(27));
            assert_eq!(by(settings, &packet[..39], i), unfetched(20));
            let mut broken = packet;
            broken[4] = 9;
            assert_eq!(by(settings, &broken, i), unfetched(27));
            assert_eq!(by(other, &broken, i), unfetched(22));
            broken[1] = 3;
            assert_eq!(by(settings, &broken, i), unfetched(27));
            assert_eq!(by(other, &broken, i), unfetched(21));
            broken[1] = 65;
            assert_eq!(by(settings, &broken, i), unfetched(20));
        }
    }
}

/// What every byte 0 answers to every byte of the settings: 0 for the group's own.
fn number_of(rule: u8, first: u8) -> u8 {
    match (rule, first) {
        (2, 2) => 0,
        (2, 1) => 27,
        (_, 1) => 0,
        (_, 2) => 27,
        _ => 20,
    }
}

/// Every value of the rule, as the settings have it and as byte 0 has it: fetch,
/// accept and the delivery of a message ask alike.
#[test]
fn every_rule_and_every_byte_0() {
    let fresh = [0, 1, 1, 1, 0, 0, 0, 0, 0, 0, 0, 0, 0, 0, 0, 9];
    for (rule, first) in (0..=255).flat_map(|rule| (0..=255).map(move |first| (rule, first))) {
        let settings = Settings { rule };
        let packet = with(0, first);
        let (p, p_len) = (packet.as_ptr(), packet.len());
        let number = number_of(rule, first);
        let case = format!("rule {rule}, byte 0 {first}");
        let fetched = unsafe { cetskobi_fetch(settings, p, p_len, 0) };
        let right = if number == 0 { INV } else { unfetched(number) };
        assert_eq!(fetched, right, "{case}");
        let accepted = unsafe { cetskobi_accept(settings, p, p_len) };
        let count = if number == 0 { 2 } else { 0 };
        assert_eq!(accepted, Accepted { number, count }, "{case}");

        let before = [fresh, fresh].concat();
        let (mut table, mut store) = (before.clone(), vec![7; 2 * 192]);
        let (t, s) = (table.as_mut_ptr(), store.as_mut_ptr());
        let me = Replica { settings, ..ME };
        let answer =
            unsafe { cetskobi_deliver_packet(me, t, 2 * RECORD_BYTES, s, 2 * 192, p, p_len, 0) };
        assert_eq!(answer.number, number, "{case}");
        assert_eq!(table == before, number != 0, "{case}");
        assert_eq!(store == vec![7; 2 * 192], number != 0, "{case}");
    }
}

#[test]
fn accept() {
    let by = |settings, packet: &[u8]| unsafe {
        cetskobi_accept(settings, packet.as_ptr(), packet.len())
    };
    let call = |packet: &[u8]| by(LOWER, packet);
    let refused = |number| Accepted { number, count: 0 };
    assert_eq!(call(&PACKET_OF_TWO), TWO);
    assert_eq!(call(&PACKET_OF_TWO[..39]), refused(20));
    assert_eq!(call(&with(1, 3)), refused(21));
    assert_eq!(call(&with(4, 9)), refused(22));
    assert_eq!(call(&with(0, 1)), refused(27));
    assert_eq!(by(HIGHER, &with(0, 1)), TWO);
    assert_eq!(by(HIGHER, &with(1, 3)), refused(27));
    assert_eq!(by(HIGHER, &with(4, 9)), refused(27));
    assert_eq!(by(HIGHER, &with(1, 65)), refused(20));
}

#[test]
fn fetch_accepted() {
    let call = |packet: &[u8], accepted, i| unsafe {
        cetskobi_fetch_accepted(packet.as_ptr(), packet.len(), accepted, i)
    };
    assert_eq!(call(&PACKET_OF_TWO, TWO, 0), INV);
    assert_eq!(call(&PACKET_OF_TWO, TWO, 1), ACK);
    assert_eq!(call(&PACKET_OF_TWO, TWO, 2), unfetched(23));
    let refused = Accepted {
        number: 22,
        count: 0,
    };
    assert_eq!(call(&PACKET_OF_TWO, refused, 0), unfetched(22));
    // Facts of another packet.
    assert_eq!(call(&PACKET_OF_TWO[..35], TWO, 1), unfetched(21));
    assert_eq!(call(&PACKET_OF_TWO[..39], TWO, 0), unfetched(22));
    assert_eq!(call(&with(4, 9), TWO, 0), Fetched { kind: 9, ..INV });
}

#[test]
fn pack() {
    let bodies = b"wing";
    let mut out = [0xee; 41];
    let o = out.as_mut_ptr();
    let by = |rule, messages_len, bodies_len, out_len| unsafe {
        let (words, bodies) = (WORDS_OF_TWO.as_ptr(), bodies.as_ptr());
        let settings = Settings { rule };
        cetskobi_pack(
            settings,
            words,
            messages_len,
            bodies,
            bodies_len,
            o,
            out_len,
        )
    };
    let call = |messages_len, bodies_len, out_len| by(2, messages_len, bodies_len, out_len);
    assert_eq!(call(14, 3, 41), Written { number: 24, len: 0 });
    assert_eq!(call(14, 4, 39), Written { number: 25, len: 0 });
    assert_eq!(call(0, 0, 41).number, 24);
    assert_eq!(call(14, 4, 41), Written { number: 0, len: 40 });
    assert_eq!(out[..40], PACKET_OF_TWO);
    // Byte 0 is the rule's number, and nothing else goes by the rule.
    for rule in 0..=255 {
        out.fill(0xee);
        assert_eq!(by(rule, 14, 4, 41), Written { number: 0, len: 40 });
        let first = if rule == 2 { 2 } else { 1 };
        assert_eq!(out[..40], with(0, first));
        assert_eq!(out[40], 0xee);
    }
}

#[test]
fn deliver_packet() {
    let fresh = [0, 1, 1, 1, 0, 0, 0, 0, 0, 0, 0, 0, 0, 0, 0, 9];
    let mut table = [fresh, fresh].concat();
    let mut store = vec![7; 2 * 192];
    let (t, s) = (table.as_mut_ptr(), store.as_mut_ptr());
    let call = |packet: &[u8], i| unsafe {
        cetskobi_deliver_packet(
            ME,
            t,
            2 * RECORD_BYTES,
            s,
            2 * 192,
            packet.as_ptr(),
            packet.len(),
            i,
        )
    };
    let accepted = Answer {
        number: 0,
        kind: 2,
        tie: 4,
        version: 0x0102_0304,
    };
    assert_eq!(call(&PACKET_OF_TWO[..3], 0).number, 20);
    assert_eq!(call(&with(0, 1), 0).number, 27);
    assert_eq!(call(&with(0, 1), 2).number, 27);
    assert_eq!(call(&PACKET_OF_TWO, 2).number, 23);
    assert_eq!(call(&PACKET_OF_TWO, 1).number, 4);
    assert_eq!(call(&PACKET_OF_TWO, 0), accepted);
    let invalid = [1, 4, 5, 1, 4, 3, 2, 1, 0, 0, 0, 0, 0, 0, 4, 9];
    assert_eq!(table, [fresh, invalid].as_flattened());
    assert_eq!(store[..192], [7; 192]);
    assert_eq!(store[192..196], *b"wing");
    assert_eq!(store[196..], [0; 188]);
}

#[test]
fn deliver_accepted() {
    let fresh = [0, 1, 1, 1, 0, 0, 0, 0, 0, 0, 0, 0, 0, 0, 0, 9];
    let mut table = [fresh, fresh].concat();
    let mut store = vec![7; 2 * 192];
    let (t, s) = (table.as_mut_ptr(), store.as_mut_ptr());
    let by = |me, packet: &[u8], accepted, i| unsafe {
        cetskobi_deliver_accepted(
            me,
            t,
            2 * RECORD_BYTES,
            s,
            2 * 192,
            packet.as_ptr(),
            packet.len(),
            accepted,
            i,
        )
    };
    let call = |packet: &[u8], accepted, i| by(ME, packet, accepted, i);
    let answered = |number| Answer {
        number,
        kind: 0,
        tie: 0,
        version: 0,
    };
    let none = |number| Arrival {
        answer: answered(number),
        epoch: 0,
        sender: 0,
        index: 0,
    };
    let head = Accepted {
        number: 20,
        count: 0,
    };
    assert_eq!(call(&PACKET_OF_TWO, head, 0), none(20));
    let other = Accepted {
        number: 27,
        count: 0,
    };
    assert_eq!(call(&PACKET_OF_TWO, other, 0), none(27));
    assert_eq!(call(&PACKET_OF_TWO, TWO, 2), none(23));
    assert_eq!(call(&PACKET_OF_TWO[..35], TWO, 1), none(21));
    assert_eq!(call(&PACKET_OF_TWO[..39], TWO, 0), none(22));
    // Refused, and told which message it was.
    let ack = Arrival {
        answer: answered(4),
        epoch: 0,
        sender: 5,
        index: 7,
    };
    assert_eq!(call(&PACKET_OF_TWO, TWO, 1), ack);
    let inv = Arrival {
        answer: answered(10),
        epoch: 9,
        sender: 5,
        index: 1,
    };
    let earlier = Replica { epoch: 8, ..ME };
    assert_eq!(by(earlier, &PACKET_OF_TWO, TWO, 0), inv);
    // No kind, by facts of another packet.
    let answer = answered(12);
    assert_eq!(call(&with(4, 9), TWO, 0), Arrival { answer, ..inv });
    let answer = Answer {
        number: 0,
        kind: 2,
        tie: 4,
        version: 0x0102_0304,
    };
    // By its facts alone: byte 0 is not looked at again.
    assert_eq!(call(&with(0, 1), TWO, 0), Arrival { answer, ..inv });
    let invalid = [1, 4, 5, 1, 4, 3, 2, 1, 0, 0, 0, 0, 0, 0, 4, 9];
    assert_eq!(table, [fresh, invalid].as_flattened());
    assert_eq!(store[..192], [7; 192]);
    assert_eq!(store[192..196], *b"wing");
    assert_eq!(store[196..], [0; 188]);
}

#[test]
fn play() {
    let script = b"group 2\nwrite 0 A1\n";
    let mut out = [0xee; 25 * 19 + 2];
    let o = out.as_mut_ptr();
    let call = |room| unsafe { cetskobi_play(script.as_ptr(), script.len(), o, room) };
    assert_eq!(
        call(25 * 19 + 1),
        Played {
            number: 255,
            len: 0
        }
    );
    assert_eq!(call(25 * 19 + 2), Played { number: 0, len: 10 });
    assert_eq!(out[..10], *b"0 W 1 0 0\n");
    assert_eq!(out[10], 0xee);
}
