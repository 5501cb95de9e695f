//! Packets of what leaves, and the playing program.

use cetskobi::packet::{self, MESSAGES_MAX, PACKET_MAX};
use cetskobi::{play, raw, Arriving, Envelope, Laptop, Leaving, Message, Refusal, Reply};
use cetskobi::{Rule, Timestamp, SCRIPT_MAX};

/// Document 01's. `rules.rs` has both.
const RULE: Rule = Rule::Higher;
const STAMP: Timestamp = Timestamp { version: 1, tie: 2 };

/// Document 01's packet: laptop 5 acknowledges (1,2) for record 7.
const ACK: [u8; 20] = [1, 1, 0, 20, 2, 5, 0, 0, 0, 0, 0, 7, 0, 0, 0, 1, 2, 0, 20, 0];

/// Laptop 5 saves a value of each length, in records from 0 on.
fn saved(lengths: &[usize]) -> Vec<Leaving<'static>> {
    let mut laptop = Laptop::start(5, 0b10_0110, RULE, 4096).unwrap();
    let mut saved = |(i, &len): (usize, &usize)| {
        let value = vec![i as u8; len];
        laptop.write(i, &value).unwrap().into_owned()
    };
    lengths.iter().enumerate().map(&mut saved).collect()
}

#[test]
fn the_packet_of_document_01() {
    let mut two = Laptop::start(2, 0b10_0110, RULE, 8).unwrap();
    let mut five = Laptop::start(5, 0b10_0110, RULE, 8).unwrap();
    let inv = two.write(7, b"wren").unwrap();
    let ack = five.deliver(inv.arriving()).unwrap().leaving().unwrap();
    let mut out = [0xee; 21];
    assert_eq!(packet::pack(RULE, [&ack], &mut out), Ok(20));
    assert_eq!((&out[..20], out[20]), (&ACK[..], 0xee));
    let envelope = Envelope {
        sender: 5,
        epoch: 0,
        record: 7,
        message: Message::Ack(STAMP),
    };
    assert_eq!(ack.envelope(), envelope);
    assert_eq!(
        packet::fetch(RULE, &ACK, 0),
        Ok(Arriving::new(envelope, b""))
    );
    assert_eq!(packet::fetch(RULE, &ACK, 1), Err(Refusal::PacketIndex));
}

#[test]
fn what_is_packed_is_fetched() {
    let outbox = saved(&[0, 1, 2, 3, 4, 5]);
    let mut out = [0; PACKET_MAX];
    let len = packet::pack(RULE, &outbox, &mut out).unwrap();
    let sent: Vec<Arriving> = outbox.iter().map(Leaving::arriving).collect();
    let fetched: Vec<Arriving> = packet::messages(RULE, &out[..len]).unwrap().collect();
    assert_eq!(fetched, sent);
}

#[test]
fn packets_of_1400_and_1401_bytes() {
    // Seven messages: 4 bytes, 7 times 16, and 1,284 bytes of bodies.
    let of = |last| saved(&[192, 192, 192, 192, 192, 192, last]);
    let mut out = [0xee; PACKET_MAX + 1];
    assert_eq!(
        packet::pack(RULE, &of(133), &mut out),
        Err(Refusal::PacketRoom)
    );
    assert_eq!(out, [0xee; PACKET_MAX + 1]);
    assert_eq!(
        packet::pack(RULE, &of(132), &mut out[..1399]),
        Err(Refusal::PacketRoom)
    );
    assert_eq!(packet::pack(RULE, &of(132), &mut out), Ok(1400));
    assert_eq!(packet::messages(RULE, &out[..1400]).unwrap().count(), 7);
    assert_eq!(
        packet::messages(RULE, &out).err(),
        Some(Refusal::PacketHead)
    );
}

#[test]
fn messages_64_and_65() {
    let mut out = [0; PACKET_MAX];
    let outbox = saved(&[0; 1000]);
    let none = Err(Refusal::PacketMessages);
    assert_eq!(packet::pack(RULE, &outbox[..0], &mut out), none);
    assert_eq!(
        packet::pack(RULE, &outbox[..MESSAGES_MAX + 1], &mut out),
        none
    );
    assert_eq!(packet::pack(RULE, &outbox, &mut out), none);
    let len = packet::pack(RULE, &outbox[..MESSAGES_MAX], &mut out).unwrap();
    assert_eq!(len, 4 + 16 * 64);
    assert_eq!(packet::messages(RULE, &out[..len]).unwrap().count(), 64);
}

/// What left the last of the most records goes into a packet whole.
#[test]
fn the_last_record() {
    let last = saved(&[0; 4096]).pop().unwrap();
    let mut out = [0; PACKET_MAX];
    let len = packet::pack(RULE, [last], &mut out).unwrap();
    let came = packet::fetch(RULE, &out[..len], 0).unwrap();
    assert_eq!(came.envelope().record, 4095);
}

/// Refused at once, and for every message alike; nothing is delivered.
#[test]
fn broken_packets() {
    let refused = |packet: &[u8]| {
        let mut laptop = Laptop::start(2, 0b10_0110, RULE, 8).unwrap();
        assert!(laptop.write(7, b"wren").is_ok());
        let before = laptop.clone();
        let refusal = packet::messages(RULE, packet).err();
        for i in [0, 1, 63, 64, usize::MAX] {
            assert_eq!(packet::fetch(RULE, packet, i).err(), refusal);
            assert_eq!(laptop.deliver_packet(packet, i).err(), refusal);
        }
        assert_eq!(laptop, before);
        refusal
    };
    let broken = |place: usize, byte| {
        let mut packet = ACK;
        packet[place] = byte;
        refused(&packet)
    };
    assert_eq!(refused(&[]), Some(Refusal::PacketHead));
    assert_eq!(refused(&ACK[..19]), Some(Refusal::PacketHead));
    assert_eq!(broken(0, 0), Some(Refusal::PacketHead));
    assert_eq!(broken(0, 2), Some(Refusal::OtherRule));
    assert_eq!(broken(0, 3), Some(Refusal::PacketHead));
    assert_eq!(broken(1, 2), Some(Refusal::PacketContents));
    assert_eq!(broken(4, 4), Some(Refusal::PacketEntry));
    assert_eq!(broken(18, 21), Some(Refusal::PacketEntry));
    // Record 4,096 fits the two bytes, and is refused.
    assert_eq!(broken(10, 16), Some(Refusal::PacketEntry));
}

/// One after another they are what a fetch gives, and what is left is counted.
#[test]
fn messages_are_what_is_fetched() {
    let mut out = [0; PACKET_MAX];
    for lengths in [
        &[192; 1][..],
        &[0; 2],
        &[3, 0, 192, 1, 0],
        &[192; 6],
        &[0; 64],
    ] {
        let len = packet::pack(RULE, saved(lengths), &mut out).unwrap();
        let packet = &out[..len];
        let mut messages = packet::messages(RULE, packet).unwrap();
        for i in 0..lengths.len() {
            let left = lengths.len() - i;
            assert_eq!(messages.len(), left);
            assert_eq!(messages.size_hint(), (left, Some(left)));
            // A clone goes on by itself.
            assert_eq!(messages.clone().count(), left);
            assert_eq!(messages.next(), packet::fetch(RULE, packet, i).ok());
        }
        assert_eq!((messages.len(), messages.next()), (0, None));
        let beyond = packet::fetch(RULE, packet, lengths.len());
        assert_eq!(
            (messages.next(), beyond.err()),
            (None, Some(Refusal::PacketIndex))
        );
    }
}

/// Messages for laptop 2 of {1,2,5} at epoch 1, whose record 0 is in state write:
/// each kind from each sender and of each epoch, accepted ones among them.
fn of_every_sort() -> Vec<[u32; raw::MESSAGE_WORDS]> {
    let mut words = Vec::new();
    for (epoch, sender) in [
        (0, 1),
        (1, 1),
        (1, 2),
        (1, 5),
        (1, 9),
        (2, 5),
        (u32::MAX, 1),
    ] {
        for record in [0, 1, 7, 4095] {
            words.push([1, sender, epoch, record, 3, sender, 4]);
            words.push([2, sender, epoch, record, 1, 2, 0]);
            words.push([3, sender, epoch, record, 3, sender, 0]);
        }
    }
    words
}

/// What leaves, or the refusal.
fn replied(reply: Result<Reply, Refusal>) -> Result<Option<Leaving<'static>>, Refusal> {
    reply.map(|reply| reply.leaving().map(Leaving::into_owned))
}

/// A packet taken in one pass leaves a laptop as its messages one by one do, each
/// by its number, and each by a fetch and a delivery: answers, what leaves, memory.
#[test]
fn a_packet_in_one_pass() {
    let mut start = Laptop::start(2, 0b10_0110, RULE, 8).unwrap();
    start.change_view(1, 0b10_0110).unwrap();
    assert!(start.write(0, b"wren").is_ok());
    let mut numbers = [0; 32];
    let mut out = [0; PACKET_MAX];
    for (count, from) in [(1, 0), (2, 5), (7, 11), (64, 0), (64, 20)] {
        // Packets of so many, from there on; then round again.
        let words: Vec<u32> = (of_every_sort().iter().cycle().skip(from).take(count))
            .flatten()
            .copied()
            .collect();
        let texts = words.chunks(7).filter(|w| w[0] == 1).count();
        let written = raw::pack(RULE.into(), &words, &b"wing".repeat(texts), &mut out);
        assert_eq!(written.number, 0);
        let packet = &out[..written.len];

        let [mut once, mut each, mut by_hand] = [start.clone(), start.clone(), start.clone()];
        let mut messages = packet::messages(RULE, packet).unwrap();
        for i in 0..count {
            let came = packet::fetch(RULE, packet, i).unwrap();
            let arrival = once.deliver_next(&mut messages).expect("one more");
            let told = (arrival.sender(), arrival.epoch(), arrival.record());
            let Envelope {
                sender,
                epoch,
                record,
                ..
            } = came.envelope();
            assert_eq!(told, (sender, epoch, record), "message {i}");
            let reply = replied(arrival.reply());
            assert_eq!(
                reply,
                replied(each.deliver_packet(packet, i)),
                "message {i}"
            );
            assert_eq!(reply, replied(by_hand.deliver(came)), "message {i}");
            assert!(once == each && once == by_hand, "message {i}");
            numbers[usize::from(reply.map_or_else(Refusal::number, |_| 0))] += 1;
            assert_eq!(messages.len(), count - i - 1);
        }
        assert_eq!(once.deliver_next(&mut messages), None);
        assert_eq!(once.deliver_next(&mut messages), None);
        assert!(once == each);
    }
    let came = numbers.iter().enumerate().filter(|n| *n.1 > 0);
    let came: Vec<usize> = came.map(|n| n.0).collect();
    assert_eq!(came, [0, 4, 10, 11, 13, 14]);
}

/// Whichever question refuses it: who sent it, at which epoch, about which record.
#[test]
fn a_refused_arrival_tells_which_message_it_was() {
    let mut out = [0; PACKET_MAX];
    let mut told = |me: &Laptop, words: [u32; raw::MESSAGE_WORDS]| {
        let written = raw::pack(RULE.into(), &words, b"", &mut out);
        let mut messages = packet::messages(RULE, &out[..written.len]).unwrap();
        let mut laptop = me.clone();
        let arrival = laptop.deliver_next(&mut messages).unwrap();
        let message = (arrival.sender(), arrival.epoch(), arrival.record());
        let refusal = arrival.reply().unwrap_err();
        assert_eq!(laptop, *me);
        (message, refusal)
    };
    let mut me = Laptop::start(2, 0b10_0110, RULE, 2).unwrap();
    me.change_view(3, 0b10_0110).unwrap();
    // A view that it missed, and a message that is late.
    assert_eq!(
        told(&me, [3, 5, 4, 1, 6, 5, 0]),
        ((5, 4, 1), Refusal::OtherEpoch)
    );
    let last = told(&me, [3, 1, u32::MAX, 1, 6, 5, 0]);
    assert_eq!(last, ((1, u32::MAX, 1), Refusal::OtherEpoch));
    assert_eq!(
        told(&me, [1, 5, 0, 0, 6, 5, 0]),
        ((5, 0, 0), Refusal::OtherEpoch)
    );
    assert_eq!(
        told(&me, [2, 15, 3, 1, 6, 2, 0]),
        ((15, 3, 1), Refusal::OtherSender)
    );
    assert_eq!(
        told(&me, [2, 1, 3, 0, 6, 2, 0]),
        ((1, 3, 0), Refusal::StrayAck)
    );
    assert_eq!(
        told(&me, [3, 1, 3, 0, 6, 2, 0]),
        ((1, 3, 0), Refusal::StrayVal)
    );
    assert_eq!(
        told(&me, [1, 1, 4, 2, 6, 2, 0]),
        ((1, 4, 2), Refusal::StrayRecord)
    );
    // Damaged here, and struck off here.
    let (identity, mut table, store) = me.clone().into_parts();
    table[16] = 5;
    let damaged = Laptop::from_parts(identity, table, store);
    let refused = told(&damaged, [1, 1, 4, 1, 6, 2, 0]);
    assert_eq!(refused, ((1, 4, 1), Refusal::UnsoundRecord));
    me.change_view(4, 0b10_0010).unwrap();
    assert_eq!(
        told(&me, [1, 1, 5, 1, 6, 2, 0]),
        ((1, 5, 1), Refusal::StruckOff)
    );
}

/// What the iterator gave is passed by, and a delivery goes on behind it.
#[test]
fn a_message_that_was_looked_at_is_taken() {
    let mut two = Laptop::start(2, 0b10_0110, RULE, 8).unwrap();
    let mut out = [0; PACKET_MAX];
    let len = packet::pack(RULE, saved(&[1, 2, 3]), &mut out).unwrap();
    let mut messages = packet::messages(RULE, &out[..len]).unwrap();
    let mut next = || {
        two.deliver_next(&mut messages)
            .map(|a| (a.record(), messages.next()))
    };
    let (record, came) = next().unwrap();
    assert_eq!((record, came.unwrap().envelope().record), (0, 1));
    assert_eq!(next(), Some((2, None)));
    assert_eq!(next(), None);
    assert_eq!([0, 1, 2].map(|i| two.shows_valid(i)), [false, true, false]);
}

#[test]
fn a_write_by_packets() {
    let mut net = Laptop::start(0, 0b111, RULE, 2).unwrap();
    let mut hut = Laptop::start(1, 0b111, RULE, 2).unwrap();
    let mut out = [0; PACKET_MAX];

    let inv = net.write(1, b"wren").unwrap();
    assert_eq!((inv.body(), inv.recipients().bits()), (&b"wren"[..], 0b110));
    let len = packet::pack(RULE, [inv], &mut out).unwrap();

    let reply = hut.deliver_packet(&out[..len], 0).unwrap();
    let ack = reply.leaving().unwrap().into_owned();
    assert_eq!((ack.envelope().sender, ack.envelope().record), (1, 1));
    let stamp = Timestamp { version: 1, tie: 0 };
    assert_eq!(ack.envelope().message, Message::Ack(stamp));
    assert_eq!((ack.body(), ack.recipients().bits()), (&b""[..], 0b001));
    assert_eq!(hut.store(), net.store());

    let len = packet::pack(RULE, [ack], &mut out).unwrap();
    let mut taken = |packet: &[u8], i| net.deliver_packet(packet, i).map(|r| r.leaving().is_some());
    assert_eq!(taken(&out[..len], 0), Ok(false));
    assert_eq!(taken(&out[..len], 0), Err(Refusal::StrayAck));
    assert_eq!(taken(&out[..len], 1), Err(Refusal::PacketIndex));
    assert_eq!(taken(&out[1..len], 0), Err(Refusal::PacketHead));
    assert_eq!(net.read(1), Err(Refusal::NotReadable));
}

/// Two acknowledgements in one packet: the first is counted, and with the second
/// the VAL leaves, to both others. It goes on air as any message.
#[test]
fn the_last_acknowledgement_of_a_packet() {
    let [mut net, mut hut, mut warden] =
        [0, 1, 2].map(|n| Laptop::start(n, 0b111, RULE, 2).unwrap());
    let mut out = [0; PACKET_MAX];
    let inv = net.write(1, b"wren").unwrap();
    let acks = [&mut hut, &mut warden].map(|l| {
        let reply = l.deliver(inv.arriving()).unwrap();
        reply.leaving().unwrap().into_owned()
    });
    let len = packet::pack(RULE, &acks, &mut out).unwrap();
    assert_eq!(net.deliver_packet(&out[..len], 0).unwrap().leaving(), None);
    let val = net.deliver_packet(&out[..len], 1).unwrap().leaving();
    let val = val.expect("the last").into_owned();
    let stamp = Timestamp { version: 1, tie: 0 };
    let envelope = Envelope {
        sender: 0,
        epoch: 0,
        record: 1,
        message: Message::Val(stamp),
    };
    assert_eq!(val.envelope(), envelope);
    assert_eq!((val.body(), val.recipients().bits()), (&b""[..], 0b110));
    assert_eq!(net.validate(1), Err(Refusal::NotFinished));

    let len = packet::pack(RULE, [val], &mut out).unwrap();
    for laptop in [&mut hut, &mut warden] {
        let reply = laptop.deliver_packet(&out[..len], 0).unwrap();
        assert_eq!(reply.leaving(), None);
    }
    for laptop in [&net, &hut, &warden] {
        assert_eq!(laptop.read(1), Ok(b"wren".as_slice()));
    }
}

#[test]
fn the_played_case_of_document_01() {
    let script = b"group 3\nwrite 0 A1\ndeliver 1 0\ndeliver 2 0\ndeliver 0 1\n\
        deliver 0 2\nvalidate 0\ndeliver 1 3\nread 1\nread 2\n";
    // As document 02 has it, Wish 1: the fifth line and the sixth.
    let printed = "0 W 1 0 0\n0 I 1 0 1\n0 I 1 0 2\n0 W 1 0 -\n0 V 1 0 3\n\
        15 V 1 0 -\n0 V 1 0 -\n0 V 1 0 -\n6 I 1 0 -\n";
    assert_eq!(play(script).unwrap(), printed.as_bytes());
}

#[test]
fn scripts_of_65536_and_65537_bytes() {
    assert_eq!(play(b"").unwrap(), b"?\n");
    assert_eq!(play(&[b'\n'; SCRIPT_MAX]).unwrap(), b"?\n");
    assert_eq!(play(&[b'\n'; SCRIPT_MAX + 1]), Err(Refusal::PlayerRoom));
}
