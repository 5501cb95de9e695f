//! The cases of packets.

use std::hint::black_box;

use cetskobi::sys::{Accepted, Message, Settings};
use model::engine::Rule;
use model::packet::Entry;

use crate::cases::{event, number, other, sent, Visit, ME, TEXT, VALID};
use crate::lent::{self, both, Lent};
use crate::plain::{self, Plain};
use crate::side::{About, On};

/// The bytes of a packet.
type Packet = Vec<u8>;

/// The rule of ties that all packets here are of (02, Wish 6). A call is given it by what
/// is lent, so that the compiler does not know it.
fn rule() -> Rule {
    plain::settings(ME.settings).rule
}

/// Messages that go into a packet, for both sides.
#[derive(Clone)]
struct Parcel {
    words: Vec<u32>,
    entries: Vec<Entry>,
    bodies: Vec<u8>,
}

impl Parcel {
    /// INVs of laptop 5 about records up to the last of so many, with bodies of these lengths.
    fn new(records: usize, lens: &[usize]) -> Parcel {
        let mut parcel = Parcel {
            words: vec![],
            entries: vec![],
            bodies: vec![9; lens.iter().sum()],
        };
        let m = Message {
            kind: 1,
            sender: 5,
            tie: 5,
            epoch: 9,
            version: 8,
        };
        for (k, &len) in lens.iter().enumerate() {
            let record = (records + k).saturating_sub(lens.len());
            parcel.words.extend(lent::entry(m, record, len));
            parcel.entries.push(Entry {
                envelope: plain::envelope(m, record),
                len: len as u8,
            });
        }
        parcel
    }

    fn packet(&self) -> Packet {
        let mut out = vec![0; 1400];
        let total = model::packet::write(rule(), &self.entries, &self.bodies, &mut out);
        out.truncate(total.expect("a packet"));
        out
    }
}

/// The messages of a full packet.
const MOST: usize = 64;

/// A full packet: 64 messages and 1,400 bytes.
fn full(records: usize) -> Parcel {
    let lens: [usize; MOST] = std::array::from_fn(|k| if k < 52 { 6 } else { 5 });
    Parcel::new(records, &lens)
}

pub fn all(n: usize, visit: &mut impl Visit) {
    fetch(n, visit);
    pack(
        other(
            "pack-64",
            "packet of 64 messages, 1,400 bytes",
            n,
            number(1400),
        ),
        full(64),
        visit,
    );
    let texts = Parcel::new(64, &[192; 6]);
    pack(
        other(
            "pack-texts",
            "packet of six full texts, 1,252 bytes",
            n,
            number(1252),
        ),
        texts,
        visit,
    );
    let title = "delivery of the last message of a full packet";
    deliver(
        event("packet-64", title, n, sent(2, 8, 5)),
        &[full(n)],
        visit,
    );
    deliver_full(n, visit);
    let single = |k: usize| Parcel::new((n + k + 1).saturating_sub(64).max(1), &[TEXT.len()]);
    let singles: Vec<Parcel> = (0..64).map(single).collect();
    let title = "delivery from a packet of one message, 32 bytes";
    deliver(event("packet-1", title, n, sent(2, 8, 5)), &singles, visit);
    let title = "delivery from a packet of one message in one pass, 32 bytes";
    let pass = event("packet-1-pass", title, n, sent(2, 8, 5));
    deliver_single(pass, &singles, visit);
}

/// Every message of a full packet, each by a fetch of its own and all in one pass.
fn fetch(n: usize, visit: &mut impl Visit) {
    let packet = full(MOST).packet();
    assert_eq!(packet.len(), 1400);
    visit.case(
        other(
            "fetch-64",
            "fetch of each of the 64 messages of a full packet",
            n,
            number(MOST),
        ),
        both!(by => On {
            lent: (ME.settings, packet.clone()),
            prepare: |_: &mut _, _| (),
            call: |(group, packet): &mut (Settings, Packet), _| {
                (0..MOST)
                    .filter(|&k| black_box(by::fetch(*group, packet, k)).number == 0)
                    .count()
            },
        }),
        || On {
            lent: (rule(), packet.clone()),
            prepare: |_: &mut _, _| (),
            call: |(rule, packet): &mut (Rule, Packet), _| {
                (0..MOST)
                    .filter(|&k| black_box(model::packet::fetch(*rule, packet, k)).is_ok())
                    .count()
            },
        },
    );
    visit.case(
        other(
            "fetch-pass",
            "all 64 messages of a full packet in one pass",
            n,
            number(MOST),
        ),
        both!(by => On {
            lent: (ME.settings, packet.clone()),
            prepare: |_: &mut _, _| (),
            call: |(group, packet): &mut (Settings, Packet), _| {
                let all = by::accept(*group, packet);
                (0..usize::from(all.count))
                    .filter(|&k| black_box(by::fetch_accepted(packet, all, k)).number == 0)
                    .count()
            },
        }),
        || On {
            lent: (rule(), packet.clone()),
            prepare: |_: &mut _, _| (),
            call: |(rule, packet): &mut (Rule, Packet), _| {
                let all = model::packet::accept(*rule, packet)?;
                let taken = |&k: &usize| black_box(all.message(k)).is_ok();
                Ok((0..all.count()).filter(taken).count())
            },
        },
    );
}

fn pack(about: About, parcel: Parcel, visit: &mut impl Visit) {
    visit.case(
        about,
        both!(by => On {
            lent: (ME.settings, parcel.clone(), vec![0; 1400]),
            prepare: |_: &mut _, _| (),
            call: |(group, parcel, out): &mut (Settings, Parcel, Vec<u8>), _| {
                by::pack(*group, &parcel.words, &parcel.bodies, out)
            },
        }),
        || On {
            lent: (rule(), parcel.clone(), vec![0; 1400]),
            prepare: |_: &mut _, _| (),
            call: |(rule, parcel, out): &mut (Rule, Parcel, Vec<u8>), _| {
                model::packet::write(*rule, &parcel.entries, &parcel.bodies, out)
            },
        },
    );
}

/// Packets, and for each of 64 calls its packet and its message there.
type Post = (Vec<Packet>, Vec<(usize, usize)>);

/// Packets with 64 messages in all: the last is delivered to the last record, and so on back.
fn deliver(about: About, parcels: &[Parcel], visit: &mut impl Visit) {
    let n = about.records;
    let count = 64 / parcels.len();
    let packets: Vec<Packet> = parcels.iter().map(Parcel::packet).collect();
    let post: Post = (packets, (0..64).map(|k| (k / count, k % count)).collect());
    visit.case(
        about,
        both!(by => On {
            lent: Lent::new(ME, n, VALID, post.clone()),
            prepare: |e: &mut Lent<Post>, i| e.set(i, VALID),
            call: move |e: &mut Lent<Post>, i: usize| {
                let (p, k) = e.input.1[i + 64 - n];
                let packet = e.input.0[p].as_slice();
                by::deliver_packet(e.me, &mut e.table, &mut e.store, packet, k)
            },
        }),
        || On {
            lent: Plain::new(ME, n, VALID, post.clone()),
            prepare: |m: &mut Plain<Post>, i| m.table[i] = plain::record(VALID),
            call: move |m: &mut Plain<Post>, i: usize| {
                let (p, k) = m.input.1[i + 64 - n];
                let packet = m.input.0[p].as_slice();
                model::packet::deliver(&m.replica, &mut m.table, &mut m.store, packet, k)
            },
        },
    );
}

/// The same packets of one message, each accepted and then delivered.
fn deliver_single(about: About, parcels: &[Parcel], visit: &mut impl Visit) {
    let n = about.records;
    let packets: Vec<Packet> = parcels.iter().map(Parcel::packet).collect();
    visit.case(
        about,
        both!(by => On {
            lent: Lent::new(ME, n, VALID, packets.clone()),
            prepare: |e: &mut Lent<Vec<Packet>>, i| e.set(i, VALID),
            call: move |e: &mut Lent<Vec<Packet>>, i: usize| {
                let packet = e.input[i + 64 - n].as_slice();
                let all = by::accept(e.me.settings, packet);
                by::deliver_accepted(e.me, &mut e.table, &mut e.store, packet, all, 0)
            },
        }),
        || On {
            lent: Plain::new(ME, n, VALID, packets.clone()),
            prepare: |m: &mut Plain<_>, i| m.table[i] = plain::record(VALID),
            call: move |m: &mut Plain<Vec<Packet>>, i: usize| {
                let packet = m.input[i + 64 - n].as_slice();
                let all = model::packet::accept(m.replica.settings.rule, packet)?;
                all.deliver(&m.replica, &mut m.table, &mut m.store, 0)
            },
        },
    );
}

/// All messages of a full packet, each by a delivery of its own and all in one pass. One call
/// is a whole packet, about 64 records that no other call has: they are prepared together. So
/// the table has 64 records for each call, of which there are at most 64.
fn deliver_full(n: usize, visit: &mut impl Visit) {
    let each = event(
        "packet-each",
        "delivery of each of the 64 messages of a full packet",
        n,
        number(MOST),
    );
    let pass = event(
        "packet-pass",
        "delivery of all 64 messages of a full packet in one pass",
        n,
        number(MOST),
    );
    let (from, records) = (each.from, MOST * (n - each.from));
    let packets: Vec<Packet> = (from..n)
        .map(|i| full(MOST * (i - from + 1)).packet())
        .collect();
    let own = move |i: usize| MOST * (i - from)..MOST * (i - from + 1);
    let prepare = move |e: &mut Lent<Vec<Packet>>, i| own(i).for_each(|k| e.set(k, VALID));
    let prepare_plain =
        move |m: &mut Plain<Vec<Packet>>, i| m.table[own(i)].fill(plain::record(VALID));
    visit.case(
        each,
        both!(by => On {
            lent: Lent::new(ME, records, VALID, packets.clone()),
            prepare,
            call: move |e: &mut Lent<Vec<Packet>>, i: usize| {
                let Lent { me, table, store, input } = e;
                let packet = input[i - from].as_slice();
                let mut deliver = |k| by::deliver_packet(*me, table, store, packet, k);
                (0..MOST)
                    .filter(|&k| black_box(deliver(k)).number == 0)
                    .count()
            },
        }),
        || On {
            lent: Plain::new(ME, records, VALID, packets.clone()),
            prepare: prepare_plain,
            call: move |m: &mut Plain<Vec<Packet>>, i: usize| {
                let packet = m.input[i - from].as_slice();
                let mut deliver =
                    |k| model::packet::deliver(&m.replica, &mut m.table, &mut m.store, packet, k);
                (0..MOST).filter(|&k| black_box(deliver(k)).is_ok()).count()
            },
        },
    );
    visit.case(
        pass,
        both!(by => On {
            lent: Lent::new(ME, records, VALID, packets.clone()),
            prepare,
            call: move |e: &mut Lent<Vec<Packet>>, i: usize| {
                let Lent { me, table, store, input } = e;
                let packet = input[i - from].as_slice();
                let all = by::accept(me.settings, packet);
                let mut deliver = |k| by::deliver_accepted(*me, table, store, packet, all, k);
                (0..usize::from(all.count))
                    .filter(|&k| black_box(deliver(k)).answer.number == 0)
                    .count()
            },
        }),
        || On {
            lent: Plain::new(ME, records, VALID, packets.clone()),
            prepare: prepare_plain,
            call: move |m: &mut Plain<Vec<Packet>>, i: usize| {
                let rule = m.replica.settings.rule;
                let all = model::packet::accept(rule, &m.input[i - from])?;
                let mut deliver = |k| all.deliver(&m.replica, &mut m.table, &mut m.store, k);
                let taken = |&k: &usize| matches!(black_box(deliver(k)), Ok((_, Ok(_))));
                Ok((0..all.count()).filter(taken).count())
            },
        },
    );
}

/// One message of a packet that was accepted before: the only one of a packet of one, then the
/// last of a full packet. They are the same message, about the last of 64 records.
pub fn taken(visit: &mut impl Visit) {
    const LEN: usize = 5;
    let (one, all) = (Parcel::new(MOST, &[LEN]), full(MOST));
    let about = |name, title, answer| About {
        from: MOST - 1,
        ..event(name, title, MOST, answer)
    };
    let fetched = (0, [MOST - 1, 8, LEN]);
    let title = "fetch of the message of an accepted packet of one";
    fetch_taken(about("fetch-of-1", title, fetched), &one, 0, visit);
    let title = "fetch of the last message of an accepted full packet";
    fetch_taken(about("fetch-of-64", title, fetched), &all, MOST - 1, visit);
    let title = "delivery of the message of an accepted packet of one";
    deliver_taken(about("deliver-of-1", title, sent(2, 8, 5)), &one, 0, visit);
    let title = "delivery of the last message of an accepted full packet";
    let last = about("deliver-of-64", title, sent(2, 8, 5));
    deliver_taken(last, &all, MOST - 1, visit);
}

/// A packet, its facts and the number of a message there.
type Taken = (Packet, Accepted, usize);
type TakenPlain<'a> = (model::packet::Accepted<'a>, usize);

fn fetch_taken(about: About, parcel: &Parcel, k: usize, visit: &mut impl Visit) {
    let packet = parcel.packet();
    visit.case(
        about,
        both!(by => On {
            lent: (packet.clone(), by::accept(ME.settings, &packet), k),
            prepare: |_: &mut _, _| (),
            call: |(packet, all, k): &mut Taken, _| by::fetch_accepted(packet, *all, *k),
        }),
        || On {
            lent: (model::packet::accept(rule(), &packet).expect("a packet"), k),
            prepare: |_: &mut _, _| (),
            call: |(all, k): &mut (_, usize), _| model::packet::Accepted::message(all, *k),
        },
    );
}

fn deliver_taken(about: About, parcel: &Parcel, k: usize, visit: &mut impl Visit) {
    let n = about.records;
    let packet = parcel.packet();
    visit.case(
        about,
        both!(by => On {
            lent: Lent::new(ME, n, VALID, (packet.clone(), by::accept(ME.settings, &packet), k)),
            prepare: |e: &mut Lent<Taken>, i| e.set(i, VALID),
            call: |e: &mut Lent<Taken>, _| {
                let (packet, all, k) = &e.input;
                by::deliver_accepted(e.me, &mut e.table, &mut e.store, packet, *all, *k)
            },
        }),
        || {
            let all = model::packet::accept(rule(), &packet).expect("a packet");
            On {
                lent: Plain::new(ME, n, VALID, (all, k)),
                prepare: |m: &mut Plain<_>, i| m.table[i] = plain::record(VALID),
                call: |m: &mut Plain<TakenPlain>, _| {
                    let (all, k) = &m.input;
                    all.deliver(&m.replica, &mut m.table, &mut m.store, *k)
                },
            }
        },
    );
}
