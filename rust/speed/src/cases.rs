//! What is measured: each case with its sides, on equal inputs.

use cetskobi::sys::{Answer, Message, Replica, Settings};
use cetskobi::{Members, Record, State, Timestamp};

use crate::lent::{both, Lent};
use crate::packets;
use crate::plain::{self, Plain};
use crate::scripts;
use crate::side::{About, On, Side, Told};

/// What is done with each case.
pub trait Visit {
    /// The sides, of which lent bytes have two: the engine's and, if it has
    /// the case, the C peer's. They are made only where they are asked for.
    fn case<E: Side, C: Side, M: Side>(
        &mut self,
        about: About,
        bytes: (impl FnOnce() -> E, Option<impl FnOnce() -> C>),
        model: impl FnOnce() -> M,
    );
}

/// Laptop 2 with view {1,2,5} at epoch 9, in a group with the old rule of ties.
pub const ME: Replica = Replica {
    number: 2,
    settings: Settings { rule: 1 },
    view: 0b10_0110,
    epoch: 9,
};

/// The same in a group with the new rule (02, Wish 6).
const ME_LOWER: Replica = Replica {
    settings: Settings { rule: 2 },
    ..ME
};

/// A value of 32 bytes.
pub const TEXT: &[u8; 32] = b"Blue tit, f, wing 62, 10.9 g, wj";

// Records as the events find them: at version 8, or at 7 with 8 to come.
pub const VALID: Record = record(State::Valid, (7, 5), (0, 1), 0);
const WRITING: Record = record(State::Write, (8, 2), (8, 2), 0);
const ONE_MISSING: Record = record(State::Write, (8, 2), (8, 2), 0b10);
const ACKNOWLEDGED: Record = record(State::Write, (8, 2), (8, 2), 0b10_0010);
const INVALID: Record = record(State::Invalid, (8, 5), (0, 1), 0);
const ORPHAN: Record = record(State::Invalid, (8, 4), (0, 1), 0);
const OVERTAKEN: Record = record(State::InvalidWrite, (8, 4), (8, 2), 0b10);

/// A record with a value of 32 bytes, whose last writer is the tie-breaker.
const fn record(state: State, timestamp: (u32, u8), written: (u32, u8), acks: u16) -> Record {
    Record {
        state,
        timestamp: Timestamp {
            version: timestamp.0,
            tie: timestamp.1,
        },
        writer: timestamp.1,
        written: Timestamp {
            version: written.0,
            tie: written.1,
        },
        acks: Members::from_bits(acks),
        len: TEXT.len() as u8,
    }
}

/// A message from laptop 5.
const fn message(kind: u8, version: u32, tie: u8) -> Message {
    Message {
        kind,
        sender: 5,
        tie,
        epoch: 9,
        version,
    }
}

/// An event on one record, whose cost does not grow with the table.
pub fn event(name: &'static str, title: &'static str, records: usize, answer: Told) -> About {
    About {
        name,
        title,
        records,
        from: records.saturating_sub(64),
        flat: true,
        answer,
    }
}

/// A call that is no event on a record.
pub fn other(name: &'static str, title: &'static str, calls: usize, answer: Told) -> About {
    About {
        flat: false,
        ..event(name, title, calls, answer)
    }
}

// What the calls answer.

/// Accepted, and nothing leaves.
const NOTHING: Told = (0, [0; 3]);

/// Accepted, and this leaves.
pub const fn sent(kind: usize, version: usize, tie: usize) -> Told {
    (0, [kind, tie, version])
}

/// A number, such as a length.
pub const fn number(n: usize) -> Told {
    (0, [n, 0, 0])
}

/// Accepted: a value of this length with this stamp.
const fn handed_out(len: usize, version: usize, tie: usize) -> Told {
    (0, [len, tie, version])
}

/// Refused by this question.
const fn refused(question: u8) -> Told {
    (question, [0; 3])
}

/// Accepted: this identity, in a group with the old rule.
const fn admitted(number: u8, view: usize, epoch: usize) -> Told {
    let named = u16::from_be_bytes([ME.settings.rule, number]);
    (0, [named as usize, view, epoch])
}

/// Every case, with a table of this many records.
pub fn all(records: usize, visit: &mut impl Visit) {
    events(records, visit);
    deliveries(records, visit);
    membership(records, visit);
    packets::all(records, visit);
    scripts::all(visit);
}

fn events(n: usize, visit: &mut impl Visit) {
    visit.case(
        event("read", "read", n, number(TEXT.len())),
        both!(by => On {
            lent: Lent::new(ME, n, VALID, ()),
            prepare: |_: &mut _, _| (),
            call: |e: &mut Lent<()>, i| by::read(e.me, &e.table, &e.store, i),
        }),
        || On {
            lent: Plain::new(ME, n, VALID, ()),
            prepare: |_: &mut _, _| (),
            call: |m: &mut Plain<()>, i| m.replica.read(&m.table, &m.store, i).map(<[u8]>::len),
        },
    );
    write(
        event("write", "write, 32 bytes", n, sent(1, 8, 2)),
        VALID,
        TEXT.to_vec(),
        visit,
    );
    write(
        event("write-192", "write, 192 bytes", n, sent(1, 8, 2)),
        VALID,
        TEXT.repeat(6),
        visit,
    );
    write(
        event("write-7", "write, refused by question 7", n, refused(7)),
        WRITING,
        TEXT.to_vec(),
        visit,
    );
    visit.case(
        event("ask", "ask", n, handed_out(TEXT.len(), 7, 5)),
        both!(by => On {
            lent: Lent::new(ME, n, VALID, ()),
            prepare: |_: &mut _, _| (),
            call: |e: &mut Lent<()>, i| by::ask(e.me, &e.table, &e.store, i),
        }),
        || On {
            lent: Plain::new(ME, n, VALID, ()),
            prepare: |_: &mut _, _| (),
            call: |m: &mut Plain<()>, i| {
                let asked = m.replica.ask(&m.table, &m.store, i);
                asked.map(|(value, opened)| (value.len(), opened))
            },
        },
    );
    // The same text as the write's, so that the two compare.
    commit(
        event("commit", "commit, 32 bytes", n, sent(1, 8, 2)),
        (7, 5),
        visit,
    );
    commit(
        event(
            "commit-26",
            "commit, refused by question 26",
            n,
            refused(26),
        ),
        (7, 4),
        visit,
    );
    visit.case(
        event("validate", "validate", n, sent(3, 8, 2)),
        both!(by => On {
            lent: Lent::new(ME, n, VALID, ()),
            prepare: |e: &mut Lent<()>, i| e.set(i, ACKNOWLEDGED),
            call: |e: &mut Lent<()>, i| by::validate(e.me, &mut e.table, &e.store, i),
        }),
        || On {
            lent: Plain::new(ME, n, VALID, ()),
            prepare: |m: &mut Plain<()>, i| m.table[i] = plain::record(ACKNOWLEDGED),
            call: |m: &mut Plain<()>, i| m.replica.validate(&mut m.table, &m.store, i),
        },
    );
    replay(event("replay", "replay", n, sent(1, 8, 4)), ORPHAN, visit);
    replay(
        event(
            "replay-overtaken",
            "replay from invalid-write",
            n,
            sent(1, 8, 4),
        ),
        OVERTAKEN,
        visit,
    );
    visit.case(
        event("resend", "resend", n, sent(1, 8, 2)),
        both!(by => On {
            lent: Lent::new(ME, n, WRITING, ()),
            prepare: |_: &mut _, _| (),
            call: |e: &mut Lent<()>, i| by::resend(e.me, &mut e.table, &e.store, i),
        }),
        || On {
            lent: Plain::new(ME, n, WRITING, ()),
            prepare: |_: &mut _, _| (),
            call: |m: &mut Plain<()>, i| m.replica.resend(&m.table, &m.store, i),
        },
    );
    leaving(n, visit);
}

fn write(about: About, record: Record, value: Vec<u8>, visit: &mut impl Visit) {
    let n = about.records;
    visit.case(
        about,
        both!(by => On {
            lent: Lent::new(ME, n, VALID, value.clone()),
            prepare: move |e: &mut Lent<Vec<u8>>, i| e.set(i, record),
            call: |e: &mut Lent<Vec<u8>>, i| {
                by::write(e.me, &mut e.table, &mut e.store, i, &e.input)
            },
        }),
        || On {
            lent: Plain::new(ME, n, VALID, value.clone()),
            prepare: move |m: &mut Plain<Vec<u8>>, i| m.table[i] = plain::record(record),
            call: |m: &mut Plain<Vec<u8>>, i| {
                m.replica.write(&mut m.table, &mut m.store, i, &m.input)
            },
        },
    );
}

/// A commit of 32 bytes to a valid record, on this stamp.
fn commit(about: About, opened: (u32, u8), visit: &mut impl Visit) {
    let n = about.records;
    let stamp = model::engine::Timestamp::new(opened.0, opened.1);
    visit.case(
        about,
        both!(by => On {
            lent: Lent::new(ME, n, VALID, (opened, TEXT.to_vec())),
            prepare: |e: &mut Lent<((u32, u8), Vec<u8>)>, i| e.set(i, VALID),
            call: |e: &mut Lent<((u32, u8), Vec<u8>)>, i| {
                let (opened, value) = &e.input;
                by::commit(e.me, &mut e.table, &mut e.store, i, *opened, value)
            },
        }),
        || On {
            lent: Plain::new(ME, n, VALID, (stamp, TEXT.to_vec())),
            prepare: |m: &mut Plain<_>, i| m.table[i] = plain::record(VALID),
            call: |m: &mut Plain<(model::engine::Timestamp, Vec<u8>)>, i| {
                let (opened, value) = &m.input;
                m.replica
                    .commit(&mut m.table, &mut m.store, i, *opened, value)
            },
        },
    );
}

fn replay(about: About, record: Record, visit: &mut impl Visit) {
    let n = about.records;
    visit.case(
        about,
        both!(by => On {
            lent: Lent::new(ME, n, VALID, ()),
            prepare: move |e: &mut Lent<()>, i| e.set(i, record),
            call: |e: &mut Lent<()>, i| by::replay(e.me, &mut e.table, &e.store, i),
        }),
        || On {
            lent: Plain::new(ME, n, VALID, ()),
            prepare: move |m: &mut Plain<()>, i| m.table[i] = plain::record(record),
            call: |m: &mut Plain<()>, i| m.replica.replay(&mut m.table, &m.store, i),
        },
    );
}

fn deliveries(n: usize, visit: &mut impl Visit) {
    let inv = event("inv", "deliver INV, 32 bytes", n, sent(2, 8, 5));
    deliver(inv, VALID, message(1, 8, 5), TEXT.to_vec(), visit);
    // Two saves at once: the INV that comes overtakes this laptop's own.
    let higher = event(
        "inv-tie",
        "deliver INV that wins a tie, 32 bytes",
        n,
        sent(2, 8, 5),
    );
    deliver(higher, WRITING, message(1, 8, 5), TEXT.to_vec(), visit);
    let lower = event(
        "inv-tie-lower",
        "deliver INV that wins a tie by the new rule, 32 bytes",
        n,
        sent(2, 8, 1),
    );
    let inv = (message(1, 8, 1), TEXT.to_vec());
    deliver_to(ME_LOWER, lower, WRITING, inv, visit);
    let older = event(
        "inv-older",
        "deliver INV of an older stamp",
        n,
        sent(2, 6, 5),
    );
    deliver(older, VALID, message(1, 6, 5), TEXT.to_vec(), visit);
    let ack = event("ack", "deliver ACK", n, NOTHING);
    deliver(ack, WRITING, message(2, 8, 2), vec![], visit);
    let last = event(
        "ack-last",
        "deliver the last ACK, VAL leaves",
        n,
        sent(3, 8, 2),
    );
    deliver(last, ONE_MISSING, message(2, 8, 2), vec![], visit);
    let val = event("val", "deliver VAL", n, NOTHING);
    deliver(val, INVALID, message(3, 8, 5), vec![], visit);
}

fn deliver(about: About, record: Record, m: Message, body: Vec<u8>, visit: &mut impl Visit) {
    deliver_to(ME, about, record, (m, body), visit);
}

fn deliver_to(
    me: Replica,
    about: About,
    record: Record,
    (m, body): (Message, Vec<u8>),
    visit: &mut impl Visit,
) {
    let n = about.records;
    visit.case(
        about,
        both!(by => On {
            lent: Lent::new(me, n, VALID, (m, body.clone())),
            prepare: move |e: &mut Lent<(Message, Vec<u8>)>, i| e.set(i, record),
            call: |e: &mut Lent<(Message, Vec<u8>)>, i| {
                let (message, body) = &e.input;
                by::deliver(e.me, &mut e.table, &mut e.store, i, *message, body)
            },
        }),
        || On {
            lent: Plain::new(me, n, VALID, (plain::envelope(m, 0), body.clone())),
            prepare: move |m: &mut Plain<_>, i| m.table[i] = plain::record(record),
            call: |m: &mut Plain<(model::engine::Envelope, Vec<u8>)>, i| {
                let (envelope, body) = &mut m.input;
                envelope.record = i;
                m.replica
                    .deliver(&mut m.table, &mut m.store, envelope, body)
            },
        },
    );
}

fn leaving(n: usize, visit: &mut impl Visit) {
    let sent = plain::envelope(message(1, 8, 2), 0).message;
    let left = Answer {
        number: 0,
        kind: 1,
        tie: 2,
        version: 8,
    };
    visit.case(
        event(
            "body",
            "bytes that an INV takes along",
            n,
            number(TEXT.len()),
        ),
        both!(by => On {
            lent: Lent::new(ME, n, WRITING, left),
            prepare: |_: &mut _, _| (),
            call: |e: &mut Lent<Answer>, i| by::body(&e.table, &e.store, i, e.input),
        }),
        || On {
            lent: Plain::new(ME, n, WRITING, sent),
            prepare: |_: &mut _, _| (),
            call: |m: &mut Plain<model::engine::Message>, i| {
                model::engine::body(m.input, &m.table, &m.store, i).len()
            },
        },
    );
    visit.case(
        other("recipients", "who gets an INV", n, number(0b10_0010)),
        both!(by => On {
            lent: (ME, 1u8, 5u8),
            prepare: |_: &mut _, _| (),
            call: |e: &mut (Replica, u8, u8), _| by::recipients(e.0, e.1, e.2),
        }),
        || On {
            lent: (plain::replica(ME), sent, 5u8),
            prepare: |_: &mut _, _| (),
            call: |m: &mut (model::engine::Replica, model::engine::Message, u8), _| {
                m.0.recipients(m.1, m.2)
            },
        },
    );
}

/// A change to this epoch and the view {1,2}.
fn view(about: About, epoch: u32, visit: &mut impl Visit) {
    visit.case(
        about,
        both!(by => On {
            lent: (ME, epoch, 0b110u16),
            prepare: |_: &mut _, _| (),
            call: |e: &mut (Replica, u32, u16), _| by::view(e.0, e.1, e.2),
        }),
        || On {
            lent: (plain::replica(ME), epoch, 0b110u16),
            prepare: |_: &mut _, _| (),
            call: |m: &mut (model::engine::Replica, u32, u16), _| {
                let mut next = m.0;
                next.change_view(m.1, m.2).map(|_| next)
            },
        },
    );
}

fn membership(n: usize, visit: &mut impl Visit) {
    let changed = other("view", "view", n, admitted(2, 0b110, 10));
    view(changed, 10, visit);
    let known = other("view-18", "view, refused by question 18", n, refused(18));
    view(known, 9, visit);
    let started = admitted(ME.number, ME.view as usize, 0);
    let one = other("start", "fresh start, 1 record", n, started);
    start(one, 1, visit);
    let most = other("start-4096", "fresh start, 4,096 records", n, started);
    start(most, 4096, visit);
}

fn start(about: About, n: usize, visit: &mut impl Visit) {
    visit.case(
        about,
        both!(by => On {
            lent: Lent::new(ME, n, VALID, ()),
            prepare: |_: &mut _, _| (),
            call: |e: &mut Lent<()>, _| {
                let Replica { number, view, settings, .. } = e.me;
                by::start(number, view, settings, &mut e.table, &mut e.store)
            },
        }),
        || On {
            lent: Plain::new(ME, n, VALID, ()),
            prepare: |_: &mut _, _| (),
            call: |m: &mut Plain<()>, _| {
                let me = m.replica;
                let (number, view, settings) = (me.number, me.view, me.settings);
                model::engine::Replica::start(number, view, settings, &mut m.table, &mut m.store)
            },
        },
    );
}
