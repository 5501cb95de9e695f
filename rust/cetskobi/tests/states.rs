//! docs/states.dot and the guide's table of the five states, tried on the
//! library: on every record below, under both rules of ties, an event is accepted
//! exactly where it is drawn, leads where the picture and the table say, and sends
//! what they say.
//! tests/picture.sh compares docs/states.svg with the dot.

use cetskobi::{Arriving, Envelope, Laptop, Leaving, Members, Message, NotCommitted, Opened};
use cetskobi::{Record, Refusal, Rule, State, Timestamp};
use std::collections::BTreeSet;
use std::fs;

/// Laptop 2 of {1,2,5}; its others, and a laptop that is not in the view.
const ME: u8 = 2;
const VIEW: u16 = 38;
const OTHERS: [u8; 2] = [1, 5];
const STRANGER: u8 = 7;

/// The events as the guide's table has them in its first column, and the
/// picture at its edges. `Other` is one that both say is refused in every state.
#[derive(Clone, Copy, Debug, PartialEq, Eq)]
enum Kind {
    Read,
    Ask,
    Write,
    Commit,
    InvGreater,
    InvNotGreater,
    LastAck,
    OtherAck,
    Val,
    Validate,
    Replay,
    ResendSelf,
    Resend,
    View,
    Other(Refusal),
}

/// A kind with its words in the picture, and in the table.
const WORDS: [(Kind, &str, &str); 14] = [
    (Kind::Read, "read", "read"),
    (Kind::Ask, "ask", "ask"),
    (Kind::Write, "write", "write"),
    (Kind::Commit, "commit", "commit, on the record's stamp"),
    (
        Kind::InvGreater,
        "greater INV comes",
        "INV comes, greater stamp",
    ),
    (
        Kind::InvNotGreater,
        "other INV comes",
        "INV comes, stamp not greater",
    ),
    (
        Kind::LastAck,
        "last ACK comes",
        "ACK comes, of the last-write stamp, not yet counted: the last",
    ),
    (
        Kind::OtherAck,
        "other ACK comes",
        "ACK comes, likewise: another is missing still",
    ),
    (Kind::Val, "VAL comes", "VAL comes, of the record's stamp"),
    (
        Kind::Validate,
        "validate",
        "validate, all others in the view acknowledged",
    ),
    (
        Kind::Replay,
        "replay",
        "replay, last writer not in the view",
    ),
    (Kind::ResendSelf, "resend", "resend"),
    (Kind::Resend, "resend", "resend"),
    (Kind::View, "view", "view"),
];

/// What the picture's note says of those words: the kinds above are meant so.
const NOTE: [&str; 9] = [
    "Commit: it brings the record's stamp.",
    "A greater INV has a greater stamp than the record, any other INV an equal or lesser one.",
    "A VAL that comes has the record's stamp.",
    "An ACK that comes has the last-write stamp, and its sender is not yet counted.",
    "The last ACK: with it all others in the view have acknowledged.",
    "Validate: all others in the view have acknowledged.",
    "Replay: the last writer is not in the view.",
    "Resend from valid: this laptop is the last writer.",
    "A view event leaves every record's state as it is.",
];

/// One event on one record: what it was, and what came of it.
#[derive(Debug)]
struct Tried {
    kind: Kind,
    from: State,
    to: Result<State, Refusal>,
    left: Option<Message>,
}

/// Sound records of every state: three last writers of note, the last-write
/// timestamp equal to the record's or not, every set of acknowledgements.
fn records() -> Vec<Record> {
    let stamps = [(3, 2), (3, 5), (4, 1)].map(|(version, tie)| Timestamp { version, tie });
    let mut records = Vec::new();
    for &state in State::ALL {
        for timestamp in stamps {
            for written in stamps {
                for writer in [ME, OTHERS[0], OTHERS[1], STRANGER] {
                    for acks in [0, 1 << 1, 1 << 5, 1 << 7, 1 << 1 | 1 << 5, 1 << 1 | 1 << 7]
                        .map(Members::from_bits)
                    {
                        records.push(Record {
                            state,
                            timestamp,
                            writer,
                            written,
                            acks,
                            len: 5,
                        });
                    }
                }
            }
        }
    }
    records
}

/// Timestamps around those of the records.
fn stamps() -> [Timestamp; 5] {
    let stamps = [(3, 1), (3, 2), (3, 5), (4, 1), (4, 2)];
    stamps.map(|(version, tie)| Timestamp { version, tie })
}

/// Record 0 as it was opened when it had this timestamp.
fn opened(timestamp: Timestamp) -> Opened {
    let seen = Record {
        state: State::Valid,
        timestamp,
        writer: ME,
        written: timestamp,
        acks: Members::default(),
        len: 5,
    };
    // No rule is asked here.
    let opened = laptop(Rule::Higher, &seen).ask(0);
    opened.expect("a valid record is opened")
}

/// Messages of each kind about record 0, from both others.
fn messages() -> Vec<Envelope> {
    let kinds = [Message::Inv, Message::Ack, Message::Val];
    let mut messages = Vec::new();
    for message in kinds {
        for timestamp in stamps() {
            for sender in OTHERS {
                messages.push(Envelope {
                    sender,
                    epoch: 0,
                    record: 0,
                    message: message(timestamp),
                });
            }
        }
    }
    messages
}

/// What a message is to a record, by document 01's words, and of an ACK by
/// Wish 1's: the last one completes the view. Which stamp is greater, Wish 6 says.
fn kind_of(rule: Rule, r: &Record, envelope: &Envelope) -> Kind {
    let counted = r.acks.contains(envelope.sender);
    let last = OTHERS
        .iter()
        .all(|&n| n == envelope.sender || r.acks.contains(n));
    match envelope.message {
        Message::Inv(t) if t.later(r.timestamp, rule) => Kind::InvGreater,
        Message::Inv(_) => Kind::InvNotGreater,
        Message::Ack(t) if t == r.written && !counted && last => Kind::LastAck,
        Message::Ack(t) if t == r.written && !counted => Kind::OtherAck,
        Message::Ack(_) => Kind::Other(Refusal::StrayAck),
        Message::Val(t) if t == r.timestamp => Kind::Val,
        Message::Val(_) => Kind::Other(Refusal::StrayVal),
        other => panic!("no kind of these: {other}"),
    }
}

/// The record as the one of laptop 2.
fn laptop(rule: Rule, r: &Record) -> Laptop {
    let fresh = Laptop::start(ME, VIEW, rule, 1).expect("a laptop");
    let (me, _, store) = fresh.into_parts();
    Laptop::from_parts(me, r.to_bytes().to_vec(), store)
}

/// An event of a kind on that laptop.
fn attempt(
    before: &Laptop,
    kind: Kind,
    event: impl FnOnce(&mut Laptop) -> Result<Option<Message>, Refusal>,
) -> Tried {
    let mut laptop = before.clone();
    let answer = event(&mut laptop);
    if answer.is_err() {
        assert_eq!(laptop, *before);
    }
    let state = |laptop: &Laptop| laptop.record(0).expect("a record").state;
    Tried {
        kind,
        from: state(before),
        to: answer.map(|_| state(&laptop)),
        left: answer.unwrap_or(None),
    }
}

/// The message of what left.
fn sent(left: Leaving) -> Option<Message> {
    Some(left.envelope().message)
}

/// Every event on every record, under both rules.
fn all_tried() -> Vec<Tried> {
    let tried = Rule::ALL.iter().flat_map(|rule| tried_by(*rule));
    tried.collect()
}

fn tried_by(rule: Rule) -> Vec<Tried> {
    let mut tried = Vec::new();
    for r in records() {
        let before = laptop(rule, &r);
        let all_acknowledged = OTHERS.iter().all(|&n| r.acks.contains(n));
        let validate = match all_acknowledged {
            true => Kind::Validate,
            false => Kind::Other(Refusal::NotFinished),
        };
        let replay = match VIEW >> r.writer & 1 {
            0 => Kind::Replay,
            _ => Kind::Other(Refusal::NotReplayable),
        };
        let resend = match r.writer {
            ME => Kind::ResendSelf,
            _ => Kind::Resend,
        };
        tried.push(attempt(&before, Kind::Read, |l| l.read(0).map(|_| None)));
        tried.push(attempt(&before, Kind::Ask, |l| l.ask(0).map(|_| None)));
        tried.push(attempt(&before, Kind::Write, |l| {
            l.write(0, b"robin").map(sent)
        }));
        for timestamp in stamps() {
            let commit = match timestamp == r.timestamp {
                true => Kind::Commit,
                false => Kind::Other(Refusal::NotAsOpened),
            };
            tried.push(attempt(&before, commit, |l| {
                let inv = l.commit(opened(timestamp), b"robin");
                inv.map(sent).map_err(NotCommitted::into)
            }));
        }
        tried.push(attempt(&before, validate, |l| l.validate(0).map(sent)));
        tried.push(attempt(&before, replay, |l| l.replay(0).map(sent)));
        tried.push(attempt(&before, resend, |l| l.resend(0).map(sent)));
        tried.push(attempt(&before, Kind::View, |l| {
            l.change_view(1, 6).map(|()| None)
        }));
        for m in messages() {
            let body: &[u8] = match m.message {
                Message::Inv(_) => b"wren",
                _ => b"",
            };
            tried.push(attempt(&before, kind_of(rule, &r, &m), |l| {
                let reply = l.deliver(Arriving::new(m, body))?;
                Ok(reply.leaving().and_then(sent))
            }));
        }
    }
    tried
}

/// The events with these words in the picture, at an edge from this state.
fn kinds_named(words: &str, from: State) -> Vec<Kind> {
    match words {
        "any INV comes" => return vec![Kind::InvGreater, Kind::InvNotGreater],
        "any ACK comes" => return vec![Kind::LastAck, Kind::OtherAck],
        // Only from valid a resend asks for the last writer: see `NOTE`.
        "resend" if from != State::Valid => return vec![Kind::Resend],
        _ => {}
    }
    let found = WORDS.iter().find(|w| w.1 == words);
    vec![found.unwrap_or_else(|| panic!("no event: {words}")).0]
}

fn state_named(name: &str) -> State {
    let found = State::ALL.iter().find(|s| s.name() == name);
    *found.unwrap_or_else(|| panic!("no state: {name}"))
}

/// An edge as text, so that sets of them compare.
fn edge(from: State, to: State, kind: Kind, sends: &str) -> String {
    format!("{} {to}, sends {sends}", edges_of(from, kind))
}

/// How the edges of this event from this state begin.
fn edges_of(from: State, kind: Kind) -> String {
    format!("{from}: {kind:?} ->")
}

/// What left an event, in the words of the picture and the table.
fn named(left: Option<Message>) -> &'static str {
    left.map_or("nothing", Message::name)
}

/// The edges of the picture between states.
fn drawn() -> BTreeSet<String> {
    let dot = fs::read_to_string("../../docs/states.dot").expect("the picture");
    let note = dot.replace("\\l", "  ");
    for said in NOTE {
        assert!(note.contains(said), "not in the note: {said}");
    }
    let mut edges = BTreeSet::new();
    for line in dot.lines().filter(|l| l.contains(" -> ")) {
        let (ends, rest) = line.split_once(" [label=\"").expect("a label");
        let (label, _) = rest.split_once('"').expect("its end");
        let (from, to) = ends.trim().split_once(" -> ").expect("two ends");
        if from == "start" {
            assert_eq!((to, label.trim()), ("valid", "fresh start"));
            continue;
        }
        let state = |name: &str| state_named(&name.replace('_', "-"));
        let (from, to) = (state(from), state(to));
        // An event a line, with what it sends.
        for words in label.split("\\n").map(str::trim) {
            let (event, sends) = words.split_once(": sends ").unwrap_or((words, "nothing"));
            for kind in kinds_named(event, from) {
                let new = edges.insert(edge(from, to, kind, sends));
                assert!(new, "drawn twice: {line}");
            }
        }
    }
    edges
}

#[test]
fn a_fresh_start_is_valid() {
    for &rule in Rule::ALL {
        let fresh = Laptop::start(ME, VIEW, rule, 1).expect("a laptop");
        assert_eq!(fresh.record(0).map(|r| r.state), Some(State::Valid));
    }
}

/// What is accepted is drawn, on every record where it is drawn; a view, which
/// moves no state, is not.
#[test]
fn the_picture_is_what_the_library_does() {
    let drawn = drawn();
    let mut happened = BTreeSet::new();
    for t in all_tried().iter().filter(|t| t.kind != Kind::View) {
        // In write and replay a resend does not ask for the last writer.
        let kind = match t.kind {
            Kind::ResendSelf if t.from != State::Valid => Kind::Resend,
            kind => kind,
        };
        match t.to {
            Ok(to) => {
                let edge = edge(t.from, to, kind, named(t.left));
                assert!(drawn.contains(&edge), "not drawn: {t:?}");
                happened.insert(edge);
            }
            Err(_) => {
                let begins = edges_of(t.from, kind);
                let is_drawn = drawn.iter().any(|e| e.starts_with(&begins));
                assert!(!is_drawn, "refused: {t:?}");
            }
        }
    }
    assert_eq!(happened, drawn);
}

/// The guide's table: an event, what comes of it in each of the five states (a
/// state or the number of a refusal), and what leaves.
fn table() -> Vec<Vec<String>> {
    let guide = fs::read_to_string("../../docs/GUIDE.md").expect("the guide");
    let (_, rest) = guide
        .split_once("| event | valid | invalid | invalid-write | write | replay | leaves |\n")
        .expect("the table of the states");
    let rows = rest.lines().skip(1).take_while(|l| l.starts_with('|'));
    let cells = |row: &str| {
        let cells = row.trim_matches('|').split('|');
        cells.map(|c| c.trim().to_owned()).collect()
    };
    rows.map(cells).collect()
}

/// Of a cell with two parts the one that this event asks for: "valid, or 17"
/// depends on the last writer, "INV; VAL from valid" and "VAL; nothing from
/// invalid-write" on the state.
fn part<'a>(cell: &'a str, t: &Tried) -> &'a str {
    if let Some((own, others)) = cell.split_once(", or ") {
        return if t.kind == Kind::ResendSelf {
            own
        } else {
            others
        };
    }
    let Some((mostly, of_one)) = cell.split_once("; ") else {
        return cell;
    };
    let (message, state) = of_one.split_once(" from ").expect("two parts");
    match state_named(state) == t.from {
        true => message,
        false => mostly,
    }
}

#[test]
fn the_table_is_what_the_library_does() {
    let table = table();
    let mut words: Vec<&str> = WORDS.iter().map(|w| w.2).collect();
    words.dedup();
    let events: Vec<&str> = table.iter().map(|row| row[0].as_str()).collect();
    assert_eq!(events, words);
    for t in all_tried() {
        if let Kind::Other(refusal) = t.kind {
            assert_eq!(t.to, Err(refusal), "{t:?}");
            continue;
        }
        let words = WORDS.iter().find(|w| w.0 == t.kind).expect("its words");
        let row = table.iter().find(|row| row[0] == words.2).expect("a row");
        let to = match t.to {
            Ok(state) => state.to_string(),
            Err(refusal) => refusal.number().to_string(),
        };
        assert_eq!(
            part(&row[1 + usize::from(t.from.number())], &t),
            to,
            "{t:?}"
        );
        if t.to.is_ok() {
            assert_eq!(part(&row[6], &t), named(t.left), "{t:?}");
        }
    }
}
