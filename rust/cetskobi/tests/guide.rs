//! The Rust code of docs/GUIDE.md compiles as it stands there, plays the guide's
//! worked morning, and does what the guide says of saves and of the clock.
//! tests/c/guide.c does the same in C.

use cetskobi::{Record, Reply};
use std::collections::BTreeMap;
use std::fs;

// The guide's block to the letter, as wide as it is there: the first test
// compares the two. It brings the names of the crate.
include!("guide/code.rs");

/// What the guide leaves to its reader: here packets and who shall hear them.
#[derive(Default)]
struct Radio {
    sent: Vec<(Vec<u8>, Members)>,
}

impl Radio {
    fn send(&mut self, bytes: &[u8], to: Members) {
        self.sent.push((bytes.to_vec(), to));
    }
}

#[test]
fn the_guide_has_this_code() {
    let guide = fs::read_to_string("../../docs/GUIDE.md").expect("the guide");
    let blocks = guide.split("```rust\n").skip(1);
    let blocks: Vec<&str> = blocks.filter_map(|rest| rest.split("```").next()).collect();
    assert_eq!(blocks, [include_str!("guide/code.rs")]);
}

/// The name that a heading has in a link.
fn anchor(heading: &str) -> String {
    let heading = heading.trim_start_matches('#').trim().to_lowercase();
    let kept = heading
        .chars()
        .filter(|c| c.is_alphanumeric() || " -_".contains(*c));
    kept.map(|c| if c == ' ' { '-' } else { c }).collect()
}

#[test]
fn the_guides_links_lead_somewhere() {
    let guide = fs::read_to_string("../../docs/GUIDE.md").expect("the guide");
    let headings = guide.lines().filter(|l| l.starts_with("##"));
    let anchors: Vec<String> = headings.map(anchor).collect();
    let links = guide.split("](").skip(1);
    for link in links.filter_map(|rest| rest.split(')').next()) {
        let leads = match link.strip_prefix('#') {
            Some(name) => anchors.iter().any(|a| a == name),
            None => fs::exists(format!("../../docs/{link}")).expect("a path"),
        };
        assert!(leads, "{link}");
    }
}

/// The rows of the guide's table with this head, their cells.
fn rows(head: &str) -> Vec<Vec<String>> {
    let guide = fs::read_to_string("../../docs/GUIDE.md").expect("the guide");
    let (_, rest) = guide.split_once(&format!("{head}\n")).expect("the table");
    let rows = rest.lines().skip(1).take_while(|l| l.starts_with('|'));
    let cells = |row: &str| -> Vec<String> {
        let row = row.strip_prefix('|').and_then(|r| r.strip_suffix('|'));
        let cells = row.expect("a row").split('|');
        cells.map(|c| c.trim().to_owned()).collect()
    };
    rows.map(cells).collect()
}

#[test]
fn the_guide_lists_every_refusal_with_its_meaning() {
    let rows = rows("| no. | meaning | asked by | what to do |");
    let listed: Vec<(String, String)> = rows
        .iter()
        .map(|row| (row[0].clone(), row[1].clone()))
        .collect();
    let all: Vec<(String, String)> = Refusal::ALL
        .iter()
        .map(|r| (r.number().to_string(), r.meaning().to_owned()))
        .collect();
    assert_eq!(listed, all);
    assert!(rows.iter().all(|r| !r[2].is_empty() && !r[3].is_empty()));
}

/// The ring of the worked morning.
const RING: usize = 7;

fn stamp(version: u32, tie: u8) -> Timestamp {
    Timestamp { version, tie }
}

/// Laptops 1, 2 and 5 with eight records each.
fn three() -> [Hut; 3] {
    [1, 2, 5].map(|number| {
        Hut::begin(number, 38, 8, Radio::default()).expect("a laptop of the first view")
    })
}

/// The same of a group with this rule: of one that was formed earlier, say.
fn three_by(rule: Rule) -> [Hut; 3] {
    three().map(|hut| {
        let laptop = Laptop::start(hut.laptop.number(), 38, rule, 8);
        let laptop = laptop.expect("a laptop of the first view");
        Hut { laptop, ..hut }
    })
}

impl Hut {
    /// Opens the ring and saves it at once.
    fn saves(&mut self, text: &[u8]) -> Timestamp {
        let opened = self.open(RING).expect("shown");
        self.save(opened, text).expect("nothing came between")
    }

    fn came(&mut self, packet: &[u8]) {
        self.packet_came(packet).expect("a packet");
    }

    fn ticks(&mut self, count: u32) {
        for _ in 0..count {
            self.tick();
        }
    }

    /// At which of so many ticks something is sent.
    fn sends_at(&mut self, ticks: u32) -> Vec<u32> {
        let at = (1..=ticks).filter(|_| {
            self.tick();
            !self.all_sent().is_empty()
        });
        at.collect()
    }

    /// The packets that were sent since.
    fn all_sent(&mut self) -> Vec<(Vec<u8>, Members)> {
        std::mem::take(&mut self.radio.sent)
    }

    /// The one packet that was sent since, and to whom.
    fn sent<const N: usize>(&mut self, to: [u8; N]) -> Vec<u8> {
        let sent = self.all_sent();
        let [(bytes, members)] = &sent[..] else {
            panic!("{} packets", sent.len());
        };
        assert_eq!(*members, Members::from_iter(to));
        bytes.clone()
    }

    /// Nothing was sent, and this is the ring's record now.
    fn is(&self, state: State, timestamp: Timestamp, acks: u16) {
        assert!(self.radio.sent.is_empty());
        let r = self.laptop.record(RING).expect("the ring");
        let acks = Members::from(acks);
        assert_eq!((r.state, r.timestamp, r.acks), (state, timestamp, acks));
    }

    fn shows(&self, text: &[u8]) {
        assert_eq!(self.laptop.read(RING), Ok(text));
    }
}

/// The messages of a packet of a new group.
fn messages(packet: &[u8]) -> Vec<Message> {
    let messages = packet::messages(RULE, packet).expect("a packet");
    messages.map(|m| m.envelope().message).collect()
}

#[test]
fn a_worked_morning() {
    let [mut one, mut two, mut five] = three();
    let (first, second) = (stamp(1, 2), stamp(2, 5));

    // The ring is opened at 1 and at 2. 2 saves; 5 does not hear it.
    let seen_at_one = one.open(RING).expect("shown");
    assert_eq!(seen_at_one.timestamp(), stamp(0, 1));
    assert_eq!(two.saves(b"robin, wing 73"), first);
    let inv = two.sent([1, 5]);
    assert_eq!(inv.len(), 34);
    assert_eq!(messages(&inv), [Message::Inv(first)]);
    one.came(&inv);
    let ack = one.sent([2]);
    one.is(State::Invalid, first, 0);
    two.came(&ack);
    two.is(State::Write, first, 1 << 1);
    assert_eq!(two.fate(RING, first), Fate::Waiting);

    // Sent again, both hear it, and 2 finishes; 1 does not hear that.
    two.ticks(7);
    two.is(State::Write, first, 1 << 1);
    two.tick();
    let inv = two.sent([1, 5]);
    one.came(&inv);
    two.came(&one.sent([2]));
    two.is(State::Write, first, 1 << 1);
    five.came(&inv);
    let ack = five.sent([2]);
    let bytes = [2, 1, 0, 20, 2, 5, 0, 0, 0, 0, 0, 7, 0, 0, 0, 1, 2, 0, 20, 0];
    assert_eq!(ack, bytes);
    two.came(&ack);
    let val = two.sent([1, 5]);
    assert_eq!(messages(&val), [Message::Val(first)]);
    two.is(State::Valid, first, 1 << 1 | 1 << 5);
    assert_eq!(two.fate(RING, first), Fate::Finished);
    five.came(&val);
    five.is(State::Valid, first, 0);
    // 1's ringer would save over what she saw. Her text is kept, and once the other's
    // is shown, it says more than hers.
    let no = one.save(seen_at_one, b"robin").unwrap_err();
    assert_eq!(no.refusal(), Refusal::NotAsOpened);
    assert_eq!(one.open(no.opened().record()), Err(Refusal::NotReadable));
    two.ticks(8);
    one.came(&two.sent([1, 5]));
    one.is(State::Valid, first, 0);
    let now = one.open(RING).expect("shown");
    assert_eq!(
        (now.timestamp(), now.text()),
        (first, &b"robin, wing 73"[..])
    );

    // 5 saves, only 1 hears it, and 5 dies.
    assert_eq!(five.saves(b"robin, wing 74"), second);
    one.came(&five.sent([1, 2]));
    one.sent([5]);
    one.is(State::Invalid, second, 0);
    assert_eq!(one.laptop.replay(RING), Err(Refusal::NotReplayable));

    // The warden strikes it off: 1 replays, and 2 hears of the view later.
    one.view_came(1, 6).expect("accepted");
    let inv = one.sent([2]);
    assert_eq!(messages(&inv), [Message::Inv(second)]);
    one.is(State::Replay, second, 0);
    assert_eq!(two.missed_view(), None);
    two.came(&inv);
    two.is(State::Valid, first, 1 << 1 | 1 << 5);
    assert_eq!(two.missed_view(), Some(1));
    two.view_came(1, 6).expect("accepted");
    assert_eq!(two.missed_view(), None);
    one.came(&two.sent([1]));
    one.ticks(8);
    two.came(&one.sent([2]));
    one.came(&two.sent([1]));
    let val = one.sent([2]);
    one.is(State::Valid, second, 1 << 2);
    two.came(&val);
    for hut in [&one, &two] {
        hut.shows(b"robin, wing 74");
    }
}

/// 5 is struck off, and then 2, under epochs 1 and 4. 1 hears it from the warden,
/// the others only by messages, which they refuse.
#[test]
fn a_view_that_was_missed_shows() {
    let start = |number| Hut::begin(number, 47, 8, Radio::default()).expect("a laptop");
    let [mut one, mut two, mut three, mut five] = [1, 2, 3, 5].map(start);
    one.view_came(1, 15).expect("accepted");
    one.saves(b"robin");
    let first = one.sent([0, 2, 3]);
    one.view_came(4, 11).expect("accepted");
    let second = one.sent([0, 3]);
    for hut in [&mut two, &mut three, &mut five] {
        assert_eq!(hut.missed_view(), None);
        hut.came(&first);
        assert_eq!(hut.missed_view(), Some(1));
        hut.came(&second);
        assert_eq!(hut.missed_view(), Some(4));
        hut.is(State::Valid, stamp(0, 0), 0);
        // A damaged epoch tells of a view that nobody issued, until the next message;
        // one from outside the view tells nothing.
        let mut damaged = second.clone();
        damaged[6] ^= 64;
        hut.came(&damaged);
        assert_eq!(hut.missed_view(), Some(4 | 64 << 24));
        hut.came(&second);
        assert_eq!(hut.missed_view(), Some(4));
        damaged[5] = 4;
        hut.came(&damaged);
        assert_eq!(hut.missed_view(), Some(4));
    }
    // An older view is not the one that was missed, and the next message tells it
    // again; a refused one is none.
    three.view_came(1, 15).expect("accepted");
    assert_eq!(three.missed_view(), None);
    three.came(&second);
    assert_eq!(three.view_came(4, 63), Err(Refusal::ViewNotWithin));
    assert_eq!(three.missed_view(), Some(4));
    three.view_came(4, 11).expect("accepted");
    assert_eq!(three.missed_view(), None);
    three.came(&second);
    three.sent([1]);
    // A laptop that has the view without itself has missed none, whatever comes then.
    five.view_came(1, 15).expect("accepted");
    five.came(&second);
    assert_eq!(five.missed_view(), None);
    assert_eq!(five.open(RING), Err(Refusal::StruckOff));
    // Older messages tell nothing, and neither do bytes that are no packet.
    one.came(&first);
    let mut broken = second.clone();
    broken[0] = 3;
    assert_eq!(one.packet_came(&broken), Err(Refusal::PacketHead));
    // Nor does a packet of a group with the other rule.
    broken[0] = 1;
    assert_eq!(one.packet_came(&broken), Err(Refusal::OtherRule));
    assert_eq!((one.heard, one.missed_view()), (0, None));
}

/// A set as the guide has it, such as {1,5}.
fn set(text: &str) -> Members {
    let numbers = text.trim_matches(['{', '}']).split(',');
    numbers
        .map(|n| n.parse::<u8>().expect("a number"))
        .collect()
}

/// The rows of the morning's table, event by event on the library.
#[test]
fn the_worked_morning_is_told_as_it_happens() {
    let mut huts = three();
    // All that was sent. A delivery is of the last that its row can mean.
    let mut sent: Vec<Leaving<'static>> = Vec::new();
    // What each laptop opened last.
    let mut opened: BTreeMap<u8, Opened> = BTreeMap::new();
    let rows = rows("| at | event | answer | record 7 there | what leaves |");
    assert_eq!(rows.len(), 28);
    for row in rows {
        let [at, event, answer, record, leaves] = &row[..] else {
            panic!("{row:?}");
        };
        let (at, answer): (u8, u8) = (at.parse().unwrap(), answer.parse().unwrap());
        let hut = huts.iter_mut().find(|h| h.laptop.number() == at).unwrap();
        let laptop = &mut hut.laptop;
        let event = event.split(", 8 ticks later").next().unwrap();
        let (verb, rest) = event.split_once(' ').unwrap_or((event, ""));
        let result = match verb {
            "ask" => laptop.ask(RING).map(|o| opened.insert(at, o)).map(|_| None),
            "commit" => {
                let (on, text) = rest.split_once(' ').unwrap();
                let seen = opened.remove(&at).expect("it was opened");
                assert_eq!(seen.timestamp().to_string(), on, "{row:?}");
                match laptop.commit(seen, text.trim_matches('"').as_bytes()) {
                    Ok(inv) => Ok(Some(inv)),
                    Err(no) => {
                        let refusal = no.refusal();
                        opened.insert(at, no.into_opened());
                        Err(refusal)
                    }
                }
            }
            "validate" => laptop.validate(RING).map(Some),
            "replay" => laptop.replay(RING).map(Some),
            "resend" => laptop.resend(RING).map(Some),
            "change_view" => {
                let (epoch, view) = rest.split_once(", ").unwrap();
                let view = set(view);
                laptop
                    .change_view(epoch.parse().unwrap(), view)
                    .map(|()| None)
            }
            "deliver" => {
                let is_meant = |left: &&Leaving| {
                    let e = left.envelope();
                    let named = e.message.to_string() == rest;
                    let from = rest == format!("ACK from {}", e.sender);
                    e.sender != at && (named || from && matches!(e.message, Message::Ack(_)))
                };
                let meant = sent.iter().rfind(is_meant).expect("was sent");
                laptop.deliver(meant.arriving()).map(Reply::leaving)
            }
            _ => panic!("no event: {event}"),
        };
        let result = result.map(|left| left.map(Leaving::into_owned));
        let number = result.as_ref().map_or_else(|r| r.number(), |_| 0);
        assert_eq!(number, answer, "{row:?}");
        // The record: its letter, its stamp, and who has acknowledged, if that is told.
        let r = laptop.record(RING).unwrap();
        let now = format!("{} {}", r.state.letter(), r.timestamp);
        match record.split_once(", acknowledged by ") {
            Some((told, acks)) => assert_eq!((told, set(acks)), (&*now, r.acks), "{row:?}"),
            None => assert_eq!(*record, now, "{row:?}"),
        }
        // What leaves: the message first, and to whom, if that is told.
        let left = result.unwrap_or(None);
        let told = left.as_ref();
        let told = told.map_or("".to_owned(), |l| l.envelope().message.to_string());
        let message = ["INV", "ACK", "VAL"]
            .iter()
            .any(|kind| leaves.starts_with(kind));
        assert!(
            leaves.starts_with(&told) && message == left.is_some(),
            "{row:?}"
        );
        if let Some(left) = left {
            if let Some(to) = leaves.strip_prefix(&format!("{told} to {{")) {
                let to = to.split('}').next().unwrap();
                assert_eq!(set(to), left.recipients(), "{row:?}");
            }
            sent.push(left);
        }
    }
    for hut in &huts[..2] {
        hut.shows(b"robin, wing 74");
    }
}

/// Laptop 1; then of 2 and 5 the one to which a tie goes by this rule, and the other.
fn tied(rule: Rule) -> [Hut; 3] {
    let [one, two, five] = three_by(rule);
    match rule {
        Rule::Higher => [one, five, two],
        Rule::Lower => [one, two, five],
    }
}

/// 2 and 5 save at once: by the old rule 5's text stands, by the new one 2's.
#[test]
fn an_overtaken_text_is_gone_from_the_record() {
    for &rule in Rule::ALL {
        let [mut one, mut winner, mut loser] = tied(rule);
        let [w, l] = [&winner, &loser].map(|hut| hut.laptop.number());
        let (greater, lesser) = (winner.saves(b"winner's"), loser.saves(b"loser's"));
        assert_eq!((greater, lesser), (stamp(1, w), stamp(1, l)));
        let (of_winner, of_loser) = (winner.sent([1, l]), loser.sent([1, w]));
        loser.came(&of_winner);
        assert_eq!(loser.fate(RING, lesser), Fate::Replaced);
        one.came(&of_loser);
        one.came(&of_winner);
        for hut in [&mut one, &mut loser] {
            winner.came(&hut.all_sent().pop().expect("the last ACK").0);
        }
        let val = winner.sent([1, l]);
        assert_eq!(winner.fate(RING, greater), Fate::Finished);
        // The winner's text stands, and the other is in nobody's store.
        for hut in [&mut one, &mut loser] {
            hut.came(&val);
            hut.shows(b"winner's");
        }
        for hut in [&one, &winner, &loser] {
            assert!(!hut.laptop.store().windows(7).any(|w| w == b"loser's"));
        }
    }
}

#[test]
fn a_finished_save_may_be_covered_by_one_that_crossed_it() {
    for &rule in Rule::ALL {
        let [mut one, mut winner, mut loser] = tied(rule);
        let [w, l] = [&winner, &loser].map(|hut| hut.laptop.number());
        let (_, lesser) = (winner.saves(b"winner's"), loser.saves(b"loser's"));
        let (of_winner, of_loser) = (winner.sent([1, l]), loser.sent([1, w]));
        // The winner acknowledges the loser's save and keeps its own.
        for hut in [&mut one, &mut winner] {
            hut.came(&of_loser);
            loser.came(&hut.sent([l]));
        }
        assert_eq!(loser.fate(RING, lesser), Fate::Finished);
        loser.came(&of_winner);
        assert_eq!(loser.fate(RING, lesser), Fate::Replaced);
    }
}

/// Two stations on one channel, or a laptop that was started with the other rule:
/// nothing of such a packet is taken, in either direction, and the clock goes on.
#[test]
fn a_packet_of_a_group_with_the_other_rule_is_refused() {
    let [_, mut two, _] = three();
    let [mut other, ..] = three_by(Rule::Higher);
    two.saves(b"robin");
    let ours = two.sent([1, 5]);
    assert_eq!(other.packet_came(&ours), Err(Refusal::OtherRule));
    other.is(State::Valid, stamp(0, 1), 0);
    other.saves(b"wren");
    let theirs = other.sent([2, 5]);
    assert_eq!((ours[0], theirs[0]), (2, 1));
    assert_eq!(two.packet_came(&theirs), Err(Refusal::OtherRule));
    two.is(State::Write, stamp(1, 2), 0);
    assert_eq!(two.sends_at(30), [8, 24]);
    assert_eq!(
        (two.missed_view(), two.fate(RING, stamp(1, 2))),
        (None, Fate::Waiting)
    );
    // Started anew, with its group's rule, it takes what comes.
    let mut one = Hut::begin(1, 38, 8, Radio::default()).expect("a laptop");
    one.came(&ours);
    two.came(&one.sent([2]));
    two.is(State::Write, stamp(1, 2), 1 << 1);
}

/// 1's ringer opens the ring and measures the bird; 2's save comes between. Hers
/// is refused, and kept: she sees both texts, and saves what shall stand.
#[test]
fn a_save_is_refused_if_another_came_since_the_ring_was_opened() {
    let [mut one, mut two, mut five] = three();
    two.saves(b"wing 73");
    let (inv, first) = (two.sent([1, 5]), stamp(1, 2));
    let seen = one.open(RING).expect("shown");
    let hers = b"weight 18";

    // The other's save is not finished here: hers stays on the screen until it is.
    one.came(&inv);
    let no = one.save(seen, hers).unwrap_err();
    assert_eq!(no.refusal(), Refusal::NotAsOpened);
    assert_eq!(one.open(no.opened().record()), Err(Refusal::NotReadable));
    for hut in [&mut one, &mut five] {
        hut.came(&inv);
        two.came(&hut.all_sent()[0].0);
    }
    one.came(&two.sent([1, 5]));
    let now = one.open(RING).expect("shown");
    assert_eq!((now.timestamp(), now.text()), (first, &b"wing 73"[..]));

    // She sees both, and makes one of them. It is too long; then it is not.
    let both = [now.text(), b", ", hers].concat();
    let long = [&both[..], &[b'.'; 192]].concat();
    let no = one.save(now, &long).unwrap_err();
    assert_eq!(no.refusal(), Refusal::ValueTooLong);
    assert!(one.all_sent().is_empty());
    let now = one.open(no.opened().record()).expect("it still stands");
    assert_eq!((now.timestamp(), now.text()), (first, &b"wing 73"[..]));
    assert_eq!(one.save(now, &both), Ok(stamp(2, 1)));
    assert_eq!(messages(&one.sent([2, 5])), [Message::Inv(stamp(2, 1))]);
}

/// The other's save is finished before hers: opening again shows it at once. A plain
/// write would have gone over it unseen.
#[test]
fn a_save_over_a_text_unseen_is_refused() {
    let [mut one, mut two, mut five] = three();
    let seen = one.open(RING).expect("shown");
    two.saves(b"two's");
    let inv = two.sent([1, 5]);
    for hut in [&mut one, &mut five] {
        hut.came(&inv);
        two.came(&hut.sent([2]));
    }
    one.came(&two.sent([1, 5]));
    let no = one.save(seen, b"late").unwrap_err();
    assert_eq!(no.refusal(), Refusal::NotAsOpened);
    let now = one.open(no.opened().record()).expect("shown");
    assert_eq!((now.timestamp(), now.text()), (stamp(1, 2), &b"two's"[..]));
    one.shows(b"two's");
    assert!(one.all_sent().is_empty());
    assert!(one.laptop.write(RING, b"late").is_ok());
}

/// A laptop that is struck off says so before it looks at what was opened: nothing
/// is shown there that may be out of date.
#[test]
fn a_struck_off_laptop_neither_saves_nor_opens() {
    let [_, _, mut five] = three();
    let seen = five.open(RING).expect("shown");
    five.view_came(1, 6).expect("accepted");
    let no = five.save(seen, b"late").unwrap_err();
    assert_eq!(no.refusal(), Refusal::StruckOff);
    assert_eq!(five.open(no.opened().record()), Err(Refusal::StruckOff));
}

#[test]
fn a_save_that_nobody_heard_dies_with_its_laptop() {
    let [mut one, mut two, mut five] = three();
    five.saves(b"five's");
    for hut in [&mut one, &mut two] {
        hut.view_came(1, 6).expect("accepted");
        hut.ticks(3000);
        assert!(hut.all_sent().is_empty());
        hut.shows(b"");
    }
}

/// 2's save waits for 5 alone when 5 is struck off: no ACK comes that would
/// finish it, so the view does.
#[test]
fn a_save_that_waits_for_a_struck_off_laptop_is_finished_after_the_view() {
    let [mut one, mut two, _] = three();
    let saved = two.saves(b"robin, wing 73");
    one.came(&two.sent([1, 5]));
    two.came(&one.sent([2]));
    two.is(State::Write, saved, 1 << 1);
    two.view_came(1, 6).expect("accepted");
    let val = two.sent([1]);
    assert_eq!(messages(&val), [Message::Val(saved)]);
    two.is(State::Valid, saved, 1 << 1);
    assert_eq!(two.fate(RING, saved), Fate::Finished);
    one.view_came(1, 6).expect("accepted");
    one.came(&val);
    one.shows(b"robin, wing 73");
}

/// 2 saves unheard, and is struck off before that save is finished. Nothing more
/// comes of it there.
#[test]
fn a_save_that_waits_at_a_struck_off_laptop_is_never_finished_there() {
    let [mut one, mut two, mut five] = three();
    let first = two.saves(b"robin, wing 73");
    let inv = two.sent([1, 5]);
    for hut in [&mut one, &mut five] {
        hut.came(&inv);
        two.came(&hut.sent([2]));
    }
    five.came(&two.sent([1, 5]));
    let (opened, also) = (two.open(0).expect("shown"), two.open(1).expect("shown"));
    let saved = two.save(opened, b"wren").expect("nothing came between");
    two.sent([1, 5]);
    assert_eq!(two.fate(0, saved), Fate::Waiting);
    two.view_came(1, 34).expect("accepted");
    assert_eq!(two.open(0), Err(Refusal::StruckOff));
    let no = two.save(also, b"robin").unwrap_err();
    assert_eq!(no.refusal(), Refusal::StruckOff);
    two.ticks(3000);
    assert!(two.all_sent().is_empty());
    assert_eq!(two.fate(0, saved), Fate::StruckOff);
    // What was finished before stays so, and a text that another one replaced is not in the record.
    assert_eq!(two.fate(RING, first), Fate::Finished);
    assert_eq!(two.fate(RING, stamp(0, 1)), Fate::Replaced);
    // Whoever stays waits.
    let saved = five.saves(b"robin, wing 74");
    five.view_came(1, 34).expect("accepted");
    assert_eq!(five.fate(RING, saved), Fate::Waiting);
}

#[test]
fn the_guide_says_what_the_ringer_sees_of_each_fate() {
    let rows = rows("| save | the screen | the ringer |");
    let told: Vec<String> = rows.iter().map(|row| row[0].replace(' ', "")).collect();
    use Fate::{Finished, Replaced, StruckOff, Waiting};
    let all = [Waiting, Finished, Replaced, StruckOff].map(|f| format!("{f:?}").to_lowercase());
    assert_eq!(told, all);
    assert!(rows.iter().all(|r| !r[1].is_empty() && !r[2].is_empty()));
}

/// The stamps of two saves at once, by 2 and by 5: the tie goes to the lower number.
const GREATER: Timestamp = Timestamp { version: 1, tie: 2 };
const LESSER: Timestamp = Timestamp { version: 1, tie: 5 };

/// 2 and 5 saved together, and 5 was overtaken; then 2 died. Laptops 1 and 5, and
/// the two INVs, 5's and 2's, of which 1 has heard neither.
fn overtaken() -> (Hut, Hut, [Vec<u8>; 2]) {
    let [one, mut two, mut five] = three();
    assert_eq!(two.saves(b"two's"), GREATER);
    assert_eq!(five.saves(b"five's"), LESSER);
    let (of_two, of_five) = (two.sent([1, 5]), five.sent([1, 2]));
    five.came(&of_two);
    five.sent([2]);
    five.is(State::InvalidWrite, GREATER, 0);
    (one, five, [of_five, of_two])
}

/// 1 and 5 hand each other their packets until none is sent. Both show the
/// winner's text then, and 5's ringer is told that hers was replaced.
fn both_show_the_winners_text(mut one: Hut, mut five: Hut) {
    loop {
        let (from_one, from_five) = (one.all_sent(), five.all_sent());
        if from_one.is_empty() && from_five.is_empty() {
            break;
        }
        from_one.iter().for_each(|(p, _)| five.came(p));
        from_five.iter().for_each(|(p, _)| one.came(p));
    }
    for hut in [&one, &five] {
        hut.shows(b"two's");
        assert_eq!(hut.open(RING).expect("shown").timestamp(), GREATER);
    }
    assert_eq!(five.fate(RING, LESSER), Fate::Replaced);
}

/// Only 5 has the winner's text. As long as 2 is in the view it waits; once 2 is
/// struck off it replays that text, at once and then by its clock.
#[test]
fn an_overtaken_laptop_replays_the_winners_text() {
    let (mut one, mut five, _) = overtaken();
    assert_eq!(five.sends_at(3000), []);
    five.go_over();
    five.is(State::InvalidWrite, GREATER, 0);
    assert_eq!(five.open(RING), Err(Refusal::NotReadable));
    assert_eq!(five.fate(RING, LESSER), Fate::Replaced);

    five.view_came(1, 34).expect("accepted");
    let inv = five.sent([1]);
    assert_eq!(messages(&inv), [Message::Inv(GREATER)]);
    five.is(State::Replay, GREATER, 0);
    assert_eq!(five.fate(RING, LESSER), Fate::Replaced);
    assert_eq!(five.sends_at(130), [8, 24, 56, 88, 120]);

    // 1 had heard nothing, and hears of the view late.
    one.came(&inv);
    one.is(State::Valid, stamp(0, 1), 0);
    one.view_came(1, 34).expect("accepted");
    one.is(State::Valid, stamp(0, 1), 0);
    five.ticks(152 - 130); // the next of these
    both_show_the_winners_text(one, five);
}

/// 1 holds the text that was overtaken. It cannot help, as 5 lives; and what it
/// acknowledged is late.
#[test]
fn an_overtaken_laptop_gives_its_own_save_up() {
    let (mut one, mut five, [of_five, _]) = overtaken();
    one.came(&of_five);
    let late = one.sent([5]);
    one.view_came(1, 34).expect("accepted");
    one.is(State::Invalid, LESSER, 0);
    five.view_came(1, 34).expect("accepted");
    assert_eq!(messages(&late), [Message::Ack(LESSER)]);
    let ack = packet::fetch(RULE, &late, 0).expect("a message");
    assert_eq!(five.laptop.deliver(ack), Err(Refusal::OtherEpoch));
    both_show_the_winners_text(one, five);
}

/// 1 holds the winner's text too: both replay it.
#[test]
fn an_overtaken_laptop_and_another_replay_together() {
    let (mut one, mut five, [_, of_two]) = overtaken();
    one.came(&of_two);
    one.sent([2]);
    for hut in [&mut one, &mut five] {
        hut.view_came(1, 34).expect("accepted");
        let r = hut.laptop.record(RING).expect("the ring");
        assert_eq!((r.state, r.timestamp), (State::Replay, GREATER));
    }
    both_show_the_winners_text(one, five);
}

/// 5 took the view and replayed nothing, as with an engine without Wish 2; then it
/// starts again on the memory that it kept. Its clocks are gone, so ticks do not
/// find the record; going over once does.
#[test]
fn a_record_that_hung_is_freed_by_going_over() {
    let (mut one, mut five, _) = overtaken();
    one.view_came(1, 34).expect("accepted");
    five.laptop.change_view(1, 34).expect("accepted");
    let (me, table, store) = five.laptop.into_parts();
    let mut five = Hut {
        laptop: Laptop::from_parts(me, table, store),
        radio: Radio::default(),
        clocks: vec![(0, 0); 8],
        messages: Vec::new(),
        to: 0,
        heard: 0,
    };
    assert_eq!(five.sends_at(3000), []);
    five.is(State::InvalidWrite, GREATER, 0);
    five.go_over();
    both_show_the_winners_text(one, five);
}

#[test]
fn waits_are_as_the_guide_has_them() {
    let [mut one, mut two, mut five] = three();
    two.saves(b"robin");
    let inv = two.sent([1, 5]);
    assert_eq!(two.sends_at(130), [8, 24, 56, 88, 120]);
    for hut in [&mut one, &mut five] {
        hut.came(&inv);
        two.came(&hut.sent([2]));
    }
    two.sent([1, 5]);
    let waits = [8, 24, 56, 120, 248, 504, 1016, 2040, 3064, 4088];
    assert_eq!(two.sends_at(5000), waits);
    // 1 has the text, and nothing of its own to send again.
    assert_eq!(one.sends_at(5000), []);
    // Struck off, it is silent.
    two.view_came(1, 34).expect("accepted");
    assert_eq!(two.sends_at(5000), []);
}

#[test]
fn what_leaves_together_shares_packets() {
    let start = |number| Hut::begin(number, 7, 200, Radio::default()).expect("a laptop");
    let (mut zero, mut one, mut two) = (start(0), start(1), start(2));
    for ring in 0..200 {
        let opened = zero.open(ring).expect("shown");
        zero.save(opened, b"robin").expect("accepted");
    }
    // 1 and 2 hear every one, and their answers come back.
    for (packet, _) in zero.all_sent() {
        for hut in [&mut one, &mut two] {
            hut.came(&packet);
            zero.came(&hut.sent([0]));
        }
    }
    assert_eq!(zero.all_sent().len(), 200);
    zero.view_came(1, 3).expect("accepted");
    let counts = |sent: Vec<(Vec<u8>, Members)>| -> Vec<usize> {
        sent.iter().map(|(p, _)| messages(p).len()).collect()
    };
    let sent = zero.all_sent();
    assert_eq!(sent[0].0.len(), 1028);
    assert_eq!(counts(sent), [64, 64, 64, 8]);
    // Six full texts fill a packet.
    let start = |number| Hut::begin(number, 3, 20, Radio::default()).expect("a laptop");
    let mut zero = start(0);
    for ring in 0..20 {
        let opened = zero.open(ring).expect("shown");
        zero.save(opened, &[b'x'; 192]).expect("accepted");
    }
    assert_eq!(counts(zero.all_sent()), [1; 20]);
    zero.ticks(8);
    assert_eq!(counts(zero.all_sent()), [6, 6, 6, 2]);
}

/// Numbers without a pattern (xorshift).
struct Dice(u64);

impl Dice {
    fn below(&mut self, n: usize) -> usize {
        self.0 ^= self.0 << 13;
        self.0 ^= self.0 >> 7;
        self.0 ^= self.0 << 17;
        (self.0 >> 33) as usize % n
    }
}

/// Five laptops over a link that loses 30 of 100 packets to the end. One dies
/// amid saves that others make of the same rings; one hears of that late. Nothing
/// but packets, views and ticks reaches a hut, and every record settles, also
/// where the dead laptop, to which every tie went, had overtaken a save.
#[test]
fn ticks_alone_settle_every_record() {
    let overtaken: usize = (1..=20).map(|seed| settles(Dice(seed))).sum();
    assert!(overtaken > 20, "{overtaken}");
}

/// How many records were in invalid-write when their last writer was struck off.
fn settles(mut dice: Dice) -> usize {
    const RINGS: usize = 60;
    // Laptops 4 to 0, in this order: the last dies.
    const DYING: usize = 4;
    let hut = |n| Hut::begin(n, 0b1_1111, RINGS, Radio::default()).expect("a laptop");
    let mut huts: Vec<Hut> = (0..5).rev().map(hut).collect();
    let place = |number: u8| 4 - usize::from(number);
    let mut air: Vec<(u32, usize, Vec<u8>)> = Vec::new();
    let mut saves: Vec<(usize, usize, Timestamp, Vec<u8>)> = Vec::new();
    let mut overtaken = 0;
    for now in 0..20_000 {
        let awake = if now < 600 { 5 } else { 4 };
        // The warden strikes the dead laptop off; the first hears it late.
        if now == 700 || now == 900 {
            let told = if now == 700 { 1..4 } else { 0..1 };
            // By then the others' messages have told it.
            let heard = (now == 900).then_some(1);
            assert!(huts[told.clone()].iter().all(|h| h.missed_view() == heard));
            for hut in &mut huts[told] {
                let records = (0..RINGS).filter_map(|ring| hut.laptop.record(ring));
                let waits = |r: &Record| r.state == State::InvalidWrite && place(r.writer) == DYING;
                overtaken += records.filter(waits).count();
                hut.view_came(1, 0b1_1110).expect("accepted");
            }
        }
        let (due, later) = air.into_iter().partition(|(at, _, _)| *at <= now);
        air = later;
        let due: Vec<(u32, usize, Vec<u8>)> = due;
        for (_, to, packet) in due {
            if to < awake {
                huts[to].came(&packet);
            }
        }
        // Any hut saves any ring. In its last ticks the dying one saves what another saves.
        if now < 1200 && now % 3 == 0 {
            let (n, ring) = (dice.below(awake), dice.below(RINGS));
            let with = (570..600).contains(&now).then_some(DYING);
            for n in [n].into_iter().chain(with) {
                let Ok(opened) = huts[n].open(ring) else {
                    continue;
                };
                let text = format!("{n} at {now}").into_bytes();
                let saved = huts[n].save(opened, &text).expect("opened just now");
                saves.push((n, ring, saved, text));
            }
        }
        for hut in &mut huts[..awake] {
            hut.tick();
            for (packet, to) in hut.all_sent() {
                for to in to {
                    if dice.below(100) >= 30 {
                        let at = now + 1 + dice.below(5) as u32;
                        air.push((at, place(to), packet.clone()));
                    }
                }
            }
        }
    }
    assert!(saves.len() > 200);
    for ring in 0..RINGS {
        let opened = huts[0].open(ring).expect("settled");
        for hut in &huts[1..4] {
            assert_eq!(hut.open(ring).as_ref(), Ok(&opened));
        }
        // It is the text that was saved with that timestamp, and every fate is told.
        for (n, _, saved, kept) in saves.iter().filter(|s| s.1 == ring) {
            let stands = *saved == opened.timestamp();
            assert!(!stands || kept == opened.text());
            if *n != DYING {
                let fate = huts[*n].fate(ring, *saved);
                assert_eq!(fate == Fate::Finished, stands);
                assert_eq!(fate == Fate::Replaced, !stands);
            }
        }
    }
    overtaken
}

/// A morning breaks off, and what is in the air is lost. Then each hut goes over
/// once, in any order, and no packet is lost any more: that settles every record.
#[test]
fn going_over_once_settles_every_record() {
    let open: usize = (1..=40).map(|seed| goes_over(Dice(seed))).sum();
    assert!(open > 400, "{open}");
}

/// How many records were not valid on all laptops. In half of the mornings one
/// laptop has died: the others take the view, and try nothing at first.
fn goes_over(mut dice: Dice) -> usize {
    const RINGS: usize = 30;
    let hut = |n| Hut::begin(n, 0b1_1111, RINGS, Radio::default()).expect("a laptop");
    let mut huts: Vec<Hut> = (0..5).map(hut).collect();
    let mut air: Vec<(usize, Vec<u8>)> = Vec::new();
    for now in 0..100 + dice.below(20) {
        for (to, packet) in std::mem::take(&mut air) {
            huts[to].came(&packet);
        }
        for (n, hut) in huts.iter_mut().enumerate() {
            let ring = dice.below(RINGS);
            if let (Ok(opened), 0) = (hut.open(ring), dice.below(3)) {
                let text = format!("{n} at {now}").into_bytes();
                hut.save(opened, &text).expect("accepted");
            }
            hut.tick();
            for (packet, to) in hut.all_sent() {
                let heard = to.into_iter().filter(|_| dice.below(100) >= 30);
                air.extend(heard.map(|to| (usize::from(to), packet.clone())));
            }
        }
    }
    if dice.below(2) == 0 {
        huts.truncate(4);
        for hut in &mut huts {
            hut.laptop.change_view(1, 0b0_1111).expect("accepted");
        }
    }
    let held = |hut: &Hut, ring| {
        let bytes = hut.laptop.store()[192 * ring..][..192].to_vec();
        let record = hut.laptop.record(ring).expect("a ring");
        (record.timestamp, record.len, bytes)
    };
    // Whoever has one stamp has one text.
    let greatest = |ring| {
        let held = huts.iter().map(|hut| held(hut, ring));
        held.max_by(|a, b| a.0.compare(b.0, RULE)).expect("a hut")
    };
    let outset: Vec<(Timestamp, u8, Vec<u8>)> = (0..RINGS).map(greatest).collect();
    let settled = |huts: &[Hut], ring| huts.iter().all(|hut| hut.laptop.shows_valid(ring));
    let open = (0..RINGS).filter(|ring| !settled(&huts, *ring)).count();

    let (first, count) = (dice.below(huts.len()), huts.len());
    for n in first..first + count {
        huts[n % count].go_over();
    }
    loop {
        let sent: Vec<(Vec<u8>, Members)> = huts.iter_mut().flat_map(Hut::all_sent).collect();
        if sent.is_empty() {
            break;
        }
        for (packet, to) in sent {
            for to in to {
                huts[usize::from(to)].came(&packet);
            }
        }
    }
    for (ring, greatest) in outset.iter().enumerate() {
        assert!(settled(&huts, ring));
        assert!(huts.iter().all(|hut| held(hut, ring) == *greatest));
    }
    open
}
