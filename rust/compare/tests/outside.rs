//! Nothing outside a packet is read, whatever its bytes and whatever is thought to be
//! known of it. The packet lies at the end of a page and at the beginning of one, and
//! the pages on either side may not be read: who reads there is ended by a signal.

use std::ffi::{c_int, c_void};
use std::slice;

use cetskobi::raw::{self, Accepted, Answer, Arrival, Replica, Settings as Group};
use compare::bytes::Bytes;
use compare::crossing::settings_of;
use compare::memory::Memory;
use compare::packet::arrive;
use compare::packet::deliver;
use compare::packet::facts::{self, fetched_of, some_facts, some_index, Told};
use compare::packet::{damage, fetch, some_packet, some_rule_for};
use compare::settings::Settings;
use compare::single;
use model::engine::Rule;
use model::rng::Rng;

const PAGE: usize = 4096;
/// Of <sys/mman.h> on x86-64.
const NOTHING: c_int = 0;
const READ_AND_WRITE: c_int = 3;
const PRIVATE_AND_ANONYMOUS: c_int = 0x22;

unsafe extern "C" {
    fn mmap(at: *mut c_void, len: usize, may: c_int, flags: c_int, fd: c_int, of: i64) -> *mut u8;
    fn mprotect(at: *mut u8, len: usize, may: c_int) -> c_int;
}

/// A page between two that may not be read. It is never given back.
struct Fenced(*mut u8);

impl Fenced {
    fn new() -> Fenced {
        let (none, fd) = (std::ptr::null_mut(), -1);
        // SAFETY: new memory, of which the middle page is then opened.
        unsafe {
            let pages = mmap(none, 3 * PAGE, NOTHING, PRIVATE_AND_ANONYMOUS, fd, 0);
            assert_ne!(pages.addr(), usize::MAX, "no memory");
            let page = pages.add(PAGE);
            assert_eq!(mprotect(page, PAGE, READ_AND_WRITE), 0);
            Fenced(page)
        }
    }

    /// These bytes, at the end of the page or at its beginning.
    fn put(&mut self, bytes: &[u8], end: bool) -> &[u8] {
        let at = if end { PAGE - bytes.len() } else { 0 };
        // SAFETY: they lie within the page, which nobody else has.
        let place = unsafe { slice::from_raw_parts_mut(self.0.add(at), bytes.len()) };
        place.copy_from_slice(bytes);
        place
    }
}

/// How often each answer came.
#[derive(Default)]
struct Tally {
    own: [u64; 28],
    foreign: [u64; 5],
    /// Values that were taken from a packet.
    taken: u64,
}

/// Every function that reads a packet, on this one, in a group with these settings.
fn look(
    tally: &mut Tally,
    rng: &mut Rng,
    page: &mut Fenced,
    group: Group,
    (bytes, whole): (&[u8], &[u8]),
) {
    let own = facts::by_model(group, bytes);
    for end in [true, false] {
        let packet = page.put(bytes, end);
        assert_eq!(raw::accept(group, packet), own);
        for _ in 0..3 {
            let foreign = some_facts(rng, group, packet, whole);
            let i = some_index(rng, packet, foreign);
            for facts in [own, foreign] {
                let fetched = raw::fetch_accepted(packet, facts, i);
                assert_eq!(fetched, fetched_of(bytes, facts, i));
                taken(tally, group, packet, facts, i);
                if facts == own {
                    assert_eq!(raw::fetch(group, packet, i), fetched);
                    tally.own[usize::from(fetched.number)] += 1;
                } else {
                    tally.foreign[Told::of(bytes, facts, i) as usize] += 1;
                }
            }
        }
    }
}

/// The message is delivered to a laptop that takes it, if it can be taken.
fn taken(tally: &mut Tally, group: Group, packet: &[u8], facts: Accepted, i: usize) {
    let fetched = raw::fetch_accepted(packet, facts, i);
    let me = Replica {
        number: if fetched.sender == 2 { 3 } else { 2 },
        settings: group,
        view: u16::MAX,
        epoch: fetched.epoch,
    };
    // Few records: memory for all of them is laid out at each call.
    let records = (fetched.index + 1).min(32);
    let event = single::Event::Read;
    let mut lent = single::Case::on(me, 0, event);
    lent.lend(records);
    let mut memories = [Memory::default(), Memory::default()];
    for memory in &mut memories {
        memory.lay(&vec![0; lent.table], &vec![7; lent.store]);
    }
    let [engine, other] = &mut memories;
    let (table, store) = engine.lend();
    let arrival = raw::deliver_accepted(me, table, store, packet, facts, i);
    let case = arrive::Case {
        delivery: deliver::Case {
            lent,
            packet: Bytes(packet.to_vec()),
            i,
        },
        facts: Some(facts),
    };
    let expected = arrive::by_model(&case, other);
    assert_eq!(arrival, expected, "{case:?}");
    assert_eq!(engine.difference(other), None, "{case:?}");
    let Arrival { answer, .. } = arrival;
    let Answer { number, kind, .. } = answer;
    tally.taken += u64::from(number == 0 && kind == 2 && fetched.len > 0);
}

#[test]
fn pages_that_may_not_be_read() {
    let settings = Settings::from_env();
    // Shown if it fails.
    println!("{settings}");
    let mut rng = settings.rng("outside");
    let mut page = Fenced::new();
    let mut tally = Tally::default();
    for _ in 0..20_000 * settings.times {
        let group = single::some_settings(&mut rng);
        let rule = some_rule_for(&mut rng, group, 1, 6);
        let whole = some_packet(&mut rng, rule);
        let mut packet = whole.clone();
        for _ in 0..rng.below(3) {
            damage(&mut rng, &mut packet);
        }
        look(&mut tally, &mut rng, &mut page, group, (&packet, &whole));
    }
    // Every length, to the last byte of each.
    for rule in Rule::ALL {
        let (group, full) = (settings_of(rule), fetch::full(rule));
        for len in 0..full.len() {
            let packet = (&full[..len], &full[..]);
            look(&mut tally, &mut rng, &mut page, group, packet);
        }
    }
    for answer in [0, 20, 21, 22, 23, 27] {
        let times = tally.own[answer];
        println!("{times:8} answers {answer}");
        assert!(times >= 100, "{answer}: only {times} times");
    }
    for (told, &times) in Told::ALL.iter().zip(&tally.foreign) {
        println!("{times:8} with foreign facts: {told:?}");
        assert!(times >= 100, "{told:?}: only {times} times");
    }
    println!("{:8} values taken", tally.taken);
    assert!(tally.taken >= 100);
}
