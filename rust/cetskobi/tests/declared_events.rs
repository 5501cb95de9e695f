//! The exported events through their declarations. Every number of an answer is
//! checked, and few are alike, so a wrong declaration shows.

use cetskobi::sys::*;

const HIGHER: Settings = Settings { rule: 1 };
const LOWER: Settings = Settings { rule: 2 };

/// Laptop 2 with view {1,2,5} at epoch 9: two records, and its store.
const ME: Replica = Replica {
    number: 2,
    settings: LOWER,
    view: 0b10_0110,
    epoch: 9,
};
/// A version with four different bytes: 4, 3, 2, 1 in the table.
const VERSION: u32 = 0x0102_0304;

/// A record as the table has it. The last byte is nobody's, and stays.
type Bytes = [u8; RECORD_BYTES];

const FRESH: Bytes = [0, 1, 1, 1, 0, 0, 0, 0, 0, 0, 0, 0, 0, 0, 0, 9];

/// A table whose record 1 is this one, record 0 fresh; its store.
fn table(record: Bytes) -> (Vec<u8>, Vec<u8>) {
    ([FRESH, record].concat(), vec![7; 2 * 192])
}

fn answer(number: u8, kind: u8, tie: u8, version: u32) -> Answer {
    Answer {
        number,
        kind,
        tie,
        version,
    }
}

#[test]
fn start() {
    let mut table = vec![9; 2 * RECORD_BYTES];
    let mut store = vec![7; 2 * 192];
    let mut call = |number, view, rule| unsafe {
        cetskobi_start(
            number,
            view,
            Settings { rule },
            table.as_mut_ptr(),
            table.len(),
            store.as_mut_ptr(),
            store.len(),
        )
    };
    let admission = |number, replica| Admission { number, replica };
    let newcomer = |number, settings, view| Replica {
        number,
        settings,
        view,
        epoch: 0,
    };
    assert_eq!(call(16, 38, 2), admission(1, newcomer(16, LOWER, 38)));
    assert_eq!(call(3, 38, 1), admission(3, newcomer(3, HIGHER, 38)));
    // Every byte is a rule, and the identity has it as 1 or 2, also where it is refused.
    for rule in 0..=255 {
        let read = if rule == 2 { LOWER } else { HIGHER };
        assert_eq!(call(3, 38, rule), admission(3, newcomer(3, read, 38)));
        assert_eq!(call(5, 38, rule), admission(0, newcomer(5, read, 38)));
    }
    // Under both the lowest number in the view.
    assert_eq!(table, [FRESH, FRESH].as_flattened());
    assert_eq!(store, [0; 2 * 192]);
}

#[test]
fn a_refused_start_changes_nothing() {
    let mut table = vec![9; 2 * RECORD_BYTES];
    let mut store = vec![7; 2 * 192];
    let (t, s) = (table.as_mut_ptr(), store.as_mut_ptr());
    let call =
        |table_len, store_len| unsafe { cetskobi_start(5, 38, LOWER, t, table_len, s, store_len) };
    assert_eq!(call(2 * RECORD_BYTES, 2 * 192 - 1).number, 2);
    assert_eq!(call(2 * RECORD_BYTES - 1, 2 * 192).number, 2);
    assert_eq!(table, [9; 2 * RECORD_BYTES]);
    assert_eq!(store, [7; 2 * 192]);
}

#[test]
fn view() {
    let admission = |number, replica| Admission { number, replica };
    // Every byte is a rule. An accepted view keeps it, as 1 or 2; a refused one gives the
    // identity as it was passed.
    for rule in 0..=255 {
        let settings = Settings { rule };
        let me = Replica { settings, ..ME };
        let changed = Replica {
            number: 2,
            settings: if rule == 2 { LOWER } else { HIGHER },
            view: 0b110,
            epoch: VERSION,
        };
        let call = |epoch, set| unsafe { cetskobi_view(me, epoch, set) };
        assert_eq!(call(VERSION, 0b110), admission(0, changed));
        assert_eq!(call(9, 0b110), admission(18, me));
        assert_eq!(call(10, 0b111), admission(19, me));
    }
}

#[test]
fn read() {
    let (table, store) = table([0, 5, 5, 1, 4, 3, 2, 1, 0, 0, 0, 0, 0, 0, 62, 9]);
    let call = |i| unsafe {
        cetskobi_read(
            ME,
            table.as_ptr(),
            table.len(),
            store.as_ptr(),
            store.len(),
            i,
        )
    };
    assert_eq!(call(1), Reading { number: 0, len: 62 });
    assert_eq!(call(2), Reading { number: 4, len: 0 });
}

#[test]
fn write() {
    let (mut table, mut store) = table([0, 5, 5, 1, 3, 3, 2, 1, 0, 0, 0, 0, 0, 0, 62, 9]);
    let (t, s) = (table.as_mut_ptr(), store.as_mut_ptr());
    let value = [b"wing".as_slice(), &[9; 189]].concat();
    let call = |len| unsafe {
        let value = value.as_ptr();
        cetskobi_write(ME, t, 2 * RECORD_BYTES, s, 2 * 192, 1, value, len)
    };
    assert_eq!(call(193), answer(8, 0, 0, 0));
    assert_eq!(call(4), answer(0, 1, 2, VERSION));
    let written = [3, 2, 2, 2, 4, 3, 2, 1, 4, 3, 2, 1, 0, 0, 4, 9];
    assert_eq!(table, [FRESH, written].as_flattened());
    assert_eq!(store[..192], [7; 192]);
    assert_eq!(store[192..196], *b"wing");
    assert_eq!(store[196..], [0; 188]);
}

/// What a read answers, and the record's timestamp: not the last-write one, (6,3).
#[test]
fn ask() {
    let valid = [0, 5, 4, 3, 4, 3, 2, 1, 6, 0, 0, 0, 0b10, 0, 62, 9];
    let asked = |record, i| {
        let (table, store) = table(record);
        let (t, s) = (table.as_ptr(), store.as_ptr());
        unsafe { cetskobi_ask(ME, t, table.len(), s, store.len(), i) }
    };
    let answer = |number, tie, version, len| Asked {
        number,
        tie,
        version,
        len,
    };
    assert_eq!(asked(valid, 1), answer(0, 5, VERSION, 62));
    assert_eq!(asked(valid, 0), answer(0, 1, 0, 0));
    // A refused one has no timestamp, and the empty part.
    assert_eq!(asked(valid, 2), answer(4, 0, 0, 0));
    for state in 1..=4 {
        let mut waiting = valid;
        waiting[0] = state;
        assert_eq!(asked(waiting, 1), answer(6, 0, 0, 0));
    }
    let mut unsound = valid;
    unsound[14] = 193;
    assert_eq!(asked(unsound, 1), answer(5, 0, 0, 0));
}

/// A valid record of this version, with tie-breaker 5.
const fn opened(version: u32) -> Bytes {
    let [a, b, c, d] = version.to_le_bytes();
    [0, 5, 4, 3, a, b, c, d, 6, 0, 0, 0, 0b10, 0, 62, 9]
}

/// Commit to record 1, which was this one: the answer, and the memory after it.
fn commit_to(
    record: Bytes,
    i: usize,
    (version, tie): (u32, u8),
    value: &[u8],
) -> (Answer, Vec<u8>, Vec<u8>) {
    let (mut table, mut store) = table(record);
    let (t, s) = (table.as_mut_ptr(), store.as_mut_ptr());
    let (v, v_len) = (value.as_ptr(), value.len());
    let answer = unsafe {
        cetskobi_commit(
            ME,
            t,
            table.len(),
            s,
            store.len(),
            i,
            version,
            tie,
            v,
            v_len,
        )
    };
    (answer, table, store)
}

/// On the record's timestamp it is a write, byte for byte.
#[test]
fn commit() {
    let (left, table, store) = commit_to(opened(VERSION - 1), 1, (VERSION - 1, 5), b"wing");
    assert_eq!(left, answer(0, 1, 2, VERSION));
    let written = [3, 2, 2, 2, 4, 3, 2, 1, 4, 3, 2, 1, 0, 0, 4, 9];
    assert_eq!(table, [FRESH, written].as_flattened());
    assert_eq!(store[..192], [7; 192]);
    assert_eq!(store[192..196], *b"wing");
    assert_eq!(store[196..], [0; 188]);
    // An empty value, and one that fills the room.
    for len in [0, 192] {
        let (left, table, _) =
            commit_to(opened(VERSION - 1), 1, (VERSION - 1, 5), &[8; 192][..len]);
        assert_eq!((left.number, usize::from(table[30])), (0, len));
    }
}

/// 26 of every other timestamp and of every state but valid; it stands after 4
/// and 5, and before 8 and 9.
#[test]
fn a_refused_commit_changes_nothing() {
    let long = [8; 193];
    let refused = |record: Bytes, i, stamp, value: &[u8], number| {
        let (no, after, store) = commit_to(record, i, stamp, value);
        let case = format!("{record:?} {i} {stamp:?} {} bytes", value.len());
        assert_eq!(no, answer(number, 0, 0, 0), "{case}");
        assert_eq!(after, [FRESH, record].as_flattened(), "{case}");
        assert_eq!(store, [7; 2 * 192], "{case}");
    };
    let at = (VERSION, 5);
    // The last-write timestamp, an older one, a newer one, another tie-breaker, one of no laptop.
    let others = [(6, 3), (VERSION - 1, 5), (VERSION + 1, 5), (VERSION, 4)];
    let others = others
        .into_iter()
        .chain([6, 15, 16, 21, 255].map(|tie| (VERSION, tie)));
    for stamp in others {
        refused(opened(VERSION), 1, stamp, b"wing", 26);
        refused(opened(VERSION), 1, stamp, &long, 26);
        refused(opened(VERSION), 2, stamp, b"wing", 4);
    }
    for state in 1..=4 {
        let mut record = opened(VERSION);
        record[0] = state;
        refused(record, 1, at, b"wing", 26);
        refused(record, 1, at, &long, 26);
        let mut last = opened(u32::MAX);
        last[0] = state;
        refused(last, 1, (u32::MAX, 5), b"wing", 26);
    }
    refused(opened(VERSION), 1, at, &long, 8);
    refused(opened(u32::MAX), 1, (u32::MAX, 5), &long, 8);
    refused(opened(u32::MAX), 1, (u32::MAX, 5), b"wing", 9);
    refused(opened(u32::MAX), 1, (u32::MAX, 4), b"wing", 26);
    let mut unsound = opened(VERSION);
    unsound[1] = 16;
    refused(unsound, 1, (VERSION, 16), b"wing", 5);
}

#[test]
fn deliver() {
    let (mut table, mut store) = table([3, 2, 2, 2, 6, 0, 0, 0, 6, 0, 0, 0, 0b10, 0, 62, 9]);
    let (t, s) = (table.as_mut_ptr(), store.as_mut_ptr());
    let call = |message, value: &[u8]| unsafe {
        cetskobi_deliver(
            ME,
            t,
            2 * RECORD_BYTES,
            s,
            2 * 192,
            1,
            message,
            value.as_ptr(),
            value.len(),
        )
    };
    let inv = Message {
        kind: 1,
        sender: 5,
        tie: 4,
        epoch: 9,
        version: VERSION,
    };
    assert_eq!(call(Message { epoch: 4, ..inv }, b"").number, 10);
    assert_eq!(call(Message { sender: 4, ..inv }, b"").number, 11);
    assert_eq!(call(Message { tie: 16, ..inv }, b"").number, 12);
    assert_eq!(call(Message { kind: 2, ..inv }, b"").number, 13);
    assert_eq!(call(Message { kind: 3, ..inv }, b"").number, 14);
    assert_eq!(call(Message { kind: 4, ..inv }, b"").number, 12);
    assert_eq!(call(inv, b"weight"), answer(0, 2, 4, VERSION));
    let overtaken = [2, 4, 5, 2, 4, 3, 2, 1, 6, 0, 0, 0, 0b10, 0, 6, 9];
    assert_eq!(table, [FRESH, overtaken].as_flattened());
    assert_eq!(store[..192], [7; 192]);
    assert_eq!(store[192..198], *b"weight");
    assert_eq!(store[198..], [0; 186]);
}

/// Record 1 has (16909060,2); an INV comes with this timestamp, to a laptop with this
/// byte as its rule. Whether the INV is taken.
fn overtakes(rule: u8, version: u32, tie: u8) -> bool {
    let writing = [3, 2, 2, 2, 4, 3, 2, 1, 4, 3, 2, 1, 0b10, 0, 62, 9];
    let (mut table, mut store) = table(writing);
    let settings = Settings { rule };
    let (t, s) = (table.as_mut_ptr(), store.as_mut_ptr());
    let inv = Message {
        kind: 1,
        sender: 5,
        tie,
        epoch: 9,
        version,
    };
    let me = Replica { settings, ..ME };
    let none = [].as_ptr();
    let left = unsafe { cetskobi_deliver(me, t, 2 * RECORD_BYTES, s, 2 * 192, 1, inv, none, 0) };
    // An ACK always leaves.
    assert_eq!(left, answer(0, 2, tie, version));
    let [a, b, c, d] = version.to_le_bytes();
    let taken = [2, tie, 5, 2, a, b, c, d, 4, 3, 2, 1, 0b10, 0, 0, 9];
    let is_taken = table[RECORD_BYTES..] == taken;
    assert!(is_taken || table[RECORD_BYTES..] == writing);
    assert_eq!(store[192..] == [0; 192], is_taken);
    is_taken
}

/// Document 02, Wish 6: with one version the higher tie-breaker wins or, where the
/// rule is 2, the lower. Other versions are compared alike, and equal timestamps are
/// not greater.
#[test]
fn deliver_by_the_rule() {
    for rule in 0..=255 {
        for tie in 0..=15 {
            assert!(overtakes(rule, VERSION + 1, tie), "{rule} {tie}");
            assert!(!overtakes(rule, VERSION - 1, tie), "{rule} {tie}");
            let wins = if rule == 2 { tie < 2 } else { 2 < tie };
            assert_eq!(overtakes(rule, VERSION, tie), wins, "{rule} {tie}");
        }
    }
}

/// Acknowledgements of record 1 in this state: by 1, and by 8 and 15, which are
/// not in the view, before; now by 5, the last of the view.
fn last_ack(state: u8) -> (Answer, Vec<u8>) {
    let record = [state, 4, 2, 4, 4, 3, 2, 1, 4, 3, 2, 1, 0b10, 0x81, 62, 9];
    let (mut table, mut store) = table(record);
    let ack = Message {
        kind: 2,
        sender: 5,
        tie: 4,
        epoch: 9,
        version: VERSION,
    };
    let (t, s) = (table.as_mut_ptr(), store.as_mut_ptr());
    let none = [].as_ptr();
    let answer = unsafe { cetskobi_deliver(ME, t, 2 * RECORD_BYTES, s, 2 * 192, 1, ack, none, 0) };
    assert_eq!(table[..RECORD_BYTES], FRESH);
    assert_eq!(store, [7; 2 * 192]);
    (answer, table[RECORD_BYTES..].to_vec())
}

/// A VAL leaves write and replay, which are valid then; invalid-write counts.
#[test]
fn deliver_the_last_ack() {
    for (state, after, left) in [
        (3, 0, answer(0, 3, 4, VERSION)),
        (4, 0, answer(0, 3, 4, VERSION)),
        (2, 2, answer(0, 0, 0, 0)),
    ] {
        let counted = [
            after, 4, 2, 4, 4, 3, 2, 1, 4, 3, 2, 1, 0b10_0010, 0x81, 62, 9,
        ];
        assert_eq!(last_ack(state), (left, counted.to_vec()));
    }
    for state in [0, 1] {
        let (refused, record) = last_ack(state);
        assert_eq!(refused, answer(13, 0, 0, 0));
        assert_eq!((record[0], record[12]), (state, 0b10));
    }
}

/// The three events that take the table and only look at the store's length.
type OnTable = unsafe extern "C" fn(Replica, *mut u8, usize, *const u8, usize, usize) -> Answer;

fn on_table(f: OnTable, i: usize, record: Bytes) -> (Answer, Vec<u8>) {
    let (mut table, store) = table(record);
    let t = table.as_mut_ptr();
    let answer = unsafe { f(ME, t, table.len(), store.as_ptr(), store.len(), i) };
    assert_eq!(table[..RECORD_BYTES], FRESH);
    (answer, table[RECORD_BYTES..].to_vec())
}

/// Another's text in this state, by this last writer; 1 has acknowledged what the
/// laptop itself wrote before, of version 6.
const fn taken(state: u8, writer: u8) -> Bytes {
    [state, 4, writer, 2, 4, 3, 2, 1, 6, 0, 0, 0, 0b10, 0, 62, 9]
}

/// Invalid, and by Wish 2 of document 02 invalid-write: what the laptop itself
/// wrote is given up, with the acknowledgement of it.
#[test]
fn replay() {
    for state in [1, 2] {
        let (replayed, record) = on_table(cetskobi_replay, 1, taken(state, 4));
        assert_eq!(replayed, answer(0, 1, 4, VERSION));
        assert_eq!(record, [4, 4, 2, 4, 4, 3, 2, 1, 4, 3, 2, 1, 0, 0, 62, 9]);
    }
    let (refused, record) = on_table(cetskobi_replay, 0, taken(2, 4));
    assert_eq!(refused, answer(16, 0, 0, 0));
    assert_eq!(record, taken(2, 4));
}

/// Valid, write and replay; and a last writer that is in the view: 1, 5, the
/// laptop itself.
#[test]
fn a_refused_replay_changes_nothing() {
    let settled = [0, 3, 4].map(|state| taken(state, 4));
    let present = [1, 2].map(|state| [1, 2, 5].map(|writer| taken(state, writer)));
    for before in settled.iter().chain(present.as_flattened()) {
        let (refused, record) = on_table(cetskobi_replay, 1, *before);
        assert_eq!(refused, answer(16, 0, 0, 0), "{before:?}");
        assert_eq!(record, before);
    }
}

#[test]
fn validate() {
    // Acknowledged by 1 and 5, and by 8 and 15, which are not in the view: struck
    // off, as the last one missing was.
    let acknowledged = [3, 2, 2, 2, 4, 3, 2, 1, 4, 3, 2, 1, 0x22, 0x81, 62, 9];
    let mut valid = acknowledged;
    valid[0] = 0;
    let (validated, record) = on_table(cetskobi_validate, 1, acknowledged);
    assert_eq!(validated, answer(0, 3, 2, VERSION));
    assert_eq!(record, valid);
    let (refused, record) = on_table(cetskobi_validate, 0, acknowledged);
    assert_eq!(refused, answer(15, 0, 0, 0));
    assert_eq!(record, acknowledged);
}

#[test]
fn resend() {
    for (state, kind) in [(0, 3), (3, 1), (4, 1)] {
        let own = [state, 5, 2, 5, 4, 3, 2, 1, 4, 3, 2, 1, 0b10, 0, 62, 9];
        let (resent, record) = on_table(cetskobi_resend, 1, own);
        assert_eq!(resent, answer(0, kind, 5, VERSION));
        assert_eq!(record, own);
    }
    let (refused, _) = on_table(cetskobi_resend, 0, FRESH);
    assert_eq!(refused, answer(17, 0, 0, 0));
}

#[test]
fn a_state_above_4_is_no_record() {
    for state in 5..=255 {
        let none = [state, 5, 2, 5, 4, 3, 2, 1, 4, 3, 2, 1, 0b10, 0, 62, 9];
        let (refused, record) = on_table(cetskobi_resend, 1, none);
        assert_eq!(refused, answer(5, 0, 0, 0));
        assert_eq!(record, none);
    }
}
