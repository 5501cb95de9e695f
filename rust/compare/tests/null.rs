//! Empty slices as C passes them: null pointers of length 0.

use std::ptr::{null, null_mut};

use cetskobi::sys::{self, Accepted, Answer, Message, Replica, Settings, GONE};

/// Of a group with the new rule of ties (02, Wish 6).
const GROUP: Settings = Settings { rule: 2 };

const ME: Replica = Replica {
    number: 0,
    settings: GROUP,
    view: 3,
    epoch: 0,
};

const INV: Message = Message {
    kind: 1,
    sender: 1,
    tie: 1,
    epoch: 0,
    version: 1,
};

/// The same in a packet, for record 0, with no bytes.
const PACKET: [u8; 20] = [2, 1, 0, 20, 1, 1, 0, 0, 0, 0, 0, 0, 0, 0, 0, 1, 1, 0, 20, 0];

fn sent(kind: u8, version: u32, tie: u8) -> Answer {
    Answer {
        number: 0,
        kind,
        tie,
        version,
    }
}

#[test]
fn no_memory() {
    let (t, s) = (null_mut(), null_mut());
    unsafe {
        assert_eq!(sys::cetskobi_start(0, 3, GROUP, t, 0, s, 0).number, 2);
        assert_eq!(sys::cetskobi_read(ME, t, 0, s, 0, 0).number, 2);
        assert_eq!(sys::cetskobi_write(ME, t, 0, s, 0, 0, null(), 0).number, 2);
        let asked = sys::cetskobi_ask(ME, t, 0, s, 0, 0);
        assert_eq!((asked.number, asked.len), (2, 0));
        assert_eq!((asked.version, asked.tie), (0, 0));
        let committed = sys::cetskobi_commit(ME, t, 0, s, 0, 0, 0, 0, null(), 0);
        assert_eq!(committed.number, 2);
        assert_eq!(sys::cetskobi_replay(ME, t, 0, s, 0, 0).number, 2);
        assert_eq!(sys::cetskobi_validate(ME, t, 0, s, 0, 0).number, 2);
        assert_eq!(sys::cetskobi_resend(ME, t, 0, s, 0, 0).number, 2);
        let delivered = sys::cetskobi_deliver(ME, t, 0, s, 0, 0, INV, null(), 0);
        assert_eq!(delivered.number, 2);
        let packet = PACKET.as_ptr();
        let delivered = sys::cetskobi_deliver_packet(ME, t, 0, s, 0, packet, 20, 0);
        assert_eq!(delivered.number, 2);
        let all = sys::cetskobi_accept(GROUP, packet, 20);
        let arrival = sys::cetskobi_deliver_accepted(ME, t, 0, s, 0, packet, 20, all, 0);
        assert_eq!((arrival.answer.number, arrival.sender), (2, 1));
        for kind in 0..5 {
            let len = if kind == 1 { GONE } else { 0 };
            assert_eq!(sys::cetskobi_body(t, 0, s, 0, 0, sent(kind, 0, 0)), len);
        }
    }
}

#[test]
fn a_table_or_a_store_alone() {
    let (table, store) = ([0; 16], [7; 192]);
    unsafe {
        let read = sys::cetskobi_read(ME, table.as_ptr(), 16, null(), 0, 0);
        assert_eq!((read.number, read.len), (2, 0));
        let read = sys::cetskobi_read(ME, null(), 0, store.as_ptr(), 192, 0);
        assert_eq!((read.number, read.len), (2, 0));
        let asked = sys::cetskobi_ask(ME, table.as_ptr(), 16, null(), 0, 0);
        assert_eq!((asked.number, asked.len), (2, 0));
        let asked = sys::cetskobi_ask(ME, null(), 0, store.as_ptr(), 192, 0);
        assert_eq!((asked.number, asked.len), (2, 0));
        let inv = sent(1, 0, 0);
        let body = sys::cetskobi_body(null(), 0, store.as_ptr(), 192, 0, inv);
        assert_eq!(body, GONE);
        let body = sys::cetskobi_body(table.as_ptr(), 16, null(), 0, 0, inv);
        assert_eq!(body, GONE);
    }
}

#[test]
fn an_empty_value() {
    let mut table = [0; 16];
    let mut store = [7; 192];
    let (t, s) = (table.as_mut_ptr(), store.as_mut_ptr());
    let answer = unsafe { sys::cetskobi_write(ME, t, 16, s, 192, 0, null(), 0) };
    assert_eq!((answer, store), (sent(1, 1, 0), [0; 192]));

    // The same on what an ask hands out.
    let (mut table, mut store) = ([0; 16], [7; 192]);
    let (t, s) = (table.as_mut_ptr(), store.as_mut_ptr());
    let asked = unsafe { sys::cetskobi_ask(ME, t, 16, s, 192, 0) };
    assert_eq!((asked.number, asked.len), (0, 0));
    let (version, tie) = (asked.version, asked.tie);
    let answer = unsafe { sys::cetskobi_commit(ME, t, 16, s, 192, 0, version, tie, null(), 0) };
    assert_eq!((answer, store), (sent(1, 1, 0), [0; 192]));
}

#[test]
fn a_message_without_bytes() {
    let mut table = [0; 16];
    let mut store = [7; 192];
    let (t, s) = (table.as_mut_ptr(), store.as_mut_ptr());
    let answer = unsafe { sys::cetskobi_deliver(ME, t, 16, s, 192, 0, INV, null(), 0) };
    assert_eq!((answer, store), (sent(2, 1, 1), [0; 192]));
    assert_eq!(table, [1, 1, 1, 0, 1, 0, 0, 0, 0, 0, 0, 0, 0, 0, 0, 0]);
}

#[test]
fn no_packet_no_script() {
    let mut out = [7; 2];
    unsafe {
        assert_eq!(sys::cetskobi_fetch(GROUP, null(), 0, 0).number, 20);
        let (t, s) = (null_mut(), null_mut());
        let delivered = sys::cetskobi_deliver_packet(ME, t, 0, s, 0, null(), 0, 0);
        assert_eq!(delivered.number, 20);
        let all = sys::cetskobi_accept(GROUP, null(), 0);
        assert_eq!((all.number, all.count), (20, 0));
        // With its own facts, and with others.
        for (number, count, answer) in [(20, 0, 20), (0, 0, 23), (0, 1, 21), (9, 255, 21)] {
            let all = Accepted { number, count };
            let fetched = sys::cetskobi_fetch_accepted(null(), 0, all, 0);
            assert_eq!((fetched.number, fetched.at, fetched.len), (answer, 0, 0));
            let arrival = sys::cetskobi_deliver_accepted(ME, t, 0, s, 0, null(), 0, all, 0);
            assert_eq!((arrival.answer.number, arrival.index), (answer, 0));
        }
        let packed = sys::cetskobi_pack(GROUP, null(), 0, null(), 0, null_mut(), 0);
        assert_eq!(packed.number, 24);
        let played = sys::cetskobi_play(null(), 0, out.as_mut_ptr(), 2);
        assert_eq!((played.number, played.len, &out), (0, 2, b"?\n"));
        let nowhere = sys::cetskobi_play(null(), 0, null_mut(), 0);
        assert_eq!((nowhere.number, nowhere.len), (255, 0));
        let nowhere = sys::cetskobi_play(b"group 2".as_ptr(), 7, null_mut(), 0);
        assert_eq!((nowhere.number, nowhere.len), (255, 0));
    }
}
