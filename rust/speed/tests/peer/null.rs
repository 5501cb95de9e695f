//! Empty slices as C may pass them: null pointers of length 0.

use std::ptr::{null, null_mut};

use cetskobi::sys::{Accepted, Answer, Message, Replica, Settings};
use speed::pointers::{engine, peer, GONE};

/// Of a group with the new rule of ties (02, Wish 6).
const GROUP: Settings = Settings { rule: 2 };

const ME: Replica = Replica {
    number: 0,
    settings: GROUP,
    view: 3,
    epoch: 0,
};

const INV: Message = Message {
    kind: 1,
    sender: 1,
    tie: 1,
    epoch: 0,
    version: 1,
};

const LEFT: Answer = Answer {
    number: 0,
    kind: 1,
    tie: 0,
    version: 0,
};

/// Both sides of a call, as pairs that must be equal.
macro_rules! same {
    ($($call:ident($($argument:expr),*);)*) => {
        $(assert_eq!(
            unsafe { engine::$call($($argument),*) },
            unsafe { peer::$call($($argument),*) },
            stringify!($call: engine, peer)
        );)*
    };
}

#[test]
fn no_memory() {
    let (t, s) = (null_mut(), null_mut());
    let packet = [2, 1, 0, 20, 1, 1, 0, 0, 0, 0, 0, 0, 0, 0, 0, 1, 1, 0, 20, 0];
    same! {
        start(0, 3, GROUP, t, 0, s, 0);
        start(0, 3, Settings { rule: 0 }, t, 0, s, 0);
        read(ME, t, 0, s, 0, 0);
        write(ME, t, 0, s, 0, 0, null(), 0);
        ask(ME, t, 0, s, 0, 0);
        commit(ME, t, 0, s, 0, 0, 0, 0, null(), 0);
        replay(ME, t, 0, s, 0, 0);
        validate(ME, t, 0, s, 0, 0);
        resend(ME, t, 0, s, 0, 0);
        deliver(ME, t, 0, s, 0, 0, INV, null(), 0);
        deliver_packet(ME, t, 0, s, 0, packet.as_ptr(), 20, 0);
        deliver_packet(ME, t, 0, s, 0, null(), 0, 0);
        fetch(GROUP, null(), 0, 0);
        pack(GROUP, null(), 0, null(), 0, null_mut(), 0);
        accept(GROUP, null(), 0);
    }
    // The packet's own facts, and others.
    for (number, count) in [(0, 1), (20, 0), (0, 0), (0, 255), (7, 1), (7, 0)] {
        let facts = Accepted { number, count };
        for i in [0, 1, usize::MAX] {
            same! {
                fetch_accepted(null(), 0, facts, i);
                deliver_accepted(ME, t, 0, s, 0, null(), 0, facts, i);
                deliver_accepted(ME, t, 0, s, 0, packet.as_ptr(), 20, facts, i);
            }
        }
    }
    assert_eq!(unsafe { peer::body(t, 0, s, 0, 0, LEFT) }, GONE);
}

/// A write and an INV of no bytes, and messages that take none along.
#[test]
fn no_bytes() {
    let (mut a, mut b) = (([0u8; 16], [7u8; 192]), ([0u8; 16], [7u8; 192]));
    let ack = [2, 1, 0, 0, 1, 0, 0u32];
    let (mut x, mut y) = ([9u8; 20], [9u8; 20]);
    unsafe {
        let (t, s) = (a.0.as_mut_ptr(), a.1.as_mut_ptr());
        let (u, v) = (b.0.as_mut_ptr(), b.1.as_mut_ptr());
        let by_engine = engine::write(ME, t, 16, s, 192, 0, null(), 0);
        assert_eq!(by_engine, peer::write(ME, u, 16, v, 192, 0, null(), 0));
        let by_engine = engine::deliver(ME, t, 16, s, 192, 0, INV, null(), 0);
        assert_eq!(
            by_engine,
            peer::deliver(ME, u, 16, v, 192, 0, INV, null(), 0)
        );
        let by_engine = engine::pack(GROUP, ack.as_ptr(), 7, null(), 0, x.as_mut_ptr(), 20);
        assert_eq!(
            by_engine,
            peer::pack(GROUP, ack.as_ptr(), 7, null(), 0, y.as_mut_ptr(), 20)
        );
        assert_eq!((by_engine.number, by_engine.len), (0, 20));
    }
    assert_eq!((a, x), (b, y));
    // 0's own save wins the tie with 1's INV.
    assert_eq!(b.0, [3, 0, 0, 0, 1, 0, 0, 0, 1, 0, 0, 0, 0, 0, 0, 0]);
}

/// A commit of no bytes.
#[test]
fn nothing_to_commit() {
    let [by_engine, by_peer] = [engine::commit, peer::commit].map(|commit| {
        let (mut table, mut store) = ([0u8; 16], [7u8; 192]);
        let (t, s) = (table.as_mut_ptr(), store.as_mut_ptr());
        let answer = unsafe { commit(ME, t, 16, s, 192, 0, 0, 0, null(), 0) };
        (answer, table, store)
    });
    assert_eq!(by_engine, by_peer);
    assert_eq!((by_engine.0.number, by_engine.2), (0, [0; 192]));
}
