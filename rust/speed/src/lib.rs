//! The exported functions over slices, by the engine and by the C peer
//! (peer/peer.h), which takes the same bytes. The program measures the two, and
//! the tests compare them.

pub mod pointers;

/// The functions over slices, out of those over pointers of the same names.
macro_rules! over_slices {
    ($side:ident) => {
        use crate::pointers::$side as side;
        use cetskobi::sys::{Accepted, Admission, Answer, Arrival, Asked, Fetched, Message};
        use cetskobi::sys::{Reading, Replica, Settings, Written};

        // SAFETY, for each call: every pointer and length come from one slice, and what
        // is written is borrowed mutably, so it overlaps nothing else that is passed.

        #[inline(always)]
        pub fn start(
            number: u8,
            view: u16,
            settings: Settings,
            table: &mut [u8],
            store: &mut [u8],
        ) -> Admission {
            let (t, s) = (table.as_mut_ptr(), store.as_mut_ptr());
            unsafe { side::start(number, view, settings, t, table.len(), s, store.len()) }
        }

        #[inline(always)]
        pub fn view(me: Replica, epoch: u32, set: u16) -> Admission {
            unsafe { side::view(me, epoch, set) }
        }

        #[inline(always)]
        pub fn read(me: Replica, table: &[u8], store: &[u8], i: usize) -> Reading {
            let (t, s) = (table.as_ptr(), store.as_ptr());
            unsafe { side::read(me, t, table.len(), s, store.len(), i) }
        }

        #[inline(always)]
        pub fn write(
            me: Replica,
            table: &mut [u8],
            store: &mut [u8],
            i: usize,
            value: &[u8],
        ) -> Answer {
            let (t, s, v) = (table.as_mut_ptr(), store.as_mut_ptr(), value.as_ptr());
            unsafe { side::write(me, t, table.len(), s, store.len(), i, v, value.len()) }
        }

        #[inline(always)]
        pub fn ask(me: Replica, table: &[u8], store: &[u8], i: usize) -> Asked {
            let (t, s) = (table.as_ptr(), store.as_ptr());
            unsafe { side::ask(me, t, table.len(), s, store.len(), i) }
        }

        #[inline(always)]
        pub fn commit(
            me: Replica,
            table: &mut [u8],
            store: &mut [u8],
            i: usize,
            (version, tie): (u32, u8),
            value: &[u8],
        ) -> Answer {
            let (t, s, v) = (table.as_mut_ptr(), store.as_mut_ptr(), value.as_ptr());
            let (t_len, s_len, v_len) = (table.len(), store.len(), value.len());
            unsafe { side::commit(me, t, t_len, s, s_len, i, version, tie, v, v_len) }
        }

        #[inline(always)]
        pub fn deliver(
            me: Replica,
            table: &mut [u8],
            store: &mut [u8],
            i: usize,
            m: Message,
            body: &[u8],
        ) -> Answer {
            let (t, s, b) = (table.as_mut_ptr(), store.as_mut_ptr(), body.as_ptr());
            unsafe { side::deliver(me, t, table.len(), s, store.len(), i, m, b, body.len()) }
        }

        #[inline(always)]
        pub fn replay(me: Replica, table: &mut [u8], store: &[u8], i: usize) -> Answer {
            let (t, s) = (table.as_mut_ptr(), store.as_ptr());
            unsafe { side::replay(me, t, table.len(), s, store.len(), i) }
        }

        #[inline(always)]
        pub fn validate(me: Replica, table: &mut [u8], store: &[u8], i: usize) -> Answer {
            let (t, s) = (table.as_mut_ptr(), store.as_ptr());
            unsafe { side::validate(me, t, table.len(), s, store.len(), i) }
        }

        #[inline(always)]
        pub fn resend(me: Replica, table: &mut [u8], store: &[u8], i: usize) -> Answer {
            let (t, s) = (table.as_mut_ptr(), store.as_ptr());
            unsafe { side::resend(me, t, table.len(), s, store.len(), i) }
        }

        #[inline(always)]
        pub fn body(table: &[u8], store: &[u8], i: usize, left: Answer) -> usize {
            let (t, s) = (table.as_ptr(), store.as_ptr());
            unsafe { side::body(t, table.len(), s, store.len(), i, left) }
        }

        #[inline(always)]
        pub fn recipients(me: Replica, kind: u8, sender: u8) -> u16 {
            unsafe { side::recipients(me, kind, sender) }
        }

        #[inline(always)]
        pub fn fetch(settings: Settings, packet: &[u8], i: usize) -> Fetched {
            unsafe { side::fetch(settings, packet.as_ptr(), packet.len(), i) }
        }

        #[inline(always)]
        pub fn pack(
            settings: Settings,
            messages: &[u32],
            bodies: &[u8],
            out: &mut [u8],
        ) -> Written {
            let (m, b, o) = (messages.as_ptr(), bodies.as_ptr(), out.as_mut_ptr());
            let (m_len, b_len, o_len) = (messages.len(), bodies.len(), out.len());
            unsafe { side::pack(settings, m, m_len, b, b_len, o, o_len) }
        }

        #[inline(always)]
        pub fn deliver_packet(
            me: Replica,
            table: &mut [u8],
            store: &mut [u8],
            packet: &[u8],
            i: usize,
        ) -> Answer {
            let (t, s, p) = (table.as_mut_ptr(), store.as_mut_ptr(), packet.as_ptr());
            unsafe { side::deliver_packet(me, t, table.len(), s, store.len(), p, packet.len(), i) }
        }

        #[inline(always)]
        pub fn accept(settings: Settings, packet: &[u8]) -> Accepted {
            unsafe { side::accept(settings, packet.as_ptr(), packet.len()) }
        }

        #[inline(always)]
        pub fn fetch_accepted(packet: &[u8], accepted: Accepted, i: usize) -> Fetched {
            unsafe { side::fetch_accepted(packet.as_ptr(), packet.len(), accepted, i) }
        }

        #[inline(always)]
        pub fn deliver_accepted(
            me: Replica,
            table: &mut [u8],
            store: &mut [u8],
            packet: &[u8],
            accepted: Accepted,
            i: usize,
        ) -> Arrival {
            let (t, s, p) = (table.as_mut_ptr(), store.as_mut_ptr(), packet.as_ptr());
            let (t_len, s_len, p_len) = (table.len(), store.len(), packet.len());
            unsafe { side::deliver_accepted(me, t, t_len, s, s_len, p, p_len, accepted, i) }
        }
    };
}

/// By the engine.
pub mod engine {
    over_slices!(engine);
}

/// By the C peer.
pub mod peer {
    over_slices!(peer);
}
