//! The exported functions over slices and numbers: all the unsafe code of this
//! crate, one call a function.
//!
//! [`Laptop`](crate::Laptop) is the same with Rust's types. This is for software
//! that wants the engine's own answers, for any bytes: every input may be passed,
//! also numbers of no laptop and bytes that are no record. An answer's `number`
//! is 0, or that of the question that said no; then nothing that was lent has
//! changed.
//!
//! A call is sound if each pointer and length come from one slice, and what is
//! lent to be written overlaps nothing else. Rust's borrows say both.

#![allow(unsafe_code)]

use crate::sys;

pub use crate::sys::{Accepted, Admission, Answer, Arrival, Asked, Fetched, Message, Played};
pub use crate::sys::{Reading, Replica, Settings, Written};
pub use crate::sys::{GONE, MESSAGE_WORDS, RECORD_BYTES};

/// Fresh start: table and store become those of fresh records, unless it is
/// refused. The identity is of epoch 0, and has the rule as 1 or 2, whatever byte
/// was passed; of a refused start too.
pub fn start(
    number: u8,
    view: u16,
    settings: Settings,
    table: &mut [u8],
    store: &mut [u8],
) -> Admission {
    let (t, t_len, s, s_len) = parts_mut(table, store);
    // SAFETY: two slices, borrowed mutably at once, so apart.
    unsafe { sys::cetskobi_start(number, view, settings, t, t_len, s, s_len) }
}

/// Change of view: the identity from then on, its rule as 1 or 2; the old one, as
/// it was passed, if it is refused.
pub fn view(me: Replica, epoch: u32, set: u16) -> Admission {
    // SAFETY: numbers only.
    unsafe { sys::cetskobi_view(me, epoch, set) }
}

/// Read of record `i`: the length of its value, which begins at 192 times `i`.
pub fn read(me: Replica, table: &[u8], store: &[u8], i: usize) -> Reading {
    let (t, t_len, s, s_len) = parts(table, store);
    // SAFETY: two slices that are only read.
    unsafe { sys::cetskobi_read(me, t, t_len, s, s_len, i) }
}

/// Write of a value to record `i`.
pub fn write(me: Replica, table: &mut [u8], store: &mut [u8], i: usize, value: &[u8]) -> Answer {
    let (t, t_len, s, s_len) = parts_mut(table, store);
    // SAFETY: three slices; the two that are written are borrowed mutably, so apart from all.
    unsafe { sys::cetskobi_write(me, t, t_len, s, s_len, i, value.as_ptr(), value.len()) }
}

/// Ask for record `i`: what [`read`] answers, and the record's timestamp. A
/// refused ask has none: version and tie-breaker are 0.
pub fn ask(me: Replica, table: &[u8], store: &[u8], i: usize) -> Asked {
    let (t, t_len, s, s_len) = parts(table, store);
    // SAFETY: two slices that are only read.
    unsafe { sys::cetskobi_ask(me, t, t_len, s, s_len, i) }
}

/// Commit of a value to record `i`: a write, if the record is valid with this
/// timestamp, as an [`ask`] gave it; else 26. It may be any: no record has a
/// tie-breaker above 15.
pub fn commit(
    me: Replica,
    table: &mut [u8],
    store: &mut [u8],
    i: usize,
    version: u32,
    tie: u8,
    value: &[u8],
) -> Answer {
    let (t, t_len, s, s_len) = parts_mut(table, store);
    let (v, v_len) = (value.as_ptr(), value.len());
    // SAFETY: three slices; the two that are written are borrowed mutably, so apart from all.
    unsafe { sys::cetskobi_commit(me, t, t_len, s, s_len, i, version, tie, v, v_len) }
}

/// Delivery of a message about record `i`, with the bytes that came along. An ACK
/// leaves for an INV; for the last ACK of a write or replay, which ends it, a VAL.
pub fn deliver(
    me: Replica,
    table: &mut [u8],
    store: &mut [u8],
    i: usize,
    message: Message,
    body: &[u8],
) -> Answer {
    let (t, t_len, s, s_len) = parts_mut(table, store);
    // SAFETY: three slices; the two that are written are borrowed mutably, so apart from all.
    unsafe {
        sys::cetskobi_deliver(
            me,
            t,
            t_len,
            s,
            s_len,
            i,
            message,
            body.as_ptr(),
            body.len(),
        )
    }
}

/// Replay of record `i`. Of the store only the length is looked at.
pub fn replay(me: Replica, table: &mut [u8], store: &[u8], i: usize) -> Answer {
    // SAFETY: two slices; the table is borrowed mutably, so apart.
    unsafe {
        sys::cetskobi_replay(
            me,
            table.as_mut_ptr(),
            table.len(),
            store.as_ptr(),
            store.len(),
            i,
        )
    }
}

/// Validation of record `i`, where the last replica that was missing was struck
/// off. Of the store only the length is looked at.
pub fn validate(me: Replica, table: &mut [u8], store: &[u8], i: usize) -> Answer {
    // SAFETY: two slices; the table is borrowed mutably, so apart.
    unsafe {
        sys::cetskobi_validate(
            me,
            table.as_mut_ptr(),
            table.len(),
            store.as_ptr(),
            store.len(),
            i,
        )
    }
}

/// Resend of record `i`; no byte changes.
pub fn resend(me: Replica, table: &mut [u8], store: &[u8], i: usize) -> Answer {
    // SAFETY: two slices; the table is borrowed mutably, so apart.
    unsafe {
        sys::cetskobi_resend(
            me,
            table.as_mut_ptr(),
            table.len(),
            store.as_ptr(),
            store.len(),
            i,
        )
    }
}

/// How many bytes of record `i` the message takes along that left an event with
/// this answer: 0 unless it is an INV; [`GONE`] where the record no longer has
/// the INV's timestamp, or is not there with all its bytes.
pub fn body(table: &[u8], store: &[u8], i: usize, left: Answer) -> usize {
    let (t, t_len, s, s_len) = parts(table, store);
    // SAFETY: two slices that are only read.
    unsafe { sys::cetskobi_body(t, t_len, s, s_len, i, left) }
}

/// Who gets a message of this kind, bit n for replica n: an ACK goes to the
/// sender of the delivered message, `sender`; an INV or VAL, also the VAL that
/// left a delivered ACK, to all others in the view.
pub fn recipients(me: Replica, kind: u8, sender: u8) -> u16 {
    // SAFETY: numbers only.
    unsafe { sys::cetskobi_recipients(me, kind, sender) }
}

/// Message `i` of a packet of a group with these settings, which is looked at as a
/// whole first, at each call: questions 20, 27, 21, 22 and 23.
pub fn fetch(settings: Settings, packet: &[u8], i: usize) -> Fetched {
    // SAFETY: one slice that is only read, and numbers.
    unsafe { sys::cetskobi_fetch(settings, packet.as_ptr(), packet.len(), i) }
}

/// Messages, of seven words each, with their bodies one behind the other, as a
/// packet of a group with these settings at the front of `out`.
pub fn pack(settings: Settings, messages: &[u32], bodies: &[u8], out: &mut [u8]) -> Written {
    let (m, m_len, b, b_len) = parts(messages, bodies);
    let (o, o_len) = (out.as_mut_ptr(), out.len());
    // SAFETY: three slices; the output is borrowed mutably, so apart from both.
    unsafe { sys::cetskobi_pack(settings, m, m_len, b, b_len, o, o_len) }
}

/// Delivery of message `i` of a packet: [`fetch`] by the laptop's own settings,
/// then [`deliver`]. Here too the whole packet is looked at first, at each call.
pub fn deliver_packet(
    me: Replica,
    table: &mut [u8],
    store: &mut [u8],
    packet: &[u8],
    i: usize,
) -> Answer {
    let (t, t_len, s, s_len) = parts_mut(table, store);
    // SAFETY: three slices; the two that are written are borrowed mutably, so apart from all.
    unsafe {
        sys::cetskobi_deliver_packet(me, t, t_len, s, s_len, packet.as_ptr(), packet.len(), i)
    }
}

/// The whole of a packet, once: questions 20, 27, 21 and 22, and how many messages
/// it has. The settings are those of the laptops that they are then delivered to.
pub fn accept(settings: Settings, packet: &[u8]) -> Accepted {
    // SAFETY: one slice that is only read, and numbers.
    unsafe { sys::cetskobi_accept(settings, packet.as_ptr(), packet.len()) }
}

/// Message `i` of a packet, in constant time: what [`fetch`] answers, if
/// `accepted` is what [`accept`] gave of these very bytes by the same settings.
///
/// It may be anything else, and nothing outside the packet is read. Where `i` is
/// not below its count, its number is the answer, or 23 if that is 0; else 21
/// where entry `i` of the contents table does not lie within the packet, and 22
/// where its bytes do not; else the entry as it stands there, of which question
/// 22 has not been asked.
pub fn fetch_accepted(packet: &[u8], accepted: Accepted, i: usize) -> Fetched {
    // SAFETY: one slice that is only read, and numbers.
    unsafe { sys::cetskobi_fetch_accepted(packet.as_ptr(), packet.len(), accepted, i) }
}

/// Delivery of message `i` of a packet, which is taken in constant time:
/// [`fetch_accepted`], then [`deliver`]. Byte 0 is not looked at again: the packet
/// is to be accepted by the settings of `me`. With it comes which message it was,
/// also where its delivery was refused.
pub fn deliver_accepted(
    me: Replica,
    table: &mut [u8],
    store: &mut [u8],
    packet: &[u8],
    accepted: Accepted,
    i: usize,
) -> Arrival {
    let (t, t_len, s, s_len) = parts_mut(table, store);
    let (p, p_len) = (packet.as_ptr(), packet.len());
    // SAFETY: three slices; the two that are written are borrowed mutably, so apart from all.
    unsafe { sys::cetskobi_deliver_accepted(me, t, t_len, s, s_len, p, p_len, accepted, i) }
}

/// The playing program on one script: what it prints stands at the front of
/// `out`, which has 25 bytes for each of the script and 2 more.
pub fn play(script: &[u8], out: &mut [u8]) -> Played {
    // SAFETY: two slices; the output is borrowed mutably, so apart.
    unsafe { sys::cetskobi_play(script.as_ptr(), script.len(), out.as_mut_ptr(), out.len()) }
}

fn parts<T>(first: &[T], bytes: &[u8]) -> (*const T, usize, *const u8, usize) {
    (first.as_ptr(), first.len(), bytes.as_ptr(), bytes.len())
}

fn parts_mut(table: &mut [u8], store: &mut [u8]) -> (*mut u8, usize, *mut u8, usize) {
    (
        table.as_mut_ptr(),
        table.len(),
        store.as_mut_ptr(),
        store.len(),
    )
}
