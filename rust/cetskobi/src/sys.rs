//! The exported functions as C has them: include/cetskobi.h, line by line.
//!
//! Only for who needs the pointers; [`raw`](crate::raw) has them over slices, and
//! [`Laptop`](crate::Laptop) with Rust's types. Each pointer is to as many elements as the
//! length beside it says, and what is written overlaps nothing else that is
//! passed. Beyond that every input may be passed.

#![allow(unsafe_code)]

/// The bytes of one record in the table.
pub const RECORD_BYTES: usize = 16;
/// The words of one message that goes into a packet.
pub const MESSAGE_WORDS: usize = 7;
/// The length of a text that is gone from its record: [`cetskobi_body`].
pub const GONE: usize = usize::MAX;

/// What is fixed at a group's start: [`Settings`](crate::Settings), which converts
/// into it and back, as C has it.
#[repr(C)]
#[derive(Clone, Copy, Debug, PartialEq, Eq, Hash)]
pub struct Settings {
    /// The rule of ties: 2 is [`Rule::Lower`](crate::Rule::Lower); every other value,
    /// 0 too, is [`Rule::Higher`](crate::Rule::Higher).
    pub rule: u8,
}

/// The identity of a replica, a laptop of a group.
#[repr(C)]
#[derive(Clone, Copy, Debug, PartialEq, Eq, Hash)]
pub struct Replica {
    /// Its number, 0 to 15.
    pub number: u8,
    /// The settings of its group.
    pub settings: Settings,
    /// Its view: bit n for replica n.
    pub view: u16,
    /// The epoch of its view.
    pub epoch: u32,
}

/// 0 or the number of the question that said no; and the message that leaves.
#[repr(C)]
#[derive(Clone, Copy, Debug, PartialEq, Eq)]
pub struct Answer {
    /// 0, or the number of the question that said no.
    pub number: u8,
    /// 0 none, 1 INV, 2 ACK, 3 VAL.
    pub kind: u8,
    /// The tie-breaker of the message's timestamp.
    pub tie: u8,
    /// The version of the message's timestamp.
    pub version: u32,
}

/// A message as it is delivered.
#[repr(C)]
#[derive(Clone, Copy, Debug, PartialEq, Eq)]
pub struct Message {
    /// 1 INV, 2 ACK, 3 VAL.
    pub kind: u8,
    /// The number of the replica that sent it.
    pub sender: u8,
    /// The tie-breaker of its timestamp.
    pub tie: u8,
    /// The sender's epoch.
    pub epoch: u32,
    /// The version of its timestamp.
    pub version: u32,
}

/// 0 or the number of the question that said no; and how many bytes are the value.
#[repr(C)]
#[derive(Clone, Copy, Debug, PartialEq, Eq)]
pub struct Reading {
    /// 0, or the number of the question that said no.
    pub number: u8,
    /// The length of the value, which begins at 192 times the record's number.
    pub len: usize,
}

/// 0 or the number of the question that said no; of an accepted ask the length of
/// the value, and the timestamp that a commit brings back.
#[repr(C)]
#[derive(Clone, Copy, Debug, PartialEq, Eq)]
pub struct Asked {
    /// 0, or the number of the question that said no.
    pub number: u8,
    /// The tie-breaker of the record's timestamp; 0 of a refused ask.
    pub tie: u8,
    /// The version of the record's timestamp; 0 of a refused ask.
    pub version: u32,
    /// The length of the value, which begins at 192 times the record's number.
    pub len: usize,
}

/// 0 or the number of the question that said no; and the identity from then on.
#[repr(C)]
#[derive(Clone, Copy, Debug, PartialEq, Eq)]
pub struct Admission {
    /// The identity from then on.
    pub replica: Replica,
    /// 0, or the number of the question that said no.
    pub number: u8,
}

/// 0 or the number of the question that said no; and the message that the packet holds.
#[repr(C)]
#[derive(Clone, Copy, Debug, PartialEq, Eq)]
pub struct Fetched {
    /// 0, or the number of the question that said no.
    pub number: u8,
    /// 1 INV, 2 ACK, 3 VAL.
    pub kind: u8,
    /// The number of the replica that sent it.
    pub sender: u8,
    /// The tie-breaker of its timestamp.
    pub tie: u8,
    /// The sender's epoch.
    pub epoch: u32,
    /// The version of its timestamp.
    pub version: u32,
    /// The record's number.
    pub index: usize,
    /// Where its bytes begin in the packet.
    pub at: usize,
    /// How many they are.
    pub len: usize,
}

/// What is known of a packet that was looked at as a whole: 0 and how many
/// messages it has; or the number of the question that refused it, 20, 27, 21 or
/// 22, and no messages.
#[repr(C)]
#[derive(Clone, Copy, Debug, PartialEq, Eq)]
pub struct Accepted {
    /// 0, or the number of the question that said no.
    pub number: u8,
    /// How many messages it has; 0 of a refused packet.
    pub count: u8,
}

/// The answer to the delivery of a packet's message; and which message it was,
/// also of a refused delivery. Where there was none to deliver these are 0.
#[repr(C)]
#[derive(Clone, Copy, Debug, PartialEq, Eq)]
pub struct Arrival {
    /// The delivery's answer.
    pub answer: Answer,
    /// The sender's epoch.
    pub epoch: u32,
    /// The number of the replica that sent it.
    pub sender: u8,
    /// The number of the record that it is about.
    pub index: usize,
}

/// 0 or the number of the question that said no; and how many bytes were written.
#[repr(C)]
#[derive(Clone, Copy, Debug, PartialEq, Eq)]
pub struct Written {
    /// 0, or the number of the question that said no.
    pub number: u8,
    /// How many bytes were written.
    pub len: usize,
}

/// 0 and how many bytes were printed; 255 and 0 beyond the player's limits.
#[repr(C)]
#[derive(Clone, Copy, Debug, PartialEq, Eq)]
pub struct Played {
    /// 0, or 255 where the script or the output is beyond the player's limits.
    pub number: u8,
    /// How many bytes were printed.
    pub len: usize,
}

#[rustfmt::skip]
unsafe extern "C" {
    /// Fresh start: see [`Laptop::start`](crate::Laptop::start).
    pub fn cetskobi_start(number: u8, view: u16, settings: Settings, table: *mut u8, table_len: usize, store: *mut u8, store_len: usize) -> Admission;
    /// Change of view: see [`Laptop::change_view`](crate::Laptop::change_view).
    pub fn cetskobi_view(me: Replica, epoch: u32, set: u16) -> Admission;
    /// Read of record i: see [`Laptop::read`](crate::Laptop::read).
    pub fn cetskobi_read(me: Replica, table: *const u8, table_len: usize, store: *const u8, store_len: usize, i: usize) -> Reading;
    /// Write of a value to record i: see [`Laptop::write`](crate::Laptop::write).
    pub fn cetskobi_write(me: Replica, table: *mut u8, table_len: usize, store: *mut u8, store_len: usize, i: usize, value: *const u8, value_len: usize) -> Answer;
    /// Ask for record i: see [`Laptop::ask`](crate::Laptop::ask).
    pub fn cetskobi_ask(me: Replica, table: *const u8, table_len: usize, store: *const u8, store_len: usize, i: usize) -> Asked;
    /// Commit of a value to record i, on the timestamp that an ask gave: see [`Laptop::commit`](crate::Laptop::commit).
    pub fn cetskobi_commit(me: Replica, table: *mut u8, table_len: usize, store: *mut u8, store_len: usize, i: usize, version: u32, tie: u8, value: *const u8, value_len: usize) -> Answer;
    /// Delivery of a message about record i: see [`Laptop::deliver`](crate::Laptop::deliver).
    pub fn cetskobi_deliver(me: Replica, table: *mut u8, table_len: usize, store: *mut u8, store_len: usize, i: usize, message: Message, value: *const u8, value_len: usize) -> Answer;
    /// Replay of record i: see [`Laptop::replay`](crate::Laptop::replay).
    pub fn cetskobi_replay(me: Replica, table: *mut u8, table_len: usize, store: *const u8, store_len: usize, i: usize) -> Answer;
    /// Validation of record i: see [`Laptop::validate`](crate::Laptop::validate).
    pub fn cetskobi_validate(me: Replica, table: *mut u8, table_len: usize, store: *const u8, store_len: usize, i: usize) -> Answer;
    /// Resend of record i: see [`Laptop::resend`](crate::Laptop::resend).
    pub fn cetskobi_resend(me: Replica, table: *mut u8, table_len: usize, store: *const u8, store_len: usize, i: usize) -> Answer;
    /// How many bytes what left an event on record i takes along, or [`GONE`]: see [`Leaving::body`](crate::Leaving::body).
    pub fn cetskobi_body(table: *const u8, table_len: usize, store: *const u8, store_len: usize, i: usize, left: Answer) -> usize;
    /// Who gets a message of this kind: see [`Leaving::recipients`](crate::Leaving::recipients).
    pub fn cetskobi_recipients(me: Replica, kind: u8, sender: u8) -> u16;
    /// Message i of a packet: see [`packet::fetch`](crate::packet::fetch).
    pub fn cetskobi_fetch(settings: Settings, packet: *const u8, packet_len: usize, i: usize) -> Fetched;
    /// Messages as a packet: see [`packet::pack`](crate::packet::pack).
    pub fn cetskobi_pack(settings: Settings, messages: *const u32, messages_len: usize, bodies: *const u8, bodies_len: usize, out: *mut u8, out_len: usize) -> Written;
    /// Delivery of message i of a packet: see [`Laptop::deliver_packet`](crate::Laptop::deliver_packet).
    pub fn cetskobi_deliver_packet(me: Replica, table: *mut u8, table_len: usize, store: *mut u8, store_len: usize, packet: *const u8, packet_len: usize, i: usize) -> Answer;
    /// The whole of a packet, once: see [`packet::messages`](crate::packet::messages).
    pub fn cetskobi_accept(settings: Settings, packet: *const u8, packet_len: usize) -> Accepted;
    /// Message i of an accepted packet: see [`packet::Messages`](crate::packet::Messages).
    pub fn cetskobi_fetch_accepted(packet: *const u8, packet_len: usize, accepted: Accepted, i: usize) -> Fetched;
    /// Delivery of message i of an accepted packet: see [`Laptop::deliver_next`](crate::Laptop::deliver_next).
    pub fn cetskobi_deliver_accepted(me: Replica, table: *mut u8, table_len: usize, store: *mut u8, store_len: usize, packet: *const u8, packet_len: usize, accepted: Accepted, i: usize) -> Arrival;
    /// The playing program on one script: see [`play`](fn@crate::play).
    pub fn cetskobi_play(script: *const u8, script_len: usize, out: *mut u8, out_len: usize) -> Played;
}
