//! The events over lent memory: a table of records and a store of 192 bytes
//! for each.

use super::{
    Answer, Envelope, Message, Record, Refusal, Replica, Settings, Sizes, Slot, Timestamp,
};

impl Replica {
    /// A fresh start (01, "Laptop and record"), in a group with these settings
    /// (02, Wish 6).
    pub fn start(
        number: u8,
        view: u16,
        settings: Settings,
        table: &mut [Record],
        store: &mut [u8],
    ) -> Result<Replica, Refusal> {
        let sizes = Sizes::of(table, store);
        let (replica, fresh) = Replica::fresh(number, view, settings, sizes)?;
        table.fill(fresh);
        store.fill(0);
        Ok(replica)
    }

    /// The value as that part of the store itself. A refused read gives no
    /// part; `unwrap_or_default` makes of it the paper's empty part.
    pub fn read<'a>(
        &self,
        table: &[Record],
        store: &'a [u8],
        record: usize,
    ) -> Result<&'a [u8], Refusal> {
        self.ask_record(Sizes::of(table, store), record)?;
        self.read_step(&table[record], slot(store, record)?)
    }

    /// A write of this value.
    pub fn write(
        &self,
        table: &mut [Record],
        store: &mut [u8],
        record: usize,
        value: &[u8],
    ) -> Answer {
        self.ask_record(Sizes::of(table, store), record)?;
        self.write_step(&mut table[record], slot_mut(store, record)?, value)
    }

    /// An ask: the value as a read gives it, and the stamp, which a commit brings
    /// back (02, Wish 5). A refused ask gives neither.
    pub fn ask<'a>(
        &self,
        table: &[Record],
        store: &'a [u8],
        record: usize,
    ) -> Result<(&'a [u8], Timestamp), Refusal> {
        self.ask_record(Sizes::of(table, store), record)?;
        self.ask_step(&table[record], slot(store, record)?)
    }

    /// A commit: a write of this value, if the record is still valid with the
    /// stamp that it was opened with (02, Wish 5).
    pub fn commit(
        &self,
        table: &mut [Record],
        store: &mut [u8],
        record: usize,
        opened: Timestamp,
        value: &[u8],
    ) -> Answer {
        self.ask_record(Sizes::of(table, store), record)?;
        let slot = slot_mut(store, record)?;
        self.commit_step(&mut table[record], slot, opened, value)
    }

    /// A replay of a record, invalid or invalid-write, whose last writer is gone
    /// (02, Wish 2).
    pub fn replay(&self, table: &mut [Record], store: &[u8], record: usize) -> Answer {
        self.ask_record(Sizes::of(table, store), record)?;
        self.replay_step(&mut table[record])
    }

    /// The delivery of a message with its body. The envelope names the record.
    /// An INV is answered with an ACK; the last ACK of a write or a replay
    /// validates it, and the VAL leaves (02, Wish 1).
    pub fn deliver(
        &self,
        table: &mut [Record],
        store: &mut [u8],
        envelope: &Envelope,
        body: &[u8],
    ) -> Answer {
        let record = envelope.record;
        self.ask_record(Sizes::of(table, store), record)?;
        self.deliver_step(&mut table[record], slot_mut(store, record)?, envelope, body)
    }

    /// The end of a write or a replay that all others have acknowledged, the
    /// last missing replica having been struck off.
    pub fn validate(&self, table: &mut [Record], store: &[u8], record: usize) -> Answer {
        self.ask_record(Sizes::of(table, store), record)?;
        self.validate_step(&mut table[record])
    }

    /// An INV or a VAL of this replica's, again. The record is unchanged.
    pub fn resend(&self, table: &[Record], store: &[u8], record: usize) -> Answer {
        self.ask_record(Sizes::of(table, store), record)?;
        self.resend_step(&table[record])
    }
}

/// The bytes that a leaving message takes along: the record's value for an INV,
/// none otherwise. Decision: memory without that record gives the empty part.
pub fn body<'a>(message: Message, table: &[Record], store: &'a [u8], record: usize) -> &'a [u8] {
    match (message, table.get(record), slot(store, record)) {
        (Message::Inv(_), Some(found), Ok(slot)) => found.value(slot),
        _ => &[],
    }
}

/// The record's 192 bytes. Questions 2 and 4 have seen to it that they are there.
fn slot(store: &[u8], record: usize) -> Result<&Slot, Refusal> {
    let (slots, _) = store.as_chunks();
    slots.get(record).ok_or(Refusal::StrayRecord)
}

fn slot_mut(store: &mut [u8], record: usize) -> Result<&mut Slot, Refusal> {
    let (slots, _) = store.as_chunks_mut();
    slots.get_mut(record).ok_or(Refusal::StrayRecord)
}
