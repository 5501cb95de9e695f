//! The events on one record alone, given the sizes of the lent memory that it
//! is thought to lie in and its number there. They answer as the events over
//! the whole memory do, since an event looks at no other record (01, after the
//! questions).

use super::{Answer, Envelope, Record, Refusal, Replica, Settings, Slot, Timestamp};

/// How much memory is lent: the count of records, and the store's bytes.
#[derive(Clone, Copy, Debug, PartialEq, Eq)]
pub struct Sizes {
    pub records: usize,
    pub store: usize,
}

impl Sizes {
    pub fn of(table: &[Record], store: &[u8]) -> Sizes {
        Sizes {
            records: table.len(),
            store: store.len(),
        }
    }
}

impl Replica {
    pub fn start_one(
        number: u8,
        view: u16,
        settings: Settings,
        sizes: Sizes,
        record: &mut Record,
        slot: &mut Slot,
    ) -> Result<Replica, Refusal> {
        let (replica, fresh) = Replica::fresh(number, view, settings, sizes)?;
        *record = fresh;
        slot.fill(0);
        Ok(replica)
    }

    pub fn read_one<'a>(
        &self,
        sizes: Sizes,
        number: usize,
        record: &Record,
        slot: &'a Slot,
    ) -> Result<&'a [u8], Refusal> {
        self.ask_record(sizes, number)?;
        self.read_step(record, slot)
    }

    pub fn write_one(
        &self,
        sizes: Sizes,
        number: usize,
        record: &mut Record,
        slot: &mut Slot,
        value: &[u8],
    ) -> Answer {
        self.ask_record(sizes, number)?;
        self.write_step(record, slot, value)
    }

    pub fn ask_one<'a>(
        &self,
        sizes: Sizes,
        number: usize,
        record: &Record,
        slot: &'a Slot,
    ) -> Result<(&'a [u8], Timestamp), Refusal> {
        self.ask_record(sizes, number)?;
        self.ask_step(record, slot)
    }

    pub fn commit_one(
        &self,
        sizes: Sizes,
        number: usize,
        record: &mut Record,
        slot: &mut Slot,
        opened: Timestamp,
        value: &[u8],
    ) -> Answer {
        self.ask_record(sizes, number)?;
        self.commit_step(record, slot, opened, value)
    }

    pub fn replay_one(&self, sizes: Sizes, number: usize, record: &mut Record) -> Answer {
        self.ask_record(sizes, number)?;
        self.replay_step(record)
    }

    /// The envelope names the record's number.
    pub fn deliver_one(
        &self,
        sizes: Sizes,
        record: &mut Record,
        slot: &mut Slot,
        envelope: &Envelope,
        body: &[u8],
    ) -> Answer {
        self.ask_record(sizes, envelope.record)?;
        self.deliver_step(record, slot, envelope, body)
    }

    pub fn validate_one(&self, sizes: Sizes, number: usize, record: &mut Record) -> Answer {
        self.ask_record(sizes, number)?;
        self.validate_step(record)
    }

    pub fn resend_one(&self, sizes: Sizes, number: usize, record: &Record) -> Answer {
        self.ask_record(sizes, number)?;
        self.resend_step(record)
    }
}
