//! Lent memory: a table and a store, each between guards that nobody may touch.

use cetskobi::raw::RECORD_BYTES;
use model::engine::{Record, Slot};
use model::rng::Rng;

use crate::crossing::Fields;

/// Guard bytes, on either side.
const GUARD: usize = 24;
const GUARD_BYTE: u8 = 0x9d;

/// The 192 store bytes of a record.
const SLOT: usize = Record::VALUE_LIMIT;

#[derive(Clone, Debug, PartialEq, Eq, Default)]
pub struct Memory {
    table: Vec<u8>,
    store: Vec<u8>,
}

impl Memory {
    /// Lays out these bytes, in the place of what was there.
    pub fn lay(&mut self, table: &[u8], store: &[u8]) {
        for (place, bytes) in [(&mut self.table, table), (&mut self.store, store)] {
            place.clear();
            place.extend([GUARD_BYTE; GUARD]);
            place.extend_from_slice(bytes);
            place.extend([GUARD_BYTE; GUARD]);
        }
    }

    pub fn table(&self) -> &[u8] {
        &self.table[GUARD..self.table.len() - GUARD]
    }

    pub fn store(&self) -> &[u8] {
        &self.store[GUARD..self.store.len() - GUARD]
    }

    /// The table and the store, to be lent.
    pub fn lend(&mut self) -> (&mut [u8], &mut [u8]) {
        let (table, store) = (self.table.len() - GUARD, self.store.len() - GUARD);
        (&mut self.table[GUARD..table], &mut self.store[GUARD..store])
    }

    /// The fields of a record that is there.
    pub fn record(&self, i: usize) -> Option<Fields> {
        self.table().as_chunks().0.get(i).map(Fields::of)
    }

    /// The 192 bytes of a record that are there.
    pub fn slot(&self, i: usize) -> Option<&Slot> {
        self.store().as_chunks().0.get(i)
    }

    pub fn put_record(&mut self, i: usize, record: &Fields) {
        if let Some(place) = self.lend().0.as_chunks_mut().0.get_mut(i) {
            *place = record.bytes();
        }
    }

    /// Record `i` becomes that of the model. Its last byte, which is nobody's,
    /// stays.
    pub fn move_record(&mut self, i: usize, record: &Record) {
        if let Some(before) = self.record(i) {
            self.put_record(i, &Fields::of_record(record, before.unused));
        }
    }

    pub fn put_slot(&mut self, i: usize, slot: &Slot) {
        if let Some(place) = self.lend().1.as_chunks_mut::<SLOT>().0.get_mut(i) {
            *place = *slot;
        }
    }

    /// Where the two differ first, in short.
    pub fn difference(&self, other: &Memory) -> Option<String> {
        if self == other {
            return None;
        }
        let lens = |m: &Memory| (m.table().len(), m.store().len());
        if lens(self) != lens(other) {
            return Some(format!("sizes: {:?}, {:?}", lens(self), lens(other)));
        }
        let at = |k: usize, unit: usize| match k.checked_sub(GUARD) {
            Some(k) => format!("{} of record {}", k % unit, k / unit),
            None => "of the guard before".to_owned(),
        };
        let table = ("table", &self.table, &other.table, RECORD_BYTES);
        let store = ("store", &self.store, &other.store, SLOT);
        for (name, a, b, unit) in [table, store] {
            let differs = a.iter().zip(b).position(|(a, b)| a != b);
            if let Some(k) = differs {
                return Some(format!("{name} byte {}: {}, {}", at(k, unit), a[k], b[k]));
            }
        }
        None
    }
}

/// What lies in the other records: bytes, many of them no record, and values.
/// Part 0 is all zero.
pub struct Pool {
    table: Vec<u8>,
    store: Vec<u8>,
}

impl Pool {
    /// How many records the greatest lent memory has, and some more.
    pub const RECORDS: usize = Record::COUNT_LIMIT + 4;
    /// How many different beginnings there are, without the zero one.
    pub const PARTS: usize = 200;

    pub fn new(rng: &mut Rng) -> Pool {
        let count = Pool::RECORDS + Pool::PARTS;
        let byte = |rng: &mut Rng| match rng.below(4) {
            0 => rng.next_u64() as u8,
            _ => rng.below(5) as u8,
        };
        let mut store = vec![0; SLOT * count];
        rng.fill(&mut store);
        Pool {
            table: (0..RECORD_BYTES * count).map(|_| byte(rng)).collect(),
            store,
        }
    }

    /// Lays out so many bytes of a part as table and as store.
    pub fn lay(&self, part: usize, table: usize, store: usize, memory: &mut Memory) {
        if part == 0 {
            memory.lay(&vec![0; table], &vec![0; store]);
        } else {
            memory.lay(&self.table[part..][..table], &self.store[part..][..store]);
        }
    }
}
