use cetskobi::raw::{Replica, RECORD_BYTES};
use model::engine::{Record, Timestamp};
use model::opened::Opened;

use super::Run;
use crate::crossing::{settings_of, Fields, RecordBytes};
use crate::memory::Memory;
use crate::single::{by_engine, on_table, Case, Event, Outcome};

/// All memory of so many records is compared after each entry.
const SMALL: usize = 100;

/// What lies in every byte of the table before the start. Byte 15 of each
/// record keeps it.
const OLD: u8 = 77;

/// Version and tie-breaker of a stamp.
pub(super) type Stamp = (u32, u8);

/// A laptop, in the engine's memory and in the model's.
pub struct Member {
    pub me: Replica,
    pub memory: Memory,
    pub(super) table: Vec<Record>,
    pub(super) store: Vec<u8>,
    /// The engine's memory as it was, but for the records that were named: in
    /// those it is as the model has them.
    copy: Memory,
    /// By record: the greatest validated stamp with this laptop in the
    /// finisher's view; at first that of the fresh start.
    pub(super) floor: Vec<Stamp>,
    /// By record in replay: the stamp of this laptop's own save that the replay
    /// gave up, if the record was in invalid-write.
    pub(super) given_up: Vec<Option<Stamp>>,
    /// By record: what the engine has handed out.
    pub opened: Vec<Opened>,
}

impl Member {
    /// Started fresh, in memory that was not clean. Both sides accept.
    pub(super) fn start(number: u8, run: &Run) -> Result<Member, String> {
        let mut memory = Memory::default();
        memory.lay(
            &vec![OLD; RECORD_BYTES * run.records],
            &vec![0xee; Record::VALUE_LIMIT * run.records],
        );
        let me = Replica {
            number,
            settings: settings_of(run.rule),
            view: run.view,
            epoch: 0,
        };
        let case = Case::on(me, 0, Event::Start);
        let mut table = vec![Record::fresh(9); run.records];
        let mut store = memory.store().to_vec();
        let outcome = by_engine(&case, &mut memory);
        let expected = on_table(&case, &mut table, &mut store);
        if outcome != expected || outcome.number != 0 {
            return Err(format!(
                "start of {number}: engine {outcome:?}, other {expected:?}"
            ));
        }
        Ok(Member {
            me: outcome.me,
            copy: memory.clone(),
            memory,
            table,
            store,
            floor: vec![(0, run.view.trailing_zeros() as u8); run.records],
            given_up: vec![None; run.records],
            opened: vec![Opened::new(run.rule); run.records],
        })
    }

    /// What record `i` holds in the engine's memory, for what was handed out of it.
    pub(super) fn look(&mut self, i: usize) {
        let held = (self.memory.record(i), self.memory.slot(i));
        let (Some(record), Some(slot), Some(opened)) = (held.0, held.1, self.opened.get_mut(i))
        else {
            return;
        };
        let value = slot.get(..usize::from(record.len)).unwrap_or_default();
        opened.is_now(Timestamp::new(record.version, record.tie), value);
    }

    /// 02, Wish 5, after an accepted event of the engine's: see `model::opened`.
    pub(super) fn opens(&mut self, case: &Case, outcome: &Outcome) -> Result<(), String> {
        let Some(opened) = self.opened.get_mut(case.i) else {
            return Ok(());
        };
        let stamp = match case.event {
            Event::Commit {
                opened: (version, tie),
                ..
            } => return opened.commits(Timestamp::new(version, tie)),
            Event::Ask => outcome.opened,
            // A read hands out no stamp: it is the record's.
            Event::Read => self.memory.record(case.i).map_or((0, 0), |r| r.stamp()),
            _ => return Ok(()),
        };
        let (at, len) = outcome.part;
        let value = self.memory.store()[at..][..len].to_vec();
        let held = (Timestamp::new(stamp.0, stamp.1), value);
        opened.hands_out(held, case.event == Event::Ask)
    }

    /// The engine's memory as the model's table and store would have it.
    pub(super) fn expected(&self) -> Memory {
        let bytes = |record: &Record| Fields::of_record(record, OLD).bytes();
        let table: Vec<RecordBytes> = self.table.iter().map(bytes).collect();
        let mut memory = Memory::default();
        memory.lay(table.as_flattened(), &self.store);
        memory
    }

    /// Is record `i`, which was named, as the model has it? Nothing else may
    /// have moved: of a small memory everything is looked at, else what lies
    /// beside.
    pub(super) fn same(&mut self, i: usize) -> Result<(), String> {
        let slots = self.store.as_chunks::<{ Record::VALUE_LIMIT }>().0;
        if let (Some(record), Some(slot)) = (self.table.get(i), slots.get(i)) {
            self.copy.move_record(i, record);
            self.copy.put_slot(i, slot);
        }
        if self.table.len() <= SMALL {
            return self.moved();
        }
        let beside = [i.wrapping_sub(1), i, i.wrapping_add(1)];
        let part = |memory: &Memory| beside.map(|i| (memory.record(i), memory.slot(i).copied()));
        if part(&self.memory) == part(&self.copy) {
            return Ok(());
        }
        self.moved()
    }

    /// Is the engine's memory as its copy, guards included?
    pub(super) fn moved(&self) -> Result<(), String> {
        match self.memory.difference(&self.copy) {
            None => Ok(()),
            Some(what) => Err(format!("{what} (engine, other)")),
        }
    }

    /// The record, if the engine shows it valid.
    pub(super) fn shown(&self, i: usize) -> Option<Fields> {
        self.memory.record(i).filter(|record| record.state == 0)
    }
}
