use std::fmt::Debug;

use cetskobi::raw::{self, Admission, Answer, Asked, Reading, Replica};
use model::engine::{number, Envelope, Record, Timestamp};
use model::rng::Rng;

use super::{Case, Event};
use crate::crossing::{message_of, model_of, sent_of, settings_of, table_of};
use crate::memory::{Memory, Pool};

/// What an event answers. The moved memory goes with it.
#[derive(Clone, Debug, PartialEq)]
pub struct Outcome {
    /// 0 or the number of the question that said no.
    pub number: u8,
    /// Kind, tie-breaker and version of the message that leaves, or zeros.
    pub sent: (u8, u8, u32),
    /// Of a read or an ask: where the part begins in the store, and its length.
    pub part: (usize, usize),
    /// Version and tie-breaker of the timestamp that an ask hands out, or zeros.
    pub opened: (u32, u8),
    /// The identity from then on.
    pub me: Replica,
}

/// Plays an event on its memory.
pub type Play = fn(&Case, &mut Memory) -> Outcome;

pub fn by_engine(case: &Case, memory: &mut Memory) -> Outcome {
    let (me, i) = (case.me, case.i);
    let (table, store) = memory.lend();
    match &case.event {
        Event::Start => {
            let started = raw::start(me.number, me.view, me.settings, table, store);
            Outcome::admitted(started)
        }
        Event::View { epoch, set } => Outcome::admitted(raw::view(me, *epoch, *set)),
        Event::Read => Outcome::of_read(me, i, raw::read(me, table, store, i)),
        Event::Write { value } => Outcome::of(me, raw::write(me, table, store, i, value)),
        Event::Ask => Outcome::of_ask(me, i, raw::ask(me, table, store, i)),
        Event::Commit { opened, value } => {
            let (version, tie) = *opened;
            Outcome::of(me, raw::commit(me, table, store, i, version, tie, value))
        }
        Event::Replay => Outcome::of(me, raw::replay(me, table, store, i)),
        Event::Deliver { message, value } => {
            Outcome::of(me, raw::deliver(me, table, store, i, *message, value))
        }
        Event::Validate => Outcome::of(me, raw::validate(me, table, store, i)),
        Event::Resend => Outcome::of(me, raw::resend(me, table, store, i)),
    }
}

impl Outcome {
    /// Of an event that leaves the identity as it is.
    pub fn of(me: Replica, answer: Answer) -> Outcome {
        Outcome {
            number: answer.number,
            sent: (answer.kind, answer.tie, answer.version),
            part: (0, 0),
            opened: (0, 0),
            me,
        }
    }

    /// Of a start or a view.
    pub fn admitted(admission: Admission) -> Outcome {
        Outcome {
            number: admission.number,
            sent: (0, 0, 0),
            part: (0, 0),
            opened: (0, 0),
            me: admission.replica,
        }
    }

    /// Of a read of record `i`. A refused one gives the empty part, wherever that is.
    pub fn of_read(me: Replica, i: usize, read: Reading) -> Outcome {
        let at = if read.number == 0 {
            Record::VALUE_LIMIT * i
        } else {
            0
        };
        Outcome {
            number: read.number,
            sent: (0, 0, 0),
            part: (at, read.len),
            opened: (0, 0),
            me,
        }
    }

    /// Of an ask: as of a read, and the timestamp.
    pub fn of_ask(me: Replica, i: usize, asked: Asked) -> Outcome {
        let Asked {
            number,
            tie,
            version,
            len,
        } = asked;
        Outcome {
            opened: (version, tie),
            ..Outcome::of_read(me, i, Reading { number, len })
        }
    }
}

pub fn by_model(case: &Case, memory: &mut Memory) -> Outcome {
    on_memory(memory, |table, store| on_table(case, table, store))
}

/// Lets the model move the table of this memory.
pub fn on_memory<O>(memory: &mut Memory, event: impl FnOnce(&mut [Record], &mut [u8]) -> O) -> O {
    let before = table_of(memory.table());
    let mut table = before.clone();
    let outcome = event(&mut table, memory.lend().1);
    // A record that stayed keeps its bytes, also where they are no record.
    for (k, (before, after)) in before.iter().zip(&table).enumerate() {
        if before != after {
            memory.move_record(k, after);
        }
    }
    outcome
}

/// The model's event on its own table.
pub fn on_table(case: &Case, table: &mut [Record], store: &mut [u8]) -> Outcome {
    let mut replica = replica_of(case.me);
    let mut part = (0, 0);
    let mut handed_out = (0, 0);
    let begin = store.as_ptr() as usize;
    let part_of = |value: &[u8]| (value.as_ptr() as usize - begin, value.len());
    let i = case.i;
    let answer = match &case.event {
        Event::Start => {
            let (own, view, settings) = (replica.number, replica.view, replica.settings);
            let started = model::engine::Replica::start(own, view, settings, table, store);
            // A refused start names the identity that was asked for.
            replica = started.unwrap_or(model::engine::Replica {
                epoch: 0,
                ..replica
            });
            started.map(|_| None)
        }
        Event::View { epoch, set } => replica.change_view(*epoch, *set),
        Event::Read => {
            let read = replica.read(table, store, i);
            part = read.map_or((0, 0), part_of);
            read.map(|_| None)
        }
        Event::Write { value } => replica.write(table, store, i, value),
        Event::Ask => {
            let ask = replica.ask(table, store, i);
            if let Ok((value, Timestamp { version, tie })) = ask {
                part = part_of(value);
                handed_out = (version, tie);
            }
            ask.map(|_| None)
        }
        Event::Commit { opened, value } => {
            let opened = Timestamp::new(opened.0, opened.1);
            replica.commit(table, store, i, opened, value)
        }
        Event::Replay => replica.replay(table, store, i),
        Event::Deliver { message, value } => {
            let envelope = Envelope {
                sender: message.sender,
                epoch: message.epoch,
                record: i,
                message: message_of(message.kind, message.version, message.tie),
            };
            replica.deliver(table, store, &envelope, value)
        }
        Event::Validate => replica.validate(table, store, i),
        Event::Resend => replica.resend(table, store, i),
    };
    // A start and an accepted view name the rule by its number. All else leaves the
    // identity byte for byte as it was passed.
    let me = match (&case.event, &answer) {
        (Event::Start, _) | (Event::View { .. }, Ok(_)) => identity(&replica),
        _ => case.me,
    };
    Outcome {
        number: number(&answer),
        sent: sent_of(answer.unwrap_or_default()),
        part,
        opened: handed_out,
        me,
    }
}

pub fn replica_of(me: Replica) -> model::engine::Replica {
    model::engine::Replica {
        number: me.number,
        epoch: me.epoch,
        view: me.view,
        settings: model_of(me.settings),
    }
}

fn identity(replica: &model::engine::Replica) -> Replica {
    Replica {
        number: replica.number,
        settings: settings_of(replica.settings.rule),
        view: replica.view,
        epoch: replica.epoch,
    }
}

/// The memory of both sides.
pub struct Bench {
    pool: Pool,
    engine: Memory,
    other: Memory,
}

impl Bench {
    pub fn new(rng: &mut Rng) -> Bench {
        Bench {
            pool: Pool::new(rng),
            engine: Memory::default(),
            other: Memory::default(),
        }
    }

    /// Lays out what the case lends, for the engine.
    pub fn lay(&mut self, case: &Case) -> &mut Memory {
        let memory = &mut self.engine;
        self.pool.lay(case.part, case.table, case.store, memory);
        memory.put_record(case.i, &case.record);
        if let Ok(slot) = case.slot[..].try_into() {
            memory.put_slot(case.i, slot);
        }
        memory
    }

    /// Plays the case by the engine and by the other: their outcome, or how
    /// they differ.
    pub fn difference(&mut self, case: &Case, other: Play) -> Result<Outcome, String> {
        let engine = |memory: &mut Memory| by_engine(case, memory);
        self.compare(case, engine, |memory| other(case, memory))
    }

    /// The same for any two events on the memory that the case lends.
    pub fn compare<O: PartialEq + Debug>(
        &mut self,
        case: &Case,
        engine: impl FnOnce(&mut Memory) -> O,
        other: impl FnOnce(&mut Memory) -> O,
    ) -> Result<O, String> {
        self.lay(case);
        self.other.clone_from(&self.engine);
        let (a, b) = (engine(&mut self.engine), other(&mut self.other));
        if a != b {
            return Err(format!("engine {a:?}, other {b:?}"));
        }
        match self.engine.difference(&self.other) {
            None => Ok(a),
            Some(what) => Err(format!("{what} (engine, other), answer {a:?}")),
        }
    }
}
