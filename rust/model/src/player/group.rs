//! The played group: its replicas and the log of messages that left.

use std::io::Write;

use super::line::{Event, Line};
use crate::engine::{
    body, number, Answer, Envelope, Record, Replica, Rule, Settings, Slot, State, Timestamp,
};

/// The log holds this many messages.
const LOG_LIMIT: usize = 256;
/// Every replica has this one record.
const RECORD: usize = 0;
/// The program keeps the old rule of ties (02, Wish 6).
const SETTINGS: Settings = Settings { rule: Rule::Higher };

/// A replica with its memory.
#[derive(Clone, Copy)]
struct Member {
    replica: Replica,
    table: [Record; 1],
    store: Slot,
}

/// A message that left, with the bytes it left with.
struct Logged {
    envelope: Envelope,
    body: Vec<u8>,
}

pub(super) struct Group {
    members: Vec<Member>,
    log: Vec<Logged>,
}

/// What a line prints.
pub(super) struct Outcome {
    answer: u8,
    state: State,
    timestamp: Timestamp,
    log: Option<usize>,
}

impl Group {
    /// Replicas from 0, all in the view, started fresh.
    pub(super) fn new(size: u8) -> Group {
        let view = (1 << size) - 1;
        Group {
            members: (0..size).filter_map(|n| Member::start(n, view)).collect(),
            log: Vec::new(),
        }
    }

    /// Plays one line. None is the answer `?`, and nothing has moved.
    pub(super) fn play(&mut self, line: &Line) -> Option<Outcome> {
        let place = self.members.get_mut(line.replica)?;
        // The event is judged on a copy, which stays unless its message has no
        // room.
        let mut member = *place;
        let answer = member.event(&line.event, &self.log)?;
        let mut log = None;
        if let Ok(Some(message)) = answer {
            if self.log.len() >= LOG_LIMIT {
                return None;
            }
            log = Some(self.log.len());
            self.log.push(Logged {
                envelope: member.replica.envelope(RECORD, message),
                body: body(message, &member.table, &member.store, RECORD).to_vec(),
            });
        }
        *place = member;
        let [record] = member.table;
        Some(Outcome {
            answer: number(&answer),
            state: record.state,
            timestamp: record.timestamp,
            log,
        })
    }
}

impl Member {
    fn start(number: u8, view: u16) -> Option<Member> {
        let mut table = [Record::fresh(0)];
        let mut store = [0; Record::VALUE_LIMIT];
        let replica = Replica::start(number, view, SETTINGS, &mut table, &mut store).ok()?;
        Some(Member {
            replica,
            table,
            store,
        })
    }

    /// None for an unknown log number.
    fn event(&mut self, event: &Event, log: &[Logged]) -> Option<Answer> {
        let Member {
            replica,
            table,
            store,
        } = self;
        Some(match *event {
            Event::Read => replica.read(table, store, RECORD).map(|_| None),
            Event::Validate => replica.validate(table, store, RECORD),
            Event::Replay => replica.replay(table, store, RECORD),
            Event::Resend => replica.resend(table, store, RECORD),
            Event::Write { text } => replica.write(table, store, RECORD, text),
            Event::Deliver { log: number } => {
                let logged = log.get(number)?;
                replica.deliver(table, store, &logged.envelope, &logged.body)
            }
            Event::View { epoch, set } => replica.change_view(epoch, set),
        })
    }
}

impl Outcome {
    /// Answer, state letter, version, tie-breaker, log number or `-`.
    pub(super) fn print(&self, out: &mut Vec<u8>) {
        let letter = match self.state {
            State::Valid => 'V',
            State::Invalid => 'I',
            State::InvalidWrite => 'X',
            State::Write => 'W',
            State::Replay => 'R',
        };
        let Timestamp { version, tie } = self.timestamp;
        // Writing to a vector cannot fail.
        let _ = write!(out, "{} {letter} {version} {tie} ", self.answer);
        let _ = match self.log {
            Some(log) => writeln!(out, "{log}"),
            None => writeln!(out, "-"),
        };
    }
}
