//! Random cases: mostly an event that is accepted, with a few things made
//! wrong, so that every answer comes often; now and then anything at all.

use cetskobi::raw::{Message, Replica, Settings, RECORD_BYTES};
use model::engine::{bit, has, Record};
use model::rng::Rng;

use super::{Case, Event, Kind};
use crate::bytes::Bytes;
use crate::crossing::Fields;
use crate::memory::Pool;

pub fn some_case(rng: &mut Rng) -> Case {
    let kind = Kind::ALL[rng.below(Kind::ALL.len())];
    let mut case = good(rng, kind);
    let wrong = match rng.below(20) {
        0..7 => 0,
        7..15 => 1,
        15..19 => 2,
        _ => 30,
    };
    for _ in 0..wrong {
        spoil(rng, &mut case);
    }
    case
}

/// Often near a limit.
pub fn some_word(rng: &mut Rng) -> u32 {
    match rng.below(6) {
        0 => rng.below(6) as u32,
        1 => u32::MAX - rng.below(3) as u32,
        2 => rng.next_u64() as u32,
        3 => 1 << rng.below(32),
        4 => [15, 16, 192, 193, 255, 256, 65_535, 65_536][rng.below(8)],
        _ => rng.below(20) as u32,
    }
}

/// Any, often near a limit.
fn some_byte(rng: &mut Rng) -> u8 {
    match rng.below(3) {
        0 => [0, 1, 4, 5, 15, 16, 128, 192, 193, 255][rng.below(10)],
        _ => rng.next_u64() as u8,
    }
}

pub fn some_number(rng: &mut Rng) -> u8 {
    match rng.below(3) {
        0 => [15, 16, 17, 31, 32, 33, 64, 128, 255][rng.below(9)],
        _ => rng.below(16) as u8,
    }
}

/// Half with each rule of ties (02, Wish 6), of the old one half with any byte but 2.
pub fn some_settings(rng: &mut Rng) -> Settings {
    let any = rng.next_u64() as u8;
    let rule = match rng.below(4) {
        0 | 1 => 2,
        2 => 1,
        _ if any == 2 => 0,
        _ => any,
    };
    Settings { rule }
}

pub fn some_set(rng: &mut Rng) -> u16 {
    let any = rng.next_u64() as u16;
    match rng.below(6) {
        0 => 1 << rng.below(16),
        1 => [0, u16::MAX, 1, 0x8000][rng.below(4)],
        2 => any & rng.next_u64() as u16,
        3 => any | rng.next_u64() as u16,
        _ => any,
    }
}

pub fn some_bytes(rng: &mut Rng, len: usize) -> Bytes {
    let mut bytes = vec![0; len];
    for chunk in bytes.chunks_mut(8) {
        let word = rng.next_u64().to_le_bytes();
        chunk.copy_from_slice(&word[..chunk.len()]);
    }
    Bytes(bytes)
}

fn some_len(rng: &mut Rng) -> usize {
    [0, 1, 191, 192, rng.below(193), rng.below(193)][rng.below(6)]
}

/// The number of one of the set.
fn one_of(rng: &mut Rng, set: u16) -> Option<u8> {
    let numbers: Vec<u8> = (0..16).filter(|&number| has(set, number)).collect();
    rng.pick(&numbers)
}

/// An event that the questions let pass, mostly.
fn good(rng: &mut Rng, kind: Kind) -> Case {
    let number = rng.below(16) as u8;
    let view = some_set(rng) | bit(number) | bit((number + 1 + rng.below(15) as u8) % 16);
    let me = Replica {
        number,
        settings: some_settings(rng),
        view,
        epoch: some_word(rng),
    };
    let mut record = sound(rng, &me);
    let event = event(rng, kind, &me, &mut record);
    let count = match rng.below(500) {
        0 => 4095 + rng.below(2),
        1..100 => 1 + rng.below(12),
        _ => 1 + rng.below(3),
    };
    let mut case = Case {
        me,
        table: 0,
        store: 0,
        part: 1 + rng.below(Pool::PARTS),
        i: rng.below(count),
        record,
        slot: some_bytes(rng, Record::VALUE_LIMIT),
        event,
    };
    case.lend(count);
    case
}

fn sound(rng: &mut Rng, me: &Replica) -> Fields {
    let version = some_word(rng);
    let tie = rng.below(16) as u8;
    let (written_version, written_tie) = match rng.below(2) {
        0 => (version, tie),
        _ => (some_word(rng), rng.below(16) as u8),
    };
    Fields {
        state: rng.below(5) as u8,
        tie,
        writer: rng.below(16) as u8,
        written_tie,
        version,
        written_version,
        acks: some_set(rng) & !bit(me.number),
        len: some_len(rng) as u8,
        unused: some_byte(rng),
    }
}

/// An event of this kind, and the record moved to where it is accepted.
fn event(rng: &mut Rng, kind: Kind, me: &Replica, record: &mut Fields) -> Event {
    let others = me.view & !bit(me.number);
    match kind {
        Kind::Start => Event::Start,
        Kind::View => Event::View {
            epoch: me.epoch.saturating_add(1).saturating_add(some_word(rng)),
            set: {
                let kept = one_of(rng, others).map_or(0, bit);
                let other = one_of(rng, me.view).map_or(0, bit);
                me.view & (some_set(rng) | kept | other)
            },
        },
        Kind::Read => {
            record.state = 0;
            Event::Read
        }
        Kind::Write => {
            record.state = rng.below(2) as u8;
            let len = some_len(rng);
            Event::Write {
                value: some_bytes(rng, len),
            }
        }
        Kind::Ask => {
            record.state = 0;
            Event::Ask
        }
        Kind::Commit => {
            record.state = 0;
            let len = some_len(rng);
            Event::Commit {
                opened: record.stamp(),
                value: some_bytes(rng, len),
            }
        }
        Kind::Replay => {
            record.state = 1 + rng.below(2) as u8;
            if let Some(gone) = one_of(rng, !me.view) {
                record.writer = gone;
            }
            Event::Replay
        }
        Kind::Validate => {
            record.state = 3 + rng.below(2) as u8;
            record.acks |= others;
            Event::Validate
        }
        Kind::Resend => {
            record.state = [0, 3, 4][rng.below(3)];
            if rng.chance(3, 4) {
                record.writer = me.number;
            }
            Event::Resend
        }
        Kind::Inv | Kind::Ack | Kind::Val | Kind::Unknown => delivery(rng, kind, me, record),
    }
}

fn delivery(rng: &mut Rng, kind: Kind, me: &Replica, record: &mut Fields) -> Event {
    let others = me.view & !bit(me.number);
    let sender = one_of(rng, others).unwrap_or(0);
    let (mut version, mut tie) = record.stamp();
    let mut len = 0;
    match kind {
        Kind::Inv => {
            len = some_len(rng);
            match rng.below(8) {
                0 => {}
                1..4 => tie = rng.below(16) as u8,
                4 => version = version.wrapping_add(1),
                5 => version = version.wrapping_sub(1),
                _ => (version, tie) = (some_word(rng), rng.below(16) as u8),
            }
        }
        Kind::Ack => {
            record.state = 2 + rng.below(3) as u8;
            match rng.below(4) {
                // It is the last, mostly with others counted that are not in the view.
                0 | 1 => record.acks |= others,
                // Everyone is counted but one of the view.
                2 => record.acks = !bit(me.number) & !one_of(rng, others).map_or(0, bit),
                _ => {}
            }
            record.acks &= !bit(sender);
            (version, tie) = record.written();
        }
        Kind::Val => record.state = 1 + rng.below(4) as u8,
        _ => {}
    }
    let kind = match kind {
        Kind::Inv => 1,
        Kind::Ack => 2,
        Kind::Val => 3,
        _ => [0, 4, 5, 255, 128 + rng.below(100) as u8][rng.below(5)],
    };
    let message = Message {
        kind,
        sender,
        tie,
        epoch: me.epoch,
        version,
    };
    Event::Deliver {
        message,
        value: some_bytes(rng, len),
    }
}

/// One thing becomes arbitrary, mostly wrong.
fn spoil(rng: &mut Rng, case: &mut Case) {
    match rng.below(12) {
        0 => case.me.number = some_number(rng),
        1 => case.me.view = some_set(rng),
        2 => spoil_sizes(rng, case),
        3 => case.i = some_index(rng, case.table / RECORD_BYTES),
        4..7 => spoil_record(rng, case),
        _ => spoil_event(rng, case),
    }
}

fn spoil_sizes(rng: &mut Rng, case: &mut Case) {
    let count = case.table / RECORD_BYTES;
    match rng.below(24) {
        0 => case.lend(0),
        1 => case.table = 0,
        2 => case.store = 0,
        3 => case.table += 1 + rng.below(15),
        4 => case.table = case.table.saturating_sub(1 + rng.below(15)),
        5 => case.table = rng.below(32),
        6 => case.table += RECORD_BYTES,
        7 => case.table = case.table.saturating_sub(RECORD_BYTES),
        8 => case.store += 1,
        9 => case.store = case.store.saturating_sub(1),
        10 => case.store += Record::VALUE_LIMIT,
        11 => case.store = case.store.saturating_sub(Record::VALUE_LIMIT),
        12 => case.store = 191 * count,
        13 => case.store = 193 * count.min(4000),
        14 => case.store = rng.below(1000),
        15 => case.store = case.table,
        16 => {
            case.lend(4097);
            case.i = some_index(rng, 4097);
        }
        17 => case.store = Record::VALUE_LIMIT * (count + rng.below(2)),
        18 => {
            // A whole store, and bytes over in the table.
            case.store = Record::VALUE_LIMIT * count;
            case.table = RECORD_BYTES * count + 1 + rng.below(15);
        }
        _ => {
            case.lend(1 + rng.below(5));
        }
    }
}

fn some_index(rng: &mut Rng, count: usize) -> usize {
    match rng.below(12) {
        0 => usize::MAX,
        1 => usize::MAX / Record::VALUE_LIMIT + 1,
        2..4 => usize::MAX / RECORD_BYTES + 1 + rng.below(2),
        4 => 1 << (32 + rng.below(32)),
        5 => 4095 + rng.below(3),
        6 => count + rng.below(3),
        7 => count.saturating_sub(1),
        8 => count,
        _ => rng.below(count),
    }
}

fn spoil_record(rng: &mut Rng, case: &mut Case) {
    let record = &mut case.record;
    match rng.below(12) {
        0 => record.state = rng.below(5) as u8,
        1 => record.state = [5, 6, 8, 128, 255, some_byte(rng)][rng.below(6)],
        2 => record.acks |= bit(case.me.number),
        3 => record.len = 190 + rng.below(5) as u8,
        4 => record.version = u32::MAX - rng.below(2) as u32,
        5 => record.tie = 14 + rng.below(4) as u8,
        6 => record.written_tie = 14 + rng.below(4) as u8,
        7 => record.writer = some_number(rng),
        8 => record.acks = some_set(rng),
        _ => {
            let mut bytes = record.bytes();
            match rng.below(4) {
                0 => bytes[rng.below(RECORD_BYTES)] ^= 1 << rng.below(8),
                1 => bytes[rng.below(RECORD_BYTES)] = some_byte(rng),
                2 => bytes.fill_with(|| some_byte(rng)),
                _ => bytes.fill(0),
            }
            *record = Fields::of(&bytes);
        }
    }
}

fn spoil_event(rng: &mut Rng, case: &mut Case) {
    let lens = [0, 1, 192, 193, 194, 255, 256, 257, 384, rng.below(2000)];
    let len = lens[rng.below(lens.len())];
    match &mut case.event {
        Event::View { epoch, set } => match rng.below(4) {
            0 => *epoch = case.me.epoch.wrapping_sub(rng.below(2) as u32),
            1 => *epoch = some_word(rng),
            2 => *set = some_set(rng),
            _ => *set = case.me.view & (1 << rng.below(16)),
        },
        Event::Write { value } => match rng.below(4) {
            0 => case.record.state = rng.below(5) as u8,
            1 => case.record.version = u32::MAX - rng.below(2) as u32,
            _ => *value = some_bytes(rng, len),
        },
        Event::Commit { opened, value } => match rng.below(12) {
            0..2 => case.record.state = rng.below(5) as u8,
            2 => opened.1 = (opened.1 + 1 + rng.below(15) as u8) % 16,
            3 => opened.1 = [16, 17, 255, opened.1 | 16, some_number(rng)][rng.below(5)],
            4 => opened.0 = opened.0.wrapping_sub(1),
            5 => opened.0 = opened.0.wrapping_add(1),
            6 => *opened = (some_word(rng), some_number(rng)),
            7 => *opened = case.record.written(),
            8 => {
                opened.0 = u32::MAX - rng.below(2) as u32;
                case.record.version = opened.0;
            }
            _ => *value = some_bytes(rng, len),
        },
        Event::Deliver { message, value } => match rng.below(12) {
            0 => message.epoch = some_word(rng),
            1 => message.epoch = message.epoch.wrapping_add(1),
            2 => message.sender = some_number(rng),
            3 => message.sender = case.me.number,
            4 => message.tie = [16, 17, 255, some_number(rng)][rng.below(4)],
            5 => message.version = message.version.wrapping_add(1),
            6 => message.tie = (message.tie + 1) % 16,
            7 => *value = some_bytes(rng, len),
            8 => case.record.acks |= bit(message.sender),
            9 => message.kind = rng.below(5) as u8,
            10 => message.version = some_word(rng),
            _ => case.record.state = rng.below(5) as u8,
        },
        Event::Validate => match rng.below(2) {
            0 => case.record.state = rng.below(5) as u8,
            _ => case.record.acks &= some_set(rng),
        },
        Event::Start | Event::Read | Event::Ask | Event::Replay | Event::Resend => {
            match rng.below(2) {
                0 => case.record.state = rng.below(5) as u8,
                _ => case.record.writer = rng.below(16) as u8,
            }
        }
    }
}
