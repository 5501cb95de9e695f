//! What each laptop holds of one record, for the report of a failed check.

use cetskobi::{Laptop, Record};

use crate::layout::{table, Side};

const HEADING: [&str; 11] = [
    "laptop",
    "ties to",
    "epoch",
    "view",
    "state",
    "timestamp",
    "last writer",
    "last write",
    "acknowledged",
    "bytes",
    "text",
];

const SIDES: [Side; 11] = [
    Side::Right,
    Side::Left,
    Side::Right,
    Side::Left,
    Side::Left,
    Side::Left,
    Side::Right,
    Side::Left,
    Side::Left,
    Side::Right,
    Side::Left,
];

/// A table of all laptops, the dead ones too, as lines.
pub(crate) fn of(laptops: &[Laptop], record: usize) -> Vec<String> {
    let mut rows = vec![HEADING.map(str::to_owned)];
    rows.extend(laptops.iter().map(|l| row(l, record)));
    table(SIDES, &rows)
}

fn row(laptop: &Laptop, i: usize) -> [String; 11] {
    let held = laptop.record(i);
    let cell = |of: fn(&Record) -> String| held.as_ref().map_or("-".to_owned(), of);
    [
        laptop.number().to_string(),
        laptop.settings().rule.to_string(),
        laptop.epoch().to_string(),
        laptop.view().to_string(),
        held.map_or("no record".to_owned(), |r| r.state.to_string()),
        cell(|r| r.timestamp.to_string()),
        cell(|r| r.writer.to_string()),
        cell(|r| r.written.to_string()),
        cell(|r| r.acks.to_string()),
        cell(|r| r.len.to_string()),
        held.map_or("-".to_owned(), |r| text(laptop, i, r.len.into())),
    ]
}

/// The record's text in quotes, escaped; and whether bytes behind it, which
/// count in the agreement, are not 0.
fn text(laptop: &Laptop, i: usize, len: usize) -> String {
    let at = i * Record::VALUE_MAX;
    let bytes = laptop.store().get(at..at + Record::VALUE_MAX);
    let (text, rest) = bytes
        .and_then(|b| b.split_at_checked(len))
        .unwrap_or_default();
    let quoted = format!("\"{}\"", text.escape_ascii());
    match rest.iter().filter(|b| **b != 0).count() {
        0 => quoted,
        stray => format!("{quoted}, and {stray} of the bytes behind it are not 0"),
    }
}

#[cfg(test)]
mod tests {
    use super::*;
    use cetskobi::{Members, Replica, Rule, State, Timestamp};

    /// Laptop 2, 5 or 7, which was started with the other rule, with two records, of
    /// which the first is empty.
    fn laptop(number: u8, view: u16, epoch: u32, second: [u8; 16], text: &[u8]) -> Laptop {
        let rule = match number {
            7 => Rule::Higher,
            _ => Rule::Lower,
        };
        let me = Replica {
            number,
            settings: rule.into(),
            view,
            epoch,
        };
        let mut store = vec![0; 2 * Record::VALUE_MAX];
        store[Record::VALUE_MAX..][..text.len()].copy_from_slice(text);
        Laptop::from_parts(me, [[0; 16], second].concat(), store)
    }

    #[test]
    fn a_table_of_all_laptops() {
        let record = Record {
            state: State::InvalidWrite,
            timestamp: Timestamp {
                version: 12,
                tie: 7,
            },
            writer: 7,
            written: Timestamp { version: 9, tie: 2 },
            acks: Members::from(0b10_0010),
            len: 6,
        };
        let valid = Record {
            state: State::Valid,
            acks: Members::default(),
            len: 4,
            ..record
        };
        let mut broken = valid.to_bytes();
        broken[0] = 5;
        let laptops = [
            laptop(2, 0b1010_0110, 0, record.to_bytes(), b"Wren\n\""),
            laptop(5, 0b10_0110, 17, valid.to_bytes(), b"Wren\xc3\xa9"),
            laptop(7, 0b1010_0110, 0, broken, b"Wren"),
        ];
        let right = [
            "laptop  ties to  epoch  view       state          timestamp  last writer  last write  acknowledged  bytes  text",
            "     2  lower        0  {1,2,5,7}  invalid-write  (12,7)               7  (9,2)       {1,5}             6  \"Wren\\n\\\"\"",
            "     5  lower       17  {1,2,5}    valid          (12,7)               7  (9,2)       {}                4  \"Wren\", and 2 of the bytes behind it are not 0",
            "     7  higher       0  {1,2,5,7}  no record      -                    -  -           -                 -  -",
        ];
        assert_eq!(of(&laptops, 1), right);
    }
}
