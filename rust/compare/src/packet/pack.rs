//! Packing messages, good and bad, into outputs of any size.

use cetskobi::raw::{self, Written};
use model::engine::Refusal;
use model::packet::{self, Entry, PACKET_LIMIT};
use model::rng::Rng;

use super::fetch::lesser_rule;
use super::some::{some_letter, some_letters};
use super::{entry_of, EntryWords};
use crate::bytes::Bytes;
use crate::crossing::{other_rule, rule_of, settings_of};
use crate::settings::Settings;
use crate::shrink::{drops, less, plainer, shrink, Found, Smaller};
use crate::single::{some_bytes, some_settings, some_word};

/// What lay in the output before.
const OLD: u8 = 0xa5;

#[derive(Clone, Debug, PartialEq)]
pub struct Case {
    /// Those of the group.
    pub settings: raw::Settings,
    pub words: Vec<u32>,
    pub bodies: Bytes,
    /// The bytes of the output.
    pub out: usize,
}

/// Packs the messages of these words.
pub type Pack = fn(raw::Settings, &[u32], &[u8], &mut [u8]) -> Written;

pub fn by_engine(settings: raw::Settings, words: &[u32], bodies: &[u8], out: &mut [u8]) -> Written {
    raw::pack(settings, words, bodies, out)
}

/// Words that are no messages are refused by question 24.
pub fn by_model(settings: raw::Settings, words: &[u32], bodies: &[u8], out: &mut [u8]) -> Written {
    let entries: Option<Vec<Entry>> = match words.as_chunks() {
        (entries, []) => entries.iter().map(entry_of).collect(),
        _ => None,
    };
    let written = match entries {
        Some(entries) => packet::write(rule_of(settings), &entries, bodies, out),
        None => Err(Refusal::PacketMessages),
    };
    match written {
        Ok(len) => Written { number: 0, len },
        Err(refusal) => Written {
            number: refusal.number(),
            len: 0,
        },
    }
}

fn difference(case: &Case, other: Pack) -> Result<Written, String> {
    // Guards before and behind the output.
    const GUARD: usize = 16;
    let mut buffers = [
        vec![OLD; case.out + 2 * GUARD],
        vec![OLD; case.out + 2 * GUARD],
    ];
    let [x, y] = &mut buffers;
    let lent = GUARD..GUARD + case.out;
    let (settings, words, bodies) = (case.settings, &case.words, &case.bodies);
    let a = by_engine(settings, words, bodies, &mut x[lent.clone()]);
    let b = other(settings, words, bodies, &mut y[lent.clone()]);
    if a != b {
        return Err(format!("engine {a:?}, other {b:?}"));
    }
    if let Some(at) = (0..x.len()).find(|&at| x[at] != y[at]) {
        return Err(format!(
            "byte {at} - {GUARD} of the output: engine {}, other {}; {a:?}",
            x[at], y[at]
        ));
    }
    // An accepted one reads back as the same messages.
    if a.number == 0 {
        round_trip(case, &x[lent][..a.len])?;
    }
    Ok(a)
}

/// In a group with the other rule it is refused by 27.
fn round_trip(case: &Case, packet: &[u8]) -> Result<(), String> {
    let other = settings_of(other_rule(rule_of(case.settings)));
    let f = raw::fetch(other, packet, 0);
    if (f.number, f.len) != (27, 0) {
        return Err(format!("by the other rule it reads back as {f:?}"));
    }
    let mut at = 0;
    for (i, words) in case.words.as_chunks().0.iter().enumerate() {
        let [kind, sender, epoch, record, version, tie, len]: EntryWords = *words;
        let f = raw::fetch(case.settings, packet, i);
        let fetched = [
            f.kind.into(),
            f.sender.into(),
            f.epoch,
            f.index as u32,
            f.version,
            f.tie.into(),
            f.len as u32,
        ];
        let written = [kind, sender, epoch, record, version, tie, len];
        let body = packet.get(f.at..f.at + f.len);
        let bytes = case.bodies.get(at..at + len as usize);
        if f.number != 0 || fetched != written || body != bytes {
            return Err(format!("message {i} reads back as {f:?}"));
        }
        at += len as usize;
    }
    Ok(())
}

/// How often each answer came: 0, 24 and 25.
#[derive(Clone, Debug, Default)]
pub struct Tally {
    pub answers: [u64; 28],
    /// Accepted under the old rule, and under the new.
    pub rules: [u64; 2],
    /// Accepted packets of 1,400 bytes, and ones refused for one byte more.
    pub full: u64,
    pub over: u64,
}

/// Random lists of messages of the usual count.
const LISTS: usize = 400_000;

pub fn compare(settings: &Settings, other: Pack) -> Result<Tally, Box<Found<Case>>> {
    let mut rng = settings.rng("pack");
    let mut tally = Tally::default();
    for _ in 0..LISTS * settings.times {
        let case = some_case(&mut rng);
        match difference(&case, other) {
            Ok(written) => {
                tally.answers[usize::from(written.number)] += 1;
                let accepted = u64::from(written.number == 0);
                tally.rules[rule_of(case.settings) as usize] += accepted;
                let total = 4 + 16 * (case.words.len() / 7) + case.bodies.len();
                let full = written.number == 0 && total == PACKET_LIMIT;
                let over = written.number == 25 && total == PACKET_LIMIT + 1;
                tally.full += u64::from(full);
                tally.over += u64::from(over && case.out > PACKET_LIMIT);
            }
            Err(what) => {
                let again = |case: &Case| difference(case, other).err();
                return Err(Box::new(shrink(case, what, again)));
            }
        }
    }
    Ok(tally)
}

fn some_case(rng: &mut Rng) -> Case {
    let mut letters = match rng.below(4) {
        // More than fits.
        0 => (0..rng.below(20)).map(|_| some_letter(rng, 192)).collect(),
        1 => near_the_limit(rng),
        _ => some_letters(rng, PACKET_LIMIT),
    };
    if rng.chance(1, 30) {
        let count = [0, 63, 64, 65, 66, 128, 255, 256, 257, 300][rng.below(10)];
        letters = (0..count).map(|_| some_letter(rng, 2)).collect();
    }
    let words: Vec<EntryWords> = letters.iter().map(|letter| letter.words).collect();
    let bodies: Vec<&[u8]> = letters.iter().map(|letter| &letter.body[..]).collect();
    let mut case = Case {
        settings: some_settings(rng),
        words: words.as_flattened().to_vec(),
        bodies: Bytes(bodies.concat()),
        out: 0,
    };
    let total = 4 + 16 * letters.len() + case.bodies.len();
    case.out = match rng.below(10) {
        0 => total - 1,
        1 => total + 1,
        2 => PACKET_LIMIT,
        3 => PACKET_LIMIT + 1,
        4 => [0, 1, 3, 4, 19, 20][rng.below(6)],
        5 => rng.below(1600),
        6 => 1600,
        _ => total,
    };
    if rng.chance(1, 3) {
        for _ in 0..1 + rng.below(2) {
            spoil(rng, &mut case);
        }
    }
    case
}

/// A total of 1,398 to 1,402 bytes.
fn near_the_limit(rng: &mut Rng) -> Vec<super::Letter> {
    let total = 1398 + rng.below(5);
    let count = 7 + rng.below(57);
    let mut room = total - 4 - 16 * count;
    (0..count)
        .map(|_| {
            let mut letter = some_letter(rng, 0);
            let len = room.min(192);
            room -= len;
            if len > 0 {
                letter.words[0] = 1;
            }
            letter.words[6] = len as u32;
            letter.body = some_bytes(rng, len).0;
            letter
        })
        .collect()
}

fn spoil(rng: &mut Rng, case: &mut Case) {
    let count = case.words.len() / 7;
    let at = 7 * rng.below(count);
    match rng.below(8) {
        0 => drop(case.bodies.pop()),
        1 => case.bodies.push(1),
        2 => case
            .words
            .truncate(case.words.len().saturating_sub(1 + rng.below(6))),
        3 => case.words.extend(vec![1; 1 + rng.below(6)]),
        _ if count == 0 => {}
        4 => {
            let k = rng.below(7);
            case.words[at + k] = some_word(rng);
        }
        // The same number in the lower bits.
        5 => {
            let (k, above) = [(0, 8), (1, 8), (3, 12), (3, 16), (5, 8), (6, 8)][rng.below(6)];
            case.words[at + k] |= 1 << (above + rng.below(32 - above));
        }
        6 => {
            let (k, limit) = [(0, 4), (0, 0), (1, 16), (3, 4096), (5, 16), (6, 193)][rng.below(6)];
            case.words[at + k] = limit;
        }
        // A length that belongs to another kind.
        _ => case.words[at] = 1 + rng.below(3) as u32,
    }
}

impl Smaller for Case {
    fn smaller(&self) -> Box<dyn Iterator<Item = Case> + '_> {
        let words = self.words.clone();
        let (entries, rest) = self.words.as_chunks::<7>();
        let fewer = drops(entries).map(move |entries| Case {
            words: [entries.as_flattened(), rest].concat(),
            ..self.clone()
        });
        // A message, or its length alone, with as many bytes of the bodies.
        let letters = (0..entries.len()).flat_map(move |k| {
            let len = entries[k][6] as usize;
            let left = self.bodies.len().checked_sub(len);
            let bodies = left.map(|left| Bytes(self.bodies[..left].to_vec()));
            let mut empty = entries[k];
            empty[6] = 0;
            let (before, after) = (&entries[..k], &entries[k + 1..]);
            let fewer = [before.to_vec(), [before, &[empty]].concat()];
            let fewer = fewer.map(|fewer| [&fewer, after].concat());
            let fewer = fewer.into_iter().filter(move |fewer| *fewer != entries);
            fewer.filter_map(move |fewer| {
                Some(Case {
                    settings: self.settings,
                    words: [fewer.as_flattened(), rest].concat(),
                    bodies: bodies.clone()?,
                    out: self.out,
                })
            })
        });
        let bodies = drops(&self.bodies).chain(plainer(&self.bodies));
        let bodies = bodies.filter(|bodies| *bodies != *self.bodies);
        let bodies = bodies.map(|bodies| Case {
            bodies: Bytes(bodies),
            ..self.clone()
        });
        let out = less(self.out as u64).map(|out| Case {
            out: out as usize,
            ..self.clone()
        });
        let cut = (!rest.is_empty()).then(|| Case {
            words: entries.as_flattened().to_vec(),
            ..self.clone()
        });
        let numbers = (0..words.len()).flat_map(move |k| {
            let lesser = less(words[k].into());
            lesser.map(move |other| {
                let mut case = self.clone();
                case.words[k] = other as u32;
                case
            })
        });
        let rules = lesser_rule(self.settings).map(|settings| Case {
            settings,
            ..self.clone()
        });
        let rest = bodies.chain(cut).chain(numbers).chain(out).chain(rules);
        Box::new(letters.chain(fewer).chain(rest))
    }
}
