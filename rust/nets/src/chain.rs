//! Which text was made from which. A save adds to the text that its ringer saw; so
//! from the text that stands in the end a chain of saves leads back to the fresh
//! record, and what is in no such chain is in no record.

use std::collections::BTreeSet;

use cetskobi::{Laptop, Timestamp};

use crate::failure::Cause;
use crate::group::Group;
use crate::saves::{key, Key};
use crate::slip::Slip;
use crate::text;

/// The captures that the texts in the records tell of.
#[derive(Clone, Copy, Debug, PartialEq, Eq)]
pub(crate) struct Told {
    /// As many as there are saves in the chains that lead to the texts.
    pub captures: usize,
    /// Those of them that are there in words.
    pub in_words: usize,
}

/// Whether every save was made from the text that it replaced at its laptop: that
/// text, and what was measured. One that was not went over a text that its ringer had
/// not seen. And whether the texts that stand at this laptop, at which all records are
/// valid, tell of every bird, once: one of its saves is in the chain that leads there.
pub(crate) fn look(group: &Group, slips: &[&Slip], laptop: &Laptop) -> Result<Told, Cause> {
    all_seen(group, slips)?;
    let mut told = BTreeSet::new();
    let mut in_words = 0;
    for i in 0..laptop.count() {
        let text = laptop.read(i).unwrap_or_default();
        let captures = text::captures(text);
        in_words += text::in_words(text);
        let stands = laptop
            .record(i)
            .map_or(Timestamp::default(), |r| r.timestamp);
        let links = links(group, i, stands);
        if links.len() != captures {
            return Err(unseen(group, i, stands));
        }
        told.extend(links);
    }
    slips.iter().try_for_each(|slip| once(&told, slip))?;
    Ok(Told {
        captures: told.len(),
        in_words,
    })
}

/// The first save that was not made from the text that it replaced, if there is one.
fn all_seen(group: &Group, slips: &[&Slip]) -> Result<(), Cause> {
    let saves = slips
        .iter()
        .flat_map(|slip| slip.saves.iter().map(move |t| (*slip, *t)));
    let blind = saves.filter(|(slip, saved)| !made(group, slip, *saved));
    let tick = |(slip, saved): &(&Slip, Timestamp)| {
        let save = group.saves.get(slip.record, *saved);
        save.map(|s| s.tick)
    };
    match blind.min_by_key(tick) {
        None => Ok(()),
        Some((slip, saved)) => Err(unseen(group, slip.record, saved)),
    }
}

/// Whether a save of a bird was made from the text that it replaced.
fn made(group: &Group, slip: &Slip, saved: Timestamp) -> bool {
    let over = replaced(group, slip.record, saved);
    let seen = text_of(group, slip.record, over);
    let made = seen.map(|seen| text::with(seen, over.tie, &slip.measured));
    made.as_deref() == text_of(group, slip.record, saved)
}

/// Whether a bird is told of, and once; unless its ringer could not know, and entered it
/// again.
fn once(told: &BTreeSet<Key>, slip: &Slip) -> Result<(), Cause> {
    let record = slip.record;
    let saved = slip.saves.last().copied().unwrap_or_default();
    let led = slip
        .saves
        .iter()
        .filter(|t| told.contains(&key(record, **t)));
    match led.count() {
        0 => Err(Cause::Untold { record, saved }),
        n if n > 1 && !slip.unsure => Err(Cause::Twice { record, saved }),
        _ => Ok(()),
    }
}

fn unseen(group: &Group, record: usize, saved: Timestamp) -> Cause {
    Cause::Unseen {
        record,
        saved,
        over: replaced(group, record, saved),
    }
}

/// The timestamp that a save replaced at its laptop.
fn replaced(group: &Group, record: usize, saved: Timestamp) -> Timestamp {
    let save = group.saves.get(record, saved);
    save.map_or(Timestamp::default(), |s| s.over)
}

/// The text that was saved with this timestamp. A record of version 0 is as it was at
/// the fresh start.
pub(crate) fn text_of(group: &Group, record: usize, timestamp: Timestamp) -> Option<&[u8]> {
    match timestamp.version {
        0 => Some(&[]),
        _ => {
            let save = group.saves.get(record, timestamp);
            save.map(|s| s.text.as_slice())
        }
    }
}

/// The saves of the chain that ends with this one.
fn links(group: &Group, record: usize, mut last: Timestamp) -> Vec<Key> {
    let mut links = Vec::new();
    while let Some(save) = group.saves.get(record, last) {
        links.push(key(record, last));
        last = save.over;
    }
    links
}

#[cfg(test)]
mod tests {
    use super::*;
    use crate::saves::Save;
    use crate::settings::Settings;

    /// Two laptops with one record, 0's save finished at both, and the slip of it.
    fn saved() -> (Group, Slip) {
        let settings = Settings {
            laptops: 2,
            records: 1,
            ..Settings::default()
        };
        let mut group = Group::start(&settings).expect("a group of two");
        let slip = written(&mut group, 0, b"Wren", "Wren");
        (group, slip)
    }

    /// A plain write of this text, which a ringer made of what she measured; its
    /// messages come, and it is finished.
    fn written(group: &mut Group, number: u8, text: &[u8], measured: &str) -> Slip {
        let inv = group.write(number, 0, text).expect("agreement");
        let mut left = inv.expect("accepted").expect("an INV");
        let saved = left.envelope().message.timestamp();
        for to in [1 - number, number, 1 - number] {
            let reply = group.deliver_as(to, left.envelope(), left.arriving());
            let Some(next) = reply.expect("agreement").expect("accepted") else {
                break;
            };
            left = next;
        }
        slip(&[saved], measured)
    }

    fn slip(saves: &[Timestamp], measured: &str) -> Slip {
        let mut slip = Slip::new(0, measured.to_owned());
        slip.saves = saves.to_vec();
        slip
    }

    fn looked(group: &Group, slips: &[Slip]) -> Result<usize, Cause> {
        let slips: Vec<&Slip> = slips.iter().collect();
        let told = look(group, &slips, group.laptop(0))?;
        assert_eq!(told.captures, told.in_words);
        Ok(told.captures)
    }

    /// The text of a second capture, over what laptop 0 saved first.
    const SECOND: &[u8] = b"Wren; 2: fat 3 (after 0)";

    /// The save with this timestamp went over that one.
    fn unseen(saved: (u32, u8), over: (u32, u8)) -> Result<usize, Cause> {
        let [saved, over] = [saved, over].map(|(version, tie)| Timestamp { version, tie });
        Err(Cause::Unseen {
            record: 0,
            saved,
            over,
        })
    }

    #[test]
    fn a_text_that_was_seen_is_added_to() {
        let (mut group, first) = saved();
        let second = written(&mut group, 1, SECOND, "fat 3");
        assert_eq!(looked(&group, &[first, second]), Ok(2));
    }

    /// 1 had opened the record before 0 saved.
    #[test]
    fn a_text_that_was_not_seen_is_missed() {
        let (mut group, first) = saved();
        let second = written(&mut group, 1, b"fat 3", "fat 3");
        let slips = [first, second];
        let found = unseen((2, 1), (1, 0));
        assert_eq!(looked(&group, &slips), found);
        // The count alone tells it too.
        assert_eq!(looked(&group, &slips[..1]), found);
    }

    /// It names another laptop as the one that saved before.
    #[test]
    fn a_text_of_another_chain_is_missed() {
        let (mut group, first) = saved();
        let second = written(&mut group, 1, b"Wren; 2: fat 3 (after 1)", "fat 3");
        let found = unseen((2, 1), (1, 0));
        assert_eq!(looked(&group, &[first, second]), found);
    }

    #[test]
    fn a_slip_without_a_save_is_noticed() {
        let (group, first) = saved();
        let slips = [first, slip(&[Timestamp { version: 2, tie: 0 }], "Wren")];
        assert_eq!(looked(&group, &slips[..1]), Ok(1));
        assert_eq!(looked(&group, &slips), unseen((2, 0), (0, 0)));
    }

    /// 1 saves on the fresh record too, before it hears of 0's save, which replaces it.
    /// So of 1's two saves the second must be in the chain.
    #[test]
    fn a_bird_that_no_text_tells_of_is_noticed() {
        let (mut group, first) = saved();
        let lesser = Timestamp { version: 1, tie: 1 };
        let save = Save {
            text: b"fat 3".to_vec(),
            ..Save::default()
        };
        group.saves.insert(0, lesser, save);
        let slips = [first.clone(), slip(&[lesser], "fat 3")];
        let untold = Cause::Untold {
            record: 0,
            saved: lesser,
        };
        assert_eq!(looked(&group, &slips), Err(untold));
        let mut again = written(&mut group, 1, SECOND, "fat 3");
        again.saves.insert(0, lesser);
        assert_eq!(looked(&group, &[first, again]), Ok(2));
    }

    /// Its ringer entered it again although the text told of it. Only one who could not
    /// know may.
    #[test]
    fn a_bird_that_is_told_of_twice_is_noticed() {
        let (mut group, mut first) = saved();
        let again = written(&mut group, 1, b"Wren; 2: Wren (after 0)", "Wren");
        first.saves.extend(again.saves);
        let twice = Cause::Twice {
            record: 0,
            saved: Timestamp { version: 2, tie: 1 },
        };
        assert_eq!(looked(&group, &[first.clone()]), Err(twice));
        first.unsure = true;
        assert_eq!(looked(&group, &[first]), Ok(2));
    }
}
