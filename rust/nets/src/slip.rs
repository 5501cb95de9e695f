//! The slip that a ringer keeps of a bird to the evening: what she measured, and where
//! it is told of.

use cetskobi::{Opened, Timestamp};

use crate::text::{self, Name};

/// A capture, with all its saves.
#[derive(Clone, Debug, Default, PartialEq, Eq)]
pub(crate) struct Slip {
    pub record: usize,
    pub measured: String,
    /// Its saves: the first, and one for each time that it was entered again.
    pub saves: Vec<Timestamp>,
    /// How texts name it that come after these saves.
    names: Vec<Name>,
    /// The newest capture of the last other text in which she found it.
    found: Option<Name>,
    /// Whether it was entered again though it may have been told of: it was so old that
    /// the text no longer named it.
    pub unsure: bool,
}

impl Slip {
    pub fn new(record: usize, measured: String) -> Slip {
        Slip {
            record,
            measured,
            ..Slip::default()
        }
    }

    /// She has saved this text.
    pub fn saved(&mut self, text: &[u8], saved: Timestamp) {
        self.saves.push(saved);
        self.names.push(text::newest(text, saved.tie));
    }

    /// She has found it in this text.
    pub fn found(&mut self, opened: &Opened) {
        self.found = Some(text::newest(opened.text(), opened.timestamp().tie));
    }

    /// Whether the text that she opened tells of the capture: names it, or one to which
    /// it had led. None if the text does not say.
    pub fn told_by(&self, opened: &Opened) -> Option<bool> {
        let tells = |name: &Name| text::tells(opened.text(), opened.timestamp().tie, *name);
        let mut known = self.names.iter().chain(&self.found);
        if known.any(|name| tells(name) == Some(true)) {
            return Some(true);
        }
        let missing = self.names.iter().all(|name| tells(name) == Some(false));
        missing.then_some(false)
    }
}

#[cfg(test)]
mod tests {
    use super::*;
    use cetskobi::{Laptop, Members, Record, Replica, Rule, State};

    const fn name(number: usize, laptop: u8) -> Name {
        Name { number, laptop }
    }

    /// A record that was saved at laptops 0, 1, 2, 0, 1, 2 and on, so often; opened.
    fn saved(version: u32) -> Opened {
        let mut text = text::with(b"", 0, "Wren");
        for tie in (0..version - 1).map(|n| (n % 3) as u8) {
            text = text::with(&text, tie, "Wren, met again");
        }
        let tie = ((version - 1) % 3) as u8;
        let timestamp = Timestamp { version, tie };
        let r = Record {
            state: State::Valid,
            timestamp,
            writer: 0,
            written: timestamp,
            acks: Members::default(),
            len: text.len() as u8,
        };
        let me = Replica {
            number: 0,
            settings: Rule::Lower.into(),
            view: 0b11,
            epoch: 0,
        };
        text.resize(Record::VALUE_MAX, 0);
        let laptop = Laptop::from_parts(me, r.to_bytes().to_vec(), text);
        laptop.ask(0).expect("valid")
    }

    fn slip(names: &[Name], found: Option<Name>) -> Slip {
        Slip {
            names: names.to_vec(),
            found,
            ..Slip::default()
        }
    }

    #[test]
    fn a_text_tells_of_the_captures_that_led_to_it() {
        let told = |names: &[Name]| slip(names, None).told_by(&saved(5));
        assert_eq!(told(&[name(1, 0)]), Some(true));
        assert_eq!(told(&[name(5, 1)]), Some(true));
        assert_eq!(told(&[name(3, 1), name(4, 0)]), Some(true));
        assert_eq!(told(&[name(3, 1)]), Some(false));
        assert_eq!(told(&[name(3, 1), name(5, 2)]), Some(false));
        assert_eq!(told(&[name(6, 1)]), Some(false), "not here yet");
        assert_eq!(told(&[]), Some(false));
    }

    /// A text names the last captures only. Who has found her bird in a later one knows.
    #[test]
    fn what_is_too_old_is_not_told() {
        let told = |names: &[Name], found| slip(names, found).told_by(&saved(100));
        let old = [name(1, 0)];
        assert_eq!(told(&old, None), None);
        assert_eq!(told(&old, Some(name(98, 1))), Some(true));
        // That text was replaced; hers may have been in the other as well.
        assert_eq!(told(&old, Some(name(98, 2))), None);
        assert_eq!(told(&[name(98, 2)], None), Some(false));
    }

    #[test]
    fn a_slip_keeps_the_names_of_its_captures() {
        let opened = saved(5);
        let mut slip = Slip::new(0, "Wren".to_owned());
        assert_eq!(slip.told_by(&opened), Some(false));
        slip.saved(opened.text(), opened.timestamp());
        assert_eq!(slip.told_by(&opened), Some(true));
        assert_eq!(
            (slip.saves, slip.names),
            (vec![opened.timestamp()], vec![name(5, 1)])
        );
        let mut slip = Slip::new(0, "Wren".to_owned());
        slip.found(&opened);
        assert_eq!(slip.told_by(&saved(6)), Some(true));
    }
}
