//! What one laptop has handed out of one record, and what 02, Wish 5, promises
//! of it, for tests: between an accepted ask and an accepted commit on its stamp
//! the record kept stamp and bytes, and what is handed out never goes back.

use crate::engine::{Rule, Timestamp};

/// A stamp with its text.
pub type Held = (Timestamp, Vec<u8>);

#[derive(Clone, Debug, Hash)]
pub struct Opened {
    /// The group's rule of ties (02, Wish 6).
    rule: Rule,
    /// Each stamp that accepted asks handed out, once: the text that went with it,
    /// and whether the record has kept both since.
    asked: Vec<(Held, bool)>,
    /// What the last accepted read or ask handed out.
    shown: Option<Held>,
}

impl Opened {
    /// Nothing is handed out yet, in a group with this rule of ties.
    pub const fn new(rule: Rule) -> Opened {
        Opened {
            rule,
            asked: Vec::new(),
            shown: None,
        }
    }

    /// The stamps that asks have handed out, in the order of their first time.
    pub fn stamps(&self) -> impl DoubleEndedIterator<Item = Timestamp> + '_ {
        self.asked.iter().map(|((stamp, _), _)| *stamp)
    }

    /// An accepted read or ask hands this out.
    pub fn hands_out(&mut self, held: Held, is_ask: bool) -> Result<(), String> {
        let now = Some(held.clone());
        let before = std::mem::replace(&mut self.shown, now);
        if let Some((stamp, text)) = before {
            if stamp.is_after(held.0, self.rule) || held.0 == stamp && held.1 != text {
                return Err(format!("{held:?} is shown after {stamp:?} {text:?}"));
            }
        }
        if is_ask && self.stamps().all(|stamp| stamp != held.0) {
            self.asked.push((held, true));
        }
        Ok(())
    }

    /// A commit on this stamp is accepted.
    pub fn commits(&self, stamp: Timestamp) -> Result<(), String> {
        match self.asked.iter().find(|((asked, _), _)| *asked == stamp) {
            Some(((_, text), false)) => {
                Err(format!("saved over what came after {stamp:?} {text:?}"))
            }
            _ => Ok(()),
        }
    }

    /// After an event the record has this stamp and this text.
    pub fn is_now(&mut self, stamp: Timestamp, text: &[u8]) {
        for ((asked, seen), kept) in &mut self.asked {
            *kept &= *asked == stamp && seen == text;
        }
    }
}
