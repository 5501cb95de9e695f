//! A record that was opened, to be saved over.

use std::error::Error;
use std::fmt;

use crate::{Refusal, Timestamp};

/// A record as [`Laptop::ask`](crate::Laptop::ask) opened it: the text that the
/// ringer sees, and its timestamp. [`Laptop::commit`](crate::Laptop::commit)
/// takes it, so who saves has opened before, and each opening is saved over once.
///
/// The text is a copy: what comes in later changes the record, and not this. Nor
/// does it hold the record: others may save it meanwhile, and then the commit is
/// refused. It knows its record and timestamp, and no laptop: of a group in one
/// memory another laptop may commit it, if it shows that record with that timestamp.
/// Nor does it know its group: drop it at a fresh start, where timestamps begin anew.
///
/// ```
/// use cetskobi::{Laptop, Refusal, Rule};
///
/// # fn main() -> Result<(), Refusal> {
/// # let mut net = Laptop::start(0, 0b11, Rule::Lower, 1)?;
/// let opened = net.ask(0)?;
/// assert_eq!(opened.text(), b"");
/// assert_eq!(opened.timestamp().to_string(), "(0,0)");
/// let inv = net.commit(opened, b"Wren, wing 48")?;
/// assert_eq!(inv.body(), b"Wren, wing 48");
/// # Ok(())
/// # }
/// ```
///
/// A commit of what was not opened cannot be written by mistake. Only an ask makes
/// an `Opened`:
///
/// ```compile_fail,E0451
/// # use cetskobi::{Opened, Timestamp};
/// let timestamp = Timestamp { version: 0, tie: 0 };
/// let opened = Opened { record: 0, timestamp, text: Vec::new() };
/// ```
///
/// None is copied:
///
/// ```compile_fail,E0599
/// # use cetskobi::{Laptop, Refusal, Rule};
/// # fn main() -> Result<(), Refusal> {
/// # let net = Laptop::start(0, 0b11, Rule::Lower, 1)?;
/// let opened = net.ask(0)?;
/// let twice = opened.clone();
/// # Ok(())
/// # }
/// ```
///
/// And none is saved over twice:
///
/// ```compile_fail,E0382
/// # use cetskobi::{Laptop, Refusal, Rule};
/// # fn main() -> Result<(), Refusal> {
/// # let mut net = Laptop::start(0, 0b11, Rule::Lower, 1)?;
/// let opened = net.ask(0)?;
/// let inv = net.commit(opened, b"Wren")?.into_owned();
/// let again = net.commit(opened, b"Robin")?.into_owned();
/// # Ok(())
/// # }
/// ```
///
/// To save over whatever stands there is another event, with a name of its own:
/// [`Laptop::write`](crate::Laptop::write).
#[derive(Debug, PartialEq, Eq)]
pub struct Opened {
    pub(crate) record: usize,
    pub(crate) timestamp: Timestamp,
    pub(crate) text: Vec<u8>,
}

impl Opened {
    /// The number of the record.
    pub fn record(&self) -> usize {
        self.record
    }

    /// The record's timestamp when it was opened: the one that it must still have
    /// when it is saved.
    pub fn timestamp(&self) -> Timestamp {
        self.timestamp
    }

    /// The record's value when it was opened.
    pub fn text(&self) -> &[u8] {
        &self.text
    }
}

/// A commit that was refused: why, and what had been opened. Nothing was saved,
/// and the value is still the caller's.
///
/// [`NotAsOpened`](Refusal::NotAsOpened) says that another save has come since, and
/// what was opened is out of date: keep the ringer's text, ask again, and show her
/// both. After 8 or 9 what was opened still stands, for another try; questions 1 to
/// 5 are asked before, and tell nothing of it:
///
/// ```
/// use cetskobi::{Laptop, Refusal, Rule};
///
/// # fn main() -> Result<(), Refusal> {
/// # let mut net = Laptop::start(0, 0b11, Rule::Lower, 1)?;
/// let opened = net.ask(0)?;
/// let no = net.commit(opened, &[b'x'; 193]).unwrap_err();
/// assert_eq!(no.refusal(), Refusal::ValueTooLong);
/// let inv = net.commit(no.into_opened(), &[b'x'; 192])?;
/// assert_eq!(inv.body().len(), 192);
/// # Ok(())
/// # }
/// ```
///
/// Where only the number counts, `?` makes a [`Refusal`] of it.
#[derive(Debug, PartialEq, Eq)]
pub struct NotCommitted {
    pub(crate) refusal: Refusal,
    pub(crate) opened: Opened,
}

impl NotCommitted {
    /// Why it was refused.
    pub fn refusal(&self) -> Refusal {
        self.refusal
    }

    /// What had been opened, to look at.
    pub fn opened(&self) -> &Opened {
        &self.opened
    }

    /// What had been opened, for another try.
    pub fn into_opened(self) -> Opened {
        self.opened
    }
}

impl fmt::Display for NotCommitted {
    fn fmt(&self, f: &mut fmt::Formatter<'_>) -> fmt::Result {
        self.refusal.fmt(f)
    }
}

impl Error for NotCommitted {
    fn source(&self) -> Option<&(dyn Error + 'static)> {
        Some(&self.refusal)
    }
}

impl From<NotCommitted> for Refusal {
    fn from(no: NotCommitted) -> Refusal {
        no.refusal
    }
}
