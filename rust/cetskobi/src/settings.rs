//! What is fixed at a group's start.

use std::fmt;

use crate::sys;

/// The rule of ties: which of two timestamps with one version is the later
/// (document 02, Wish 6). Versions that differ are compared alike under both.
///
/// From next season a tie goes to the lower laptop number, since those belong to the
/// ringers in charge. Groups formed earlier keep the old rule to their end.
#[derive(Clone, Copy, Debug, PartialEq, Eq, Hash)]
#[repr(u8)]
pub enum Rule {
    /// 1: a tie goes to the higher number. The old rule, document 01's.
    Higher = 1,
    /// 2: a tie goes to the lower number. The new rule.
    Lower = 2,
}

impl Rule {
    /// Both, in the order of their numbers.
    pub const ALL: &[Rule] = &[Rule::Higher, Rule::Lower];

    /// Its number, which is byte 0 of its groups' packets.
    pub const fn number(self) -> u8 {
        self as u8
    }

    /// Which number a tie goes to: "higher" or "lower".
    pub const fn name(self) -> &'static str {
        match self {
            Rule::Higher => "higher",
            Rule::Lower => "lower",
        }
    }

    /// The rule that this byte of an identity is: every one is a rule.
    const fn of(byte: u8) -> Rule {
        match byte {
            2 => Rule::Lower,
            _ => Rule::Higher,
        }
    }
}

impl fmt::Display for Rule {
    fn fmt(&self, f: &mut fmt::Formatter<'_>) -> fmt::Result {
        f.write_str(self.name())
    }
}

/// What is fixed at a group's start: today the [`Rule`] of ties. Document 02
/// announces more.
///
/// [`Laptop::start`](crate::Laptop::start) takes them, a change of view keeps them,
/// and nothing changes them. All laptops of a group start with the same settings:
/// their agreement rests on it. A `Rule` stands for the settings with that rule.
///
/// Two laptops save one ring at once, and all show the text of the rule's winner:
///
/// ```
/// use cetskobi::{Laptop, Leaving, Refusal, Rule};
/// use std::collections::VecDeque;
///
/// # fn main() -> Result<(), Refusal> {
/// for (rule, stands) in [(Rule::Higher, "Robin"), (Rule::Lower, "Wren")] {
///     let mut group = [
///         Laptop::start(0, 0b111, rule, 1)?,
///         Laptop::start(1, 0b111, rule, 1)?,
///         Laptop::start(2, 0b111, rule, 1)?,
///     ];
///     // Timestamps (1,0) and (1,2): a tie.
///     let mut air = VecDeque::new();
///     air.push_back(group[0].write(0, b"Wren")?.into_owned());
///     air.push_back(group[2].write(0, b"Robin")?.into_owned());
///
///     // What leaves comes to those that it is for, and what leaves then likewise.
///     while let Some(left) = air.pop_front() {
///         for n in left.recipients() {
///             let reply = group[usize::from(n)].deliver(left.arriving())?;
///             air.extend(reply.leaving().map(Leaving::into_owned));
///         }
///     }
///     for laptop in &group {
///         assert_eq!(laptop.settings().rule, rule);
///         assert_eq!(laptop.read(0)?, stands.as_bytes());
///     }
/// }
/// # Ok(())
/// # }
/// ```
///
/// A packet of a group with the other rule is refused
/// ([`OtherRule`](crate::Refusal::OtherRule)):
///
/// ```
/// use cetskobi::{packet, Laptop, Refusal, Rule};
///
/// # fn main() -> Result<(), Refusal> {
/// let mut ours = Laptop::start(0, 0b11, Rule::Lower, 1)?;
/// let mut theirs = Laptop::start(1, 0b11, Rule::Higher, 1)?;
/// let mut bytes = [0; packet::PACKET_MAX];
/// let len = packet::pack(theirs.settings(), [theirs.write(0, b"Wren")?], &mut bytes)?;
/// let no = packet::messages(ours.settings(), &bytes[..len]).err();
/// assert_eq!(no, Some(Refusal::OtherRule));
/// assert_eq!(ours.deliver_packet(&bytes[..len], 0), Err(Refusal::OtherRule));
/// # Ok(())
/// # }
/// ```
#[derive(Clone, Copy, Debug, PartialEq, Eq, Hash)]
#[non_exhaustive]
pub struct Settings {
    /// The rule of ties.
    pub rule: Rule,
}

impl Settings {
    /// The settings with this rule of ties.
    pub const fn new(rule: Rule) -> Settings {
        Settings { rule }
    }
}

impl From<Rule> for Settings {
    fn from(rule: Rule) -> Settings {
        Settings::new(rule)
    }
}

/// As the engine reads them: every byte is a rule.
impl From<sys::Settings> for Settings {
    fn from(settings: sys::Settings) -> Settings {
        Settings::new(Rule::of(settings.rule))
    }
}

impl From<Settings> for sys::Settings {
    fn from(settings: Settings) -> sys::Settings {
        let rule = settings.rule.number();
        sys::Settings { rule }
    }
}

impl From<Rule> for sys::Settings {
    fn from(rule: Rule) -> sys::Settings {
        Settings::new(rule).into()
    }
}
