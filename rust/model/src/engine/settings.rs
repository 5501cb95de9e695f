/// Who wins a tie: which of two stamps of one version is the greater (02,
/// Wish 6).
#[derive(Clone, Copy, Debug, PartialEq, Eq, Hash)]
pub enum Rule {
    /// The greater number: document 01's rule, that of groups formed earlier.
    Higher,
    /// The lower number.
    Lower,
}

impl Rule {
    /// Both, the old one first.
    pub const ALL: [Rule; 2] = [Rule::Higher, Rule::Lower];

    /// Byte 0 of the group's packets.
    pub const fn byte(self) -> u8 {
        match self {
            Rule::Higher => 1,
            Rule::Lower => 2,
        }
    }

    /// The rule that byte 0 of a packet names, unless it names none.
    pub const fn of_byte(byte: u8) -> Option<Rule> {
        match byte {
            1 => Some(Rule::Higher),
            2 => Some(Rule::Lower),
            _ => None,
        }
    }

    /// Does this tie-breaker win against the other? None wins against itself.
    /// Decision: numbers above 15 are compared like the rest, though no sound
    /// record and no well-formed message has one.
    pub const fn wins(self, tie: u8, other: u8) -> bool {
        match self {
            Rule::Higher => tie > other,
            Rule::Lower => tie < other,
        }
    }
}

/// What is fixed at a group's start, the same for all its replicas. No event
/// changes it (02, Wish 6).
#[derive(Clone, Copy, Debug, PartialEq, Eq, Hash)]
pub struct Settings {
    pub rule: Rule,
}
