use super::Rule;

/// A stamp. Which of two is the greater depends on the group's rule (02, Wish
/// 6), so it has no order of its own.
#[derive(Clone, Copy, Debug, PartialEq, Eq, Hash)]
pub struct Timestamp {
    pub version: u32,
    pub tie: u8,
}

impl Timestamp {
    pub const fn new(version: u32, tie: u8) -> Self {
        Timestamp { version, tie }
    }

    /// Is this stamp greater than the other? It has the greater version or,
    /// versions equal, the tie-breaker that wins by this rule (01, "Laptop and
    /// record", and 02, Wish 6).
    pub const fn is_after(self, other: Timestamp, rule: Rule) -> bool {
        self.version > other.version
            || self.version == other.version && rule.wins(self.tie, other.tie)
    }
}
