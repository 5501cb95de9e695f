//! Sets of replica numbers in 16 bits: views and acknowledgements.

/// The set of this one number. A number above 15 is in no set.
pub fn bit(number: u8) -> u16 {
    1u16.checked_shl(u32::from(number)).unwrap_or(0)
}

/// Is the number in the set?
pub fn has(set: u16, number: u8) -> bool {
    set & bit(number) != 0
}
