//! Sets of laptop numbers.

use std::error::Error;
use std::fmt;
use std::iter::FusedIterator;

/// A set of laptop numbers, 0 to 15, in 16 bits: bit n for laptop n.
///
/// ```
/// use cetskobi::Members;
/// let view = Members::from(0b10_0110);
/// assert!(view.contains(5) && !view.contains(0));
/// assert_eq!(view.into_iter().collect::<Vec<u8>>(), [1, 2, 5]);
/// assert_eq!(view.to_string(), "{1,2,5}");
/// ```
///
/// Numbers of the software's own are collected. Those that come from outside,
/// as typed by the warden, are tried, so that a wrong one is not left out of a
/// view unseen:
///
/// ```
/// use cetskobi::Members;
/// let view: Members = [1, 2, 5].into_iter().collect();
/// assert_eq!(Members::try_from_numbers([1, 2, 5]), Ok(view));
/// let wrong = Members::try_from_numbers([1, 2, 16]);
/// assert_eq!(wrong.map_err(|e| e.number()), Err(16));
/// ```
#[derive(Clone, Copy, Debug, Default, PartialEq, Eq, Hash)]
pub struct Members {
    bits: u16,
}

impl Members {
    /// The set of these 16 bits.
    pub const fn from_bits(bits: u16) -> Members {
        Members { bits }
    }

    /// The set of these numbers, which may come from outside; one that comes twice
    /// is in it once.
    ///
    /// # Errors
    ///
    /// The first number above 15, which no laptop has.
    pub fn try_from_numbers<I>(numbers: I) -> Result<Members, NumberTooLarge>
    where
        I: IntoIterator<Item = u8>,
    {
        let mut bits = 0;
        for number in numbers {
            let bit = 1u16.checked_shl(u32::from(number));
            bits |= bit.ok_or(NumberTooLarge { number })?;
        }
        Ok(Members { bits })
    }

    /// The set as 16 bits.
    pub const fn bits(self) -> u16 {
        self.bits
    }

    /// Whether it holds this number; a number above 15 is in no set.
    pub const fn contains(self, number: u8) -> bool {
        number < 16 && self.bits >> number & 1 == 1
    }

    /// How many it holds.
    pub const fn len(self) -> usize {
        self.bits.count_ones() as usize
    }

    /// Whether it holds none.
    pub const fn is_empty(self) -> bool {
        self.bits == 0
    }

    /// Its numbers in rising order.
    pub const fn iter(self) -> MembersIter {
        MembersIter { rest: self.bits }
    }
}

impl From<u16> for Members {
    fn from(bits: u16) -> Members {
        Members::from_bits(bits)
    }
}

impl From<Members> for u16 {
    fn from(members: Members) -> u16 {
        members.bits
    }
}

impl FromIterator<u8> for Members {
    /// The set of these numbers; one that comes twice is in it once.
    ///
    /// # Panics
    ///
    /// At a number above 15, which no laptop has. For numbers from outside there
    /// is [`Members::try_from_numbers`].
    fn from_iter<I: IntoIterator<Item = u8>>(numbers: I) -> Members {
        match Members::try_from_numbers(numbers) {
            Ok(members) => members,
            Err(wrong) => panic!("{wrong}"),
        }
    }
}

impl IntoIterator for Members {
    type Item = u8;
    type IntoIter = MembersIter;

    fn into_iter(self) -> MembersIter {
        self.iter()
    }
}

impl fmt::Display for Members {
    /// As in document 01: `{1,2,5}`.
    fn fmt(&self, f: &mut fmt::Formatter<'_>) -> fmt::Result {
        let numbers: Vec<String> = self.iter().map(|n| n.to_string()).collect();
        write!(f, "{{{}}}", numbers.join(","))
    }
}

/// A number above 15, which no laptop has: [`Members::try_from_numbers`].
#[derive(Clone, Copy, Debug, PartialEq, Eq, Hash)]
pub struct NumberTooLarge {
    number: u8,
}

impl NumberTooLarge {
    /// The number.
    pub const fn number(self) -> u8 {
        self.number
    }
}

impl fmt::Display for NumberTooLarge {
    fn fmt(&self, f: &mut fmt::Formatter<'_>) -> fmt::Result {
        let number = self.number;
        write!(f, "no laptop has number {number}: they are 0 to 15")
    }
}

impl Error for NumberTooLarge {}

/// The numbers of a set of laptops in rising order: [`Members::iter`].
#[derive(Clone, Debug)]
pub struct MembersIter {
    rest: u16,
}

impl Iterator for MembersIter {
    type Item = u8;

    fn next(&mut self) -> Option<u8> {
        if self.rest == 0 {
            return None;
        }
        let lowest = self.rest.trailing_zeros() as u8;
        self.rest &= self.rest - 1;
        Some(lowest)
    }

    fn size_hint(&self) -> (usize, Option<usize>) {
        let left = self.rest.count_ones() as usize;
        (left, Some(left))
    }
}

impl ExactSizeIterator for MembersIter {}
impl FusedIterator for MembersIter {}
