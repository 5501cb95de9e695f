//! A difference is shown by a small case: parts are dropped and numbers made
//! less for as long as the difference stays.

use std::fmt::{self, Debug};

pub trait Smaller: Clone + Debug + PartialEq {
    /// Cases that are less in some part and greater in none, boldest first.
    fn smaller(&self) -> Box<dyn Iterator<Item = Self> + '_>;
}

/// How much is shown of a case as it was found.
const SHOWN: usize = 2000;

/// A case of a difference, as found and shrunk, and what differs in the latter.
#[derive(Clone, Debug)]
pub struct Found<C> {
    pub first: C,
    pub shrunk: C,
    pub what: String,
}

impl<C: Debug> fmt::Display for Found<C> {
    fn fmt(&self, f: &mut fmt::Formatter<'_>) -> fmt::Result {
        writeln!(f, "differs: {}", self.what)?;
        writeln!(f, "shrunk: {:?}", self.shrunk)?;
        let first = format!("{:?}", self.first);
        let shown: String = first.chars().take(SHOWN).collect();
        let more = if shown.len() < first.len() { " .." } else { "" };
        writeln!(f, "found as: {shown}{more}")
    }
}

/// Shrinks a case that differs as `what`.
pub fn shrink<C: Smaller>(
    first: C,
    what: String,
    mut difference: impl FnMut(&C) -> Option<String>,
) -> Found<C> {
    let mut found = Found {
        shrunk: first.clone(),
        first,
        what,
    };
    loop {
        let mut cases = found.shrunk.smaller();
        let next = cases.find_map(|case| difference(&case).map(|what| (case, what)));
        drop(cases);
        match next {
            Some((case, what)) => (found.shrunk, found.what) = (case, what),
            None => return found,
        }
    }
}

/// The list without some of its items: halves first, single ones last.
pub fn drops<T: Clone>(list: &[T]) -> impl Iterator<Item = Vec<T>> + '_ {
    let sizes = std::iter::successors(Some(list.len()), |size| Some(size / 2));
    sizes.take_while(|&size| size > 0).flat_map(move |size| {
        (0..list.len()).step_by(size).map(move |at| {
            let rest = list.get(at + size..).unwrap_or_default();
            [&list[..at], rest].concat()
        })
    })
}

/// Lesser bytes of the same length: all zero, or one of them zero.
pub fn plainer(bytes: &[u8]) -> impl Iterator<Item = Vec<u8>> + '_ {
    let all = (bytes.len() > 1).then(|| vec![0; bytes.len()]);
    let one = (0..bytes.len()).map(|at| {
        let mut bytes = bytes.to_vec();
        bytes[at] = 0;
        bytes
    });
    all.into_iter().chain(one)
}

/// Lesser numbers, boldest first.
pub fn less(number: u64) -> impl Iterator<Item = u64> {
    let all = [0, 1, number / 2, number.saturating_sub(1)];
    // The same as a set: without one of its members.
    let sets = (0..u64::BITS).map(move |bit| number & !(1 << bit));
    let all = all.into_iter().chain(sets);
    all.filter(move |&other| other < number)
}

/// A number of a case, to be made less.
pub enum Number<'a> {
    Byte(&'a mut u8),
    Short(&'a mut u16),
    Word(&'a mut u32),
    Size(&'a mut usize),
}

impl Number<'_> {
    pub fn get(&self) -> u64 {
        match self {
            Number::Byte(number) => u64::from(**number),
            Number::Short(number) => u64::from(**number),
            Number::Word(number) => u64::from(**number),
            Number::Size(number) => **number as u64,
        }
    }

    pub fn set(&mut self, to: u64) {
        match self {
            Number::Byte(number) => **number = to as u8,
            Number::Short(number) => **number = to as u16,
            Number::Word(number) => **number = to as u32,
            Number::Size(number) => **number = to as usize,
        }
    }
}
