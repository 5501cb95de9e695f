//! How durations spread: the middle, the usual worst and the worst.

use crate::Tick;

/// A list of durations in its three figures, by nearest rank: the figure is one
/// of the list, and at least that part of the list is no longer than it.
#[derive(Clone, Copy, Debug, PartialEq, Eq)]
pub(crate) struct Spread {
    /// How many durations there are.
    pub count: usize,
    pub median: Tick,
    /// 95 of 100 are no longer.
    pub most: Tick,
    pub worst: Tick,
}

impl Spread {
    /// None of an empty list.
    pub fn of(durations: &[Tick]) -> Option<Spread> {
        let mut sorted = durations.to_vec();
        sorted.sort_unstable();
        Some(Spread {
            count: sorted.len(),
            median: ranked(&sorted, 50)?,
            most: ranked(&sorted, 95)?,
            worst: ranked(&sorted, 100)?,
        })
    }
}

/// The least of a sorted list that is no less than so many of 100.
fn ranked(sorted: &[Tick], percent: usize) -> Option<Tick> {
    let rank = (sorted.len() * percent).div_ceil(100);
    sorted.get(rank.checked_sub(1)?).copied()
}

#[cfg(test)]
mod tests {
    use super::*;

    /// Count, median, 95 of 100, worst.
    fn figures(durations: &[Tick]) -> Option<(usize, Tick, Tick, Tick)> {
        Spread::of(durations).map(|s| (s.count, s.median, s.most, s.worst))
    }

    #[test]
    fn small_lists() {
        assert_eq!(figures(&[]), None);
        assert_eq!(figures(&[7]), Some((1, 7, 7, 7)));
        assert_eq!(figures(&[9, 2]), Some((2, 2, 9, 9)));
        assert_eq!(figures(&[5, 1, 3]), Some((3, 3, 5, 5)));
        assert_eq!(figures(&[4, 4, 1, 8]), Some((4, 4, 8, 8)));
    }

    /// The 95th of 100 is a rank of its own from 20 durations on.
    #[test]
    fn ranks_are_rounded_up() {
        let up_to = |n: Tick| figures(&(1..=n).rev().collect::<Vec<Tick>>());
        assert_eq!(up_to(19), Some((19, 10, 19, 19)));
        assert_eq!(up_to(20), Some((20, 10, 19, 20)));
        assert_eq!(up_to(21), Some((21, 11, 20, 21)));
        assert_eq!(up_to(100), Some((100, 50, 95, 100)));
        assert_eq!(up_to(101), Some((101, 51, 96, 101)));
    }
}
