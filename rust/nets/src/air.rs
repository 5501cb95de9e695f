//! Bytes on air: what the laptops send. A packet counts once, however many hear
//! it, and what is sent again counts again. What the link itself repeats does not.

use crate::Tick;

/// Ticks of an hour.
const HOUR: u64 = 3600;

/// The bytes of each laptop's packets while birds come.
#[derive(Clone, Debug, PartialEq, Eq)]
pub(crate) struct Air {
    until: Tick,
    bytes: Vec<u64>,
}

impl Air {
    /// So many laptops; birds come until this tick.
    pub fn new(laptops: u8, until: Tick) -> Air {
        let bytes = vec![0; laptops.into()];
        Air { until, bytes }
    }

    /// A laptop sends a packet of this length.
    pub fn sent(&mut self, now: Tick, from: u8, len: usize) {
        if now < self.until {
            self.bytes[usize::from(from)] += len as u64;
        }
    }

    /// Bytes an hour of all laptops together.
    pub fn group(&self) -> u64 {
        self.hourly(self.bytes.iter().sum(), 1)
    }

    /// Bytes an hour of a laptop, on average.
    pub fn average(&self) -> u64 {
        self.hourly(self.bytes.iter().sum(), self.bytes.len() as u64)
    }

    /// The laptop that sends most, and its bytes an hour; of equal ones the first.
    pub fn busiest(&self) -> (usize, u64) {
        let most = self.bytes.iter().copied().max().unwrap_or(0);
        let laptop = self.bytes.iter().position(|b| *b == most);
        (laptop.unwrap_or(0), self.hourly(most, 1))
    }

    /// To the nearest whole number.
    fn hourly(&self, bytes: u64, laptops: u64) -> u64 {
        let ticks = u64::from(self.until) * laptops;
        (bytes * HOUR + ticks / 2) / ticks
    }
}

#[cfg(test)]
mod tests {
    use super::*;

    /// Half an hour in which three laptops send 1,000, 1,400 and 1,400 bytes.
    #[test]
    fn bytes_an_hour() {
        let mut air = Air::new(3, 1800);
        air.sent(0, 0, 600);
        air.sent(1799, 0, 400);
        air.sent(7, 1, 1400);
        air.sent(7, 2, 1400);
        // No more birds come.
        air.sent(1800, 2, 1);
        assert_eq!(air.group(), 7600);
        // 2,533 and a third
        assert_eq!(air.average(), 2533);
        assert_eq!(air.busiest(), (1, 2800));
    }

    /// 3 bytes in two thirds of an hour: 4 and a half; of each of two laptops
    /// 2 and a quarter.
    #[test]
    fn halves_are_rounded_up() {
        let mut air = Air::new(2, 2400);
        air.sent(0, 0, 3);
        assert_eq!((air.group(), air.average()), (5, 2));
    }
}
