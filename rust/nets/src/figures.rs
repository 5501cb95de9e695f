//! What a warden asks of a morning: how long saves take, how long records cannot
//! be read, and how much goes on air.

use std::fmt;

use crate::layout::{grouped, line, line_of, seconds};
use crate::report::Report;
use crate::spread::Spread;

/// A morning's figures.
pub(crate) struct Figures<'a>(pub &'a Report);

impl fmt::Display for Figures<'_> {
    fn fmt(&self, f: &mut fmt::Formatter<'_>) -> fmt::Result {
        self.durations(f)?;
        self.leftovers(f)?;
        self.air(f)
    }
}

impl Figures<'_> {
    fn durations(&self, f: &mut fmt::Formatter<'_>) -> fmt::Result {
        let times = &self.0.times;
        let heading = ["number", "median", "95 of 100", "worst"].map(str::to_owned);
        row(f, "", heading, "")?;
        let remark = "every laptop of the view has it";
        row(f, "save to finished", cells(times.finished), remark)?;
        let remark = "a later save of another laptop stands";
        row(f, "save to replaced", cells(times.replaced), remark)?;
        let remark = "at one laptop";
        row(f, "record unreadable", cells(times.unreadable), remark)
    }

    fn leftovers(&self, f: &mut fmt::Formatter<'_>) -> fmt::Result {
        let times = &self.0.times;
        let [openings, unshown] = self.0.openings();
        let remark = "saves, at a laptop that died or was struck off";
        line(f, "never finished", times.left as u64, remark)?;
        let remark = "of the time of all records at laptops in service, while birds come";
        line_of(f, "unreadable", &self.share(), remark)?;
        let unshown = grouped(unshown);
        let remark = format!("by ringers; {unshown} met an unreadable record");
        line(f, "openings", openings, &remark)
    }

    fn air(&self, f: &mut fmt::Formatter<'_>) -> fmt::Result {
        let air = &self.0.air;
        line(
            f,
            "bytes an hour",
            air.group(),
            "on air from all laptops, while birds come",
        )?;
        line(f, "  a laptop", air.average(), "on average")?;
        let (laptop, most) = air.busiest();
        line(f, "  the busiest", most, &format!("laptop {laptop}"))
    }

    /// The part of the record-time that is unreadable, to a thousandth of a percent.
    fn share(&self) -> String {
        let all = self.0.times.served * self.0.settings.records as u64;
        let share = (self.0.times.dark * 100_000 + all / 2) / all.max(1);
        format!("{}.{:03} %", share / 1000, share % 1000)
    }
}

/// How many, and three durations.
fn cells(spread: Option<Spread>) -> [String; 4] {
    match spread {
        None => ["0", "-", "-", "-"].map(str::to_owned),
        Some(s) => [
            grouped(s.count as u64),
            seconds(s.median),
            seconds(s.most),
            seconds(s.worst),
        ],
    }
}

fn row(f: &mut fmt::Formatter<'_>, name: &str, cells: [String; 4], remark: &str) -> fmt::Result {
    let [count, median, most, worst] = cells;
    let cells = format!("{median:>8}{most:>11}{worst:>9}  {remark}");
    line_of(f, name, &count, cells.trim_end())
}
