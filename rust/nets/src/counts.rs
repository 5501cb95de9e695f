//! What an engineer asks of a morning: how many of each.

use std::fmt;

use cetskobi::Refusal;

use crate::history::Kind;
use crate::layout::{grouped, line};
use crate::report::Report;

/// The counts of a morning: events, messages, packets and refusals.
#[derive(Clone, Copy, Debug)]
pub struct Counts<'a>(pub(crate) &'a Report);

impl Counts<'_> {
    fn traffic(&self, f: &mut fmt::Formatter<'_>) -> fmt::Result {
        let report = self.0;
        line(f, "events", report.events(), "")?;
        for kind in Kind::ALL {
            let accepted = report.events.accepted[kind as usize];
            let name = format!("  {}", kind.name());
            let remark = format!("{} accepted", grouped(accepted));
            line(f, &name, report.events.events[kind as usize], &remark)?;
        }
        let [last, own] = report.validations();
        let (by_ack, by_event) = (grouped(last), grouped(own));
        let remark = format!("{by_ack} by the last ACK, {by_event} by a validate");
        line(f, "validations", last + own, &remark)?;
        let [inv, ack, val] = report.events.messages.map(grouped);
        line(
            f,
            "messages",
            report.messages(),
            &format!("INV {inv}, ACK {ack}, VAL {val}"),
        )?;
        let l = &report.link;
        line(
            f,
            "packets",
            l.packets,
            &format!("{} bytes", grouped(l.bytes)),
        )?;
        line(
            f,
            "for listeners",
            l.copies,
            "a packet counts once for each laptop that shall hear it",
        )?;
        line(f, "  lost", l.lost, "")?;
        line(f, "  repeated", l.repeated, "")?;
        line(
            f,
            "  late",
            l.late,
            "heard after a packet that was sent later",
        )?;
        line(f, "  to a dead one", report.to_the_dead, "")
    }

    fn refusals(&self, f: &mut fmt::Formatter<'_>) -> fmt::Result {
        line(f, "refused", self.0.events.refused.values().sum(), "")?;
        for (number, count) in &self.0.events.refused {
            let meaning = Refusal::from_number(*number).map_or("", Refusal::meaning);
            line(f, &format!("  question {number}"), *count, meaning)?;
        }
        Ok(())
    }
}

impl fmt::Display for Counts<'_> {
    fn fmt(&self, f: &mut fmt::Formatter<'_>) -> fmt::Result {
        self.traffic(f)?;
        self.refusals(f)
    }
}
