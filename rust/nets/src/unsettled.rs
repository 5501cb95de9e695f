//! What is open at one moment of the morning, and the events that would settle it
//! (document 02, Wish 3). It is tried on a copy of the laptops' memory: the
//! morning goes on as if nobody had looked.

use cetskobi::{Laptop, Members};
use settle::{by_packet, follow, held, latest, most, recipe};

use crate::failure::Cause;
use crate::group::Group;
use crate::settled::same_text;
use crate::Tick;

/// Records that are not valid on all laptops of the view, and the events that
/// would settle them: without a further save, and though all that was sent before
/// were lost.
#[derive(Clone, Copy, Debug, Default, PartialEq, Eq)]
pub(crate) struct Unsettled {
    pub tick: Tick,
    /// How many laptops the view has.
    pub laptops: usize,
    pub records: usize,
    pub events: usize,
    /// The most for one record.
    pub most: usize,
}

/// Settles every record, by the list of `rust/settle`, at laptops that are all of a
/// view and at its epoch. A record that does not settle so is a failure.
pub(crate) fn look(group: &Group, view: Members) -> Result<Unsettled, Cause> {
    let mut copies: Vec<Laptop> = view.into_iter().map(|n| group.laptop(n).clone()).collect();
    let mut found = Unsettled {
        tick: group.now,
        laptops: copies.len(),
        ..Unsettled::default()
    };
    for i in 0..copies[0].count() {
        let events = settle_one(group, &mut copies, i).ok_or(Cause::NoWay { record: i })?;
        found.records += usize::from(events > 0);
        found.events += events;
        found.most = found.most.max(events);
    }
    Ok(found)
}

/// How many events settle a record. None if they do not, or are too many.
fn settle_one(group: &Group, copies: &mut [Laptop], i: usize) -> Option<usize> {
    let held = held(copies, i);
    let latest = latest(group.rule(), &held)?;
    let steps = recipe(group.rule(), &held)?;
    follow(&steps, copies, i, by_packet).ok()?;
    let members: Vec<&Laptop> = copies.iter().collect();
    same_text(group, &members, i).ok()?;
    let stands = members[0].record(i)?.timestamp == latest;
    (stands && steps.len() <= most(members.len())).then_some(steps.len())
}

#[cfg(test)]
mod tests {
    use super::*;
    use crate::settings::Settings;
    use cetskobi::{Leaving, Timestamp};

    /// Three laptops with two records. 0 has saved the first, 1 has its INV, and all
    /// else is lost.
    fn saved() -> Group {
        let settings = Settings {
            laptops: 3,
            records: 2,
            ..Settings::default()
        };
        let mut group = Group::start(&settings).expect("a group of three");
        let inv = group.write(0, 0, b"Wren").expect("agreement");
        let inv: Leaving = inv.expect("accepted").expect("an INV");
        let ack = group.deliver_as(1, inv.envelope(), inv.arriving());
        assert!(ack.expect("agreement").is_ok());
        group
    }

    #[test]
    fn an_open_save() {
        let mut group = saved();
        let before = group.holdings(0);
        let all = Members::from(0b111);
        let found = look(&group, all).expect("it settles");
        let one = Unsettled {
            tick: 0,
            laptops: 3,
            records: 1,
            events: 7,
            most: 7,
        };
        assert_eq!(found, one);
        // The laptops have seen nothing of it.
        assert_eq!(group.holdings(0), before);

        // 0 is struck off, and 1 replays its save.
        let left = Members::from(0b110);
        group.now = 5;
        for n in left {
            let view = group.change_view(n, 1, left).expect("agreement");
            assert!(view.is_ok());
        }
        let found = look(&group, left).expect("it settles");
        let one = Unsettled {
            tick: 5,
            laptops: 2,
            events: 4,
            most: 4,
            ..one
        };
        assert_eq!(found, one);
    }

    /// 1 has not heard of the view, and refuses the INV.
    #[test]
    fn a_late_laptop_is_noticed() {
        let mut group = saved();
        let left = Members::from(0b011);
        let view = group.change_view(0, 1, left).expect("agreement");
        assert!(view.is_ok());
        assert_eq!(look(&group, left), Err(Cause::NoWay { record: 0 }));
    }

    #[test]
    fn another_text_than_was_saved_is_noticed() {
        let mut group = saved();
        let saved = Timestamp { version: 1, tie: 0 };
        let save = group.saves.get_mut(0, saved).expect("saved");
        save.text = b"Robin".to_vec();
        let all = Members::from(0b111);
        assert_eq!(look(&group, all), Err(Cause::NoWay { record: 0 }));
    }
}
