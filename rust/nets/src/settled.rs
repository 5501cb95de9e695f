//! What is left when the link has healed.

use cetskobi::{Laptop, State};

use crate::chain::text_of;
use crate::failure::Cause;
use crate::group::Group;
use crate::saves::Save;

/// The records as the laptops of the newest view hold them.
#[derive(Clone, Copy, Debug, Default, PartialEq, Eq)]
pub(crate) struct Settled {
    pub settled: usize,
    /// Saves of laptops that died or were struck off, of which none of these had heard.
    pub lost: usize,
}

/// All records at the laptops of the newest view. Each is settled: valid on all of
/// them, with one timestamp and the text saved with it. Anything else is a failure.
pub(crate) fn look(group: &Group, members: &[&Laptop]) -> Result<Settled, Cause> {
    let mut found = Settled::default();
    for i in 0..members[0].count() {
        let valid = |l: &&Laptop| l.record(i).is_some_and(|r| r.state == State::Valid);
        if !members.iter().all(valid) {
            return Err(Cause::Unsettled { record: i });
        }
        same_text(group, members, i)?;
        found.settled += 1;
    }
    found.lost = lost(group, members);
    Ok(found)
}

/// Valid everywhere: one timestamp and one text, that which was saved with it.
pub(crate) fn same_text(group: &Group, members: &[&Laptop], i: usize) -> Result<(), Cause> {
    let timestamp = members[0].record(i).map(|r| r.timestamp);
    let saved = timestamp.and_then(|t| text_of(group, i, t));
    let same =
        |text, l: &Laptop| l.record(i).map(|r| r.timestamp) == timestamp && l.read(i) == Ok(text);
    match saved {
        Some(text) if members.iter().all(|l| same(text, l)) => Ok(()),
        _ => Err(Cause::OtherText { record: i }),
    }
}

fn lost(group: &Group, members: &[&Laptop]) -> usize {
    let lost = |(laptop, save): &(u8, &Save)| {
        let knows = |l: &&Laptop| l.number() == *laptop || save.heard.contains(l.number());
        !members.iter().any(knows)
    };
    group.saves.by_laptop().filter(lost).count()
}

#[cfg(test)]
mod tests {
    use super::*;
    use crate::settings::Settings;
    use cetskobi::{Leaving, Members, Record, Replica, Rule, Timestamp};

    const SAVED: Timestamp = Timestamp { version: 1, tie: 0 };

    /// A save over the fresh record.
    fn save(text: &[u8]) -> Save {
        Save {
            text: text.to_vec(),
            ..Save::default()
        }
    }

    /// Two laptops; laptop 0 has saved the one record, and 1 acknowledges that.
    fn saved() -> (Group, Leaving<'static>) {
        let settings = Settings {
            laptops: 2,
            records: 1,
            ..Settings::default()
        };
        let mut group = Group::start(&settings).expect("a group of two");
        let inv = group.write(0, 0, b"Wren").expect("agreement");
        let inv = inv.expect("accepted").expect("an INV");
        let ack = group
            .deliver_as(1, inv.envelope(), inv.arriving())
            .expect("agreement");
        let ack = ack.expect("accepted").expect("an ACK");
        (group, ack)
    }

    /// The acknowledgement comes, and its VAL reaches the other.
    fn finished() -> Group {
        let (mut group, ack) = saved();
        let val = group
            .deliver_as(0, ack.envelope(), ack.arriving())
            .expect("agreement");
        let val = val.expect("accepted").expect("a VAL");
        group
            .deliver_as(1, val.envelope(), val.arriving())
            .expect("agreement")
            .expect("accepted");
        group
    }

    fn looked(group: &Group) -> Result<Settled, Cause> {
        look(group, &[group.laptop(0), group.laptop(1)])
    }

    #[test]
    fn a_finished_save_is_settled() {
        let settled = Settled {
            settled: 1,
            lost: 0,
        };
        assert_eq!(looked(&finished()), Ok(settled));
    }

    const UNSETTLED: Result<usize, Cause> = Err(Cause::Unsettled { record: 0 });

    #[test]
    fn an_open_save_is_not() {
        assert_eq!(looked(&saved().0).map(|s| s.settled), UNSETTLED);
    }

    /// A record's state, its last writer, and whose save it is by its timestamp.
    type Left = (State, u8, u8);

    /// How many records are settled at laptops 0, 1 and 2 of a view {0,1,2}, as no
    /// event need have left them. All of them and 5 had saved the one record; 5 was
    /// struck off.
    fn left(records: [Left; 3]) -> Result<usize, Cause> {
        let laptop = |(number, (state, writer, tie)): (u8, Left)| {
            let r = Record {
                state,
                timestamp: Timestamp { version: 1, tie },
                writer,
                written: SAVED,
                acks: Members::default(),
                len: 0,
            };
            let me = Replica {
                number,
                settings: Rule::Lower.into(),
                view: 0b111,
                epoch: 1,
            };
            let store = vec![0; Record::VALUE_MAX];
            Laptop::from_parts(me, r.to_bytes().to_vec(), store)
        };
        let laptops: Vec<Laptop> = (0..).zip(records).map(laptop).collect();
        let members: Vec<&Laptop> = laptops.iter().collect();
        let settings = Settings {
            laptops: 3,
            records: 1,
            ..Settings::default()
        };
        let mut group = Group::start(&settings).expect("a group of three");
        for tie in [0, 1, 2, 5] {
            let saved = Timestamp { version: 1, tie };
            group.saves.insert(0, saved, save(b""));
        }
        look(&group, &members).map(|s| s.settled)
    }

    /// Its own save was overtaken by that of 5.
    const OVERTAKEN: Left = (State::InvalidWrite, 5, 5);
    /// Here 5's save is valid, and there 2's.
    const VALID: [Left; 2] = [(State::Valid, 5, 5), (State::Valid, 2, 2)];

    #[test]
    fn valid_on_all_laptops_is_settled() {
        for valid in VALID {
            assert_eq!(left([valid; 3]), Ok(1), "{valid:?}");
        }
    }

    /// Document 02, Wish 2: a laptop in invalid-write whose last writer was struck
    /// off can replay, so the record must not be left so.
    #[test]
    fn an_overtaken_save_is_not_settled() {
        assert_eq!(left([OVERTAKEN; 3]), UNSETTLED);
        for valid in VALID {
            assert_eq!(left([OVERTAKEN, valid, valid]), UNSETTLED);
            // 1 waits for the VAL of 0, and 2 for that of 1.
            for waiting in [State::Invalid, State::InvalidWrite] {
                let (one, two) = ((waiting, 0, 0), (waiting, 1, 1));
                assert_eq!(left([OVERTAKEN, one, valid]), UNSETTLED);
                assert_eq!(left([OVERTAKEN, one, two]), UNSETTLED);
            }
        }
        // The VAL of 1's replay would end it.
        let replayed = (State::Valid, 1, 5);
        assert_eq!(left([OVERTAKEN, replayed, VALID[1]]), UNSETTLED);
    }

    #[test]
    fn a_laptop_that_waits_is_not_settled() {
        for stuck in [
            (State::Write, 1, 1),
            (State::Replay, 1, 5),
            (State::Invalid, 5, 5),
            (State::Invalid, 2, 2),
            (State::InvalidWrite, 2, 2),
            (State::Invalid, 1, 1),
        ] {
            for valid in VALID {
                assert_eq!(left([valid, stuck, valid]), UNSETTLED, "{stuck:?}");
                assert_eq!(left([OVERTAKEN, stuck, valid]), UNSETTLED, "{stuck:?}");
            }
        }
    }

    const OTHER_TEXT: Cause = Cause::OtherText { record: 0 };

    #[test]
    fn two_timestamps_are_noticed() {
        let [first, second] = VALID;
        assert_eq!(left([first, first, second]), Err(OTHER_TEXT));
    }

    #[test]
    fn a_timestamp_that_nobody_saved_with_is_noticed() {
        let strange = (State::Valid, 5, 6);
        assert_eq!(left([strange; 3]), Err(OTHER_TEXT));
    }

    #[test]
    fn another_text_than_was_saved_is_noticed() {
        let mut group = finished();
        group.saves.insert(0, SAVED, save(b"Robin"));
        assert_eq!(looked(&group), Err(OTHER_TEXT));
    }

    #[test]
    fn a_save_that_nobody_heard_is_lost() {
        let mut group = finished();
        let later = Timestamp { version: 2, tie: 3 };
        group.saves.insert(0, later, save(b"Robin"));
        assert_eq!(looked(&group).map(|s| s.lost), Ok(1));
        // That its bird was saved again since does not bring it back.
        let lesser = Timestamp { version: 1, tie: 3 };
        group.saves.insert(0, lesser, save(b"Robin"));
        assert_eq!(looked(&group).map(|s| s.lost), Ok(2));
        // Whoever is gone as well has not kept it.
        for (laptop, lost) in [(4, 2), (1, 1)] {
            let save = group.saves.get_mut(0, later).expect("saved");
            save.heard(laptop);
            assert_eq!(looked(&group).map(|s| s.lost), Ok(lost));
        }
    }
}
