//! The steps on one record: question 5, the event's own questions, the move.
//! Questions 1 to 4 have been asked by the caller.

use super::{
    ask, has, Answer, Envelope, Message, Record, Refusal, Replica, Slot, State, Timestamp,
};

impl Replica {
    pub(super) fn read_step<'a>(
        &self,
        record: &Record,
        slot: &'a Slot,
    ) -> Result<&'a [u8], Refusal> {
        self.ask_sound(record)?;
        ask(record.state == State::Valid, Refusal::NotReadable)?;
        Ok(record.value(slot))
    }

    pub(super) fn write_step(&self, record: &mut Record, slot: &mut Slot, value: &[u8]) -> Answer {
        self.ask_sound(record)?;
        ask(
            matches!(record.state, State::Valid | State::Invalid),
            Refusal::NotWritable,
        )?;
        self.save(record, slot, value)
    }

    /// 02, Wish 5: the value and the stamp, refused as a read is.
    pub(super) fn ask_step<'a>(
        &self,
        record: &Record,
        slot: &'a Slot,
    ) -> Result<(&'a [u8], Timestamp), Refusal> {
        let value = self.read_step(record, slot)?;
        Ok((value, record.timestamp))
    }

    /// 02, Wish 5: 26 in the place of 7, then as a write. A tie-breaker above 15
    /// is no sound record's, so it is refused as any other stamp.
    pub(super) fn commit_step(
        &self,
        record: &mut Record,
        slot: &mut Slot,
        opened: Timestamp,
        value: &[u8],
    ) -> Answer {
        self.ask_sound(record)?;
        ask(
            record.state == State::Valid && record.timestamp == opened,
            Refusal::NotAsOpened,
        )?;
        self.save(record, slot, value)
    }

    /// What a write and a commit go on with: questions 8 and 9, and 01, "Write".
    fn save(&self, record: &mut Record, slot: &mut Slot, value: &[u8]) -> Answer {
        ask(value.len() <= Record::VALUE_LIMIT, Refusal::ValueTooLong)?;
        ask(record.timestamp.version < u32::MAX, Refusal::LastVersion)?;

        let len = put(slot, value);
        *record = record.written(self.number, len);
        Ok(Some(Message::Inv(record.timestamp)))
    }

    pub(super) fn replay_step(&self, record: &mut Record) -> Answer {
        self.ask_sound(record)?;
        // 01, question 16, and 02, Wish 2: invalid-write too.
        let invalid = matches!(record.state, State::Invalid | State::InvalidWrite);
        ask(
            invalid && !has(self.view, record.last_writer),
            Refusal::NotReplayable,
        )?;

        *record = record.replayed(self.number);
        Ok(Some(Message::Inv(record.timestamp)))
    }

    pub(super) fn deliver_step(
        &self,
        record: &mut Record,
        slot: &mut Slot,
        envelope: &Envelope,
        body: &[u8],
    ) -> Answer {
        let Envelope {
            sender, message, ..
        } = *envelope;
        self.ask_sound(record)?;
        ask(envelope.epoch == self.epoch, Refusal::OtherEpoch)?;
        ask(has(self.others(), sender), Refusal::OtherSender)?;
        ask(message.is_well_formed(body.len()), Refusal::IllFormed)?;

        match message {
            Message::Inv(timestamp) => {
                // By the group's rule of ties (02, Wish 6).
                if timestamp.is_after(record.timestamp, self.settings.rule) {
                    let len = put(slot, body);
                    *record = record.invalidated(sender, timestamp, len);
                }
                // The ACK leaves for an older stamp too.
                Ok(Some(Message::Ack(timestamp)))
            }
            Message::Ack(timestamp) => {
                let awaited = matches!(
                    record.state,
                    State::Write | State::InvalidWrite | State::Replay
                );
                ask(
                    awaited && timestamp == record.last_write && !has(record.acks, sender),
                    Refusal::StrayAck,
                )?;
                *record = record.acknowledged(sender);
                // 02, Wish 1: the last acknowledgement settles the record.
                if self.is_finished(record) {
                    Ok(Some(validate(record)))
                } else {
                    Ok(None)
                }
            }
            Message::Val(timestamp) => {
                ask(
                    record.state != State::Valid && timestamp == record.timestamp,
                    Refusal::StrayVal,
                )?;
                *record = record.validated();
                Ok(None)
            }
        }
    }

    /// Since Wish 1 this is for a record whose last missing replica was struck
    /// off, so that no last acknowledgement comes.
    pub(super) fn validate_step(&self, record: &mut Record) -> Answer {
        self.ask_sound(record)?;
        ask(self.is_finished(record), Refusal::NotFinished)?;
        Ok(Some(validate(record)))
    }

    /// Decision: a resent INV carries the record's stamp, as its value does. On
    /// a record of a started replica this is the last-write stamp too.
    pub(super) fn resend_step(&self, record: &Record) -> Answer {
        self.ask_sound(record)?;
        match record.state {
            State::Write | State::Replay => Ok(Some(Message::Inv(record.timestamp))),
            State::Valid if record.last_writer == self.number => {
                Ok(Some(Message::Val(record.timestamp)))
            }
            _ => Err(Refusal::NotResendable),
        }
    }

    /// 01, question 15, and 02, Wish 1: a write or a replay that every other
    /// replica in the view has acknowledged. The others are compared as a set,
    /// not counted: acknowledgements of replicas since struck off do not help.
    fn is_finished(&self, record: &Record) -> bool {
        matches!(record.state, State::Write | State::Replay) && self.others() & !record.acks == 0
    }

    /// 01, question 5.
    fn ask_sound(&self, record: &Record) -> Result<(), Refusal> {
        ask(record.is_sound(self.number), Refusal::UnsoundRecord)
    }
}

/// 01, "Validate": the state becomes valid; a VAL leaves with the record's stamp.
fn validate(record: &mut Record) -> Message {
    *record = record.validated();
    Message::Val(record.timestamp)
}

/// Stores a value of at most 192 bytes, zeroes the rest, and gives its length.
fn put(slot: &mut Slot, value: &[u8]) -> u8 {
    let (used, rest) = slot.split_at_mut(value.len());
    used.copy_from_slice(value);
    rest.fill(0);
    value.len() as u8
}
