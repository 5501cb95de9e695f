use super::{ask, bit, has, Answer, Envelope, Message, Record, Refusal, Settings, Sizes};

/// A replica: one laptop of the group. Its records lie in lent memory.
#[derive(Clone, Copy, Debug, PartialEq, Eq, Hash)]
pub struct Replica {
    pub number: u8,
    pub epoch: u32,
    pub view: u16,
    /// The group's, fixed at its start.
    pub settings: Settings,
}

impl Replica {
    /// The greatest replica number.
    pub const NUMBER_LIMIT: u8 = 15;

    /// A replica before any event, and each of its records (01, "A fresh
    /// start"). It asks questions 1, 2 and 3. The stamps have the lowest number
    /// in the view by either rule of ties (02, Wish 6, leaves that as it is).
    pub(super) fn fresh(
        number: u8,
        view: u16,
        settings: Settings,
        sizes: Sizes,
    ) -> Result<(Replica, Record), Refusal> {
        let replica = Replica {
            number,
            epoch: 0,
            view,
            settings,
        };
        replica.ask_memory(sizes)?;
        Ok((replica, Record::fresh(view.trailing_zeros() as u8)))
    }

    /// A view event (01, "View"). It asks only 1 and 3 of the common questions.
    /// The settings stay (02, Wish 6).
    pub fn change_view(&mut self, epoch: u32, view: u16) -> Answer {
        self.ask_group()?;
        self.ask_member()?;
        ask(epoch > self.epoch, Refusal::OldEpoch)?;
        ask(
            view & !self.view == 0 && view.count_ones() >= 2,
            Refusal::ViewNotWithin,
        )?;
        self.epoch = epoch;
        self.view = view;
        Ok(None)
    }

    /// All others in the view.
    pub fn others(&self) -> u16 {
        self.view & !bit(self.number)
    }

    /// Where a leaving message goes: INV and VAL to all others in the view, an
    /// ACK to the sender of the INV that it answers. `inv_sender` counts for an
    /// ACK alone.
    pub fn recipients(&self, message: Message, inv_sender: u8) -> u16 {
        match message {
            Message::Inv(_) | Message::Val(_) => self.others(),
            Message::Ack(_) => bit(inv_sender),
        }
    }

    /// A leaving message with this replica's number and epoch.
    pub fn envelope(&self, record: usize, message: Message) -> Envelope {
        Envelope {
            sender: self.number,
            epoch: self.epoch,
            record,
            message,
        }
    }

    /// 01, questions 1 to 3.
    fn ask_memory(&self, sizes: Sizes) -> Result<(), Refusal> {
        self.ask_group()?;
        ask(
            (1..=Record::COUNT_LIMIT).contains(&sizes.records)
                && sizes.store == sizes.records * Record::VALUE_LIMIT,
            Refusal::LentMemory,
        )?;
        self.ask_member()
    }

    /// 01, questions 1 to 4. Question 5 is asked of the record, in `steps`.
    pub(super) fn ask_record(&self, sizes: Sizes, record: usize) -> Result<(), Refusal> {
        self.ask_memory(sizes)?;
        ask(record < sizes.records, Refusal::StrayRecord)
    }

    /// 01, question 1.
    fn ask_group(&self) -> Result<(), Refusal> {
        ask(
            self.number <= Replica::NUMBER_LIMIT && self.view.count_ones() >= 2,
            Refusal::NoGroup,
        )
    }

    /// 01, question 3.
    fn ask_member(&self) -> Result<(), Refusal> {
        ask(has(self.view, self.number), Refusal::StruckOff)
    }
}
