use cetskobi::{packet, Laptop, Leaving, Members, Message, NotCommitted, Opened, Refusal, Rule, State, Timestamp};

/// The rule of ties of a new group: the same at all of its laptops, to its end.
const RULE: Rule = Rule::Lower;

/// Ticks until a message goes again: each wait is twice the one before, up to the most.
const WAIT_FIRST: u16 = 8;
const WAIT_INV: u16 = 32;
const WAIT_VAL: u16 = 1024;

struct Hut {
    laptop: Laptop,
    radio: Radio, // yours
    /// Of each record: ticks until it is tried again, and how long that wait was. 0 is never.
    clocks: Vec<(u16, u16)>,
    /// What goes into the next packet, and to whom.
    messages: Vec<Leaving<'static>>,
    to: u16,
    /// The epoch of the last message that had a greater one than this laptop; 0 since a view was taken.
    heard: u32,
}

/// What became of a save.
#[derive(Debug, PartialEq)]
enum Fate {
    Waiting,
    Finished,
    Replaced,
    StruckOff,
}

impl Hut {
    fn begin(number: u8, view: u16, count: usize, radio: Radio) -> Result<Hut, Refusal> {
        let laptop = Laptop::start(number, view, RULE, count)?;
        Ok(Hut { laptop, radio, clocks: vec![(0, 0); count], messages: Vec::new(), to: 0, heard: 0 })
    }

    /// Sends what waits for it, as one packet.
    fn send(&mut self) {
        let mut bytes = [0; packet::PACKET_MAX];
        // 24: nothing waits.
        if let Ok(len) = packet::pack(self.laptop.settings(), &self.messages, &mut bytes) {
            self.radio.send(&bytes[..len], Members::from(self.to));
        }
        self.messages.clear();
        self.to = 0;
    }

    /// Puts what left an event into the next packet.
    fn put(&mut self, left: Leaving<'static>) {
        let bodies: usize = self.messages.iter().map(|m| m.body().len()).sum();
        let count = self.messages.len() + 1;
        let total = packet::HEAD_LEN + packet::ENTRY_LEN * count + bodies + left.body().len();
        if count > packet::MESSAGES_MAX || total > packet::PACKET_MAX {
            self.send();
        }
        self.to |= left.recipients().bits();
        self.messages.push(left);
    }

    /// The same for an INV or VAL; it goes again after so many ticks.
    fn put_again(&mut self, left: Leaving<'static>, wait: u16) {
        self.clocks[left.envelope().record] = (wait, wait);
        self.put(left);
    }

    /// A ringer opens a ring: the text that she sees, and the timestamp that the save brings back.
    fn open(&self, ring: usize) -> Result<Opened, Refusal> {
        self.laptop.ask(ring)
    }

    /// A ringer saves over the text that she saw. Ok has the save's timestamp: keep it with her text, and ask for its fate. Err: nothing
    /// was saved. Keep her text on the screen, open the ring again, and show her both: after 26 the text as it stands now, after 8 or 9 the
    /// one that she saw. 6: a newer save is not finished here; open it in a while.
    fn save(&mut self, opened: Opened, text: &[u8]) -> Result<Timestamp, NotCommitted> {
        let inv = self.laptop.commit(opened, text)?.into_owned();
        let saved = inv.envelope().message.timestamp();
        self.put_again(inv, WAIT_FIRST);
        self.send();
        Ok(saved)
    }

    /// Asked after every packet and every change of view: while it is Waiting, and better to the end of the day.
    fn fate(&self, ring: usize, saved: Timestamp) -> Fate {
        let counts = self.laptop.view().contains(self.laptop.number());
        match self.laptop.record(ring) {
            Some(r) if r.timestamp == saved && r.state == State::Valid => Fate::Finished,
            Some(r) if r.timestamp == saved && counts => Fate::Waiting,
            Some(r) if r.timestamp == saved => Fate::StruckOff, // it would wait for ever: ask the warden
            _ => Fate::Replaced,
        }
    }

    /// All messages of a packet, in one pass. 27: it is of a group with the other rule.
    fn packet_came(&mut self, bytes: &[u8]) -> Result<(), Refusal> {
        let mut messages = packet::messages(self.laptop.settings(), bytes)?;
        let (epoch, view) = (self.laptop.epoch(), self.laptop.view()); // now: an arrival borrows the laptop
        while let Some(arrival) = self.laptop.deliver_next(&mut messages) {
            // Told of a refused message too. A newer view is within this one, and so is its sender.
            if arrival.epoch() > epoch && view.contains(arrival.sender()) {
                self.heard = arrival.epoch();
            }
            let Ok(reply) = arrival.reply() else { continue };
            let Some(left) = reply.leaving().map(Leaving::into_owned) else { continue };
            match left.envelope().message {
                // That was the last ACK: the record is valid, and all others are told.
                Message::Val(_) => self.put_again(left, WAIT_FIRST),
                _ => self.put(left),
            }
        }
        self.send();
        Ok(())
    }

    /// Asked after every packet: the epoch of a view that was issued and did not come here. Ask the warden for it.
    fn missed_view(&self) -> Option<u32> {
        let counts = self.laptop.view().contains(self.laptop.number());
        (counts && self.heard > 0).then_some(self.heard)
    }

    /// Tries what may move a record on from here.
    fn help(&mut self, ring: usize, wait: u16) {
        let mut left = self.laptop.replay(ring).map(Leaving::into_owned);
        if left.is_err() {
            left = self.laptop.resend(ring).map(Leaving::into_owned);
        }
        match left {
            Ok(left) => self.put_again(left, wait),
            Err(_) => self.clocks[ring] = (0, 0), // another laptop's turn
        }
    }

    /// Once a second.
    fn tick(&mut self) {
        for ring in 0..self.clocks.len() {
            let (ticks, wait) = self.clocks[ring];
            if ticks > 1 {
                self.clocks[ring] = (ticks - 1, wait);
            } else if ticks == 1 {
                let most = if self.laptop.shows_valid(ring) { WAIT_VAL } else { WAIT_INV };
                self.help(ring, most.min(2 * wait));
            }
        }
        self.send();
    }

    /// Once over all records: after a change of view, and when the warden asks for it.
    fn go_over(&mut self) {
        for ring in 0..self.clocks.len() {
            if self.laptop.record(ring).is_some_and(|r| r.timestamp.version > 0) {
                let wait = if self.laptop.shows_valid(ring) { self.clocks[ring].1 } else { WAIT_FIRST };
                match self.laptop.validate(ring).map(Leaving::into_owned) {
                    Ok(val) => self.put_again(val, WAIT_FIRST), // it waited for a struck-off laptop alone
                    Err(_) => self.help(ring, wait.max(WAIT_FIRST)), // an old VAL keeps its long wait
                }
            }
        }
        self.send();
    }

    fn view_came(&mut self, epoch: u32, view: u16) -> Result<(), Refusal> {
        self.laptop.change_view(epoch, view)?;
        self.heard = 0;
        self.go_over();
        Ok(())
    }
}
