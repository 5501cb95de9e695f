//! One laptop with its records.

use std::fmt;

use crate::sys::{self, Accepted, Answer, RECORD_BYTES};
use crate::{packet, raw, Arrival, Arriving, Envelope, Leaving, Members, Message, NotCommitted};
use crate::{Opened, Record, Refusal, Replica, Reply, Settings, Timestamp};

/// A laptop on memory that the caller lends: [`Laptop::start_in`] and
/// [`Laptop::from_parts`].
pub type Lent<'a> = Laptop<&'a mut [u8], &'a mut [u8]>;

/// One laptop of a group: its number, its group's settings, epoch and view, its
/// records and their bytes.
///
/// [`Laptop::start`] makes one that owns its memory. [`Laptop::start_in`] and
/// [`Laptop::from_parts`] take the caller's, for software that keeps the records
/// itself: a table of 16 bytes for each record ([`Record::to_bytes`]), and a store
/// of 192 bytes for each.
///
/// An event on record `i` gives `Ok` with what [leaves](Leaving), or `Err` with
/// the question that said no; then nothing has changed. Every number and every
/// slice may be passed.
///
/// A clone is a copy to look at. One that is used later in the laptop's place
/// sets the laptop back, and one that is used beside it is a second laptop of
/// its number: the agreement of document 01's group survives neither.
#[derive(Clone, PartialEq, Eq)]
pub struct Laptop<T = Vec<u8>, S = Vec<u8>> {
    me: Replica,
    table: T,
    store: S,
}

impl Laptop {
    /// A fresh start of laptop `number` with `count` records: epoch 0, every
    /// record valid and empty. All laptops of a group start with the same view,
    /// [`Members`] or 16 bits with bit n for laptop n, the same [`Settings`], or the
    /// [`Rule`](crate::Rule) that stands for them, and the same count.
    ///
    /// # Errors
    ///
    /// [`Refusal::NoGroup`], [`Refusal::LentMemory`] (for the count) and
    /// [`Refusal::StruckOff`].
    pub fn start(
        number: u8,
        view: impl Into<Members>,
        settings: impl Into<Settings>,
        count: usize,
    ) -> Result<Laptop, Refusal> {
        // One record beyond the most is as wrong as a million.
        let count = count.min(Record::COUNT_MAX + 1);
        let table = vec![0; count * RECORD_BYTES];
        let store = vec![0; count * Record::VALUE_MAX];
        Laptop::start_in(number, view, settings, table, store)
    }
}

impl<T: AsMut<[u8]>, S: AsMut<[u8]>> Laptop<T, S> {
    /// A fresh start in this memory, as [`Laptop::start`]: a refused one leaves
    /// the memory as it is.
    ///
    /// # Errors
    ///
    /// As [`Laptop::start`].
    pub fn start_in(
        number: u8,
        view: impl Into<Members>,
        settings: impl Into<Settings>,
        mut table: T,
        mut store: S,
    ) -> Result<Self, Refusal> {
        let (view, settings) = (view.into().bits(), settings.into().into());
        let admission = raw::start(number, view, settings, table.as_mut(), store.as_mut());
        Refusal::check(admission.number)?;
        let me = admission.replica;
        Ok(Laptop { me, table, store })
    }

    /// Saves a value over what [`ask`](Laptop::ask) opened, if the record here is
    /// still valid with the timestamp that it had then: this laptop took no newer
    /// save between. It goes on as a [`write`](Laptop::write): an INV leaves, with
    /// the value. An ask right before the commit is no opening: nobody has seen that
    /// text.
    ///
    /// ```
    /// use cetskobi::{Laptop, Refusal, Rule};
    ///
    /// # fn main() -> Result<(), Refusal> {
    /// # let mut net = Laptop::start(0, 0b11, Rule::Lower, 1)?;
    /// # let mut hut = Laptop::start(1, 0b11, Rule::Lower, 1)?;
    /// // Two ringers open the ring; the first saves over what she saw.
    /// let hers = net.ask(0)?;
    /// let his = hut.ask(0)?;
    /// let inv = net.commit(hers, b"Wren, wing 48")?;
    /// let ack = hut.deliver(inv.arriving())?.leaving();
    /// # let ack = ack.expect("an INV is acknowledged").into_owned();
    /// # let val = net.deliver(ack.arriving())?.leaving();
    /// # let val = val.expect("1 was the last").into_owned();
    /// # assert_eq!(hut.deliver(val.arriving())?.leaving(), None);
    ///
    /// // The second would save over a text that he never saw. He is told so, and
    /// // opens the ring again: both texts are there.
    /// let entered = b"Wren, weight 9.5";
    /// let no = hut.commit(his, entered).unwrap_err();
    /// assert_eq!(no.refusal(), Refusal::NotAsOpened);
    /// let now = hut.ask(0)?;
    /// assert_eq!(now.text(), b"Wren, wing 48");
    /// let inv = hut.commit(now, b"Wren, wing 48, weight 9.5")?;
    /// assert_eq!(inv.body(), b"Wren, wing 48, weight 9.5");
    /// # Ok(())
    /// # }
    /// ```
    ///
    /// Two laptops may both commit on one timestamp, as two may write: then the
    /// save with the later new timestamp, by the group's rule, stands.
    ///
    /// # Errors
    ///
    /// Questions 1 to 5, then [`NotAsOpened`](Refusal::NotAsOpened),
    /// [`ValueTooLong`](Refusal::ValueTooLong), [`LastVersion`](Refusal::LastVersion).
    /// The error has what was opened, for another try.
    pub fn commit(&mut self, opened: Opened, value: &[u8]) -> Result<Leaving<'_>, NotCommitted> {
        let lent = self.lent();
        let (i, Timestamp { version, tie }) = (opened.record, opened.timestamp);
        let answer = raw::commit(lent.me, lent.table, lent.store, i, version, tie, value);
        lent.left(i, answer)
            .map_err(|refusal| NotCommitted { refusal, opened })
    }

    /// Saves a value as record `i`, whatever stands there: also over a text that
    /// nobody has looked at here, and over one that is not valid yet (invalid). An
    /// INV leaves, with the value. For a ringer's save there is
    /// [`commit`](Laptop::commit).
    ///
    /// # Errors
    ///
    /// Questions 1 to 5, then [`NotWritable`](Refusal::NotWritable),
    /// [`ValueTooLong`](Refusal::ValueTooLong), [`LastVersion`](Refusal::LastVersion).
    pub fn write(&mut self, i: usize, value: &[u8]) -> Result<Leaving<'_>, Refusal> {
        let lent = self.lent();
        let answer = raw::write(lent.me, lent.table, lent.store, i, value);
        lent.left(i, answer)
    }

    /// Takes over record `i`, invalid or invalid-write, from a last writer that was
    /// struck off. Timestamp and value stay, and an INV leaves with them, to all
    /// others in the view; the last acknowledgement ends it, as it ends a write.
    ///
    /// In invalid-write that writer had overtaken a write of this laptop's own.
    /// That one is given up: its value was overwritten when the other's INV came,
    /// and its acknowledgements no longer count.
    ///
    /// ```
    /// use cetskobi::{Laptop, Refusal, Rule};
    ///
    /// # fn main() -> Result<(), Refusal> {
    /// # let mut net = Laptop::start(0, 0b111, Rule::Lower, 1)?;
    /// # let mut hut = Laptop::start(1, 0b111, Rule::Lower, 1)?;
    /// # let mut tent = Laptop::start(2, 0b111, Rule::Lower, 1)?;
    /// // 0 and 2 of {0,1,2} save together. 0 has the later timestamp, and dies.
    /// let _earlier = tent.write(0, b"Wren")?;
    /// let later = net.write(0, b"Robin")?;
    /// let _ack = tent.deliver(later.arriving())?;
    /// assert_eq!(tent.replay(0), Err(Refusal::NotReplayable));
    ///
    /// // It is struck off, at both that are left, and 2 hands its text on.
    /// tent.change_view(1, 0b110)?;
    /// hut.change_view(1, 0b110)?;
    /// let inv = tent.replay(0)?;
    /// assert_eq!(inv.body(), b"Robin");
    /// let ack = hut.deliver(inv.arriving())?.leaving();
    /// let ack = ack.expect("an INV is acknowledged").into_owned();
    /// let val = tent.deliver(ack.arriving())?.leaving();
    /// let val = val.expect("1 was the last").into_owned();
    /// assert_eq!(hut.deliver(val.arriving())?.leaving(), None);
    /// assert_eq!(tent.read(0)?, b"Robin");
    /// assert_eq!(hut.read(0)?, b"Robin");
    /// # Ok(())
    /// # }
    /// ```
    ///
    /// # Errors
    ///
    /// Questions 1 to 5, then [`NotReplayable`](Refusal::NotReplayable).
    pub fn replay(&mut self, i: usize) -> Result<Leaving<'_>, Refusal> {
        let lent = self.lent();
        let answer = raw::replay(lent.me, lent.table, lent.store, i);
        lent.left(i, answer)
    }

    /// Ends the write or replay of record `i` after a change of view, where the
    /// last laptop that was missing was struck off: every other one of the view
    /// has acknowledged. A VAL leaves, to all of them.
    ///
    /// Nothing else needs it. The last acknowledgement ends a write or replay by
    /// itself ([`deliver`](Laptop::deliver)), and then there is nothing to validate.
    ///
    /// ```
    /// use cetskobi::{Laptop, Refusal, Rule};
    ///
    /// # fn main() -> Result<(), Refusal> {
    /// # let mut net = Laptop::start(0, 0b111, Rule::Lower, 1)?;
    /// # let mut hut = Laptop::start(1, 0b111, Rule::Lower, 1)?;
    /// // Of {0,1,2} only 2, which is dead, has not acknowledged.
    /// let inv = net.write(0, b"Wren")?;
    /// let ack = hut.deliver(inv.arriving())?.leaving();
    /// # let ack = ack.expect("an INV is acknowledged").into_owned();
    /// assert_eq!(net.deliver(ack.arriving())?.leaving(), None);
    /// assert_eq!(net.validate(0), Err(Refusal::NotFinished));
    ///
    /// net.change_view(1, 0b011)?;
    /// let val = net.validate(0)?;
    /// assert_eq!(val.recipients().to_string(), "{1}");
    /// # Ok(())
    /// # }
    /// ```
    ///
    /// # Errors
    ///
    /// Questions 1 to 5, then [`NotFinished`](Refusal::NotFinished).
    pub fn validate(&mut self, i: usize) -> Result<Leaving<'_>, Refusal> {
        let lent = self.lent();
        let answer = raw::validate(lent.me, lent.table, lent.store, i);
        lent.left(i, answer)
    }

    /// Sends the INV or VAL of record `i` again, in case it was lost.
    ///
    /// # Errors
    ///
    /// Questions 1 to 5, then [`NotResendable`](Refusal::NotResendable).
    pub fn resend(&mut self, i: usize) -> Result<Leaving<'_>, Refusal> {
        let lent = self.lent();
        let answer = raw::resend(lent.me, lent.table, lent.store, i);
        lent.left(i, answer)
    }

    /// Takes a message in. An INV is answered by an ACK, which goes to its sender.
    ///
    /// The last ACK that a write or replay waits for ends it: the record is
    /// valid, and a VAL leaves, to all others in the view. Any other ACK is
    /// counted, and nothing leaves; so is every ACK of a write that was overtaken
    /// (invalid-write). A VAL that comes makes the record valid, and nothing leaves.
    ///
    /// # Errors
    ///
    /// Questions 1 to 5, then [`OtherEpoch`](Refusal::OtherEpoch),
    /// [`OtherSender`](Refusal::OtherSender), [`IllFormed`](Refusal::IllFormed),
    /// and [`StrayAck`](Refusal::StrayAck) or [`StrayVal`](Refusal::StrayVal).
    pub fn deliver(&mut self, came: Arriving<'_>) -> Result<Reply<'_>, Refusal> {
        let lent = self.lent();
        let (envelope, i) = (came.envelope(), came.envelope().record);
        let message = envelope.to_raw();
        let answer = raw::deliver(lent.me, lent.table, lent.store, i, message, came.body());
        lent.replied(i, answer, envelope.sender)
    }

    /// Takes message `i` of a packet in: [`packet::fetch`] by this laptop's settings,
    /// then [`deliver`](Laptop::deliver), with what leaves there. The whole packet is
    /// judged first, at each call: for all of its messages there is
    /// [`deliver_next`](Laptop::deliver_next).
    ///
    /// # Errors
    ///
    /// Those of [`packet::fetch`], then those of [`deliver`](Laptop::deliver).
    pub fn deliver_packet(&mut self, packet: &[u8], i: usize) -> Result<Reply<'_>, Refusal> {
        let accepted = raw::accept(self.me.settings, packet);
        self.lent().arrival(packet, accepted, i).reply()
    }

    /// Takes the next message of a packet in, as [`deliver`](Laptop::deliver) does;
    /// None when there are no more. It takes constant time, as [`packet::messages`]
    /// has judged the packet. If it did so by other settings than this laptop's, the
    /// packet is judged again, and each of its messages answers what
    /// [`deliver_packet`](Laptop::deliver_packet) does, [`OtherRule`](Refusal::OtherRule).
    ///
    /// ```
    /// use cetskobi::{packet, Laptop, Leaving, Refusal};
    ///
    /// # fn came(hut: &mut Laptop, outbox: &mut Vec<Leaving>, bytes: &[u8]) -> Result<(), Refusal> {
    /// let mut messages = packet::messages(hut.settings(), bytes)?;
    /// while let Some(arrival) = hut.deliver_next(&mut messages) {
    ///     // A refused message is one message: go on with the next.
    ///     let Ok(reply) = arrival.reply() else { continue };
    ///     outbox.extend(reply.leaving().map(Leaving::into_owned));
    /// }
    /// # Ok(())
    /// # }
    /// ```
    ///
    /// The [`Arrival`] tells which message it was, also where it was refused. A
    /// greater epoch than this laptop's says that it missed a view.
    #[must_use = "a message that is not sent is heard by nobody"]
    pub fn deliver_next(&mut self, messages: &mut packet::Messages<'_>) -> Option<Arrival<'_>> {
        let (packet, accepted, i) = messages.advance_by(self.settings())?;
        Some(self.lent().arrival(packet, accepted, i))
    }

    fn lent(&mut self) -> Memory<'_> {
        Memory {
            me: self.me,
            table: self.table.as_mut(),
            store: self.store.as_mut(),
        }
    }
}

impl<T, S> Laptop<T, S> {
    /// The laptop's number, 0 to 15.
    pub fn number(&self) -> u8 {
        self.me.number
    }

    /// The epoch of its view.
    pub fn epoch(&self) -> u32 {
        self.me.epoch
    }

    /// The view.
    pub fn view(&self) -> Members {
        Members::from(self.me.view)
    }

    /// What was fixed at its group's start.
    pub fn settings(&self) -> Settings {
        Settings::from(self.me.settings)
    }

    /// Number, settings, view and epoch together.
    pub fn identity(&self) -> Replica {
        self.me
    }

    /// Takes the view that the warden issued for an epoch; no record changes, and the
    /// settings stay.
    ///
    /// # Errors
    ///
    /// [`NoGroup`](Refusal::NoGroup), [`StruckOff`](Refusal::StruckOff),
    /// [`OldEpoch`](Refusal::OldEpoch), [`ViewNotWithin`](Refusal::ViewNotWithin).
    /// A view without this laptop is accepted, and every later event refused
    /// as struck off.
    pub fn change_view(&mut self, epoch: u32, view: impl Into<Members>) -> Result<(), Refusal> {
        let admission = raw::view(self.me, epoch, view.into().bits());
        Refusal::check(admission.number)?;
        self.me = admission.replica;
        Ok(())
    }

    /// The laptop `me` on its table and store, as its last event left the three.
    ///
    /// ```
    /// use cetskobi::{Laptop, Refusal, Rule, State};
    ///
    /// # fn main() -> Result<(), Refusal> {
    /// let mut table = [0; 16];
    /// let mut store = [0; 192];
    /// let mut laptop = Laptop::start_in(0, 0b11, Rule::Lower, &mut table, &mut store)?;
    /// let inv = laptop.write(0, b"Wren")?.into_owned();
    /// let (me, _, _) = laptop.into_parts();
    ///
    /// // Between the events the memory is the caller's to keep, not to change.
    /// let laptop = Laptop::from_parts(me, &mut table, &mut store);
    /// assert_eq!(laptop.record(0).map(|r| r.state), Some(State::Write));
    /// assert_eq!(laptop.settings().rule, Rule::Lower);
    /// # Ok(())
    /// # }
    /// ```
    ///
    /// The identity's rule may be any byte, as in C; it is kept as 1 or 2.
    pub fn from_parts(mut me: Replica, table: T, store: S) -> Self {
        me.settings = Settings::from(me.settings).into();
        Laptop { me, table, store }
    }

    /// Gives identity, table and store back.
    pub fn into_parts(self) -> (Replica, T, S) {
        (self.me, self.table, self.store)
    }
}

impl<T: AsRef<[u8]>, S: AsRef<[u8]>> Laptop<T, S> {
    /// How many records it has.
    pub fn count(&self) -> usize {
        self.records().len()
    }

    /// Record `i`; None beyond the table, or where its bytes are no record.
    pub fn record(&self, i: usize) -> Option<Record> {
        self.records()
            .get(i)
            .and_then(|bytes| Record::from_bytes(*bytes))
    }

    /// The bytes of each record. Bytes over mean that there are no records.
    fn records(&self) -> &[[u8; RECORD_BYTES]] {
        match self.table().as_chunks() {
            (records, []) => records,
            _ => &[],
        }
    }

    /// Whether the laptop shows record `i`: a read of it is accepted.
    pub fn shows_valid(&self, i: usize) -> bool {
        self.read(i).is_ok()
    }

    /// The value of record `i`, to be shown. Who saves over it opens it by
    /// [`ask`](Laptop::ask).
    ///
    /// # Errors
    ///
    /// Questions 1 to 5, then [`NotReadable`](Refusal::NotReadable).
    pub fn read(&self, i: usize) -> Result<&[u8], Refusal> {
        let read = raw::read(self.me, self.table(), self.store(), i);
        Refusal::check(read.number)?;
        Ok(part(self.store(), i, read.len))
    }

    /// Opens record `i`: its value, and the timestamp that [`commit`](Laptop::commit)
    /// brings back. Nothing changes, and nobody else is kept from saving it.
    ///
    /// # Errors
    ///
    /// As [`read`](Laptop::read).
    pub fn ask(&self, i: usize) -> Result<Opened, Refusal> {
        let asked = raw::ask(self.me, self.table(), self.store(), i);
        Refusal::check(asked.number)?;
        let (version, tie) = (asked.version, asked.tie);
        Ok(Opened {
            record: i,
            timestamp: Timestamp { version, tie },
            text: part(self.store(), i, asked.len).to_vec(),
        })
    }

    /// The table: 16 bytes for each record.
    pub fn table(&self) -> &[u8] {
        self.table.as_ref()
    }

    /// The store: 192 bytes for each record.
    pub fn store(&self) -> &[u8] {
        self.store.as_ref()
    }
}

impl<T: AsRef<[u8]>, S: AsRef<[u8]>> fmt::Debug for Laptop<T, S> {
    fn fmt(&self, f: &mut fmt::Formatter<'_>) -> fmt::Result {
        f.debug_struct("Laptop")
            .field("number", &self.number())
            .field("rule", &self.settings().rule)
            .field("epoch", &self.epoch())
            .field("view", &format_args!("{}", self.view()))
            .field("count", &self.count())
            .finish_non_exhaustive()
    }
}

/// A laptop's identity and memory during one event.
struct Memory<'a> {
    me: Replica,
    table: &'a mut [u8],
    store: &'a mut [u8],
}

impl<'a> Memory<'a> {
    /// What leaves an event of this laptop's own on record `i`.
    fn left(self, i: usize, answer: Answer) -> Result<Leaving<'a>, Refusal> {
        let left = self.leaving(i, answer, 0)?;
        Ok(left.expect("a message leaves each of these events"))
    }

    /// What leaves the delivery of a message of this sender about record `i`.
    fn replied(self, i: usize, answer: Answer, sender: u8) -> Result<Reply<'a>, Refusal> {
        let leaving = self.leaving(i, answer, sender)?;
        Ok(Reply { leaving })
    }

    /// Delivers message `i` of a packet of which this is known.
    fn arrival(self, packet: &[u8], accepted: Accepted, i: usize) -> Arrival<'a> {
        let sys::Arrival {
            answer,
            epoch,
            sender,
            index,
        } = raw::deliver_accepted(self.me, self.table, self.store, packet, accepted, i);
        Arrival {
            sender,
            epoch,
            record: index,
            reply: self.replied(index, answer, sender),
        }
    }

    /// What leaves an event on record `i`; `sender` is that of the delivered message.
    fn leaving(
        self,
        record: usize,
        answer: Answer,
        sender: u8,
    ) -> Result<Option<Leaving<'a>>, Refusal> {
        Refusal::check(answer.number)?;
        let Some(message) = Message::of(answer.kind, answer.version, answer.tie) else {
            return Ok(None);
        };
        let envelope = Envelope {
            sender: self.me.number,
            epoch: self.me.epoch,
            record,
            message,
        };
        let len = raw::body(self.table, self.store, record, answer);
        Ok(Some(Leaving {
            envelope,
            body: part(self.store, record, len).into(),
            recipients: raw::recipients(self.me, answer.kind, sender).into(),
        }))
    }
}

/// The first bytes of record `i` in the store, as many as the engine said.
fn part(store: &[u8], i: usize, len: usize) -> &[u8] {
    &store[i * Record::VALUE_MAX..][..len]
}
