//! Lesser cases: numbers, alone and together, values and bytes.

use cetskobi::raw::RECORD_BYTES;
use model::engine::bit;

use super::{Case, Event};
use crate::shrink::{drops, less, plainer, Number, Smaller};

impl Smaller for Case {
    fn smaller(&self) -> Box<dyn Iterator<Item = Case> + '_> {
        let whole = self.whole().chain(self.lesser_numbers());
        Box::new(whole.chain(self.lesser_value()).chain(self.lesser_slot()))
    }
}

impl Case {
    fn with(&self, change: impl FnOnce(&mut Case)) -> Case {
        let mut case = self.clone();
        change(&mut case);
        case
    }

    /// What belongs together becomes less together.
    fn whole(&self) -> impl Iterator<Item = Case> + '_ {
        let lend = |records, over| {
            self.with(|case| {
                case.i = 0;
                case.lend(records);
                case.table += over;
            })
        };
        let over = lend(1, self.table % RECORD_BYTES);
        let whole = [lend(1, 0), lend(2, 0), over, self.with(Case::renumber)];
        let sum = |case: &Case| case.all().iter().map(|&n| u128::from(n)).sum::<u128>();
        whole.into_iter().filter(move |case| sum(case) < sum(self))
    }

    /// The least replica, in a view with the next. Where replica 0 is counted,
    /// the one that gave its number away is counted for it.
    fn renumber(&mut self) {
        let away = self.me.number;
        (self.me.number, self.me.view) = (0, 3);
        let zero = self.record.acks & 1 != 0;
        self.record.acks &= !(1 | bit(away));
        if zero && away != 0 {
            self.record.acks |= bit(away);
        }
        if let Event::Deliver { message, .. } = &mut self.event {
            message.sender = 1;
        }
    }

    /// Each number alone, and two that are equal together. Steps by one come
    /// last: a great number would go down by them alone.
    fn lesser_numbers(&self) -> impl Iterator<Item = Case> + '_ {
        let numbers = self.all();
        let count = numbers.len();
        let pairs = (0..count).flat_map(|k| (k..count).map(move |l| (k, l)));
        let equal = pairs.filter(|&(k, l)| numbers[k] == numbers[l]);
        let equal: Vec<_> = equal.map(|(k, l)| (k, l, numbers[k])).collect();
        let lesser = |by_one: bool| {
            equal.clone().into_iter().flat_map(move |(k, l, number)| {
                let lesser = less(number).filter(move |n| (n + 1 == number) == by_one);
                lesser.map(move |n| (k, l, n))
            })
        };
        lesser(false).chain(lesser(true)).map(|(k, l, number)| {
            self.with(|case| {
                let mut numbers = case.numbers();
                numbers[k].set(number);
                numbers[l].set(number);
            })
        })
    }

    fn lesser_value(&self) -> impl Iterator<Item = Case> + '_ {
        let value = self.event.value().map_or(&[][..], |value| &value[..]);
        let values = drops(value).chain(plainer(value));
        let values = values.filter(move |other| other != value);
        values.map(|other| {
            self.with(|case| {
                if let Some(value) = case.event.value_mut() {
                    value.0 = other;
                }
            })
        })
    }

    fn lesser_slot(&self) -> impl Iterator<Item = Case> + '_ {
        let slots = plainer(&self.slot).filter(|slot| *slot != *self.slot);
        slots.map(|slot| self.with(|case| case.slot.0 = slot))
    }

    fn all(&self) -> Vec<u64> {
        let mut case = self.clone();
        let numbers = case.numbers();
        numbers.iter().map(Number::get).collect()
    }

    /// Every number of the case.
    fn numbers(&mut self) -> Vec<Number<'_>> {
        let mut all = vec![
            Number::Size(&mut self.part),
            Number::Size(&mut self.i),
            Number::Size(&mut self.table),
            Number::Size(&mut self.store),
            Number::Byte(&mut self.me.number),
            Number::Byte(&mut self.me.settings.rule),
            Number::Short(&mut self.me.view),
            Number::Word(&mut self.me.epoch),
        ];
        all.extend([
            Number::Byte(&mut self.record.state),
            Number::Byte(&mut self.record.tie),
            Number::Byte(&mut self.record.writer),
            Number::Byte(&mut self.record.written_tie),
            Number::Word(&mut self.record.version),
            Number::Word(&mut self.record.written_version),
            Number::Short(&mut self.record.acks),
            Number::Byte(&mut self.record.len),
            Number::Byte(&mut self.record.unused),
        ]);
        match &mut self.event {
            Event::View { epoch, set } => all.extend([Number::Word(epoch), Number::Short(set)]),
            Event::Commit { opened, .. } => {
                all.extend([Number::Word(&mut opened.0), Number::Byte(&mut opened.1)])
            }
            Event::Deliver { message, .. } => all.extend([
                Number::Byte(&mut message.kind),
                Number::Byte(&mut message.sender),
                Number::Byte(&mut message.tie),
                Number::Word(&mut message.epoch),
                Number::Word(&mut message.version),
            ]),
            _ => {}
        }
        all
    }
}
