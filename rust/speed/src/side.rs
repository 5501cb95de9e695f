//! The sides of a case, each with memory of its own and one call on it.

use std::fmt::Debug;
use std::hint::black_box;

/// What is compared of answers: document 01's number, and what came with it.
pub type Told = (u8, [usize; 3]);

/// An answer of any side.
pub trait Answers {
    fn told(&self) -> Told;
}

/// One side of a case.
pub trait Side {
    type Answer: Answers;

    /// Sets record `i` as the event is to find it.
    fn prepare(&mut self, i: usize);

    /// The call that is measured.
    fn call(&mut self, i: usize) -> Self::Answer;
}

/// A side out of its memory and two functions on it. All that a call is given
/// lies in the memory, so the compiler knows none of it.
pub struct On<S, P, C> {
    pub lent: S,
    pub prepare: P,
    pub call: C,
}

impl<S, A: Answers, P: Fn(&mut S, usize), C: Fn(&mut S, usize) -> A> Side for On<S, P, C> {
    type Answer = A;

    fn prepare(&mut self, i: usize) {
        (self.prepare)(&mut self.lent, i);
    }

    #[inline(always)]
    fn call(&mut self, i: usize) -> A {
        (self.call)(&mut self.lent, i)
    }
}

/// No side.
pub enum Nobody {}

impl Side for Nobody {
    type Answer = usize;

    fn prepare(&mut self, _: usize) {
        match *self {}
    }

    fn call(&mut self, _: usize) -> usize {
        match *self {}
    }
}

/// The calls on records `from` to `to`, and nothing else: callgrind counts
/// inside this function alone.
#[inline(never)]
pub fn measured_calls<S: Side>(side: &mut S, from: usize, to: usize) {
    for i in from..to {
        // The compiler knows neither what is lent nor what becomes of the answer, which stays where it is.
        let answer = black_box(&mut *side).call(i);
        black_box(&answer);
    }
}

/// A case that visits get: its name, its answer, and how many calls there are in a round.
#[derive(Clone, Copy, Debug)]
pub struct About {
    pub name: &'static str,
    /// What it is, for the table.
    pub title: &'static str,
    /// The records of the lent table.
    pub records: usize,
    /// Calls from `from` to `records` may be made once prepared.
    pub from: usize,
    /// Its cost does not grow with the table.
    pub flat: bool,
    /// What every call answers.
    pub answer: Told,
}

impl About {
    /// A call that is not measured, on a record prepared for it, answers as the
    /// case says. Otherwise something else would be measured.
    pub fn check(&self, side: &mut impl Side, i: usize) {
        side.prepare(i);
        let told = side.call(i).told();
        assert_eq!(told, self.answer, "{}: number, and what came", self.name);
    }

    /// Each of its calls.
    pub fn check_all(&self, side: &mut impl Side) {
        for i in self.from..self.records {
            self.check(side, i);
        }
    }
}
