use std::fmt;

use cetskobi::raw::Settings;
use model::engine::Rule;
use model::packet;

use crate::crossing::{rule_of, settings_of};

/// What came of byte 0, in groups with each rule (02, Wish 6).
#[derive(Clone, Debug, Default)]
pub struct Heads {
    /// Neither refused by 20 nor by 27, under the old rule and under the new.
    pub own: [u64; 2],
    /// Refused by 27, by the rule, and by what the packet answers in a group that has
    /// the packet's own: 0, and 21 to 23.
    pub other: [[u64; 24]; 2],
    /// Refused by 20 though byte 0 names the other rule.
    pub early: u64,
    /// Refused by 20 for byte 0 alone, in the order of `NO_RULE`.
    pub no_rule: [u64; 3],
}

/// Bytes that name no rule.
const NO_RULE: [u8; 3] = [0, 3, 255];

impl Heads {
    /// What was asked for message `i` of this packet, in a group with these settings,
    /// gave this number.
    pub fn count(&mut self, settings: Settings, packet: &[u8], i: usize, number: u8) {
        let rule = rule_of(settings);
        let Some(&byte) = packet.first() else {
            return;
        };
        let named = Rule::of_byte(byte);
        match number {
            20 => {
                self.early += u64::from(named.is_some_and(|named| named != rule));
                if let Some(k) = NO_RULE.iter().position(|&other| other == byte) {
                    let mut mended = packet.to_vec();
                    mended[0] = settings_of(rule).rule;
                    let alone = answer(rule, &mended, i) != 20;
                    self.no_rule[k] += u64::from(alone);
                }
            }
            27 => {
                let behind = named.map_or(20, |named| answer(named, packet, i));
                self.other[rule as usize][usize::from(behind)] += 1;
            }
            _ => self.own[rule as usize] += 1,
        }
    }

    /// Each of these came so often: under each rule packets of its own and of the
    /// other, those in groups of their own with each of these answers and no other;
    /// 20 before 27; and 20 by byte 0 alone.
    pub fn often(&self, answers: &[usize], least: u64) {
        println!("{self}");
        assert!(self.own.iter().all(|&times| times >= least), "{self:?}");
        for by_answer in self.other {
            for (answer, times) in by_answer.into_iter().enumerate() {
                let right = match answers.contains(&answer) {
                    true => times >= least,
                    false => times == 0,
                };
                assert!(right, "27 before {answer}: {times} times, {self:?}");
            }
        }
        assert!(self.early >= least, "{self:?}");
        assert!(self.no_rule.iter().all(|&times| times >= least), "{self:?}");
    }
}

impl fmt::Display for Heads {
    fn fmt(&self, f: &mut fmt::Formatter<'_>) -> fmt::Result {
        for (rule, (own, other)) in Rule::ALL.iter().zip(self.own.iter().zip(self.other)) {
            write!(f, "{rule:?}: {own} of its own rule; of the other, by what they answer in their own group,")?;
            for (answer, times) in other.iter().enumerate().filter(|(_, times)| **times > 0) {
                write!(f, " {answer}:{times}")?;
            }
            writeln!(f)?;
        }
        let (early, [zero, three, last]) = (self.early, self.no_rule);
        write!(
            f,
            "20 before 27: {early}; by byte 0 alone: 0:{zero} 3:{three} 255:{last}"
        )
    }
}

/// By the model, of message `i`.
fn answer(rule: Rule, packet: &[u8], i: usize) -> u8 {
    model::engine::number(&packet::fetch(rule, packet, i))
}
