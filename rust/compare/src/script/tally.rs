//! What scripts come to, as it was printed.

use std::collections::{BTreeMap, BTreeSet};

use crate::bytes::Bytes;

/// How often each answer, state letter and log number was printed, and what
/// became of ACKs and of replays at invalid-write.
#[derive(Clone, Debug, Default)]
pub struct Tally {
    pub scripts: u64,
    pub lines: u64,
    pub words: BTreeMap<String, u64>,
}

impl Tally {
    pub(super) fn count(&mut self, lines: &[Bytes], printed: &[u8]) {
        self.scripts += 1;
        let printed = String::from_utf8_lossy(printed);
        let pair = lines.first().is_some_and(|line| line[..] == *b"group 2");
        let mut seen = Seen::default();
        // Line one prints nothing, unless it is wrong: then it prints alone.
        let lines = lines.get(1..).unwrap_or_default();
        let lines = lines.iter().map(|line| String::from_utf8_lossy(line));
        let lines = lines.chain(std::iter::repeat("".into()));
        for (line, printed) in lines.zip(printed.lines()) {
            self.lines += 1;
            let mut add = |word: &str| *self.words.entry(word.to_owned()).or_default() += 1;
            match printed.split(' ').collect::<Vec<_>>()[..] {
                [answer, state, _, _, log] => {
                    add(&format!("answer {answer}"));
                    add(&format!("state {state}"));
                    if log == "255" {
                        add("log 255");
                    }
                }
                _ => add(printed),
            }
            match seen.look(&line, printed) {
                // With two laptops every ACK is the last, of an overtaken write too.
                Some("last ACK at X") if !pair => {}
                Some(word) => add(word),
                None => {}
            }
        }
    }
}

/// What is known of a script's group from what was printed so far.
#[derive(Default)]
struct Seen {
    /// The state letter by laptop; none is V.
    states: BTreeMap<String, char>,
    /// Is it an ACK, by log number?
    log: Vec<bool>,
    /// Laptops in replay since invalid-write: their own write is given up.
    given_up: BTreeSet<String>,
}

impl Seen {
    /// Looks at a line and what it printed: what kind of ACK it delivered, or what
    /// replay it was, if the state and the log tell.
    fn look(&mut self, line: &str, printed: &str) -> Option<&'static str> {
        let words: Vec<&str> = line.split(' ').collect();
        let (event, laptop) = (words.first()?, words.get(1)?);
        let before = self.states.get(*laptop).copied().unwrap_or('V');
        let number = words.get(2).and_then(|log| log.parse::<usize>().ok());
        let is_ack = |log: usize| self.log.get(log).copied() == Some(true);
        let ack = *event == "deliver" && words.len() == 3 && number.is_some_and(is_ack);
        let [answer, state, _, _, log] = printed.split(' ').collect::<Vec<_>>()[..] else {
            // An ACK that is not the last needs no room.
            let known = ack && *printed == *"?" && matches!(before, 'W' | 'R');
            return known.then_some("last ACK without room");
        };
        let state = state.chars().next()?;
        self.states.insert(laptop.to_string(), state);
        let given_up = self.given_up.contains(*laptop);
        if state != 'R' {
            self.given_up.remove(*laptop);
        }
        if log != "-" {
            // What leaves with a delivery is an ACK, or the VAL of the last ACK.
            self.log.push(*event == "deliver" && !ack);
        }
        let sent = log != "-";
        match (before, state) {
            ('W', 'V') if ack && sent => Some("last ACK at W"),
            ('R', 'V') if ack && sent && given_up => Some("last ACK at R, once X"),
            ('R', 'V') if ack && sent => Some("last ACK at R"),
            ('X', 'X') if ack && !sent && answer == "0" => Some("last ACK at X"),
            // Its ACK leaves.
            ('R', 'I') if sent && given_up => Some("greater INV at R, once X"),
            ('X', 'X') if *event == "replay" && answer == "16" => Some("replay at X refused"),
            ('X', 'R') => {
                self.given_up.insert(laptop.to_string());
                Some("replay at X")
            }
            _ => None,
        }
    }
}
