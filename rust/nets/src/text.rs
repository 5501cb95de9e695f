//! What ringers write: species, wing, weight, remarks. Who meets a bird again adds
//! to what stands there.

use std::str;

use cetskobi::Record;
use model::rng::Rng;

const SPECIES: [&str; 8] = [
    "Blue tit",
    "Great tit",
    "Robin",
    "Blackcap",
    "Chiffchaff",
    "Reed warbler",
    "Wren",
    "Dunnock",
];

const REMARKS: [&str; 8] = [
    "moulting",
    "fat 3",
    "brood patch",
    "ring worn",
    "juvenile",
    "ticks at the left ear",
    "tail feather grown anew",
    "flew well",
];

/// Between two captures of a bird.
const AFTER: &str = "; ";
/// Before the laptops of the saves that led to a text, a hexadecimal digit each.
const LED: &str = " (after ";
/// So many of them are named, the last ones.
const NAMED: usize = 64;
/// So many bytes at least stay of a text that is added to, for its first words.
const STAYS: usize = 50;

/// What is measured of a bird: at most 192 bytes.
pub(crate) fn of_bird(rng: &mut Rng, recapture: bool) -> String {
    let mut text = rng.pick(&SPECIES).unwrap_or_default().to_owned();
    text += &format!(
        ", wing {}, weight {}.{}",
        48 + rng.below(60),
        6 + rng.below(30),
        rng.below(10)
    );
    // Who adds to a text is brief.
    let remarks = if recapture { 3 } else { 9 };
    if recapture {
        text += ", met again";
    }
    for _ in 0..rng.below(remarks) {
        text += ", ";
        text += rng.pick(&REMARKS).unwrap_or_default();
    }
    text.truncate(Record::VALUE_MAX);
    text
}

/// How many captures a text tells of.
pub(crate) fn captures(text: &[u8]) -> usize {
    if text.is_empty() {
        return 0;
    }
    let text = str::from_utf8(text).unwrap_or_default();
    let last = text.rsplit(AFTER).next().unwrap_or_default();
    let number = last.split_once(": ").and_then(|(n, _)| n.parse().ok());
    number.unwrap_or(1)
}

/// How many of them it has in words: the others are left out, but for their number and
/// their laptop.
pub(crate) fn in_words(text: &[u8]) -> usize {
    match parts(text) {
        ("", _) => 0,
        (words, _) => words.split(AFTER).count(),
    }
}

/// What is saved over a text that was seen, and which this laptop had saved: that text,
/// and what was measured, under the number of the capture; at the end the laptops of the
/// saves before. Where it does not fit, old captures after the first are left out, and
/// then the first one's last remarks. So whatever was left out, the number and the
/// laptops tell on which text this one was made.
pub(crate) fn with(seen: &[u8], by: u8, measured: &str) -> Vec<u8> {
    if seen.is_empty() {
        return measured.into();
    }
    let (old, led) = parts(seen);
    let led = format!("{led}{by:x}");
    let led = format!("{LED}{})", &led[led.len().saturating_sub(NAMED)..]);
    let mut added = format!("{AFTER}{}: {measured}", captures(seen) + 1);
    added.truncate(Record::VALUE_MAX - STAYS - led.len());
    let room = Record::VALUE_MAX - added.len() - led.len();
    let mut old: Vec<&str> = old.split(AFTER).collect();
    while old.len() > 1 && old.join(AFTER).len() > room {
        old.remove(1);
    }
    let mut text = old.join(AFTER);
    text.truncate(room);
    (text + &added + &led).into_bytes()
}

/// A capture as a text names it: its number, and the laptop that saved it.
#[derive(Clone, Copy, Debug, PartialEq, Eq)]
pub(crate) struct Name {
    pub number: usize,
    pub laptop: u8,
}

/// The name of the newest capture of a text that this laptop saved.
pub(crate) fn newest(text: &[u8], by: u8) -> Name {
    Name {
        number: captures(text),
        laptop: by,
    }
}

/// Whether a text that this laptop saved tells of a capture. None if it is so old that
/// the text no longer names it.
pub(crate) fn tells(text: &[u8], by: u8, name: Name) -> Option<bool> {
    let newest = newest(text, by);
    if name.number >= newest.number {
        return Some(name == newest);
    }
    let (_, led) = parts(text);
    let back = newest.number - name.number;
    let laptop = led.chars().rev().nth(back - 1)?;
    Some(laptop.to_digit(16) == Some(name.laptop.into()))
}

/// The captures of a text, and the laptops of the saves that led to it.
fn parts(text: &[u8]) -> (&str, &str) {
    let text = str::from_utf8(text).unwrap_or_default();
    let (captures, led) = text.rsplit_once(LED).unwrap_or((text, ""));
    (captures, led.trim_end_matches(')'))
}

#[cfg(test)]
mod tests {
    use super::*;

    #[test]
    fn captures_are_added_and_counted() {
        let first = with(b"", 0, "Wren, wing 48");
        assert_eq!(first, b"Wren, wing 48");
        let second = with(&first, 4, "Wren, wing 49, met again");
        assert_eq!(
            second,
            b"Wren, wing 48; 2: Wren, wing 49, met again (after 4)"
        );
        let third = with(&second, 11, "Wren, wing 50");
        let right = b"Wren, wing 48; 2: Wren, wing 49, met again; 3: Wren, wing 50 (after 4b)";
        assert_eq!(third, right);
        for count in [captures, in_words] {
            let counted = [&b""[..], &first, &second, &third].map(count);
            assert_eq!(counted, [0, 1, 2, 3]);
        }
    }

    /// The first words and the newest capture stay, and so do the count and the laptops
    /// of the last saves.
    #[test]
    fn what_does_not_fit_is_left_out() {
        let mut rng = Rng::new(7);
        let mut text = Vec::new();
        let mut names: Vec<Name> = Vec::new();
        for n in 1..200 {
            let measured = of_bird(&mut rng, n % 3 > 0);
            let by = names.last().map_or(0, |name| name.laptop);
            text = with(&text, by, &measured);
            assert!(text.len() <= Record::VALUE_MAX);
            assert_eq!(captures(&text), n);
            let (said, _) = parts(&text);
            let ends = format!("{n}: {measured}");
            let newest = said.split(AFTER).last().expect("a capture");
            assert!(n == 1 || ends.starts_with(newest), "{said}");
            assert!(newest.contains("weight "), "{said}");
            assert!(said
                .split(AFTER)
                .next()
                .is_some_and(|w| w.contains("weight ")));
            let by = rng.below(16) as u8;
            names.push(super::newest(&text, by));
            for (m, name) in (1..).zip(&names) {
                let named = m + NAMED >= n;
                assert_eq!(tells(&text, by, *name), named.then_some(true));
                let laptop = name.laptop ^ 1;
                let other = Name { laptop, ..*name };
                assert_eq!(tells(&text, by, other), named.then_some(false));
            }
        }
        let full = with(&[b'x'; Record::VALUE_MAX], 15, "Wren");
        assert_eq!(full.len(), Record::VALUE_MAX);
        assert!(full.ends_with(b"xx; 2: Wren (after f)"));
        let long = "x".repeat(60);
        let two = with(&with(long.as_bytes(), 1, &long), 2, &long);
        assert!(two.ends_with(b"x (after 12)"));
        assert_eq!((captures(&two), in_words(&two)), (3, 2));
    }
}
