//! The words of a line. One space parts them; a number has no leading zero and
//! fits its width.

/// A line that is known. Its replica and log number are still to be found.
pub(super) struct Line<'a> {
    pub(super) replica: usize,
    pub(super) event: Event<'a>,
}

pub(super) enum Event<'a> {
    Read,
    Validate,
    Replay,
    Resend,
    Write { text: &'a [u8] },
    Deliver { log: usize },
    View { epoch: u32, set: u16 },
}

impl<'a> Line<'a> {
    pub(super) fn parse(line: &'a [u8]) -> Option<Line<'a>> {
        let (word, rest) = split(line)?;
        // The replica's number ends at a space or with the line.
        let (replica, tail) = match split(rest) {
            Some((replica, tail)) => (replica, Some(tail)),
            None => (rest, None),
        };
        let event = match (word, tail) {
            (b"read", None) => Event::Read,
            (b"validate", None) => Event::Validate,
            (b"replay", None) => Event::Replay,
            (b"resend", None) => Event::Resend,
            (b"write", Some(text)) => Event::Write { text },
            (b"deliver", Some(log)) => Event::Deliver { log: number(log)? },
            (b"view", Some(words)) => {
                let (epoch, set) = split(words)?;
                Event::View {
                    epoch: number(epoch)?,
                    set: number(set)?,
                }
            }
            _ => return None,
        };
        let replica = number(replica)?;
        Some(Line { replica, event })
    }
}

/// Line one: `group` and 2 to 4.
pub(super) fn group_size(line: &[u8]) -> Option<u8> {
    match line {
        b"group 2" => Some(2),
        b"group 3" => Some(3),
        b"group 4" => Some(4),
        _ => None,
    }
}

/// A word and what follows its space.
fn split(text: &[u8]) -> Option<(&[u8], &[u8])> {
    let space = text.iter().position(|&byte| byte == b' ')?;
    Some((&text[..space], &text[space + 1..]))
}

/// The decimal number that is the whole text. One too large for its width is
/// none.
fn number<T: TryFrom<u64>>(text: &[u8]) -> Option<T> {
    if matches!(text, [] | [b'0', _, ..]) {
        return None;
    }
    let mut sum = 0u64;
    for byte in text {
        let digit = byte.checked_sub(b'0').filter(|&digit| digit <= 9)?;
        sum = sum.checked_mul(10)?.checked_add(u64::from(digit))?;
    }
    T::try_from(sum).ok()
}
