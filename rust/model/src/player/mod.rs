//! The playing program (01): a small group of one record, played from text.

mod group;
mod line;

use group::Group;
use line::Line;

/// The program reads at most this many bytes.
pub const INPUT_LIMIT: usize = 65_536;

/// What the program prints for this input. Only its first 65,536 bytes count; a
/// line cut there is a last line without line feed. Every printed line ends
/// with a line feed.
pub fn play(input: &[u8]) -> Vec<u8> {
    let input = &input[..input.len().min(INPUT_LIMIT)];
    let mut lines = input
        .split_inclusive(|&byte| byte == b'\n')
        .map(|line| line.strip_suffix(b"\n").unwrap_or(line));

    let mut out = Vec::with_capacity(input.len());
    let Some(size) = lines.next().and_then(line::group_size) else {
        out.extend_from_slice(b"?\n");
        return out;
    };
    let mut group = Group::new(size);
    for line in lines {
        match Line::parse(line).and_then(|line| group.play(&line)) {
            Some(outcome) => outcome.print(&mut out),
            None => out.extend_from_slice(b"?\n"),
        }
    }
    out
}
