//! The playing program.

use model::player::play;
use model::rng::Rng;

use crate::support::rng;

/// The lines that these lines print.
fn lines(input: &[&str]) -> Vec<String> {
    text(input.join("\n").as_bytes())
}

fn text(input: &[u8]) -> Vec<String> {
    let out = String::from_utf8(play(input)).expect("text");
    assert!(out.is_empty() || out.ends_with('\n'));
    out.lines().map(str::to_owned).collect()
}

const EXAMPLE: [&str; 10] = [
    "group 3",
    "write 0 A1",
    "deliver 1 0",
    "deliver 2 0",
    "deliver 0 1",
    "deliver 0 2",
    "validate 0",
    "deliver 1 3",
    "read 1",
    "read 2",
];

#[test]
fn the_papers_example() {
    // The fifth and the sixth answer are those of Wish 1.
    let printed = "0 W 1 0 0\n0 I 1 0 1\n0 I 1 0 2\n0 W 1 0 -\n0 V 1 0 3\n\
                   15 V 1 0 -\n0 V 1 0 -\n0 V 1 0 -\n6 I 1 0 -\n";
    let input = EXAMPLE.join("\n");
    assert_eq!(play(input.as_bytes()), printed.as_bytes());
    assert_eq!(play((input + "\n").as_bytes()), printed.as_bytes());
}

#[test]
fn line_one() {
    for good in ["group 2", "group 3\n", "group 4"] {
        assert_eq!(play(good.as_bytes()), b"");
    }
    let wrong: [&[u8]; 16] = [
        b"",
        b"\n",
        b"\ngroup 3",
        b"group",
        b"group ",
        b"group 1",
        b"group 5",
        b"group 03",
        b"group  3",
        b" group 3",
        b"group 3 ",
        b"group 3\r\nread 0",
        b"group 13\nread 0",
        b"Group 3\nread 0\nread 1",
        b"read 0\ngroup 3\nread 0",
        b"group 4294967298",
    ];
    for input in wrong {
        assert_eq!(play(input), b"?\n");
    }
}

#[test]
fn unknown_lines() {
    let unknown = [
        "",
        " ",
        "read",
        "read ",
        "read  0",
        "read 0 ",
        "read 0 0",
        " read 0",
        "read 00",
        "read 01",
        "read +1",
        "read -1",
        "read 2",
        "read 256",
        "read 65536",
        "read 4294967296",
        "read 18446744073709551616",
        "read 0\r",
        "read\t0",
        "READ 0",
        "reads 0",
        "group 2",
        "write",
        "write 0",
        "write 2 text",
        "write  0 text",
        "write 00 text",
        "validate",
        "validate 0 0",
        "replay 9",
        "resend x",
        "deliver 0",
        "deliver 0 0",
        "deliver 0 ",
        "deliver 0 0 0",
        "deliver 0 18446744073709551616",
        "view 0",
        "view 0 1",
        "view 0 1 ",
        "view 0 1 3 ",
        "view 0 1 3 3",
        "view 0 01 3",
        "view 0 1 03",
        "view 0 4294967296 3",
        "view 0 1 65536",
        "view 2 1 3",
        // 02, Wish 5, gave it no new line.
        "ask 0",
        "ask 0 ",
        "commit 0",
        "commit 0 text",
        "commit 0 0 0 text",
    ];
    for line in unknown {
        let printed = lines(&["group 2", line, "resend 0"]);
        assert_eq!(printed, ["?", "0 V 0 0 0"], "{line:?}");
    }
}

#[test]
fn widths() {
    let printed = lines(&[
        "group 2",
        "view 0 4294967295 65535",
        "view 0 0 65535",
        "view 0 4294967295 3",
        "view 0 4294967295 3",
        "view 1 1 1",
        "view 1 1 2",
        "view 1 1 0",
        "view 1 1 3",
    ]);
    let expected = [
        "19 V 0 0 -",
        "18 V 0 0 -",
        "0 V 0 0 -",
        "18 V 0 0 -",
        "19 V 0 0 -",
        "19 V 0 0 -",
        "19 V 0 0 -",
        "0 V 0 0 -",
    ];
    assert_eq!(printed, expected);
}

#[test]
fn all_states() {
    let printed = lines(&[
        "group 3",
        "write 2 a",
        "write 0 b",
        "deliver 1 0",
        "deliver 0 0",
        "deliver 1 0",
        "view 1 1 3",
        "replay 0",
        "view 0 1 3",
        "replay 1",
        "deliver 0 5",
        "deliver 1 6",
        "validate 1",
        "replay 1",
        "deliver 0 7",
        "read 0",
        "replay 0",
        "resend 1",
        "view 2 2 3",
        "read 2",
        "resend 2",
        "validate 2",
    ]);
    let expected = [
        "0 W 1 2 0",
        "0 W 1 0 1",
        "0 I 1 2 2",
        "0 X 1 2 3",
        "0 I 1 2 4",
        "0 I 1 2 -",
        "16 X 1 2 -",
        "0 X 1 2 -",
        "0 R 1 2 5",
        "0 X 1 2 6",
        "0 V 1 2 7",
        "15 V 1 2 -",
        "16 V 1 2 -",
        "0 V 1 2 -",
        "0 V 1 2 -",
        "16 V 1 2 -",
        "0 V 1 2 8",
        "0 W 1 2 -",
        "3 W 1 2 -",
        "3 W 1 2 -",
        "3 W 1 2 -",
    ];
    assert_eq!(printed, expected);
}

/// 02, Wish 2: 0 and 2 save together, and 2, which wins the tie, dies. Only 0
/// holds its text. Messages 0 to 3 are the two INVs and the two ACKs.
#[test]
fn two_saves() {
    let printed = lines(&[
        "group 3",
        "write 0 own",
        "write 2 winner",
        "deliver 1 0",
        "deliver 0 1",
        "deliver 0 2",
        "replay 0",
        "view 0 1 3",
        "view 1 1 3",
        "replay 1",
        "resend 0",
        "replay 0",
        "replay 0",
        "write 0 again",
        "validate 0",
        "deliver 0 2",
        "deliver 1 4",
        "deliver 0 5",
        "deliver 1 6",
        "read 0",
        "read 1",
        "resend 0",
    ]);
    let expected = [
        "0 W 1 0 0",
        "0 W 1 2 1",
        "0 I 1 0 2",
        "0 X 1 2 3",
        // 1's ACK of what 0 saved.
        "0 X 1 2 -",
        // 2 is still in the view.
        "16 X 1 2 -",
        "0 X 1 2 -",
        "0 I 1 0 -",
        // 1's last writer is 0.
        "16 I 1 0 -",
        "17 X 1 2 -",
        "0 R 1 2 4",
        "16 R 1 2 -",
        "7 R 1 2 -",
        // That ACK was for the save given up.
        "15 R 1 2 -",
        "10 R 1 2 -",
        "0 I 1 2 5",
        "0 V 1 2 6",
        "0 V 1 2 -",
        "0 V 1 2 -",
        "0 V 1 2 -",
        "0 V 1 2 7",
    ];
    assert_eq!(printed, expected);
}

/// The same where all who are left have saved: both replay at once.
#[test]
fn three_saves() {
    let printed = lines(&[
        "group 3",
        "write 0 a",
        "write 1 b",
        "write 2 winner",
        "deliver 0 2",
        "deliver 1 2",
        "view 0 1 3",
        "view 1 1 3",
        "replay 0",
        "replay 1",
        "deliver 1 5",
        "deliver 0 6",
        "deliver 0 7",
        "deliver 1 8",
        "deliver 1 9",
        "deliver 0 10",
        "read 0",
        "read 1",
    ]);
    let expected = [
        "0 W 1 0 0",
        "0 W 1 1 1",
        "0 W 1 2 2",
        "0 X 1 2 3",
        "0 X 1 2 4",
        "0 X 1 2 -",
        "0 X 1 2 -",
        "0 R 1 2 5",
        "0 R 1 2 6",
        "0 R 1 2 7",
        "0 R 1 2 8",
        "0 V 1 2 9",
        "0 V 1 2 10",
        // Both were the last ACK's.
        "14 V 1 2 -",
        "14 V 1 2 -",
        "0 V 1 2 -",
        "0 V 1 2 -",
    ];
    assert_eq!(printed, expected);
}

#[test]
fn texts() {
    let full = format!("write 0 {}", "x".repeat(192));
    let long = format!("write 1 {}", "x".repeat(193));
    let printed = lines(&["group 2", &full, &long, "write 1 "]);
    assert_eq!(printed, ["0 W 1 0 0", "8 V 0 0 -", "0 W 1 1 1"]);
    // Any bytes up to the line feed, spaces at both ends among them.
    let printed = text(b"group 2\nwrite 0  a \r\0\xff 0 \nread 0");
    assert_eq!(printed, ["0 W 1 0 0", "6 W 1 0 -"]);
    // A refused write is judged by 7 before its text.
    let long = format!("write 0 {}", "x".repeat(193));
    let printed = lines(&["group 2", "write 0 a", &long]);
    assert_eq!(printed[1], "7 W 1 0 -");
}

/// These lines, which leave some messages, and so many resends that the log
/// holds `messages`; then the tail's lines, and what these print.
fn with_messages(messages: usize, head: &[&str], tail: &[&str]) -> Vec<String> {
    let left = lines(head).iter().filter(|p| !p.ends_with('-')).count();
    let mut input = head.to_vec();
    input.extend(vec!["resend 0"; messages - left]);
    let filled = lines(&input);
    let last = filled.last().expect("a line");
    assert!(last.ends_with(&format!(" {}", messages - 1)), "{last}");
    input.extend(tail);
    lines(&input)[filled.len()..].to_vec()
}

#[test]
fn a_full_log() {
    let head = ["group 2", "write 0 a", "deliver 1 0"];
    let tail = [
        // Accepted, but its message has no room.
        "resend 0",
        "deliver 1 2",
        "write 1 b",
        // Refused, unknown, or with no message.
        "read 0",
        "write 0 b",
        "validate 0",
        "deliver 0 0",
        "deliver 0 256",
        "read 1",
        "view 0 1 3",
        "deliver 0 0",
    ];
    let expected = [
        "?",
        "?",
        "?",
        "6 W 1 0 -",
        "7 W 1 0 -",
        "15 W 1 0 -",
        "11 W 1 0 -",
        "?",
        "6 I 1 0 -",
        "0 W 1 0 -",
        "10 W 1 0 -",
    ];
    assert_eq!(with_messages(256, &head, &tail), expected);
}

/// The last ACK sends a VAL. Without room for it the ACK is not counted either:
/// it is not refused the second time, and Validate finds it missing.
#[test]
fn the_last_ack_and_a_full_log() {
    let head = ["group 2", "write 0 a", "deliver 1 0"];
    let tail = ["deliver 0 1", "deliver 0 1", "validate 0", "read 0"];
    let room = ["0 V 1 0 255", "13 V 1 0 -", "15 V 1 0 -", "0 V 1 0 -"];
    assert_eq!(with_messages(255, &head, &tail), room);
    let full = ["?", "?", "15 W 1 0 -", "6 W 1 0 -"];
    assert_eq!(with_messages(256, &head, &tail), full);

    // A replay's.
    let head = [
        "group 3",
        "write 2 a",
        "deliver 0 0",
        "view 0 1 3",
        "view 1 1 3",
        "replay 0",
        "deliver 1 2",
    ];
    let tail = ["deliver 0 3", "deliver 0 3", "validate 0"];
    let room = ["0 V 1 2 255", "13 V 1 2 -", "15 V 1 2 -"];
    assert_eq!(with_messages(255, &head, &tail), room);
    let full = ["?", "?", "15 R 1 2 -"];
    assert_eq!(with_messages(256, &head, &tail), full);
}

/// An ACK that is not the last sends nothing, nor does the last one of an
/// overtaken write: a full log takes them.
#[test]
fn other_acks_and_a_full_log() {
    let head = ["group 3", "write 0 a", "deliver 1 0", "deliver 2 0"];
    let tail = ["deliver 0 1", "deliver 0 1", "deliver 0 2"];
    let room = ["0 W 1 0 -", "13 W 1 0 -", "0 V 1 0 255"];
    assert_eq!(with_messages(255, &head, &tail), room);
    let full = ["0 W 1 0 -", "13 W 1 0 -", "?"];
    assert_eq!(with_messages(256, &head, &tail), full);

    // Both write, 1 with the greater stamp; message 2 is 1's ACK. The last room
    // in the log is taken by 0's ACK, which overtakes its own write.
    let mut input = vec!["group 2", "write 0 a", "write 1 b", "deliver 1 0"];
    input.extend(["resend 0"; 252]);
    input.extend(["deliver 0 1", "deliver 0 2", "deliver 0 2", "validate 0"]);
    let printed = lines(&input);
    let last = ["0 X 1 1 255", "0 X 1 1 -", "13 X 1 1 -", "15 X 1 1 -"];
    assert_eq!(printed[printed.len() - 4..], last);
}

/// A replay's INV needs room too: without it, the overtaken save is not given
/// up. 1 is overtaken; 0's VALs fill the log.
#[test]
fn a_replay_and_a_full_log() {
    let head = [
        "group 3",
        "write 1 own",
        "write 2 winner",
        "deliver 1 1",
        "view 1 1 3",
    ];
    let tail = ["replay 1", "replay 1", "read 1"];
    let room = ["0 R 1 2 255", "16 R 1 2 -", "6 R 1 2 -"];
    assert_eq!(with_messages(255, &head, &tail), room);
    assert_eq!(with_messages(256, &head, &tail), ["?", "?", "6 X 1 2 -"]);
}

/// The separate validation is still the way once the last missing laptop is
/// struck off, and its VAL needs room as before.
#[test]
fn validate_and_a_full_log() {
    let head = [
        "group 3",
        "write 0 a",
        "deliver 1 0",
        "deliver 0 1",
        "view 0 1 3",
    ];
    let tail = ["validate 0", "validate 0"];
    let room = ["0 V 1 0 255", "15 V 1 0 -"];
    assert_eq!(with_messages(255, &head, &tail), room);
    assert_eq!(with_messages(256, &head, &tail), ["?", "?"]);
}

#[test]
fn a_logged_text_stays_as_it_left() {
    // 1 writes over the text; message 0 still carries the first.
    let printed = lines(&[
        "group 3",
        "write 0 first",
        "deliver 1 0",
        "write 1 second",
        "deliver 0 2",
        "deliver 2 0",
        "deliver 2 2",
        "deliver 2 0",
    ]);
    let expected = [
        "0 W 1 0 0",
        "0 I 1 0 1",
        "0 W 2 1 2",
        "0 X 2 1 3",
        "0 I 1 0 4",
        "0 I 2 1 5",
        "0 I 2 1 6",
    ];
    assert_eq!(printed, expected);
}

#[test]
fn only_65536_bytes_count() {
    // 8 bytes, 9,361 lines of 7 bytes, and one byte of the next line.
    let mut input = b"group 2\n".to_vec();
    while input.len() < 65_600 {
        input.extend_from_slice(b"read 0\n");
    }
    let printed = text(&input);
    assert_eq!(printed.len(), 9362);
    assert_eq!(printed[9360], "0 V 0 0 -");
    assert_eq!(printed[9361], "?");

    // A text cut at the limit is a shorter text: 192 bytes here.
    let mut input = b"group 2\n".to_vec();
    let end = 65_536 - "write 0 ".len() - 192;
    while input.len() + 7 <= end {
        input.extend_from_slice(b"read 0\n");
    }
    input.resize(end, b'\n');
    input.extend_from_slice(b"write 0 ");
    input.extend_from_slice(&[b'x'; 500]);
    assert_eq!(text(&input).last().expect("a line"), "0 W 1 0 0");
    input.remove(8);
    assert_eq!(text(&input).last().expect("a line"), "8 V 0 0 -");
}

fn some_line(rng: &mut Rng) -> String {
    let replica = rng.below(5);
    let log = rng.below(40);
    match rng.below(12) {
        0 => format!("read {replica}"),
        1 => format!("write {replica} text {log}"),
        2 => format!("replay {replica}"),
        3 => format!("resend {replica}"),
        4 | 5 => format!("validate {replica}"),
        6 => format!("view {replica} {} {}", rng.below(4), rng.below(18)),
        7 => format!("{log} nonsense"),
        _ => format!("deliver {replica} {log}"),
    }
}

/// Each line prints one line, and what is printed does not depend on what
/// follows.
#[test]
fn random_lines() {
    let mut rng = rng();
    for _ in 0..300 {
        let mut input = format!("group {}\n", 2 + rng.below(3));
        let count = rng.below(100);
        let mut cut = input.len();
        for _ in 0..count {
            if rng.chance(1, 10) {
                cut = input.len();
            }
            input += &some_line(&mut rng);
            input.push('\n');
        }
        let whole = play(input.as_bytes());
        let printed = whole.iter().filter(|&&byte| byte == b'\n').count();
        assert_eq!(printed, count);
        assert!(whole.starts_with(&play(&input.as_bytes()[..cut])));
    }
}

#[test]
fn random_input() {
    let mut rng = rng();
    let bytes = b"readwritvlpsy 0123456789\n\n\n\0\xff";
    for _ in 0..2000 {
        let mut input = b"group 2\n".to_vec();
        for _ in 0..rng.below(200) {
            input.extend(rng.pick(bytes));
        }
        let fed = input.iter().filter(|&&byte| byte == b'\n').count();
        let unended = usize::from(input.last() != Some(&b'\n'));
        let printed = play(&input).iter().filter(|&&byte| byte == b'\n').count();
        assert_eq!(printed, fed + unended - 1);
    }
}
