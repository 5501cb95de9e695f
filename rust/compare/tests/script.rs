//! Scripts of the playing program, with wrong lines and at the limits.

use cetskobi::raw::Played;
use compare::script::{by_engine, by_model, compare, BEYOND};
use compare::settings::Settings;

/// What scripts can print. The other answers need what no script can make.
const WORDS: [&str; 25] = [
    "?",
    "answer 0",
    "answer 3",
    "answer 6",
    "answer 7",
    "answer 8",
    "answer 10",
    "answer 11",
    "answer 13",
    "answer 14",
    "answer 15",
    "answer 16",
    "answer 17",
    "answer 18",
    "answer 19",
    // Of ACKs: the last ones, and the last one at a full log.
    "last ACK at R",
    "last ACK at W",
    "last ACK at X",
    "last ACK without room",
    "log 255",
    "state I",
    "state R",
    "state V",
    "state W",
    "state X",
];

/// Document 02, Wish 2, more often: 1,986, 11,195, 965 and 385 were counted.
const MANY: [(&str, u64); 4] = [
    ("replay at X", 1400),
    ("replay at X refused", 7000),
    ("last ACK at R, once X", 600),
    ("greater INV at R, once X", 250),
];

#[test]
fn random_scripts() {
    let settings = Settings::from_env();
    match compare(&settings, by_model) {
        Ok(tally) => {
            println!("{} scripts, {} lines", tally.scripts, tally.lines);
            for (word, times) in &tally.words {
                println!("{times:8} {word}");
            }
            for (word, floor) in WORDS.map(|word| (word, 100)).into_iter().chain(MANY) {
                let times = tally.words.get(word).copied().unwrap_or(0);
                assert!(times >= floor, "{word}: only {times} times");
            }
        }
        Err(found) => panic!("{settings}\n{found}"),
    }
}

fn played(script: &[u8]) -> String {
    let mut out = vec![0; 25 * script.len() + 2];
    let mut other = out.clone();
    let written = by_engine(script, &mut out);
    assert_eq!(written, by_model(script, &mut other));
    assert_eq!((written.number, &out), (0, &other));
    String::from_utf8(out[..written.len].to_vec()).expect("text")
}

#[test]
fn the_papers_script() {
    let script = "group 3\nwrite 0 A1\ndeliver 1 0\ndeliver 2 0\ndeliver 0 1\ndeliver 0 2\n\
                  validate 0\ndeliver 1 3\nread 1\nread 2";
    // The fifth and the sixth answer are those of document 02, Wish 1.
    let printed = "0 W 1 0 0\n0 I 1 0 1\n0 I 1 0 2\n0 W 1 0 -\n0 V 1 0 3\n15 V 1 0 -\n0 V 1 0 -\n\
                   0 V 1 0 -\n6 I 1 0 -\n";
    assert_eq!(played(script.as_bytes()), printed);
    assert_eq!(played(format!("{script}\n").as_bytes()), printed);
}

/// Document 02, Wish 2: 0 and 2 save together, 2's save overtakes 0's, and 2 is
/// struck off.
#[test]
fn a_record_hung_after_two_saves() {
    let script = "group 3\nwrite 0 A\nwrite 2 B\ndeliver 1 0\ndeliver 0 2\ndeliver 0 1\nreplay 0\n\
                  view 0 1 3\nreplay 0\ndeliver 0 2\nview 1 1 3\nreplay 1\ndeliver 1 4\ndeliver 0 5\n\
                  deliver 1 6\nread 0\nread 1";
    let printed = "0 W 1 0 0\n0 W 1 2 1\n0 I 1 0 2\n0 W 1 0 -\n0 X 1 2 3\n16 X 1 2 -\n\
                   0 X 1 2 -\n0 R 1 2 4\n10 R 1 2 -\n0 I 1 0 -\n16 I 1 0 -\n0 I 1 2 5\n0 V 1 2 6\n\
                   0 V 1 2 -\n0 V 1 2 -\n0 V 1 2 -\n";
    assert_eq!(played(script.as_bytes()), printed);
}

/// Document 02, Wish 6: the program keeps the old rule. 0 and 1 save together, and the
/// tie goes to the higher number on both.
#[test]
fn a_tie_by_the_old_rule() {
    let script = "group 2\nwrite 0 A\nwrite 1 B\ndeliver 1 0\ndeliver 0 1\n\
                  deliver 0 2\ndeliver 1 3\ndeliver 0 4\nread 0\nread 1";
    let printed = "0 W 1 0 0\n0 W 1 1 1\n0 W 1 1 2\n0 X 1 1 3\n0 X 1 1 -\n0 V 1 1 4\n0 V 1 1 -\n\
                   0 V 1 1 -\n0 V 1 1 -\n";
    assert_eq!(played(script.as_bytes()), printed);
}

/// Document 02, Wish 5, gives the program no new line.
#[test]
fn no_line_asks_or_commits() {
    let script = "group 3\nask 0\ncommit 0\ncommit 0 text\ncommit 0 0 0 text\nask 0 0\nask\n\
                  write 0 A\nask 0\nask 1\ncommit 1 0 0 B\nread 1";
    let printed = "?\n?\n?\n?\n?\n?\n0 W 1 0 0\n?\n?\n?\n0 V 0 0 -\n";
    assert_eq!(played(script.as_bytes()), printed);
}

#[test]
fn limits() {
    // 65,536 bytes of line feeds and of reads; one byte more is beyond.
    let mut feeds = b"group 2\n".to_vec();
    feeds.resize(65_536, b'\n');
    assert_eq!(played(&feeds).len(), 2 * (65_536 - 8));
    let reads = [&b"group 2\n"[..], &b"read 0\n".repeat(9361)].concat();
    assert_eq!(reads.len(), 65_535);
    assert_eq!(played(&reads), "0 V 0 0 -\n".repeat(9361));

    feeds.push(b'\n');
    let mut out = vec![3; 2_000_000];
    let written = by_engine(&feeds, &mut out);
    assert_eq!((written.number, written.len), (BEYOND, 0));
    assert!(out.iter().all(|&byte| byte == 3));

    // The log holds 256; a message more has no room.
    let resends = ["group 2\nwrite 0 x\n", &"resend 0\n".repeat(257)].concat();
    let printed = played(resends.as_bytes());
    let lines: Vec<&str> = printed.lines().collect();
    assert_eq!(lines[255..], ["0 W 1 0 255", "?", "?"]);
}

/// The last ACK sends a VAL: with 255 messages in the log there is room for it,
/// with 256 it is not counted either.
#[test]
fn the_last_ack_at_the_limit() {
    let tail = "deliver 0 1\ndeliver 0 1\nvalidate 0\nread 0";
    let last = |resends| {
        let resends = "resend 0\n".repeat(resends);
        let script = format!("group 2\nwrite 0 x\ndeliver 1 0\n{resends}{tail}");
        let printed = played(script.as_bytes());
        let lines: Vec<String> = printed.lines().map(str::to_owned).collect();
        lines[lines.len() - 5..].to_vec()
    };
    let room = [
        "0 W 1 0 254",
        "0 V 1 0 255",
        "13 V 1 0 -",
        "15 V 1 0 -",
        "0 V 1 0 -",
    ];
    assert_eq!(last(253), room);
    assert_eq!(
        last(254),
        ["0 W 1 0 255", "?", "?", "15 W 1 0 -", "6 W 1 0 -"]
    );
}

/// Wrong players are found, by short scripts.
#[test]
fn wrong_players() {
    fn change(script: &[u8], out: &mut [u8], from: &str, to: &str) -> Played {
        let answer = by_model(script, out);
        let printed = String::from_utf8_lossy(&out[..answer.len]).replace(from, to);
        let len = printed.len();
        out[..len].copy_from_slice(printed.as_bytes());
        Played { len, ..answer }
    }
    // Log numbers of 10 and more.
    fn logs(script: &[u8], out: &mut [u8]) -> Played {
        change(script, out, " 10\n", " 11\n")
    }
    fn states(script: &[u8], out: &mut [u8]) -> Played {
        change(script, out, " X ", " I ")
    }
    fn text(script: &[u8], out: &mut [u8]) -> Played {
        change(script, out, "8 V", "7 V")
    }
    for (wrong, lines) in [
        // 12 lines would do: the group, a write and ten resends. The shrinker, which only
        // drops, stops at two more: two views, which log nothing, of a replay from invalid-write.
        (logs as fn(&[u8], &mut [u8]) -> Played, 14),
        (states, 8),
        (text, 2),
    ] {
        let found = compare(&Settings::USUAL, wrong).expect_err("a difference");
        println!("{found}");
        assert!(found.shrunk.lines.len() <= lines);
    }
}
