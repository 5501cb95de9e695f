//! The cases of the playing program.

use cetskobi::sys::{self, Played};

use crate::cases::{number, other, Visit};
use crate::side::{About, Answers, Nobody, On, Told};

/// Document 01's example.
const EXAMPLE: &str = "group 3\nwrite 0 A1\ndeliver 1 0\ndeliver 2 0\ndeliver 0 1\ndeliver 0 2\nvalidate 0\ndeliver 1 3\nread 1\nread 2\n";

/// 30 writes with all their deliveries, which fill the log to 240, and then
/// reads and repeated deliveries up to 65,536 bytes. Each write ends with its
/// last ACK; the `validate` after it is refused.
fn long() -> String {
    let mut script = String::from("group 4\n");
    for round in 0..30 {
        let log = 8 * round;
        let writer = round % 4;
        script += &format!("write {writer} wing 62, round {round}\n");
        for other in (0..4).filter(|&k| k != writer) {
            script += &format!("deliver {other} {log}\n");
        }
        for ack in 1..4 {
            script += &format!("deliver {writer} {}\n", log + ack);
        }
        script += &format!("validate {writer}\n");
        for other in (0..4).filter(|&k| k != writer) {
            script += &format!("deliver {other} {}\nread {other}\n", log + 4);
        }
        script += &format!("resend {writer}\nresend {writer}\nresend {writer}\n");
    }
    for k in 0.. {
        let line = match k % 4 {
            0 => format!("read {}\n", k / 4 % 4),
            1 => format!("deliver {} {}\n", k / 4 % 4, k % 240),
            2 => format!("validate {}\n", k / 4 % 4),
            _ => format!("write {} \n", 9),
        };
        if script.len() + line.len() > 65_536 {
            break;
        }
        script += &line;
    }
    script
}

pub fn all(visit: &mut impl Visit) {
    play(
        other("play", "player, document 01's example", 1, number(91)),
        EXAMPLE,
        visit,
    );
    play(
        other(
            "play-long",
            "player, 65,536 bytes of script",
            1,
            number(60_036),
        ),
        &long(),
        visit,
    );
}

fn play(about: About, script: &str, visit: &mut impl Visit) {
    let script = script.as_bytes().to_vec();
    let room = 25 * script.len() + 2;
    visit.case(
        about,
        (
            || On {
                lent: (script.clone(), vec![0; room]),
                prepare: |_: &mut _, _| (),
                call: |(script, out): &mut (Vec<u8>, Vec<u8>), _| by_engine(script, out),
            },
            // The C peer has no player.
            None::<fn() -> Nobody>,
        ),
        || On {
            lent: script.clone(),
            prepare: |_: &mut _, _| (),
            call: |script: &mut Vec<u8>, _| Printed(model::player::play(script)),
        },
    );
}

#[inline(always)]
fn by_engine(script: &[u8], out: &mut [u8]) -> Played {
    let (s, o) = (script.as_ptr(), out.as_mut_ptr());
    // SAFETY: two slices; the output is borrowed mutably, so apart.
    unsafe { sys::cetskobi_play(s, script.len(), o, out.len()) }
}

impl Answers for Played {
    fn told(&self) -> Told {
        (self.number, [self.len, 0, 0])
    }
}

/// What the model printed.
struct Printed(Vec<u8>);

impl Answers for Printed {
    fn told(&self) -> Told {
        (0, [self.0.len(), 0, 0])
    }
}
