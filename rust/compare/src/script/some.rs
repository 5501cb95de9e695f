//! Random scripts: mostly lines that are known, of a group at work.

use model::player;
use model::rng::Rng;

use super::Script;
use crate::bytes::Bytes;
use crate::single::{some_bytes, some_word};

pub fn some_script(rng: &mut Rng) -> Script {
    let size = 2 + rng.below(3);
    let count = match rng.below(60) {
        0 => 600 + rng.below(300),
        1..6 => 100 + rng.below(200),
        _ => 1 + rng.below(60),
    };
    let mut lines = vec![line_one(rng, size)];
    let mut writer = Writer {
        size,
        logged: 0,
        epoch: 0,
        wrong: [0, 10, 60, 400][rng.below(4)],
    };
    while lines.len() < count {
        writer.some_lines(rng, &mut lines);
    }
    if rng.chance(1, 150) {
        // Near the limit of 65,536 bytes, within a line.
        let long = lines.iter().map(|line| line.len() + 1).sum::<usize>();
        let to = 65_530 + rng.below(10);
        let text = some_bytes(rng, to.saturating_sub(long + 9)).0;
        let text: Vec<u8> = text.into_iter().map(|byte| byte | 32).collect();
        lines.push(Bytes([b"write 0 ", &text[..]].concat()));
    }
    Script {
        lines: lines.into_iter().map(|line| damage(rng, line)).collect(),
        ended: rng.chance(1, 2),
        room: match rng.below(20) {
            0 => -1,
            1 => -(rng.below(2000) as isize),
            2 => rng.below(100) as isize,
            _ => 0,
        },
    }
}

fn line_one(rng: &mut Rng, size: usize) -> Bytes {
    let line = match rng.below(80) {
        0 => format!("group {}", rng.below(7)),
        1 => "group".to_owned(),
        2 => format!("group 0{size}"),
        3 => format!("group {size} "),
        4 => String::new(),
        _ => format!("group {size}"),
    };
    Bytes(line.into_bytes())
}

/// What the lines so far may have come to.
struct Writer {
    size: usize,
    /// About how many messages are logged.
    logged: usize,
    epoch: u32,
    /// One number in so many is wrong; 0 for none.
    wrong: usize,
}

impl Writer {
    fn wrong(&self, rng: &mut Rng) -> bool {
        self.wrong > 0 && rng.chance(1, self.wrong)
    }

    fn laptop(&self, rng: &mut Rng) -> String {
        if self.wrong(rng) {
            return some_decimal(rng);
        }
        rng.below(self.size).to_string()
    }

    fn log(&self, rng: &mut Rng) -> String {
        if self.wrong(rng) {
            return some_decimal(rng);
        }
        let young = self.logged.saturating_sub(rng.below(6) + 1);
        [young, young, rng.below(self.logged + 2)][rng.below(3)].to_string()
    }

    /// One line, or the lines of a scene.
    fn some_lines(&mut self, rng: &mut Rng, lines: &mut Vec<Bytes>) {
        let line = match rng.below(100) {
            0..6 => format!("read {}", self.laptop(rng)),
            6..14 => format!("validate {}", self.laptop(rng)),
            14..18 => format!("replay {}", self.laptop(rng)),
            18..23 => format!("resend {}", self.laptop(rng)),
            23..26 => self.view(rng),
            26..30 => return self.whole_write(rng, lines),
            30..32 => return self.dead_writer(rng, lines),
            32 if rng.chance(1, 8) => return self.last_ack_at_the_limit(rng, lines),
            32 => {
                // The log fills.
                let line = format!("resend {}", self.laptop(rng));
                let line = Bytes(line.into_bytes());
                let times = [rng.below(20), rng.below(20), rng.below(300)];
                return lines.extend(vec![line; times[rng.below(3)]]);
            }
            33..40 => return lines.push(self.write(rng)),
            40..42 => return self.dead_winner(rng, lines),
            _ => {
                if rng.chance(1, 15) {
                    self.look(lines);
                }
                format!("deliver {} {}", self.laptop(rng), self.log(rng))
            }
        };
        lines.push(Bytes(line.into_bytes()));
    }

    /// How many messages are logged, and the greatest epoch, after these lines.
    fn look(&mut self, lines: &[Bytes]) {
        let lines: Vec<&[u8]> = lines.iter().map(|line| &line[..]).collect();
        let printed = player::play(&lines.join(&b'\n'));
        let printed = String::from_utf8_lossy(&printed);
        let logs = printed.lines().filter_map(|line| line.split(' ').nth(4));
        let last = logs.filter_map(|log| log.parse::<usize>().ok()).next_back();
        self.logged = last.map_or(0, |log| log + 1);
    }

    fn view(&mut self, rng: &mut Rng) -> String {
        let all = (1u32 << self.size) - 1;
        let (epoch, set) = match rng.below(8) {
            0 => (some_word(rng).to_string(), rng.below(70_000).to_string()),
            1 => (some_decimal(rng), some_decimal(rng)),
            _ => {
                self.epoch += u32::from(rng.chance(1, 3));
                let less = all & !(1 << rng.below(self.size));
                (
                    self.epoch.to_string(),
                    [all, less, less][rng.below(3)].to_string(),
                )
            }
        };
        format!("view {} {epoch} {set}", self.laptop(rng))
    }

    /// A write of any bytes but a line feed.
    fn write(&self, rng: &mut Rng) -> Bytes {
        let len = [0, 1, 2, 9, 30, 191, 192, 193, 194, rng.below(400)];
        let limit = if rng.chance(1, 4) { 10 } else { 5 };
        let len = len[rng.below(limit)];
        let any = some_bytes(rng, len).0;
        let text = any
            .into_iter()
            .map(|byte| if byte == b'\n' { b' ' } else { byte });
        let line = format!("write {} ", self.laptop(rng));
        Bytes(line.into_bytes().into_iter().chain(text).collect())
    }

    /// A write that reaches everyone, its acknowledgements, the last of which is
    /// its end, and a validation that finds nothing to do; some of it may get
    /// lost.
    fn whole_write(&mut self, rng: &mut Rng, lines: &mut Vec<Bytes>) {
        self.look(lines);
        let writer = rng.below(self.size);
        let inv = self.logged;
        let mut say = |line: String| {
            if !rng.chance(1, 20) {
                lines.push(Bytes(line.into_bytes()));
            }
        };
        say(format!("write {writer} text {inv}"));
        let others: Vec<usize> = (0..self.size).filter(|&other| other != writer).collect();
        for other in &others {
            say(format!("deliver {other} {inv}"));
        }
        for k in 1..=others.len() {
            say(format!("deliver {writer} {}", inv + k));
        }
        say(format!("validate {writer}"));
        for other in &others {
            say(format!("deliver {other} {}", inv + others.len() + 1));
        }
        self.logged += others.len() + 2;
    }

    /// A write whose last acknowledgement finds the log full, or with room for
    /// one message more.
    fn last_ack_at_the_limit(&mut self, rng: &mut Rng, lines: &mut Vec<Bytes>) {
        self.look(lines);
        let writer = rng.below(self.size);
        let inv = self.logged;
        let acks = self.size - 1;
        let mut say = |line: String| lines.push(Bytes(line.into_bytes()));
        say(format!("write {writer} text {inv}"));
        for other in (0..self.size).filter(|&other| other != writer) {
            say(format!("deliver {other} {inv}"));
        }
        for k in 1..acks {
            say(format!("deliver {writer} {}", inv + k));
        }
        let room = rng.below(2);
        for _ in inv + 1 + acks..256 - room {
            say(format!("resend {writer}"));
        }
        for _ in 0..2 {
            say(format!("deliver {writer} {}", inv + acks));
        }
        say(format!("validate {writer}"));
        self.logged = 256;
    }

    /// A writer dies after its message has reached one other, which replays it
    /// in the view without the writer.
    fn dead_writer(&mut self, rng: &mut Rng, lines: &mut Vec<Bytes>) {
        self.look(lines);
        let writer = rng.below(self.size);
        let other = (writer + 1 + rng.below(self.size - 1)) % self.size;
        let inv = self.logged;
        self.epoch += 1;
        let (epoch, set) = (self.epoch, ((1 << self.size) - 1) & !(1 << writer));
        let mut say = |line: String| {
            if !rng.chance(1, 20) {
                lines.push(Bytes(line.into_bytes()));
            }
        };
        say(format!("write {writer} text {inv}"));
        say(format!("deliver {other} {inv}"));
        say(format!("view {other} {epoch} {set}"));
        say(format!("replay {other}"));
        let replay = inv + 2;
        for (k, third) in (0..self.size)
            .filter(|&n| n != writer && n != other)
            .enumerate()
        {
            say(format!("view {third} {epoch} {set}"));
            say(format!("deliver {third} {replay}"));
            say(format!("deliver {other} {}", replay + 1 + k));
        }
        say(format!("validate {other}"));
        self.logged += 4;
    }

    /// Two write at once. The message with the greater stamp has reached the other
    /// when its writer dies: the other replays it in the view without that writer,
    /// and gives its own write up. The rest acknowledge, or one of them saves anew.
    fn dead_winner(&mut self, rng: &mut Rng, lines: &mut Vec<Bytes>) {
        self.look(lines);
        let winner = 1 + rng.below(self.size - 1);
        let loser = rng.below(winner);
        let inv = self.logged;
        self.epoch += 1;
        let (epoch, set) = (self.epoch, ((1 << self.size) - 1) & !(1 << winner));
        let anew = rng.chance(1, 3);
        let mut say = |line: String| {
            if !rng.chance(1, 20) {
                lines.push(Bytes(line.into_bytes()));
            }
        };
        say(format!("write {loser} text {inv}"));
        say(format!("write {winner} text {}", inv + 1));
        say(format!("deliver {loser} {}", inv + 1));
        say(format!("replay {loser}"));
        say(format!("view {loser} {epoch} {set}"));
        say(format!("replay {loser}"));
        let replay = inv + 3;
        let rest = (0..self.size).filter(|&n| n != winner && n != loser);
        for (k, third) in rest.enumerate() {
            say(format!("view {third} {epoch} {set}"));
            say(format!("deliver {third} {replay}"));
            if anew {
                say(format!("write {third} text {}", replay + 2));
                say(format!("deliver {loser} {}", replay + 2));
                break;
            }
            say(format!("deliver {loser} {}", replay + 1 + k));
        }
        say(format!("read {loser}"));
        self.logged += 6;
    }
}

/// Digits of any kind: leading zeros, signs, too great for a width.
fn some_decimal(rng: &mut Rng) -> String {
    let words = [
        "",
        "0",
        "00",
        "01",
        "+1",
        "-1",
        "4",
        "15",
        "16",
        "255",
        "256",
        "65535",
        "65536",
        "4294967295",
        "4294967296",
        "18446744073709551615",
        "18446744073709551616",
        "99999999999999999999999999",
        "1x",
        "1 ",
        " 1",
        "1\r",
        "1\0",
        "\u{661}",
    ];
    match rng.below(4) {
        0 => some_word(rng).to_string(),
        _ => words[rng.below(words.len())].to_owned(),
    }
}

/// Now and then a line becomes another: bytes dropped, doubled, or changed.
fn damage(rng: &mut Rng, mut line: Bytes) -> Bytes {
    if !rng.chance(1, 40) {
        return line;
    }
    let at = rng.below(line.len());
    match rng.below(8) {
        0 if at < line.len() => drop(line.remove(at)),
        1 if at < line.len() => line[at] = rng.next_u64() as u8,
        2 if at < line.len() => line[at] ^= 32,
        3 => line.insert(at, b' '),
        4 => line.push(b' '),
        // 02, Wish 5, gives the program no such lines.
        5 if at > 0 => line = Bytes(["ask 0", "ask 1", "commit 0 text"][at % 3].into()),
        5 => line.clear(),
        6 => {
            let len = rng.below(40);
            line = some_bytes(rng, len);
        }
        _ => line.extend(b" 1"),
    }
    line
}
