//! Compares the engine with the model at any size:
//! `compare --seed S --times N [PART..]`. Without a part all of them are run.

use std::collections::BTreeMap;
use std::fmt::Display;
use std::process::ExitCode;
use std::time::Instant;

use compare::group::{self, by_hand, by_packet};
use compare::packet::{accept, arrive, deliver, facts, fetch, pack};
use compare::settings::Settings;
use compare::shrink::Found;
use compare::{leaving, script, settling, single};

/// Runs a part of the comparison, and shows what it counted.
type Part = fn(&Settings) -> Result<String, String>;

const PARTS: [(&str, Part); 12] = [
    ("single", |settings| {
        shown(
            single::compare(settings, single::by_model),
            ToString::to_string,
        )
    }),
    ("group", |settings| {
        shown(
            group::compare(settings, by_hand, single::on_table),
            by_rules,
        )
    }),
    ("group-by-packet", |settings| {
        shown(
            group::compare(settings, by_packet, single::on_table),
            by_rules,
        )
    }),
    ("group-in-one-pass", |settings| {
        shown(
            group::compare_in_packets(settings, single::on_table),
            by_rules,
        )
    }),
    ("settling", |settings| {
        shown(
            settling::compare(settings, settling::Rules::RIGHT),
            ToString::to_string,
        )
    }),
    ("leaving", |settings| {
        shown(leaving::compare(settings, leaving::by_model), |tally| {
            format!("{tally:?}")
        })
    }),
    ("fetch", |settings| {
        shown(fetch::compare(settings, fetch::by_model), |tally| {
            format!(
                "{} packets, {} damaged; {}\n{}",
                tally.packets,
                tally.damaged,
                answers(&tally.answers),
                tally.heads
            )
        })
    }),
    ("pack", |settings| {
        shown(pack::compare(settings, pack::by_model), |tally| {
            let [old, new] = tally.rules;
            format!(
                "{}\n{old} written under the old rule, {new} under the new",
                answers(&tally.answers)
            )
        })
    }),
    ("deliver", |settings| {
        shown(deliver::compare(settings, deliver::by_model), |tally| {
            let [x, w, r] = tally.last;
            format!(
                "{}\n{}\n{}\nthe last ack at X:{x} W:{w} R:{r}",
                answers(&tally.answers),
                tally.heads,
                ties(&tally.ties)
            )
        })
    }),
    ("accept", |settings| {
        shown(accept::compare(settings, accept::BY_MODEL), |tally| {
            format!(
                "packets {}\n{}\nmessages {}\nwith foreign facts {}, {} of them entries that 22 was not asked of, {} of packets of the other rule",
                answers(&tally.packets),
                tally.heads,
                answers(&tally.own),
                cases(&tally.foreign),
                tally.unasked,
                tally.unruled
            )
        })
    }),
    ("arrive", |settings| {
        shown(arrive::compare(settings, arrive::by_model), |tally| {
            format!(
                "{}\n{}\n{}\nwith foreign facts {}, their entries {}",
                answers(&tally.own),
                tally.heads,
                ties(&tally.ties),
                cases(&tally.foreign),
                answers(&tally.entries)
            )
        })
    }),
    ("script", |settings| {
        shown(script::compare(settings, script::by_model), |tally| {
            format!(
                "{} scripts, {} lines\n{}",
                tally.scripts,
                tally.lines,
                listed(&tally.words)
            )
        })
    }),
];

fn shown<T, C>(
    result: Result<T, Box<Found<C>>>,
    show: impl FnOnce(&T) -> String,
) -> Result<String, String>
where
    Found<C>: Display,
{
    match result {
        Ok(tally) => Ok(show(&tally)),
        Err(found) => Err(found.to_string()),
    }
}

fn listed(tally: &BTreeMap<String, u64>) -> String {
    let lines = tally
        .iter()
        .map(|(name, times)| format!("{times:9} {name}"));
    lines.collect::<Vec<_>>().join("\n")
}

/// In groups with the old rule of ties, and with the new.
fn by_rules(tally: &group::Tally) -> String {
    let lines = tally
        .iter()
        .map(|(name, [old, new])| format!("{old:9}{new:9} {name}"));
    lines.collect::<Vec<_>>().join("\n")
}

fn answers(counts: &[u64]) -> String {
    let counts = counts.iter().enumerate().filter(|(_, &times)| times > 0);
    let counts = counts.map(|(answer, times)| format!("{answer}:{times}"));
    counts.collect::<Vec<_>>().join(" ")
}

fn ties(counts: &[[u64; 2]; 2]) -> String {
    let [[old_left, old], [new_left, new]] = counts;
    format!("ties taken by the old rule:{old} not:{old_left}, by the new:{new} not:{new_left}")
}

/// What the header says with foreign facts.
fn cases(counts: &[u64; 5]) -> String {
    let counts = facts::Told::ALL.iter().zip(counts);
    let counts = counts.map(|(told, times)| format!("{told:?}:{times}"));
    counts.collect::<Vec<_>>().join(" ")
}

fn main() -> ExitCode {
    let Some((settings, chosen)) = arguments() else {
        eprintln!("compare [--seed S] [--times N] [PART..], N at least 1; the parts are:");
        for (name, _) in PARTS {
            eprintln!("  {name}");
        }
        return ExitCode::from(2);
    };
    println!("{settings}");
    let mut code = ExitCode::SUCCESS;
    for (name, part) in PARTS {
        if !chosen.is_empty() && !chosen.iter().any(|other| other == name) {
            continue;
        }
        println!("== {name}");
        let begin = Instant::now();
        let result = part(&settings);
        let seconds = begin.elapsed().as_secs_f32();
        match result {
            Ok(counts) => println!("{counts}\nalike, in {seconds:.1} s"),
            Err(found) => {
                println!("DIFFERENT with {settings}\n{found}");
                code = ExitCode::FAILURE;
            }
        }
    }
    code
}

/// The settings, and the parts that are named. None for words that are wrong.
fn arguments() -> Option<(Settings, Vec<String>)> {
    let mut settings = Settings::from_env();
    let mut chosen = Vec::new();
    let mut words = std::env::args().skip(1);
    while let Some(word) = words.next() {
        match &word[..] {
            "--seed" => settings.seed = words.next()?.parse().ok()?,
            "--times" => settings.times = words.next()?.parse().ok().filter(|&n| n > 0)?,
            name if PARTS.iter().any(|part| part.0 == name) => chosen.push(word),
            _ => return None,
        }
    }
    Some((settings, chosen))
}
