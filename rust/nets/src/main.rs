//! The program: one morning with its report, or many with a line each.

use std::io::{self, IsTerminal, Write};
use std::process::ExitCode;
use std::time::Instant;

use nets::{run, Command, Failure, Report, Settings, HELP};

/// Wrong options, or nobody who reads what is printed.
const TROUBLE: u8 = 2;

fn main() -> ExitCode {
    let done = match Command::parse(std::env::args().skip(1)) {
        Ok(Command::Help) => say(HELP).map(|()| ExitCode::SUCCESS),
        Ok(Command::Run {
            settings,
            seeds,
            counts,
        }) => match seeds {
            None => one(&settings, counts),
            Some(seeds) => many(&settings, seeds),
        },
        Err(wrong) => {
            eprintln!("{wrong}; --help lists the options");
            Ok(ExitCode::from(TROUBLE))
        }
    };
    done.unwrap_or(ExitCode::from(TROUBLE))
}

fn one(settings: &Settings, counts: bool) -> io::Result<ExitCode> {
    let begun = Instant::now();
    match played(settings) {
        Ok(report) => {
            let seconds = begun.elapsed().as_secs_f64();
            say(&format!("{report}wall time          {seconds:>6.2} s\n"))?;
            if counts {
                say(&format!("\n{}", report.counts()))?;
            }
            Ok(ExitCode::SUCCESS)
        }
        Err(failure) => failed(&failure),
    }
}

fn many(settings: &Settings, seeds: u64) -> io::Result<ExitCode> {
    let begun = Instant::now();
    // Overtaken saves that were given up, and in how many mornings; commits that 26
    // refused, and those that a plain write would have done.
    let (mut given_up, mut mornings) = (0, 0);
    let (mut refused, mut unseen) = (0, 0);
    // Saves whose bird was entered again: replaced, of these crossed, laptop gone. Of the
    // replaced those at the lower half of the numbers.
    let (mut again, mut lower) = ([0; 3], 0);
    // Ties; saves that lost one, of these at the lower half of the numbers, and of that
    // half by the other rule. Packets of the other station.
    let (mut ties, mut lost, mut packets) = (0, [0; 3], 0);
    for n in 0..seeds {
        let seed = settings.seed.wrapping_add(n);
        let settings = Settings {
            seed,
            ..settings.clone()
        };
        match played(&settings) {
            Ok(report) => {
                given_up += report.given_up();
                mornings += u64::from(report.given_up() > 0);
                refused += report.commits()[1];
                unseen += report.unseen();
                for (all, n) in again.iter_mut().zip(report.entered_again()) {
                    *all += n;
                }
                lower += report.replaced_in_charge();
                ties += report.ties()[0];
                for (all, n) in lost.iter_mut().zip(report.lost_ties()) {
                    *all += n;
                }
                packets += report.other_station()[0];
                say(&format!("{}\n", report.line()))?;
            }
            Err(failure) => return failed(&failure),
        }
    }
    let seconds = begun.elapsed().as_secs_f64();
    let [replaced, crossed, gone] = again;
    let (rule, [lost, in_charge, otherwise]) = (settings.rule, lost);
    say(&format!(
        "{seeds} mornings, agreement held throughout, every record settled, every bird in the records; ties: {ties}, all to the {rule} number; saves that lost one: {lost}, {in_charge} of them at the lower half of the numbers, and {otherwise} by the other rule; packets of the other station: {packets}, all refused by 27; saves given up: {given_up}, in {mornings} mornings; commits refused by 26: {refused}, {unseen} of them over an unseen text; entered again: {replaced} replaced, {lower} of them at the lower half and {crossed} finished before, and {gone} of laptops gone; {seconds:.2} s\n"
    ))?;
    Ok(ExitCode::SUCCESS)
}

fn failed(failure: &Failure) -> io::Result<ExitCode> {
    say(&failure.to_string())?;
    Ok(ExitCode::FAILURE)
}

fn say(text: &str) -> io::Result<()> {
    io::stdout().write_all(text.as_bytes())
}

/// One morning, with its ticks on a terminal.
fn played(settings: &Settings) -> Result<Report, Box<Failure>> {
    let terminal = io::stderr().is_terminal();
    let result = run(settings, |tick| {
        if terminal && tick % 50 == 0 {
            eprint!(
                "\rseed {}, tick {tick}; the link heals at {}  ",
                settings.seed, settings.ticks
            );
            // A terminal that does not take it is no reason to stop.
            let _ = io::stderr().flush();
        }
    });
    if terminal {
        eprint!("\r\x1b[K");
    }
    result
}
