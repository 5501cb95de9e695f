//! The command line.

use std::str::FromStr;

use cetskobi::Rule;

use crate::fault::Fault;
use crate::settings::Settings;

/// What `--help` prints.
pub const HELP: &str = "\
A morning at the nets: laptops on the proved engine over a poor radio link.
Agreement is checked after every event, and at the end that every record has
settled, that every text was saved over one that its ringer saw, and that every
bird is told of; exit status 1 if a check fails, 2 for wrong options.

  --seed S         the beginning of all random numbers    (560, or CETSKOBI_SEED)
  --seeds N        N mornings, from the seed on, one line each
  --counts         also count events, messages, packets and refusals
  --laptops N      2 to 16                                (11)
  --records N      1 to 4096                              (4096)
  --rule R         a tie goes to the higher or lower number (lower)
  --rings N        birds ringed                           (600)
  --recaptures N   birds met again                        (40)
  --deaths N       laptops that die and are struck off    (1)
  --sleepers N     of those: only slept, wake unaware     (0)
  --late N         laptops that get a new view late       (2)
  --lateness T     how many ticks late                    (300)
  --ticks T        how long birds come                    (2000)
  --loss P         packets lost of 100, at most 90        (30)
  --repeat P       packets repeated of 100, at most 90    (10)
  --delay T        the most ticks a packet usually takes  (6)
  --neighbours P   of 100 ticks, so many in which another
                   station saves: same channel, other rule (1)
  --fault F        break something and see it reported: text (the link alters
                   texts), sender (the link alters who acknowledged), epoch
                   (huts take messages of other epochs), val (huts drop VALs),
                   replay (huts do not replay from invalid-write), save (huts
                   refuse some saves), blind (huts save by a plain write, over
                   what the ringer has not seen), forget (huts do not tell that
                   a save was replaced), rule (the last laptop is started with
                   the other rule), tie (the same, and its hut hides it), byte
                   (huts take packets of either rule)
  --help           this page
";

/// What the command line asks for.
#[derive(Clone, Debug, PartialEq, Eq)]
pub enum Command {
    /// The help page.
    Help,
    /// Mornings of these settings, one for each seed of a row.
    Run {
        /// The first morning's settings.
        settings: Settings,
        /// How many mornings; None for one with its whole report.
        seeds: Option<u64>,
        /// Whether the report goes on with the counts.
        counts: bool,
    },
}

impl Command {
    /// The command of these words.
    ///
    /// # Errors
    ///
    /// What is wrong with them, in plain words.
    pub fn parse<I: IntoIterator<Item = String>>(words: I) -> Result<Command, String> {
        let mut settings = Settings::from_env()?;
        let (mut seeds, mut counts) = (None, false);
        let mut words = words.into_iter();
        while let Some(word) = words.next() {
            if word == "--help" || word == "-h" {
                return Ok(Command::Help);
            }
            if word == "--counts" {
                counts = true;
                continue;
            }
            let value = words.next();
            let value = value.as_deref();
            match word.as_str() {
                "--seed" => settings.seed = number(&word, value)?,
                "--seeds" => seeds = Some(number(&word, value)?),
                "--laptops" => settings.laptops = number(&word, value)?,
                "--records" => settings.records = number(&word, value)?,
                "--rule" => settings.rule = rule(value)?,
                "--rings" => settings.rings = number(&word, value)?,
                "--recaptures" => settings.recaptures = number(&word, value)?,
                "--deaths" => settings.deaths = number(&word, value)?,
                "--sleepers" => settings.sleepers = number(&word, value)?,
                "--late" => settings.late = number(&word, value)?,
                "--lateness" => settings.lateness = number(&word, value)?,
                "--ticks" => settings.ticks = number(&word, value)?,
                "--loss" => settings.loss = number(&word, value)?,
                "--repeat" => settings.repeat = number(&word, value)?,
                "--delay" => settings.delay = number(&word, value)?,
                "--neighbours" => settings.neighbours = number(&word, value)?,
                "--fault" => settings.fault = Some(Fault::named(value.unwrap_or_default())?),
                _ => return Err(format!("unknown option {word}")),
            }
        }
        settings.check()?;
        if seeds == Some(0) {
            return Err("--seeds: at least one morning".to_owned());
        }
        Ok(Command::Run {
            settings,
            seeds,
            counts,
        })
    }
}

fn rule(value: Option<&str>) -> Result<Rule, String> {
    let named = Rule::ALL.iter().find(|r| Some(r.name()) == value);
    named
        .copied()
        .ok_or_else(|| "--rule: higher or lower".to_owned())
}

fn number<T: FromStr>(option: &str, value: Option<&str>) -> Result<T, String> {
    let value = value.ok_or_else(|| format!("{option} needs a number"))?;
    value
        .parse()
        .map_err(|_| format!("{option}: {value} is no number that fits"))
}
