//! Where the random cases begin, and how many there are.

use std::fmt;

use model::rng::Rng;

#[derive(Clone, Copy, Debug)]
pub struct Settings {
    pub seed: u64,
    /// How many times the usual count of cases.
    pub times: usize,
}

impl Settings {
    pub const USUAL: Settings = Settings {
        seed: 20_240_901,
        times: 1,
    };

    /// The usual ones, unless CETSKOBI_SEED and CETSKOBI_TIMES say otherwise.
    ///
    /// # Panics
    ///
    /// If one is no number, or there would be no cases.
    pub fn from_env() -> Settings {
        let times = env("CETSKOBI_TIMES").unwrap_or(Settings::USUAL.times as u64) as usize;
        assert!(times > 0, "CETSKOBI_TIMES=0: no case would be compared");
        Settings {
            seed: env("CETSKOBI_SEED").unwrap_or(Settings::USUAL.seed),
            times,
        }
    }

    /// The generator of the part of this name.
    pub fn rng(&self, part: &str) -> Rng {
        let mix = |sum: u64, byte| (sum ^ u64::from(byte)).wrapping_mul(0x100_0000_01b3);
        Rng::new(part.bytes().fold(self.seed, mix))
    }
}

impl fmt::Display for Settings {
    /// What to set to run the same cases again.
    fn fmt(&self, f: &mut fmt::Formatter<'_>) -> fmt::Result {
        let Settings { seed, times } = self;
        write!(f, "CETSKOBI_SEED={seed} CETSKOBI_TIMES={times}")
    }
}

fn env(name: &str) -> Option<u64> {
    let text = std::env::var(name).ok()?;
    match text.parse() {
        Ok(number) => Some(number),
        Err(_) => panic!("{name} is no number: {text}"),
    }
}
