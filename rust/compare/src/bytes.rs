use std::fmt;
use std::ops::{Deref, DerefMut};

/// Bytes that are shown in short: a run of equal ones as `0*191`.
#[derive(Clone, PartialEq, Eq, Default)]
pub struct Bytes(pub Vec<u8>);

impl Deref for Bytes {
    type Target = Vec<u8>;

    fn deref(&self) -> &Vec<u8> {
        &self.0
    }
}

impl DerefMut for Bytes {
    fn deref_mut(&mut self) -> &mut Vec<u8> {
        &mut self.0
    }
}

impl fmt::Debug for Bytes {
    fn fmt(&self, f: &mut fmt::Formatter<'_>) -> fmt::Result {
        write!(f, "{} bytes:", self.len())?;
        for run in self.chunk_by(|a, b| a == b) {
            match run {
                [one] => write!(f, " {one}")?,
                _ => write!(f, " {}*{}", run[0], run.len())?,
            }
        }
        Ok(())
    }
}
