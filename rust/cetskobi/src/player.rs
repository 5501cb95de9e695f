//! The playing program as a function.

use crate::raw;
use crate::Refusal;

/// The most bytes of a script.
pub const SCRIPT_MAX: usize = 65_536;

/// The most bytes that a script prints for each of its own, and beside them.
const PRINTED_MAX: (usize, usize) = (25, 2);

/// Plays a script of a group of two to four laptops with one record (document
/// 01, "The playing program") and gives what it prints. It needs 96 KiB of stack.
///
/// # Errors
///
/// [`Refusal::PlayerRoom`] for a script of more than [`SCRIPT_MAX`] bytes.
///
/// ```
/// # fn main() -> Result<(), cetskobi::Refusal> {
/// let printed = cetskobi::play(b"group 2\nwrite 0 A1\ndeliver 1 0\n")?;
/// assert_eq!(printed, b"0 W 1 0 0\n0 I 1 0 1\n");
/// # Ok(())
/// # }
/// ```
pub fn play(script: &[u8]) -> Result<Vec<u8>, Refusal> {
    let (each, beside) = PRINTED_MAX;
    let mut out = vec![0; each * script.len().min(SCRIPT_MAX) + beside];
    let played = raw::play(script, &mut out);
    Refusal::check(played.number)?;
    out.truncate(played.len);
    Ok(out)
}
