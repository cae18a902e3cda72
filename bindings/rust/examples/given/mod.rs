//! What the examples share: a plan on standard input, and what there is to say of it on standard output.

use std::io::{self, Read, Write};
use std::process::ExitCode;

use register::{Refusal, LONGEST_INPUT};

/// Writes what there is to say of the plan on standard input: whether it was accepted.
fn run<T: Into<Vec<u8>>>(said_of: fn(&[u8]) -> Result<T, Refusal>) -> io::Result<bool> {
    let mut plan = Vec::new();
    io::stdin().take(LONGEST_INPUT as u64).read_to_end(&mut plan)?;
    let result = said_of(&plan);
    let accepted = result.is_ok();
    let said = result.map_or_else(|refusal| format!("{refusal}\n").into_bytes(), T::into);
    io::stdout().write_all(&said)?;
    Ok(accepted)
}

/// The exit status: 0 for an accepted plan, 1 for a refused one, 2 if reading or writing failed.
pub fn answer<T: Into<Vec<u8>>>(
    program: &str,
    said_of: fn(&[u8]) -> Result<T, Refusal>,
) -> ExitCode {
    match run(said_of) {
        Ok(true) => ExitCode::SUCCESS,
        Ok(false) => ExitCode::from(1),
        Err(error) => {
            eprintln!("{program}: {error}");
            ExitCode::from(2)
        }
    }
}
