//! Standard input and output of the programs here: faults go to standard error.

use std::io::{self, Read, Write};
use std::process::ExitCode;

/// All of standard input.
pub fn input() -> Result<Vec<u8>, String> {
    let mut bytes = Vec::new();
    io::stdin().lock().read_to_end(&mut bytes).map_err(|fault| fault.to_string())?;
    Ok(bytes)
}

/// Writes what a program made, or says why it made nothing.
pub fn finish(output: Result<Vec<u8>, String>) -> ExitCode {
    match output.and_then(|bytes| io::stdout().lock().write_all(&bytes).map_err(|fault| fault.to_string())) {
        Ok(()) => ExitCode::SUCCESS,
        Err(message) => {
            eprintln!("{message}");
            ExitCode::FAILURE
        }
    }
}
