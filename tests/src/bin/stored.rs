//! Writes anew what the program `vectors` runs and has to print, after the corpus or the files in its `data` changed.

use second::stored::Stored;
use std::process::ExitCode;

fn main() -> ExitCode {
    match Stored::read().and_then(|stored| stored.renewed()).and_then(|stored| stored.write()) {
        Ok(()) => ExitCode::SUCCESS,
        Err(fault) => {
            eprintln!("stored: {fault}");
            ExitCode::FAILURE
        }
    }
}
