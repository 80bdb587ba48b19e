//! The second interpreter as a program.
//!
//! ```text
//! second < FILE                   the result lines of one bench file
//! second FILE...                  for each file its name, then its result lines
//! second --numbers FILE...        for each file its name, then its answer as a list of numbers
//! second --unjudged FILE...       the same, run without a judge
//! second --bytes EXAMPLE           the bench file of an example, as bytes
//! ```

use second::answer::{blanks_between, marked, unjudged, Answer};
use second::example;
use std::io::{self, Read, Write};
use std::process::ExitCode;

fn main() -> ExitCode {
    let arguments: Vec<String> = std::env::args().skip(1).collect();
    let outcome = match arguments.split_first() {
        None => mark_standard_input(),
        Some((mode, files)) if mode == "--numbers" => each_file(files, |bytes| list(&marked(bytes))),
        Some((mode, files)) if mode == "--unjudged" => each_file(files, |bytes| list(&unjudged(bytes))),
        Some((mode, files)) if mode == "--bytes" => write_bytes(files),
        Some(_) => each_file(&arguments, |bytes| marked(bytes).lines()),
    };
    match outcome {
        Ok(()) => ExitCode::SUCCESS,
        Err(error) => {
            eprintln!("second: {error}");
            ExitCode::FAILURE
        }
    }
}

fn mark_standard_input() -> io::Result<()> {
    let mut bytes = Vec::new();
    io::stdin().read_to_end(&mut bytes)?;
    io::stdout().write_all(marked(&bytes).lines().as_bytes())
}

fn write_bytes(files: &[String]) -> io::Result<()> {
    for file in files {
        let example = example::read(file).map_err(io::Error::other)?;
        io::stdout().write_all(&example.bytes)?;
    }
    Ok(())
}

fn each_file(files: &[String], answer: impl Fn(&[u8]) -> String) -> io::Result<()> {
    let mut output = io::BufWriter::new(io::stdout().lock());
    for file in files {
        let bytes = std::fs::read(file).map_err(|error| io::Error::new(error.kind(), format!("{file}: {error}")))?;
        write!(output, "{file}\n{}", answer(&bytes))?;
    }
    output.flush()
}

fn list(answer: &Answer) -> String {
    match answer.as_numbers() {
        Some(numbers) => blanks_between(&numbers) + "\n",
        None => answer.lines(),
    }
}
