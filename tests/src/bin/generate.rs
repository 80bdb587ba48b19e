//! Random bench files for a seed, and how often each answer occurs among them.
//!
//! ```text
//! generate SEED COUNT DIR [BYTES]     writes DIR/SEED-NUMBER.bin, of at most so many bytes before damage
//! generate --deepest DIR              writes the files that nest deepest when they run
//! ```

use second::answer::{marked, unjudged, Answer, Signal};
use second::generate::{bench_file, deepest_files};
use second::numbers::MOST_BYTES;
use std::collections::BTreeMap;
use std::path::Path;
use std::process::ExitCode;

fn main() -> ExitCode {
    let arguments: Vec<String> = std::env::args().skip(1).collect();
    let written = match arguments.as_slice() {
        [mode, folder] if mode == "--deepest" => write_deepest(folder),
        _ => write_files(&arguments),
    };
    match written {
        Ok(counts) => {
            for (answer, count) in counts {
                println!("{answer}: {count}");
            }
            ExitCode::SUCCESS
        }
        Err(fault) => {
            eprintln!("generate: {fault}");
            ExitCode::FAILURE
        }
    }
}

fn write_files(arguments: &[String]) -> Result<BTreeMap<String, u64>, String> {
    let [seed, count, folder, limit @ ..] = arguments else { return Err("SEED COUNT DIR [BYTES] wanted".to_string()) };
    let (seed, count) = (number(seed)?, number(count)?);
    let largest = limit.first().map_or(Ok(MOST_BYTES as u64), |word| number(word))? as usize;
    let mut counts = BTreeMap::new();
    for index in 0..count {
        let bytes = bench_file(seed, index, largest);
        write(folder, &format!("{seed}-{index:06}.bin"), &bytes)?;
        *counts.entry(answer_name(&marked(&bytes))).or_default() += 1;
        if unjudged(&bytes) == Answer::Stuck {
            *counts.entry("stuck when unjudged".to_string()).or_default() += 1;
        }
    }
    Ok(counts)
}

fn write_deepest(folder: &str) -> Result<BTreeMap<String, u64>, String> {
    let mut counts = BTreeMap::new();
    for (name, bytes) in deepest_files() {
        write(folder, &name, &bytes)?;
        *counts.entry(answer_name(&marked(&bytes))).or_default() += 1;
    }
    Ok(counts)
}

fn write(folder: &str, name: &str, bytes: &[u8]) -> Result<(), String> {
    let path = Path::new(folder).join(name);
    std::fs::write(&path, bytes).map_err(|error| format!("{}: {error}", path.display()))
}

fn number(word: &str) -> Result<u64, String> {
    word.parse().map_err(|_| format!("'{word}' is no number"))
}

fn answer_name(answer: &Answer) -> String {
    match answer {
        Answer::Refused(refusal) => format!("refused {:2}", refusal.number),
        Answer::Finished { signal: Signal::Done, .. } => "done".to_string(),
        Answer::Finished { signal: Signal::Exit, .. } => "exit".to_string(),
        Answer::Finished { signal: Signal::Reject(_), .. } => "reject".to_string(),
        Answer::Stuck => "stuck".to_string(),
        Answer::TooLong => "too long".to_string(),
    }
}
