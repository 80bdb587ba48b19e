//! Closed facts about the rules, for the prover: what `marked` and `unjudged` of each bench file are.
//!
//! ```text
//! facts FOLDER STEPS FILE...      writes FOLDER/Lib.antt and FOLDER/Facts0.antt, FOLDER/Facts1.antt, ...
//! ```
//!
//! A FILE is an example (its name ends in .bench) or a bench file as it is. For each fact a line is printed: its name,
//! the file, and the answer as numbers, with tabs between. A run of more than STEPS steps gets no fact.

use second::answer::{blanks_between, marked, unjudged, Answer};
use second::example;
use std::fmt::Write;
use std::path::Path;
use std::process::ExitCode;

const FACTS_PER_MODULE: usize = 40;
const HEAD: &str = "use Rattle.std.specs.Prelude.{◌≡◌, refl, ℕ, List, [], ◌∷◌}
use Rattle.rules.specs.Answers.{marked, unjudged}
";

/// That a function of the rules gives the answer for the file's bytes.
struct Fact {
    name: String,
    function: &'static str,
    file: String,
    bytes: Vec<u8>,
    answer: Vec<u64>,
}

fn main() -> ExitCode {
    let arguments: Vec<String> = std::env::args().skip(1).collect();
    match write_facts(&arguments) {
        Ok(()) => ExitCode::SUCCESS,
        Err(fault) => {
            eprintln!("facts: {fault}");
            ExitCode::FAILURE
        }
    }
}

fn write_facts(arguments: &[String]) -> Result<(), String> {
    let [folder, steps, files @ ..] = arguments else { return Err("FOLDER STEPS FILE... wanted".to_string()) };
    let most_steps = steps.parse().map_err(|_| format!("'{steps}' is no number"))?;
    let mut facts = Vec::new();
    for (number, file) in files.iter().enumerate() {
        facts.extend(facts_of(number, file, &read(file)?, most_steps));
    }
    let modules: Vec<&[Fact]> = facts.chunks(FACTS_PER_MODULE).collect();
    let names: String = (0..modules.len()).map(|index| format!("pub mod Facts{index}\n")).collect();
    write(folder, "Lib.antt", &names)?;
    for (index, module) in modules.iter().enumerate() {
        let statements: String = module.iter().map(statement).collect();
        write(folder, &format!("Facts{index}.antt"), &format!("{HEAD}{statements}"))?;
    }
    for fact in &facts {
        println!("{}\t{}\t{}", fact.name, fact.file, blanks_between(&fact.answer));
    }
    Ok(())
}

/// The bytes of an example or of a bench file.
fn read(file: &str) -> Result<Vec<u8>, String> {
    if file.ends_with(".bench") {
        example::read(file).map(|example| example.bytes)
    } else {
        std::fs::read(file).map_err(|error| format!("{file}: {error}"))
    }
}

fn write(folder: &str, name: &str, text: &str) -> Result<(), String> {
    let path = Path::new(folder).join(name);
    std::fs::write(&path, text).map_err(|error| format!("{}: {error}", path.display()))
}

fn facts_of(number: usize, file: &str, bytes: &[u8], most_steps: u64) -> Vec<Fact> {
    let answers = [("marked", marked(bytes)), ("unjudged", unjudged(bytes))];
    let short = answers.into_iter().filter(|(_, answer)| steps(answer) <= most_steps);
    let fact = |(function, answer): (&'static str, Answer)| {
        let name = format!("{function}-{number}");
        Some(Fact { name, function, file: file.to_string(), bytes: bytes.to_vec(), answer: answer.as_numbers()? })
    };
    short.filter_map(fact).collect()
}

fn steps(answer: &Answer) -> u64 {
    match answer {
        Answer::Finished { steps, .. } => *steps,
        Answer::TooLong => u64::MAX,
        Answer::Refused(_) | Answer::Stuck => 0,
    }
}

fn statement(fact: &Fact) -> String {
    let Fact { name, function, .. } = fact;
    let bytes = list(fact.bytes.iter().map(|&byte| u64::from(byte)));
    let answer = list(fact.answer.iter().copied());
    format!("\n{name} : {function} ({bytes}) ≡ {answer}\nunfolding {function}\n{name} = refl\n")
}

/// A list as the prover writes it.
fn list(numbers: impl Iterator<Item = u64>) -> String {
    let mut text = String::new();
    for number in numbers {
        write!(text, "{number} ∷ ").expect("a string takes all text");
    }
    text + "[]"
}
