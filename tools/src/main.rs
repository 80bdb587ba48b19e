//! `sheet`: bench files as text, text as bench files, and answers in words.

use second::answer::Refusal;
use second::example::Example;
use sheet::make::make;
use sheet::show::show;
use sheet::source::Fault;
use std::io::{self, ErrorKind, Read, Write};
use std::process::ExitCode;

const HELP: &str = "\
sheet: bench files that people can read and write

    sheet show FILE       print the text of a bench file
    sheet make TEXT       write the bench file of a text to standard output
    sheet explain FILE    print what the judge answers to a bench file, in words
    sheet --help          print this page

FILE   a bench file, or an example of the corpus
TEXT   a text as show prints it, or written by hand (docs/SHEETS.md)
-      in the place of either: standard input

show prints every file that passes refusals 1 to 5, well formed or not, and make
turns that text into the same bytes again. A text that cannot be read is told as
NAME:LINE:COLUMN: MESSAGE, and nothing is written.

explain prints the result lines. Of a refusal it tells the rule, and shows the
construct with a mark under the part at fault; of a run, the final store beside
the first one. Marks are coloured where standard output is a terminal, unless
NO_COLOR is set.

Exit status: 0 if all went well; 1 if the file has no text or the text cannot be
read; 2 for an unknown command, an unreadable file, empty input, or no judge in
this build.
";

/// A line or more for standard error, and the exit status.
struct Failure {
    status: u8,
    message: String,
}

impl Failure {
    /// A command, a file or a build that nothing can be done with.
    fn unusable(message: impl Into<String>) -> Failure {
        Failure { status: 2, message: format!("sheet: {}\n", message.into()) }
    }
}

fn main() -> ExitCode {
    let words: Vec<String> = std::env::args_os().skip(1).map(|word| word.to_string_lossy().into_owned()).collect();
    let words: Vec<&str> = words.iter().map(String::as_str).collect();
    let outcome = run(&words).and_then(|output| write(&output));
    match outcome {
        Ok(()) => ExitCode::SUCCESS,
        Err(Failure { status, message }) => {
            eprint!("{message}");
            ExitCode::from(status)
        }
    }
}

fn run(words: &[&str]) -> Result<Vec<u8>, Failure> {
    match words {
        ["--help" | "-h" | "help"] => Ok(HELP.into()),
        ["show", file] => show_file(file).map(String::into_bytes),
        ["make", text] => make_file(text),
        ["explain", file] => explain_file(file).map(String::into_bytes),
        ["show" | "make" | "explain", ..] => {
            Err(Failure::unusable(format!("{} takes one file (sheet --help)", words[0])))
        }
        [] => Err(Failure::unusable("which command? show, make or explain (sheet --help)")),
        [other, ..] => Err(Failure::unusable(format!("there is no command '{other}' (sheet --help)"))),
    }
}

fn write(output: &[u8]) -> Result<(), Failure> {
    let mut standard_output = io::stdout().lock();
    match standard_output.write_all(output).and_then(|()| standard_output.flush()) {
        Err(error) if error.kind() != ErrorKind::BrokenPipe => {
            Err(Failure::unusable(format!("standard output: {error}")))
        }
        _ => Ok(()),
    }
}

/// The bytes of a file that is not empty.
fn read(name: &str) -> Result<Vec<u8>, Failure> {
    let mut bytes = Vec::new();
    let outcome =
        if name == "-" { io::stdin().lock().read_to_end(&mut bytes).map(|_| bytes) } else { std::fs::read(name) };
    match outcome {
        Err(error) => Err(Failure::unusable(format!("{name}: {error}"))),
        Ok(bytes) if bytes.is_empty() => Err(Failure::unusable(format!("{name}: the file is empty"))),
        Ok(bytes) => Ok(bytes),
    }
}

/// A bench file: as it is, or out of an example of the corpus.
struct Bench {
    bytes: Vec<u8>,
    example: Option<Example>,
}

/// The bench file of a file. An example is a text with a comment first; a bench file begins with its version.
fn read_bench(name: &str) -> Result<Bench, Failure> {
    let bytes = read(name)?;
    match std::str::from_utf8(&bytes) {
        Ok(text) if text.starts_with("# ") => {
            let example = Example::parse(text).map_err(|fault| Failure::unusable(format!("{name}: {fault}")))?;
            Ok(Bench { bytes: example.bytes.clone(), example: Some(example) })
        }
        _ => Ok(Bench { bytes, example: None }),
    }
}

fn show_file(name: &str) -> Result<String, Failure> {
    let bench = read_bench(name)?;
    match (show(&bench.bytes), bench.example) {
        (Ok(sheet), None) => Ok(sheet.text),
        (Ok(sheet), Some(example)) => Ok(with_remarks(&sheet.text, &example)),
        (Err(Refusal { number, place }), _) => {
            let reason = format!("refusal {number} at byte {place} (sheet explain says more)");
            Err(Failure { status: 1, message: format!("sheet: {name}: cannot be shown: {reason}\n") })
        }
    }
}

/// A text between comments that say what the example is about and what it answers.
fn with_remarks(text: &str, example: &Example) -> String {
    let judged = if example.judged { "" } else { "unjudged: " };
    let answer = example.expected.trim_end().replace('\n', "\n//    ");
    format!("// {}\n\n{text}\n// => {judged}{answer}\n", example.about)
}

fn make_file(name: &str) -> Result<Vec<u8>, Failure> {
    let bytes = read(name)?;
    let told = |fault: Fault, text: &str| Failure { status: 1, message: fault.told(name, text) };
    match std::str::from_utf8(&bytes) {
        Ok(text) => make(text).map_err(|fault| told(fault, text)),
        Err(error) => {
            let fault = Fault::new(error.valid_up_to(), "this byte is no part of a text in UTF-8");
            Err(told(fault, &String::from_utf8_lossy(&bytes)))
        }
    }
}

#[cfg(feature = "library")]
fn explain_file(name: &str) -> Result<String, Failure> {
    use sheet::{explain::explain, paint::Paint, verdict};
    let bytes = read_bench(name)?.bytes;
    Ok(explain(&bytes, &verdict::answer(&bytes), Paint::of_standard_output()))
}

#[cfg(not(feature = "library"))]
fn explain_file(_: &str) -> Result<String, Failure> {
    Err(Failure::unusable("explain needs the judge, which this build has not (tools/build links it)"))
}
