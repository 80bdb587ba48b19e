//! The program: its commands, what it prints where, and its exit status.

use std::io::Write;
use std::path::{Path, PathBuf};
use std::process::{Command, Output, Stdio};

const EXAMPLE: &str = concat!(env!("CARGO_MANIFEST_DIR"), "/../tests/corpus/apply-example.bench");

fn sheet(words: &[&str]) -> Output {
    Command::new(env!("CARGO_BIN_EXE_sheet")).args(words).stdin(Stdio::null()).output().expect("the program runs")
}

/// The same with standard input.
fn sheet_reading(words: &[&str], input: &[u8]) -> Output {
    let mut command = Command::new(env!("CARGO_BIN_EXE_sheet"));
    command.args(words).stdin(Stdio::piped()).stdout(Stdio::piped()).stderr(Stdio::piped());
    let mut child = command.spawn().expect("the program runs");
    child.stdin.take().expect("its standard input").write_all(input).expect("it reads");
    child.wait_with_output().expect("it ends")
}

fn out(output: &Output) -> String {
    String::from_utf8(output.stdout.clone()).expect("text on standard output")
}

fn error(output: &Output) -> String {
    String::from_utf8(output.stderr.clone()).expect("text on standard error")
}

/// A file in the tests' own folder.
fn file(name: &str, content: &[u8]) -> PathBuf {
    let path = Path::new(env!("CARGO_TARGET_TMPDIR")).join(name);
    std::fs::write(&path, content).expect("the file is written");
    path
}

fn text_of(path: &Path) -> &str {
    path.to_str().expect("a path in UTF-8")
}

#[test]
fn help_is_one_screen() {
    let output = sheet(&["--help"]);
    assert!(output.status.success() && output.stderr.is_empty());
    let help = out(&output);
    assert!(help.lines().count() <= 24 && help.lines().all(|line| line.len() <= 80), "{help}");
    for word in ["sheet show FILE", "sheet make TEXT", "sheet explain FILE", "sheet --help", "NO_COLOR", "Exit status"]
    {
        assert!(help.contains(word), "{word}");
    }
}

#[test]
fn show_and_make_go_round() {
    let bytes = second::example::read(EXAMPLE).expect("the example").bytes;
    let path = file("round.bin", &bytes);
    let shown = sheet(&["show", text_of(&path)]);
    assert!(shown.status.success() && shown.stderr.is_empty());
    let made = sheet_reading(&["make", "-"], &shown.stdout);
    assert!(made.status.success() && made.stderr.is_empty());
    assert_eq!(made.stdout, bytes);
    assert_eq!(sheet_reading(&["show", "-"], &bytes).stdout, shown.stdout);
}

#[test]
fn an_example_of_the_corpus_is_shown_with_its_remarks() {
    let output = sheet(&["show", EXAMPLE]);
    assert!(output.status.success());
    let text = out(&output);
    assert!(
        text.starts_with("// A table on field 0 writes its action's argument into field 1\n\nheader h0 {\n"),
        "{text}"
    );
    assert!(text.ends_with("\n\n// => done 4 4\n//    1 6 9\n"), "{text}");
    let made = sheet_reading(&["make", "-"], &output.stdout);
    assert_eq!(made.stdout, second::example::read(EXAMPLE).expect("the example").bytes);
}

#[test]
fn a_text_that_cannot_be_read_writes_nothing() {
    let path = file("bad.sheet", b"bit<8> x;\napply {\n    x = 8w1\n}\n");
    let output = sheet(&["make", text_of(&path)]);
    assert_eq!(output.status.code(), Some(1));
    assert!(output.stdout.is_empty());
    assert_eq!(error(&output), format!("{}:3:12: expected ';'\n    x = 8w1\n           ^\n", text_of(&path)));
}

#[test]
fn a_text_that_is_no_text_is_told_with_its_place() {
    let path = file("bytes.sheet", b"apply {\n  \xff }\n");
    let output = sheet(&["make", text_of(&path)]);
    assert_eq!(output.status.code(), Some(1));
    assert!(error(&output).contains(":2:3: this byte is no part of a text in UTF-8\n"), "{}", error(&output));
}

#[test]
fn a_file_without_a_program_is_not_shown() {
    let path = file("refused.bin", &[1, 0, 0, 0, 0, 11]);
    let output = sheet(&["show", text_of(&path)]);
    assert_eq!(output.status.code(), Some(1));
    assert!(output.stdout.is_empty());
    let expected = "cannot be shown: refusal 4 at byte 5 (sheet explain says more)";
    assert_eq!(error(&output), format!("sheet: {}: {expected}\n", text_of(&path)));
}

#[test]
fn what_cannot_be_begun_is_status_2_and_one_line() {
    let empty = file("empty", b"");
    let example = file("example", b"# no answer\n1 0 0\n");
    for words in [
        vec![],
        vec!["paint"],
        vec!["show"],
        vec!["make", "one", "two"],
        vec!["show", "no such file"],
        vec!["make", "no such file"],
        vec!["show", env!("CARGO_MANIFEST_DIR")],
        vec!["show", "-"],
        vec!["show", text_of(&empty)],
        vec!["make", text_of(&empty)],
        vec!["explain", text_of(&empty)],
        vec!["show", text_of(&example)],
    ] {
        let output = sheet(&words);
        assert_eq!(output.status.code(), Some(2), "{words:?}");
        assert!(output.stdout.is_empty(), "{words:?}");
        let message = error(&output);
        assert!(message.starts_with("sheet: ") && message.lines().count() == 1, "{words:?}: {message}");
    }
}
