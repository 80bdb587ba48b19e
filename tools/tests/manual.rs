//! docs/SHEETS.md keeps its word: its texts make the numbers beside them, its files are shown and explained as it says.
//!
//! A block in the page says what it is: `sheet`, a text, `file`, a file's numbers, or `bytes`, in hexadecimal, is a
//! bench file; `numbers`, `shown` and `explained` are what the last file consists of, is shown as and is explained by;
//! `bad` is a text that cannot be read, and `fault` what is told of it.

use second::answer::marked;
use second::numbers;
use sheet::explain::explain;
use sheet::make::make;
use sheet::paint::Paint;
use sheet::show::show;

const PAGE: &str = include_str!("../../docs/SHEETS.md");

struct Block {
    kind: &'static str,
    /// The line of the page that it begins in.
    line: usize,
    text: String,
}

fn blocks() -> Vec<Block> {
    let mut blocks: Vec<Block> = Vec::new();
    let mut open = false;
    for (index, line) in PAGE.lines().enumerate() {
        match line.strip_prefix("```") {
            Some(kind) if !open => blocks.push(Block { kind, line: index + 1, text: String::new() }),
            None if open => blocks.last_mut().expect("an open block").text.push_str(&format!("{line}\n")),
            _ => {}
        }
        open ^= line.starts_with("```");
    }
    blocks
}

fn decimal(text: &str) -> Vec<u64> {
    text.split_whitespace().map(|word| word.parse().expect("a decimal number")).collect()
}

/// Bytes in hexadecimal, or so many `times` one byte.
fn hexadecimal(text: &str) -> Vec<u8> {
    let byte = |word: &str| u8::from_str_radix(word, 16).expect("a byte in hexadecimal");
    match text.split_whitespace().collect::<Vec<_>>()[..] {
        [count, "times", value] => vec![byte(value); count.parse().expect("a count")],
        ref words => words.iter().map(|word| byte(word)).collect(),
    }
}

fn shown(bytes: &[u8]) -> String {
    show(bytes).expect("a file with a text").text
}

fn made(text: &str, line: usize) -> Vec<u8> {
    make(text).unwrap_or_else(|fault| panic!("line {line}: {}", fault.told("text", text)))
}

#[test]
fn each_block_of_the_page_holds() {
    let (mut bytes, mut bad) = (Vec::new(), String::new());
    for Block { kind, line, text } in blocks() {
        let (expected, found) = match kind {
            "sheet" => {
                bytes = made(&text, line);
                continue;
            }
            "file" => {
                bytes = numbers::write(&decimal(&text));
                continue;
            }
            "bytes" => {
                bytes = hexadecimal(&text);
                continue;
            }
            "bad" => {
                bad = text;
                continue;
            }
            "text" => continue,
            "numbers" => (format!("{:?}", numbers::write(&decimal(&text))), format!("{bytes:?}")),
            "shown" => (text, shown(&bytes)),
            "explained" => (text, explain(&bytes, &marked(&bytes), Paint::NONE)),
            "fault" => (text, make(&bad).expect_err("a text that cannot be read").told("text", &bad)),
            other => panic!("line {line}: a block of kind '{other}'"),
        };
        assert_eq!(found, expected, "line {line} of docs/SHEETS.md\n{found}");
    }
}

#[test]
fn each_refusal_of_the_judge_is_explained() {
    let explained: Vec<String> =
        blocks().into_iter().filter(|block| block.kind == "explained").map(|block| block.text).collect();
    for number in (1..=12).chain([16]) {
        let first_words = format!("refused {number} ");
        assert!(explained.iter().any(|text| text.starts_with(&first_words)), "no refusal {number}");
    }
}

/// Text and numbers of each row in the tables whose first column has this head.
fn rows(head: &str) -> Vec<(String, Vec<u64>)> {
    let mut rows = Vec::new();
    let mut inside = false;
    for line in PAGE.lines() {
        if !line.starts_with('|') {
            inside = false;
        } else if line.starts_with(&format!("| {head} | Numbers |")) {
            inside = true;
        } else if inside && !line.starts_with("|---") {
            let cells: Vec<&str> = line.split('`').collect();
            rows.push((cells[1].replace("\\|", "|"), decimal(cells[3])));
        }
    }
    rows
}

/// Whether two texts have the same words; `show` breaks lines where the page does not.
fn same_words(one: &str, other: &str) -> bool {
    one.split_whitespace().eq(other.split_whitespace())
}

/// Each row's text makes its numbers between those of the frame, and is shown as it stands.
fn check_rows(head: &str, least: usize, frame: impl Fn(&str) -> String, before: &[u64], behind: &[u64]) {
    let rows = rows(head);
    assert!(rows.len() >= least, "{} rows of {head}", rows.len());
    for (text, numbers) in rows {
        let whole = frame(&text);
        let bytes = made(&whole, 0);
        assert_eq!(bytes, numbers::write(&[before, &numbers, behind].concat()), "{text}");
        assert!(same_words(&shown(&bytes), &whole), "{text}");
    }
}

#[test]
fn the_tables_of_constructs_hold() {
    check_rows("Expression", 34, |text| format!("apply {{ return {text}; }}"), &[1, 0, 0, 0, 0, 6], &[]);
    check_rows("Statement", 14, |text| format!("apply {{ {text} }}"), &[1, 0, 0, 0, 0], &[]);
    check_rows("Body", 5, |text| format!("apply {text}"), &[1, 0, 0, 0, 0], &[]);
    check_rows("State", 9, |text| format!("state s0 {text} apply {{ ; }}"), &[2, 0, 0, 0, 0, 1], &[0]);
}
