//! The words, numbers and symbols of a text.

use crate::source::Fault;

#[derive(Clone, Copy, Debug, PartialEq, Eq)]
pub enum Token<'a> {
    Word(&'a str),
    Number(u64),
    /// A width and a value, as 8w255.
    Literal(u64, u64),
    Symbol(&'static str),
    End,
}

/// A token and the bytes of the text that it takes.
#[derive(Clone, Copy, Debug)]
pub struct Placed<'a> {
    pub token: Token<'a>,
    pub start: usize,
    pub end: usize,
}

/// Longer symbols stand before those that they begin with.
const SYMBOLS: [&str; 33] = [
    "&&&", "...", "&&", "||", "==", "!=", "<=", ">=", "<<", ">>", "++", "{", "}", "(", ")", "[", "]", "<", ">", ";",
    ":", ",", ".", "=", "+", "-", "*", "/", "&", "|", "^", "!", "~",
];

/// All tokens of a text; the last one is its end.
pub fn read(text: &str) -> Result<Vec<Placed<'_>>, Fault> {
    let mut tokens = Vec::new();
    let mut at = skip_blanks(text, 0)?;
    while at < text.len() {
        let (token, end) = first(text, at)?;
        tokens.push(Placed { token, start: at, end });
        at = skip_blanks(text, end)?;
    }
    tokens.push(Placed { token: Token::End, start: at, end: at });
    Ok(tokens)
}

/// Where the next token begins, behind blanks and comments.
fn skip_blanks(text: &str, mut at: usize) -> Result<usize, Fault> {
    loop {
        let rest = &text[at..];
        let trimmed = rest.trim_start();
        at += rest.len() - trimmed.len();
        if trimmed.starts_with("//") {
            at += trimmed.find('\n').unwrap_or(trimmed.len());
        } else if let Some(inside) = trimmed.strip_prefix("/*") {
            let length = inside.find("*/").ok_or_else(|| Fault::new(at, "this comment does not end"))?;
            at += "/*".len() + length + "*/".len();
        } else {
            return Ok(at);
        }
    }
}

fn first(text: &str, at: usize) -> Result<(Token<'_>, usize), Fault> {
    let rest = &text[at..];
    let character = rest.chars().next().unwrap_or(' ');
    if character.is_ascii_digit() {
        return number(text, at);
    }
    if is_of_word(character) {
        let end = at + run(rest);
        return Ok((Token::Word(&text[at..end]), end));
    }
    match SYMBOLS.iter().find(|symbol| rest.starts_with(**symbol)) {
        Some(symbol) => Ok((Token::Symbol(symbol), at + symbol.len())),
        None => Err(Fault::new(at, format!("'{character}' stands for nothing here"))),
    }
}

fn is_of_word(character: char) -> bool {
    character.is_ascii_alphanumeric() || character == '_'
}

/// The length of the letters and digits that a text begins with.
fn run(text: &str) -> usize {
    text.find(|character| !is_of_word(character)).unwrap_or(text.len())
}

/// A number, or a literal with its width.
fn number(text: &str, at: usize) -> Result<(Token<'_>, usize), Fault> {
    let end = at + run(&text[at..]);
    let word = &text[at..end];
    let value = |digits: &str| value_of(digits, word).map_err(|message| Fault::new(at, message));
    let token = match word.split_once('w') {
        Some((width, digits)) => Token::Literal(value(width)?, value(digits)?),
        None => Token::Number(value(word)?),
    };
    Ok((token, end))
}

/// The value of some digits of a word, or what is wrong with the word.
fn value_of(digits: &str, word: &str) -> Result<u64, String> {
    let (digits, radix) = match digits.get(..2) {
        Some("0x" | "0X") => (&digits[2..], 16),
        Some("0b" | "0B") => (&digits[2..], 2),
        _ => (digits, 10),
    };
    let plain = digits.replace('_', "");
    if plain.is_empty() || !plain.chars().all(|digit| digit.is_digit(radix)) {
        return Err(format!("'{word}' is no number"));
    }
    u64::from_str_radix(&plain, radix).map_err(|_| "numbers are below 2^64".to_string())
}

#[cfg(test)]
mod tests {
    use super::{read, Token};

    fn tokens(text: &str) -> Vec<Token<'_>> {
        read(text).expect("a text of tokens").into_iter().map(|placed| placed.token).collect()
    }

    #[test]
    fn numbers_are_decimal_hexadecimal_or_binary() {
        use Token::*;
        assert_eq!(tokens("10 0xfF 0b1010_0101"), [Number(10), Number(255), Number(165), End]);
        assert_eq!(tokens("8w255 4w0xA"), [Literal(8, 255), Literal(4, 10), End]);
        assert_eq!(tokens("18446744073709551615"), [Number(u64::MAX), End]);
    }

    #[test]
    fn the_longest_symbol_is_taken() {
        use Token::*;
        assert_eq!(tokens("a&&&b&&c++d"), {
            [Word("a"), Symbol("&&&"), Word("b"), Symbol("&&"), Word("c"), Symbol("++"), Word("d"), End]
        });
    }

    #[test]
    fn comments_are_blanks() {
        assert_eq!(tokens("a // b\n/* c\n */ d//"), [Token::Word("a"), Token::Word("d"), Token::End]);
    }

    #[test]
    fn what_is_no_token_is_a_fault_at_its_place() {
        let fault = |text| read(text).expect_err("no token");
        assert_eq!((fault("a §").at, fault("a §").message.as_str()), (2, "'§' stands for nothing here"));
        assert_eq!(fault("a /*/ b").at, 2);
        assert_eq!(fault(" 12x").message, "'12x' is no number");
        assert_eq!(fault("18446744073709551616").message, "numbers are below 2^64");
        assert_eq!(fault("8w").message, "'8w' is no number");
    }
}
