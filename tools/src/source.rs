//! Places in a text, and faults that are told with them.

/// How much of a line is shown, and how much of it before a mark, where it is longer.
const LONGEST: usize = 100;
const BEFORE_MARK: usize = 40;

/// What keeps a text from being read, and the byte of the text where it is.
#[derive(Debug, PartialEq, Eq)]
pub struct Fault {
    pub at: usize,
    pub message: String,
}

impl Fault {
    pub fn new(at: usize, message: impl Into<String>) -> Fault {
        Fault { at, message: message.into() }
    }

    /// `name:line:column: message`, the line, and a mark under the column.
    pub fn told(&self, name: &str, text: &str) -> String {
        let place = Place::of(text, self.at);
        let [line, blanks] = place.shown();
        format!("{name}:{}:{}: {}\n{line}\n{blanks}^\n", place.line, place.column(), self.message)
    }
}

/// A byte of a text as a line and what stands before it there.
pub struct Place<'a> {
    /// Lines are counted from 1.
    pub line: usize,
    /// The line's text before the byte, and behind it.
    pub before: &'a str,
    pub behind: &'a str,
}

impl<'a> Place<'a> {
    pub fn of(text: &'a str, at: usize) -> Place<'a> {
        let start = text[..at].rfind('\n').map_or(0, |newline| newline + 1);
        let behind = text[at..].lines().next().unwrap_or("");
        Place { line: text[..at].matches('\n').count() + 1, before: &text[start..at], behind }
    }

    /// Columns are characters, counted from 1.
    pub fn column(&self) -> usize {
        self.before.chars().count() + 1
    }

    /// The line, or the part of a long one around the place; and blanks as wide as what stands before the place.
    pub fn shown(&self) -> [String; 2] {
        let (before, behind) = (self.before.chars(), self.behind.chars());
        let length = before.clone().count() + behind.clone().count();
        let skipped = if length > LONGEST { (self.column() - 1).saturating_sub(BEFORE_MARK) } else { 0 };
        let dots = |cut: bool| if cut { "..." } else { "" };
        let before = format!("{}{}", dots(skipped > 0), before.skip(skipped).collect::<String>());
        let last = (skipped + LONGEST).saturating_sub(self.column() - 1);
        let behind = format!("{}{}", behind.take(last).collect::<String>(), dots(length > skipped + LONGEST));
        let blanks = before.chars().map(|character| if character == '\t' { '\t' } else { ' ' }).collect();
        [before + &behind, blanks]
    }
}

#[cfg(test)]
mod tests {
    use super::{Fault, Place};

    #[test]
    fn a_fault_is_told_with_its_line_and_a_mark() {
        let told = Fault::new(10, "no").told("x", "one\n\tzwölf x\nthree");
        assert_eq!(told, "x:2:6: no\n\tzwölf x\n\t    ^\n");
        assert_eq!(Fault::new(4, "end").told("x", "one\n"), "x:2:1: end\n\n^\n");
        assert_eq!(Fault::new(3, "end").told("x", "one\r\n"), "x:1:4: end\none\n   ^\n");
    }

    #[test]
    fn of_a_long_line_the_part_around_the_place_is_shown() {
        let line = format!("{}x{}", "a".repeat(200), "b".repeat(200));
        let [shown, blanks] = Place::of(&line, 200).shown();
        assert_eq!((shown.len(), blanks.len()), (106, 43));
        assert_eq!(&shown[blanks.len()..][..1], "x");
        assert_eq!(Place::of(&line, 0).shown(), [format!("{}...", "a".repeat(100)), String::new()]);
        let [shown, blanks] = Place::of(&line, 400).shown();
        assert_eq!((&shown[..3], shown.len(), blanks.len()), ("...", 44, 43));
    }
}
