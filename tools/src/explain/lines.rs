//! A line of a sheet with a mark under what is at fault.

use crate::paint::Paint;
use crate::show::Mark;
use crate::source::Place;

const INDENT: &str = "    ";

/// The line that a mark begins in, below the one that opens the declaration or list around it.
pub fn marked(text: &str, mark: &Mark, paint: Paint) -> String {
    let place = Place::of(text, mark.start);
    let marked = text[mark.start..mark.end].lines().next().unwrap_or("");
    let [line, blanks] = place.shown();
    let width = marked.len().min(line.len().saturating_sub(blanks.len())).max(1);
    let mut lines = opening(text, mark.start - place.before.len());
    lines.push(line);
    lines.push(format!("{blanks}{}", paint.fault(&"^".repeat(width))));
    lines.iter().map(|line| format!("{INDENT}{line}\n")).collect()
}

/// The line that opens what the line at `start` stands in, unless that line opens it; dots for lines between.
fn opening(text: &str, start: usize) -> Vec<String> {
    let opens = |line: &&str| !line.is_empty() && !line.starts_with([' ', '}']);
    let above: Vec<&str> = text[..start].lines().collect();
    let line = text[start..].lines().next();
    match above.iter().rposition(opens) {
        Some(_) if line.iter().any(opens) => Vec::new(),
        Some(head) if head + 1 == above.len() => vec![above[head].to_string()],
        Some(head) => vec![above[head].to_string(), format!("{INDENT}...")],
        None => Vec::new(),
    }
}

#[cfg(test)]
mod tests {
    use super::marked;
    use crate::paint::Paint;
    use crate::show::{Mark, Part};

    fn shown(text: &str, start: usize, end: usize) -> String {
        marked(text, &Mark { place: 0, part: Part::If, start, end }, Paint::NONE)
    }

    #[test]
    fn a_line_stands_below_the_one_that_opens_its_declaration() {
        let text = "one {\n}\n\ntwo {\n    x;\n    y;\n}\n";
        assert_eq!(shown(text, 19, 21), "    two {\n        x;\n        ^^\n");
        assert_eq!(shown(text, 26, 27), "    two {\n        ...\n        y;\n        ^\n");
        assert_eq!(shown(text, 0, 3), "    one {\n    ^^^\n");
    }

    #[test]
    fn a_mark_ends_with_its_line() {
        assert_eq!(shown("a b\nc\n", 2, 5), "    a b\n      ^\n");
        let long = "a".repeat(150);
        assert!(shown(&long, 0, 150).ends_with(&format!("\n    {}\n", "^".repeat(103))));
    }
}
