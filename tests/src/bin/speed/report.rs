//! Tables of what is measured, as they stand in docs/SPEED.md.

#[derive(Default)]
pub struct Report {
    pub text: String,
}

impl Report {
    /// A heading, and the first row of the table below it.
    pub fn table(&mut self, heading: &str, columns: &[&str]) {
        self.line(&format!("\n{heading}\n"));
        self.row(columns);
        self.line(&format!("|{}", "---|".repeat(columns.len())));
    }

    pub fn row<Cell: AsRef<str>>(&mut self, cells: &[Cell]) {
        let cells: Vec<&str> = cells.iter().map(AsRef::as_ref).collect();
        self.line(&format!("| {} |", cells.join(" | ")));
    }

    pub fn line(&mut self, line: &str) {
        self.text.push_str(line);
        self.text.push('\n');
    }
}

pub fn tenths(number: f64) -> String {
    format!("{number:.1}")
}

/// A whole number, with its digits in groups of three.
pub fn whole(number: f64) -> String {
    let digits = format!("{number:.0}");
    let groups: Vec<&[u8]> = digits.as_bytes().rchunks(3).rev().collect();
    String::from_utf8_lossy(&groups.join(&b',')).into_owned()
}
