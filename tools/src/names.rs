//! The regular names of what a bench file numbers: a letter and the number, as g7.

/// What a name stands for.
#[derive(Clone, Copy, Debug, PartialEq, Eq)]
pub enum Sort {
    Header,
    Field,
    Global,
    Action,
    Function,
    Parameter,
    Local,
    Table,
    State,
}

impl Sort {
    fn letter(self) -> char {
        match self {
            Sort::Header => 'h',
            Sort::Field | Sort::Function => 'f',
            Sort::Global => 'g',
            Sort::Action => 'a',
            Sort::Parameter => 'p',
            Sort::Local => 'l',
            Sort::Table => 't',
            Sort::State => 's',
        }
    }

    /// The regular name of a number.
    pub fn name(self, number: u64) -> String {
        format!("{}{number}", self.letter())
    }

    /// The number whose regular name it is, if it is one.
    pub fn number(self, name: &str) -> Option<u64> {
        let number = name.strip_prefix(self.letter())?.parse().ok()?;
        (self.name(number) == name).then_some(number)
    }
}

#[cfg(test)]
mod tests {
    use super::Sort;

    #[test]
    fn a_number_has_one_regular_name() {
        assert_eq!(Sort::Global.name(7), "g7");
        assert_eq!(Sort::Global.number("g18446744073709551615"), Some(u64::MAX));
        for other in ["g", "g07", "g+7", "h7", "g7x", "G7", "g18446744073709551616"] {
            assert_eq!(Sort::Global.number(other), None, "{other}");
        }
    }
}
