//! Colours, where they are wanted.

use std::ffi::OsString;
use std::io::IsTerminal;

#[derive(Clone, Copy)]
pub struct Paint {
    colours: bool,
}

impl Paint {
    pub const NONE: Paint = Paint { colours: false };

    /// Colours if standard output is a terminal and NO_COLOR does not forbid them.
    pub fn of_standard_output() -> Paint {
        Paint::of(std::io::stdout().is_terminal(), std::env::var_os("NO_COLOR"))
    }

    fn of(is_terminal: bool, no_color: Option<OsString>) -> Paint {
        Paint { colours: is_terminal && no_color.is_none_or(|value| value.is_empty()) }
    }

    /// What is at fault.
    pub fn fault(self, text: &str) -> String {
        self.coloured(text, "\x1b[1;31m")
    }

    /// What has changed.
    pub fn change(self, text: &str) -> String {
        self.coloured(text, "\x1b[1;33m")
    }

    fn coloured(self, text: &str, colour: &str) -> String {
        if self.colours {
            format!("{colour}{text}\x1b[0m")
        } else {
            text.to_string()
        }
    }
}

#[cfg(test)]
mod tests {
    use super::Paint;

    #[test]
    fn text_is_coloured_only_on_a_terminal_that_wants_it() {
        assert_eq!(Paint::of(true, None).change("x"), "\x1b[1;33mx\x1b[0m");
        assert_eq!(Paint::of(true, Some("".into())).fault("^"), "\x1b[1;31m^\x1b[0m");
        assert_eq!(Paint::of(true, Some("1".into())).fault("^"), "^");
        assert_eq!(Paint::of(false, None).fault("^"), "^");
    }
}
