//! A bench file as text.

mod expressions;
mod inputs;
mod page;
mod program;
mod statements;
mod states;

pub use expressions::plain_value;
pub use inputs::mark_text;
pub use page::{Mark, Part, Sheet};

use page::Page;
use second::answer::Refusal;
use second::tree::Program;
use second::{numbers, shape};

/// The text of a file that passes refusals 1 to 5; of another one the refusal.
pub fn show(bytes: &[u8]) -> Result<Sheet, Refusal> {
    let numbers = numbers::read(bytes)?;
    let (program, rest) = shape::read(&numbers, bytes.len())?;
    let mut writer = Writer { program: &program, page: Page::default(), in_state: false };
    writer.program();
    writer.inputs(rest, bytes.len());
    Ok(writer.page.sheet())
}

struct Writer<'a> {
    program: &'a Program,
    page: Page,
    /// Whether a state is being written.
    in_state: bool,
}
