//! What the program `vectors` runs are the examples and more, and what it has to print is what this interpreter answers.

use second::stored::Stored;

#[test]
fn what_is_stored_is_as_the_corpus_and_the_second_interpreter_have_it() {
    let stored = Stored::read().unwrap_or_else(|fault| panic!("{fault}"));
    let renewed = stored.renewed().unwrap_or_else(|fault| panic!("{fault}"));
    assert!(stored == renewed, "the program `stored` writes them anew, and git diff says what it changed");
}
