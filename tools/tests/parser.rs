//! Texts with a parser as people write them, and those that cannot be read.

use second::numbers;
use sheet::make::make;

/// The numbers that a text stands for.
fn numbers_of(text: &str) -> Vec<u64> {
    let bytes = make(text).unwrap_or_else(|fault| panic!("{}", fault.told("text", text)));
    let read = numbers::read(&bytes).expect("a file of numbers");
    read.iter().map(|number| number.value).collect()
}

fn same(one: &str, other: &str) {
    assert_eq!(numbers_of(one), numbers_of(other));
}

/// Asserts what a text's fault is told as, without the line that it shows.
fn check(text: &str, expected: &str) {
    let fault = make(text).expect_err("a text that cannot be read");
    assert_eq!(fault.told("x", text).lines().next(), Some(expected), "{text}");
}

#[test]
fn a_text_is_of_version_2_if_it_has_states() {
    assert_eq!(numbers_of("apply { ; }"), [1, 0, 0, 0, 0, 0]);
    assert_eq!(numbers_of("state only { ; transition accept; } apply { ; }"), [2, 0, 0, 0, 0, 1, 0, 1, 0]);
}

#[test]
fn states_may_be_named_above_their_declaration() {
    let text = "state first { ; transition last; } state last { ; transition accept; } apply { ; }";
    same(text, &text.replace("first", "s0").replace("last", "s1"));
    let select = "state a { ; transition select(8w1) { 1: c; 2: b; } } state b { ; } state c { ; } apply { ; }";
    assert_eq!(numbers_of(select)[5..], [3, 0, 4, 1, 8, 1, 2, 1, 2, 2, 1, 0, 0, 0, 0, 0]);
}

#[test]
fn a_regular_name_of_a_state_that_nothing_declares_is_its_number() {
    assert_eq!(numbers_of("state x { ; transition s9; } apply { ; }")[5..], [1, 0, 3, 9, 0]);
    same(
        "state s1 { ; transition s0; } state s0 { ; } apply { ; }",
        "state a { ; transition b; } state b { ; } apply { ; }",
    );
}

#[test]
fn extract_and_verify_have_a_text_wherever_a_statement_stands() {
    let parser = "state s { ; transition accept; }";
    assert_eq!(numbers_of(&format!("{parser} apply {{ packet.extract(g3); }}")), [2, 0, 0, 0, 0, 1, 0, 1, 11, 3]);
    let action = "action a() { verify(true, 255); }";
    assert_eq!(numbers_of(&format!("{action} {parser} apply {{ ; }}"))[4..10], [0, 0, 0, 12, 0, 1]);
    check("apply { packet.extract(g3); }", "x:1:9: expected a statement's tag, 0 to 10, not 11");
}

#[test]
fn the_new_words_can_be_names() {
    let text = "header state { bit<8> extract; } state packet; bit<8> transition; bit<8> reject;
        action verify(bit<8> accept) { transition = accept; }
        state start { packet.extract(packet); transition = packet.extract; transition select(reject) { 1: state; } }
        state state { verify(true, 1); verify(8w1); transition accept; }
        apply { verify(8w2); } entries { }
        store { packet = valid { 1 }; transition = 2; reject = 3; } packet { 4 }";
    let regular = "header h { bit<8> f; } h p; bit<8> t; bit<8> r;
        action v(bit<8> a) { t = a; }
        state start { packet.extract(p); t = p.f; transition select(r) { 1: s; } }
        state s { verify(true, 1); v(8w1); transition accept; }
        apply { v(8w2); } entries { }
        store { p = valid { 1 }; t = 2; r = 3; } packet { 4 }";
    same(text, regular);
    let without_parser = "header state { bit<8> f; } state x; bit<8> packet; action verify(bit<8> y) { packet = y; }
        apply { verify(8w1); }";
    assert_eq!(numbers_of(without_parser)[..5], [1, 1, 1, 8, 2]);
}

#[test]
fn a_verify_may_hold_brackets() {
    let of = |condition: &str| numbers_of(&format!("state s {{ verify({condition}, 7); }} apply {{ ; }}"));
    assert_eq!(of("(true)"), of("true"));
    assert_eq!(of("f0(8w1, 8w2) && (g0 == 8w3)")[6..10], [12, 9, 12, 13]);
}

#[test]
fn packets() {
    let head = "state s { ; } apply { ; } entries { } store { }";
    assert_eq!(numbers_of(head)[8..], [0, 0]);
    assert_eq!(numbers_of(&format!("{head} packet {{ }}"))[8..], [0, 0, 0]);
    assert_eq!(numbers_of(&format!("{head} packet {{ 1 0xff 300 }} numbers {{ 7 }}"))[8..], [0, 0, 3, 1, 255, 300, 7]);
    assert_eq!(numbers_of(&format!("{head} packet 9 {{ 1 ... }}"))[8..], [0, 0, 9, 1]);
    check(&format!("{head} packet {{ 1, 2 }}"), "x:1:59: expected a number, not ','");
    check(&format!("{head} packet {{ ... }}"), "x:1:49: a list that ends in '...' says its count: packet 5 {");
    check("apply { ; } entries { } store { } packet { }", "x:1:35: expected the end, not 'packet'");
}

#[test]
fn faults() {
    for (text, expected) in [
        ("state accept { ; } apply { ; }", "x:1:7: 'accept' names no state"),
        ("state s { ; } state s { ; } apply { ; }", "x:1:21: 's' is declared twice"),
        ("state s { ; transition t; } apply { ; }", "x:1:24: there is no state 't'"),
        ("state s { ; transition accept } apply { ; }", "x:1:30: expected ';'"),
        ("state s { transition accept; ; } apply { ; }", "x:1:30: expected '}', not ';'"),
        ("state s { ; transition reject; } apply { ; }", "x:1:30: expected '(', not ';'"),
        ("state s { ; transition reject(256); } apply { ; }", "x:1:31: expected an error, 0 to 255, not 256"),
        ("state s { verify(true, 256); } apply { ; }", "x:1:24: expected an error, 0 to 255, not 256"),
        ("state s { ; transition select(8w1) { 8w1: s1; } } apply { ; }", {
            "x:1:38: no width stands here: the program says it"
        }),
        (
            "state s { ; } table t { }",
            "x:1:15: expected 'apply' (in order: header types, globals, actions and functions, \
          tables, states, apply, entries, store, packet), not 'table'",
        ),
    ] {
        check(text, expected);
    }
    let states: String = (0..17).map(|number| format!("state x{number} {{ ; }} ")).collect();
    check(&format!("{states} apply {{ ; }}"), "x:1:1: expected the count of states, 1 to 16, not 17");
}
