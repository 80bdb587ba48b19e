//! Texts that cannot be read: where the fault is, and what it says.

use sheet::make::make;

/// Tables and actions that entries of the texts below use.
const TABLES: &str = "action a() { ; } action b(bit<8> x) { ; }
table t { key = { 8w1: exact; 8w2: lpm; 8w3: ternary; } actions = { a; b; } default_action = a(); }
apply { ; }
";

/// The fault of a text as it is told, without the line that it shows.
fn fault(text: &str) -> String {
    let fault = make(text).expect_err("a text that cannot be read");
    fault.told("x", text).lines().next().expect("a line").to_string()
}

fn check(cases: &[(&str, &str)]) {
    for (text, expected) in cases {
        assert_eq!(fault(text), *expected, "{text}");
    }
}

#[test]
fn a_fault_shows_its_line_and_a_mark_under_its_column() {
    let text = "bit<8> x;\n\napply {\n    x = y + 8w1;\n}\n";
    let told = make(text).expect_err("a text that cannot be read").told("name", text);
    assert_eq!(told, "name:4:9: there is no local, parameter or global 'y'\n    x = y + 8w1;\n        ^\n");
}

#[test]
fn names() {
    check(&[
        ("apply { x = 8w1; }", "x:1:9: there is no local, parameter or global 'x'"),
        ("apply { x.y = 8w1; }", "x:1:9: there is no global 'x'"),
        ("header h { bit<8> f; } h x; apply { x.y = 8w1; }", "x:1:39: there is no field 'y'"),
        ("x y; apply { ; }", "x:1:1: there is no header type 'x'"),
        ("apply { x(); }", "x:1:9: there is no action or function 'x'"),
        ("apply { x.apply(); }", "x:1:9: there is no table 'x'"),
        ("apply { g07 = 8w1; }", "x:1:9: there is no local, parameter or global 'g07'"),
        ("bit<8> x;\nbool x; apply { ; }", "x:2:6: 'x' is declared twice"),
        ("action a(bool x) { bool x; } apply { ; }", "x:1:25: 'x' is a parameter already"),
        ("header if { bit<8> x; } apply { ; }", "x:1:8: expected a header type's name, not 'if'"),
        ("action x() { bit<8> y; y = 8w1; } apply { y = 8w1; }", "x:1:43: there is no local, parameter or global 'y'"),
    ]);
}

#[test]
fn expressions() {
    check(&[
        ("apply { return 1; }", "x:1:16: a literal says its width, as 8w1"),
        ("apply { return 8w1 > 8w2; }", "x:1:20: there is < and <=; exchange the operands"),
        ("apply { return 8w1 / 8w2; }", "x:1:20: there is no division"),
        ("apply { return (bool) 8w1; }", "x:1:16: a cast goes to bits; a comparison gives a bool"),
        ("apply { return (8w1; }", "x:1:20: expected ')', not ';'"),
        ("apply { return 8w1 +; }", "x:1:21: expected an expression, not ';'"),
        ("apply { return f0(8w1 8w2); }", "x:1:23: expected ',' or ')', not '8w2'"),
        ("apply { return 8w1[7]; }", "x:1:21: expected ':', not ']'"),
        ("apply { return 8w1x; }", "x:1:16: '8w1x' is no number"),
        ("apply { return 65w18446744073709551616; }", "x:1:16: numbers are below 2^64"),
        ("apply { return 8w1 ? 8w2; }", "x:1:20: '?' stands for nothing here"),
    ]);
}

#[test]
fn statements() {
    check(&[
        ("apply {\n    exit\n}", "x:2:9: expected ';'"),
        ("apply { ; ", "x:1:11: expected a statement, not the end"),
        ("apply { 8w1; }", "x:1:9: expected a statement, not '8w1'"),
        ("apply { g0; }", "x:1:11: expected '=', not ';'"),
        ("apply { g0[3:0] = 4w1; }", "x:1:11: expected '=', not '['"),
        ("apply { bit<8> x; }", "x:1:9: locals stand at the head of an action or a function"),
        ("action a() { ; bool x; } apply { ; }", "x:1:16: locals stand at the head of an action or a function"),
        (
            "action a() { bool x = true; } apply { ; }",
            "x:1:21: a local starts at 0 or false; give it another value by an assignment",
        ),
        ("apply { if true exit; }", "x:1:12: expected '(', not 'true'"),
        ("apply { ; } /* more", "x:1:13: this comment does not end"),
    ]);
}

#[test]
fn declarations() {
    let order = "header types, globals, actions and functions, tables, states, apply, entries, store, packet";
    let early = format!("x:1:18: expected 'apply' (in order: {order}), not 'bit'");
    check(&[
        ("action a() { ; } bit<8> x; apply { ; }", &early),
        ("bit<0> x; apply { ; }", "x:1:5: a width is 1 to 64"),
        ("bit<128> x; apply { ; }", "x:1:5: a width is 1 to 64"),
        ("header h { bool x; } apply { ; }", "x:1:12: expected 'bit', not 'bool'"),
        ("h0 f() { ; } apply { ; }", "x:1:1: expected 'bool' or 'bit', not 'h0'"),
        ("h8 x; apply { ; }", "x:1:1: there are at most 8 header types, h0 and up"),
        ("table t { key = { 8w1: range; }", "x:1:24: expected 'exact', 'lpm' or 'ternary', not 'range'"),
        ("table t { actions = { }", "x:1:11: expected 'key', not 'actions'"),
        (
            "action a() { ; } action b() { ; } table t { key = { 8w1: exact; } actions = { a; } default_action = b(); }",
            "x:1:101: the table does not list 'b'",
        ),
    ]);
}

#[test]
fn what_is_on_no_list_or_too_deep() {
    let nots = |count| format!("apply {{ return {} true; }}", "!".repeat(count));
    let brackets = format!("apply {{ return {}", "(".repeat(10_000));
    let sum = format!("apply {{ return 8w1{}; }}", " + 8w1".repeat(100_000));
    let slices = format!("apply {{ return 8w1{}; }}", "[7:0]".repeat(100_000));
    let blocks = format!("apply {{ {}", "{".repeat(10_000));
    let long = format!("apply {{ ; }} numbers {{{} }}", " 1".repeat(5_000));
    check(&[
        (&format!("apply {{ {} }}", ";".repeat(65)), "x:1:9: expected the count of a block's members, 0 to 64, not 65"),
        ("header h { } apply { ; }", "x:1:12: expected the count of a header's fields, 1 to 16, not 0"),
        ("apply { return 8w1[64:0]; }", "x:1:19: expected a slice's bound, 0 to 63, not 64"),
        ("apply { return 0w1; }", "x:1:16: expected a literal's width, 1 to 64, not 0"),
        (&nots(31), "x:1:48: constructs nest at most 32 deep"),
        (&nots(10_000), "x:1:143: constructs nest at most 32 deep"),
        (&brackets, "x:1:143: constructs nest at most 32 deep"),
        (&sum, "x:1:212: constructs nest at most 32 deep"),
        (&slices, "x:1:179: constructs nest at most 32 deep"),
        (&blocks, "x:1:137: constructs nest at most 32 deep"),
        (&long, "x:1:8203: a bench file has at most 4096 bytes, and this text makes 5006"),
    ]);
}

#[test]
fn entries_and_store() {
    let check_behind = |behind: &str, expected: &str| assert_eq!(fault(&format!("{TABLES}{behind}")), expected);
    check_behind("entries { u (1): a(); }", "x:4:11: there is no table 'u'");
    check_behind("entries { t5 (1): a(); }", "x:4:11: there is no table 't5'");
    check_behind("entries { t (1, 2/3): a(); }", "x:4:20: 't' has 3 keys");
    check_behind("entries { t (1, 2, 3 &&& 4): a(); }", "x:4:18: expected '/', not ','");
    check_behind("entries { t (1, 2/3, 3/4): a(); }", "x:4:23: expected '&&&', not '/'");
    check_behind("entries { t (1, 2/3, 3 &&& 4): b(); }", "x:4:34: the action has 1 parameter");
    check_behind("entries { t (1, 2/3, 3 &&& 4): b; }", "x:4:33: expected '(', not ';'");
    check_behind("entries { t (1, 2/3, 3 &&& 4): c(); }", "x:4:32: there is no action or function 'c'");
    check_behind("entries { t (1, 2/3, 3 &&& 4): a1(); }", "x:4:35: the action has 1 parameter");
    check_behind("entries { t (1, 2/3, 3 &&& 4): actions[2](); }", "x:4:42: expected ';'");
    let dots = "x:4:44: expected '...', since that action has no known parameters, not '}'";
    check_behind("entries { t (1, 2/3, 3 &&& 4): actions[2]; }", dots);
    check_behind("entries { ... }", "x:4:1: a list that ends in '...' says its count: entries 5 {");
    check_behind("entries 1 { }", "x:4:1: only a list that ends in '...' says its count");
    check_behind("store { }", "x:4:1: expected 'entries', not 'store'");
    check_behind("entries { }", "x:4:12: expected 'store', not the end");
    check_behind("entries { } store { } more", "x:4:23: expected the end, not 'more'");
    check_behind("entries { } store { } numbers { 1, 2 }", "x:4:34: expected a number, not ','");
}

#[test]
fn values_of_the_store() {
    let head = "header h { bit<8> f; } h x; bit<8> y; apply { ; } entries { } store { ";
    let check_value = |value: &str, expected: &str| assert_eq!(fault(&format!("{head}\n{value}")), expected);
    check_value("}", "x:2:1: expected the value of 'x', not '}'");
    check_value("y = 1; }", "x:2:1: expected the value of 'x', not that of 'y'");
    check_value("x = 1; }", "x:2:5: expected 'valid' or 'invalid', not '1'");
    check_value("x = good { 1 }; }", "x:2:5: expected 'valid' or 'invalid'");
    check_value("x = valid { 1, 2 }; }", "x:2:14: the header has 1 field");
    check_value("x = valid { 1 }; y = 8w1; }", "x:2:22: no width stands here: the program says it");
    check_value("x = valid { 1 }; y = ; }", "x:2:22: expected a number, not ';'");
    assert_eq!(fault("h0 x; apply { ; } entries { } store { x = valid { }; }").as_str(), {
        "x:1:43: a header type that does not exist has no values"
    });
}
