//! Texts as people write them: names of any kind, other layouts, and what each stands for.

use second::numbers;
use sheet::make::make;
use sheet::show::show;

/// The numbers that a text stands for.
fn numbers_of(text: &str) -> Vec<u64> {
    let bytes = make(text).unwrap_or_else(|fault| panic!("{}", fault.told("text", text)));
    let read = numbers::read(&bytes).expect("a file of numbers");
    read.iter().map(|number| number.value).collect()
}

fn same(one: &str, other: &str) {
    assert_eq!(numbers_of(one), numbers_of(other));
}

/// What an expression stands for in an action with a parameter, a local and some globals.
fn expression(text: &str) -> Vec<u64> {
    let head = "header eth { bit<8> a; bit<8> b; } eth e; bit<8> x; bool y;";
    let of = |value: &str| {
        numbers_of(&format!("{head} action run(inout bit<8> p) {{ bit<8> l; p = {value}; }} apply {{ ; }}"))
    };
    let (all, frame) = (of(text), of("true"));
    let start = frame.len() - [0, 1, 0, 0].len();
    all[start..all.len() - [0, 0].len()].to_vec()
}

const ROUTER: &str = "
    // A router that forwards by the longest prefix.
    header ethernet_t { bit<48> dst; bit<48> src; bit<16> kind; }
    header ipv4_t     { bit<8> ttl; bit<32> src; bit<32> dst; }

    ethernet_t ethernet;
    ipv4_t ipv4;
    bit<9> port;
    bool dropped;

    bit<8> one_less(in bit<8> ttl) {
        bit<8> result;
        result = ttl;
        if (ttl != 8w0)
            result = ttl - 8w1;
        return result;
    }

    action drop() { dropped = true; }

    action forward(bit<48> mac, bit<9> to) {
        ethernet.dst = mac;
        ipv4.ttl = one_less(ipv4.ttl);
        port = to;
    }

    table routes {
        key = { ipv4.dst: lpm; }
        actions = { drop; forward; }
        default_action = drop;
    }

    apply {
        if (ipv4.isValid() && !dropped) {
            routes.apply();
        } else
            drop();
    }

    entries {
        routes (0x0A000000/8): forward(0x0200_0000_0001, 1);
        routes (0/0): drop();
    }

    store {
        ethernet = valid { 1, 2, 0x800 };
        ipv4 = valid { 64, 0x0A000001, 0x0A000002 };
        port = 0;
        dropped = false;
    }";

#[test]
fn a_router_runs() {
    let bytes = make(ROUTER).expect("a text that can be read");
    let lines = second::answer::marked(&bytes).lines();
    assert_eq!(lines, "done 29 29\n1 2199023255553 2 2048 1 63 167772161 167772162 1 0\n");
}

#[test]
fn shown_names_are_regular() {
    let shown = show(&make(ROUTER).expect("a text that can be read")).expect("a text").text;
    for line in
        ["h1 g1;", "bit<8> f0(in bit<8> p0) {", "    g1.f0 = f0(g1.f0);", "    t0 (167772160/8): a2(2199023255553, 1);"]
    {
        assert!(shown.contains(line), "{line} is not in\n{shown}");
    }
}

#[test]
fn names_are_resolved_by_scope() {
    let local = "bit<8> x; action a(bit<8> p) { bit<8> x; x = p; } apply { ; }";
    same(local, "bit<8> g0; action a0(bit<8> p0) { bit<8> l0; l0 = p0; } apply { ; }");
    let parameter = "bit<8> x; action a(out bit<8> x) { x = 8w1; } apply { x = 8w1; }";
    same(parameter, "bit<8> g0; action a0(out bit<8> p0) { p0 = 8w1; } apply { g0 = 8w1; }");
}

#[test]
fn one_name_may_stand_for_things_of_different_sorts() {
    let text = "header x { bit<8> x; } x x; action x(bit<8> y) { x.x = y; }
        table x { key = { x.x: exact; } actions = { x; } default_action = x(1); }
        apply { x.apply(); } entries { x (2): x(3); } store { x = valid { 4 }; }";
    same(text, &text.replace("x x;", "x g;").replace("x.x", "g.x").replace("x = valid", "g = valid"));
}

#[test]
fn what_is_declared_goes_before_a_regular_name() {
    same("bit<8> g1; bit<8> g0; apply { g1 = g0; }", "bit<8> a; bit<8> b; apply { a = b; }");
    same(
        "bit<8> l0; action a(bit<8> p) { l0 = p; } apply { ; }",
        "bit<8> g0; action a(bit<8> p) { g0 = p; } apply { ; }",
    );
    same("action a1() { a1(); } apply { a1(); }", "action x() { x(); } apply { x(); }");
}

#[test]
fn a_regular_name_that_nothing_declares_is_its_number() {
    assert_eq!(numbers_of("apply { g7 = l9; }"), [1, 0, 0, 0, 0, 1, 4, 7, 2, 9]);
    assert_eq!(numbers_of("apply { g7.f3 = p2; }"), [1, 0, 0, 0, 0, 1, 5, 7, 3, 3, 2]);
    assert_eq!(numbers_of("apply { a12(); }"), numbers_of("apply { f12(); }"));
    assert_eq!(numbers_of("h5 g0; apply { t5.apply(); }"), [1, 0, 1, 133, 0, 0, 5, 5]);
}

#[test]
fn callables_and_tables_may_be_used_above_their_declaration() {
    let text = "action first() { second(); last.apply(); } action second() { ; }
        table last { key = { 8w1: exact; } actions = { second; } default_action = second(); } apply { ; }";
    let regular = text.replace("first", "a0").replace("second", "a1").replace("last", "t0");
    same(text, &regular);
}

#[test]
fn operators_bind_as_in_p4() {
    for (loose, bracketed) in [
        ("x + x * x", "x + (x * x)"),
        ("x - x - x", "(x - x) - x"),
        ("x ++ x + x", "(x ++ x) + x"),
        ("x << x + x", "x << (x + x)"),
        ("x & x == x", "(x & x) == x"),
        ("x | x ^ x & x", "x | (x ^ (x & x))"),
        ("x < x == y", "(x < x) == y"),
        ("y || y && y", "y || (y && y)"),
        ("!y == y", "(!y) == y"),
        ("~x[3:0]", "~(x[3:0])"),
        ("(bit<4>) x[7:4]", "(bit<4>) (x[7:4])"),
        ("(bit<4>) x + x", "((bit<4>) x) + x"),
        ("x[7:0][3:0]", "(x[7:0])[3:0]"),
    ] {
        assert_eq!(expression(loose), expression(bracketed), "{loose}");
    }
}

#[test]
fn expressions_stand_for_their_numbers() {
    assert_eq!(expression("8w0xFF"), [1, 8, 255]);
    assert_eq!(expression("e.b"), [5, 0, 1]);
    assert_eq!(expression("e.isValid()"), [6, 0]);
    assert_eq!(expression("run(l, p)"), [13, 0, 2, 2, 0, 3, 0]);
    assert_eq!(expression("bool(2)"), [0, 2]);
}

#[test]
fn a_body_is_a_block_unless_it_has_exactly_one_statement() {
    assert_eq!(numbers_of("apply { }")[5..], [3, 0]);
    assert_eq!(numbers_of("apply { exit; }")[5..], [8]);
    assert_eq!(numbers_of("apply { exit; exit; }")[5..], [3, 2, 8, 8]);
    assert_eq!(numbers_of("apply { { exit; } }")[5..], [3, 1, 8]);
    same("apply { { exit; exit; } }", "apply { exit; exit; }");
}

#[test]
fn an_else_belongs_to_the_nearest_if() {
    same("apply { if (g0) if (g1) ; else exit; }", "apply { if (g0) if (g1) ; else exit; else ; }");
    assert_eq!(numbers_of("apply { if (true) exit; }")[5..], [2, 0, 1, 8, 0]);
}

#[test]
fn words_of_the_grammar_can_be_names_where_no_one_mistakes_them() {
    let text = "header key { bit<8> actions; bit<8> isValid; } key entries; bit<8> store;
        action numbers(bit<8> valid) { entries.isValid = valid; }
        table mark { key = { store: exact; } actions = { numbers; } default_action = numbers(1); }
        apply { mark.apply(); } entries { mark (1): numbers(2); } store { entries = invalid { 0, 0 }; store = 1; }";
    assert_eq!(numbers_of(text)[..9], [1, 1, 2, 8, 8, 2, 128, 8, 1]);
}

#[test]
fn a_position_may_be_said_by_its_number() {
    let text = "action a() { ; } table t { key = { 8w1: exact; } actions = { a; a; } default_action = actions[1](); }
        apply { ; } entries { t (1): actions[1](); t (2): a(); } store { }";
    assert_eq!(numbers_of(text)[..], [1, 0, 0, 1, 0, 0, 0, 0, 1, 1, 0, 1, 8, 1, 2, 0, 0, 1, 0, 0, 2, 0, 1, 1, 0, 2, 0]);
}

#[test]
fn any_layout_will_do() {
    let dense: String = ROUTER.replace("// A router that forwards by the longest prefix.", "").replace('\n', " ");
    same(ROUTER, &dense);
    same(ROUTER, &ROUTER.replace('\n', "\r\n"));
    same(ROUTER, &ROUTER.replace(';', " /* here */ ; "));
}
