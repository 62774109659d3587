//! Where marks are put, and which places they count.

#[path = "../build/marks.rs"]
mod marks;
#[path = "../build/tokens.rs"]
mod tokens;

/// The places of a text, without its name.
fn sites(text: &str) -> Vec<String> {
    let mut sites = Vec::new();
    marks::marked(text, "", &[], &mut sites);
    sites
        .iter()
        .map(|site| site.trim_start_matches(':').trim_end().to_owned())
        .collect()
}

#[test]
fn a_condition_is_marked_by_its_operands() {
    let text = "fn f() {\n    if a && !(b || c(|x| x || d)) {}\n}";
    let conditions = [
        "2 condition a",
        "2 condition !(b || c(|x| x || d))",
        "2 condition b",
        "2 condition c(|x| x || d)",
        "2 condition x",
        "2 condition d",
    ];
    assert_eq!(sites(text)[..6], conditions);
    assert_eq!(sites(text)[6..], ["1 block", "2 block"]);
}

#[test]
fn a_condition_without_operators_is_marked_whole() {
    assert_eq!(
        sites("fn f() { if a < b[i].c(&d) { g() } else { h() } }"),
        [
            "1 condition a < b[i].c(&d)",
            "1 block",
            "1 block",
            "1 block"
        ]
    );
}

#[test]
fn a_let_is_marked_at_its_option() {
    let mut sites = Vec::new();
    let text = "fn f() { if a && let Some(b) = c.d() { } else if let Some(e) = &mut f[0] { } }";
    let marked = marks::marked(text, "t", &[], &mut sites);
    assert!(marked.contains(
        "if crate::marks::cond(0, a) && let Some(b) = crate::marks::is_some(1, c.d()) {"
    ));
    assert!(marked.contains("else if let Some(e) = crate::marks::is_some(2, &mut f[0]) {"));
    assert_eq!(sites[1], "t:1 condition let Some(b) = c.d()");
}

#[test]
fn a_closure_has_no_operator() {
    assert_eq!(sites("fn f() { a.b(|| c); d(|e| e) }"), ["1 block"]);
}

#[test]
fn every_arm_is_marked_once() {
    let mut sites = Vec::new();
    let text = "fn f() { match a { B => c, (d, true) => g(h, i), _ => { j } } }";
    let marked = marks::marked(text, "t", &[], &mut sites);
    let arms = "B => { crate::marks::hit(1); c }, (d, true) => { crate::marks::hit(2); g(h, i) }, _ => { crate::marks::hit(3); j }";
    assert!(marked.contains(arms), "{marked}");
    assert_eq!(sites, ["t:1 block ", "t:1 arm ", "t:1 arm ", "t:1 block "]);
}

#[test]
fn types_and_imports_have_no_blocks_and_functions_that_answer_types_do() {
    let text = "use a::{b, c};\nstruct D { e: F }\nimpl D {\nfn g() -> D { D { e: h } }\n}";
    assert_eq!(sites(text), ["4 block"]);
}

#[test]
fn comments_and_strings_are_passed_over() {
    let text = "fn f() { // if a && b {\n    g(\"if c || d {\");\n}";
    assert_eq!(sites(text), ["1 block"]);
}

#[test]
fn functions_that_are_not_asked_for_are_left_as_they_are() {
    let mut sites = Vec::new();
    let text = "fn a() { if b {} }\nfn c() { if d {} }";
    let marked = marks::marked(text, "t", &["fn c("], &mut sites);
    assert!(marked.starts_with(
        "fn a() { if b {} }\nfn c() { crate::marks::hit(1); if crate::marks::cond(0, d) {"
    ));
    assert_eq!(sites.len(), 3);
}
