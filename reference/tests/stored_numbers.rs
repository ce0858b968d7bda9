//! The numbers in the engine's sources and stored output are those that the
//! estimates give.

use reference::model::{FIRST_EDITION, SECOND_EDITION};
use reference::{figures, stored};

/// A file of the engine's crates.
fn crate_file(name: &str) -> String {
    let path = format!("{}/../crates/{name}", env!("CARGO_MANIFEST_DIR"));
    std::fs::read_to_string(&path).expect(&path)
}

/// The numbers of a constant array in a source file of the engine.
fn array_in(source: &str, name: &str) -> Vec<u64> {
    let text = crate_file(source);
    let start = text.find(&format!("const {name}: ")).expect(name);
    let body = &text[start + text[start..].find("= [").expect("an array") + 3..];
    let body = &body[..body.find(']').expect("its end")];
    body.split(',')
        .map(|number| number.trim().replace('_', ""))
        .filter(|number| !number.is_empty())
        .map(|number| number.parse().expect("a number"))
        .collect()
}

#[test]
fn powers() {
    assert_eq!(array_in("power/src/stored.rt", "POWERS"), stored::powers());
}

#[test]
fn exponentials() {
    let found = array_in("exponential/src/stored.rt", "EXPONENTIALS");
    assert_eq!(found, stored::exponentials());
}

#[test]
fn logarithms() {
    let found = array_in("logarithm/src/stored.rt", "LOGARITHMS");
    assert_eq!(found, stored::logarithms());
}

#[test]
fn base_and_hazard_factors() {
    let source = "prediction/src/stored.rt";
    for (name, model) in [
        ("BASES_ONE", &FIRST_EDITION),
        ("BASES_TWO", &SECOND_EDITION),
    ] {
        assert_eq!(array_in(source, name), stored::bases(model), "{name}");
    }
    assert_eq!(array_in(source, "HAZARDS"), stored::hazards());
}

#[test]
fn printed_brackets() {
    assert_eq!(crate_file("bracket_figures/stdout"), figures::figures());
}
