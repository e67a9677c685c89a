//! The crate's declarations are those of the library's source: the same functions, of the same
//! types. A linker sees names alone. And its version and its rows are those of the other bindings.

use std::collections::BTreeMap;
use std::fs;
use std::path::Path;

use juniperreef::{ARC_ROW, CURVE_ROW};

/// The types that a function takes, and then the one that it gives.
type Types = Vec<String>;

/// Functions by name, from the text of Rattle or Rust.
fn functions(text: &str) -> BTreeMap<String, Types> {
    let heads = text.split("fn jr_").skip(1);
    heads.filter_map(function).map(|(name, types)| (format!("jr_{name}"), types)).collect()
}

/// `NAME(a: A, b: B) -> C`, whatever follows.
fn function(head: &str) -> Option<(String, Types)> {
    let (name, rest) = head.split_once('(')?;
    let (taken, rest) = rest.split_once(')')?;
    let given = rest.trim_start().strip_prefix("->")?;
    let given = given.split([';', '\n']).next()?;
    let mut types: Types =
        taken.split(',').filter_map(|a| a.split_once(':')).flat_map(|(_, t)| passed(t)).collect();
    types.extend(passed(given));
    Some((name.to_string(), types))
}

/// A slice of Rattle passes as its start and its length.
fn passed(text: &str) -> Types {
    match text.split_whitespace().collect::<Vec<_>>().join(" ").as_str() {
        "&mut [f64]" => vec!["*mut f64".into(), "usize".into()],
        other => vec![other.into()],
    }
}

#[test]
fn one_version_for_all_bindings() {
    let file = Path::new(env!("CARGO_MANIFEST_DIR")).join("../VERSION");
    match fs::read_to_string(file) {
        Ok(version) => assert_eq!(version.trim(), env!("CARGO_PKG_VERSION")),
        Err(_) => println!("not compared: no VERSION beside the crate"),
    }
}

/// The header is made from the sources.
#[test]
fn rows_are_the_headers() {
    let file = Path::new(env!("CARGO_MANIFEST_DIR")).join("../c/juniperreef.h");
    let Ok(header) = fs::read_to_string(file) else {
        println!("not compared: no header beside the crate");
        return;
    };
    for (name, row) in [("JR_ARC_ROW", ARC_ROW), ("JR_CURVE_ROW", CURVE_ROW)] {
        assert!(header.contains(&format!(" {name} = {row},")), "{name}: {row} here");
    }
}

#[test]
fn declarations_are_the_librarys() {
    let here = Path::new(env!("CARGO_MANIFEST_DIR"));
    let exports = here.join("../../crates/exports_c/src");
    if !exports.is_dir() {
        println!("not compared: the library's source is not beside the crate");
        return;
    }
    let mut due = BTreeMap::new();
    for file in fs::read_dir(exports).unwrap() {
        let file = file.unwrap();
        // The elementary functions lie beneath the entries, and this crate has no use for them.
        if file.file_name() != "of_numbers.rt" {
            due.append(&mut functions(&fs::read_to_string(file.path()).unwrap()));
        }
    }
    let declared = functions(&fs::read_to_string(here.join("src/ffi.rs")).unwrap());
    assert!(due.contains_key("jr_arc_sweep"));
    for name in due.keys().chain(declared.keys()) {
        assert_eq!(declared.get(name), due.get(name), "{name}: declared here, in the library");
    }
}
