//! Says where the library's archives are, and makes the wrong variants of the
//! rules that the mode `broken` tries.

use std::fmt::Write;
use std::{env, fs, path::Path};

include!("build/variants.rs");
include!("build/relay_variants.rs");
include!("build/profile_variants.rs");
include!("build/captures_variants.rs");
include!("build/route_variants.rs");

/// The files of src/rules that are copied, each with those it is used by.
const FILES: [(&str, &[&str]); 9] = [
    ("groups.rs", &["groups.rs"]),
    ("kinds.rs", &["kinds.rs", "reading.rs", "writing.rs"]),
    ("reading.rs", &["reading.rs"]),
    ("index.rs", &["index.rs"]),
    ("profile.rs", &["profile.rs"]),
    ("writing.rs", &["writing.rs"]),
    ("vendor.rs", &["vendor.rs"]),
    ("relay.rs", &["relay.rs"]),
    ("routes.rs", &["routes.rs"]),
];

fn main() {
    link();
    let generated = Path::new(&env::var("OUT_DIR").unwrap()).join("variants.rs");
    fs::write(generated, variants()).unwrap();
    for path in ["build.rs", "build", "src/rules"] {
        println!("cargo:rerun-if-changed={path}");
    }
}

fn link() {
    let package = env::var("CARGO_MANIFEST_DIR").unwrap();
    let archives = format!("{package}/../../target/staticlib");
    println!("cargo:rustc-link-search=native={archives}");
    for name in ["reader", "index", "profile", "routes", "writer", "captures"] {
        println!("cargo:rerun-if-changed={archives}/libdhcpopt_{name}.a");
    }
}

/// A module for each variant, and the list of them.
fn variants() -> String {
    let mut text = String::new();
    let mut list = String::new();
    let all = || VARIANTS.iter().chain(RELAY_VARIANTS).chain(PROFILE_VARIANTS).chain(ROUTE_VARIANTS);
    for (i, variant) in all().enumerate() {
        writeln!(text, "#[allow(warnings, clippy::all)]\nmod variant_{i} {{").unwrap();
        writeln!(text, "pub use independent::rules::answers;").unwrap();
        let copied = FILES.iter().find(|(file, _)| *file == variant.file).unwrap().1;
        for (file, _) in FILES {
            let module = file.strip_suffix(".rs").unwrap();
            if copied.contains(&file) {
                writeln!(text, "pub mod {module} {{\n{}}}", edited(variant, file)).unwrap();
            } else {
                writeln!(text, "pub use independent::rules::{module};").unwrap();
            }
        }
        writeln!(text, "}}").unwrap();
        writeln!(list, "    ({:?}, yardstick!(variant_{i})),", variant.name).unwrap();
    }
    let count = all().count();
    writeln!(text, "pub static VARIANTS: [(&str, Yardstick); {count}] = [\n{list}];").unwrap();
    text + &captures_variants()
}

/// The same of request 11, whose rules are a file of their own.
fn captures_variants() -> String {
    let mut text = String::new();
    let mut list = String::new();
    for (i, variant) in CAPTURES_VARIANTS.iter().enumerate() {
        writeln!(text, "#[allow(warnings, clippy::all)]\nmod captures_variant_{i} {{").unwrap();
        writeln!(text, "pub use independent::rules::reading;").unwrap();
        writeln!(text, "pub mod captures {{\n{}}}\n}}", edited(variant, "captures.rs")).unwrap();
        writeln!(list, "    ({:?}, tally_of!(captures_variant_{i})),", variant.name).unwrap();
    }
    let count = CAPTURES_VARIANTS.len();
    writeln!(text, "pub static TALLIES: [(&str, TallyOf); {count}] = [\n{list}];").unwrap();
    text
}

/// The text of a file, with the variant's edits if they are made in it.
fn edited(variant: &Variant, file: &str) -> String {
    let mut text = fs::read_to_string(Path::new("src/rules").join(file)).unwrap();
    if file == variant.file {
        for (from, to) in variant.edits {
            let found = text.matches(from).count();
            assert_eq!(found, 1, "{}: {from:?} is found {found} times", variant.name);
            text = text.replace(from, to);
        }
    }
    text
}
