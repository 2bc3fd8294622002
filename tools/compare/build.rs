//! Finds egg's files and the library, and says to the build where they are.

use std::path::{Path, PathBuf};
use std::{env, fs};

/// The files of egg that are compiled; lib.rs is not, since it names files that are not at hand.
const EGG_FILES: [&str; 7] = ["eclass", "machine", "multipattern", "pattern", "rewrite", "subst", "util"];

/// The entries of the library, by their names without `mulavedrop_`.
const ENTRIES: [&str; 9] = [
    "check_table",
    "search_class",
    "search_table",
    "search_class_multi",
    "search_table_multi",
    "dry_apply",
    "check_map",
    "check_rule",
    "program",
];

/// The path that the variable names, or the one given, relative to this package.
fn named_or(variable: &str, otherwise: &str) -> PathBuf {
    println!("cargo:rerun-if-env-changed={variable}");
    let here = PathBuf::from(env::var("CARGO_MANIFEST_DIR").unwrap());
    env::var(variable).map_or_else(|_| here.join(otherwise), PathBuf::from)
}

/// Writes the declarations of egg's modules, each at its file where it stands, to the build's folder.
fn declare_egg(folder: &Path) {
    let mut text = String::new();
    for name in EGG_FILES {
        let file = folder.join(name).with_extension("rs");
        let file = file.canonicalize().unwrap_or_else(|e| {
            panic!("egg's file {} is not there ({e}); EGG_SRC names another folder", file.display())
        });
        println!("cargo:rerun-if-changed={}", file.display());
        text += &format!("#[path = {:?}]\n#[allow(warnings)]\nmod {name};\n", file.to_str().unwrap());
    }
    let out = PathBuf::from(env::var("OUT_DIR").unwrap());
    fs::write(out.join("egg_files.rs"), text).unwrap();
}

/// The entries that MULAVEDROP_ENTRIES names: `all` if it is not set, `table` for the first, or names with commas.
fn entries_wanted() -> Vec<&'static str> {
    println!("cargo:rerun-if-env-changed=MULAVEDROP_ENTRIES");
    let wanted = env::var("MULAVEDROP_ENTRIES").unwrap_or_else(|_| "all".to_string());
    match wanted.as_str() {
        "all" => ENTRIES.to_vec(),
        "table" => vec!["check_table"],
        names => names
            .split(',')
            .map(|name| *ENTRIES.iter().find(|e| **e == name).unwrap_or_else(|| panic!("no entry {name}")))
            .collect(),
    }
}

/// Links the library, if there is one, and names the entries that are called.
fn link_library(archive: &Path) {
    println!("cargo:rerun-if-changed={}", archive.display());
    match archive.canonicalize() {
        Ok(file) => {
            println!("cargo:rustc-link-arg-bins={}", file.display());
            for entry in entries_wanted() {
                println!("cargo:rustc-cfg=entry=\"{entry}\"");
            }
        }
        Err(_) => println!("cargo:warning=no library at {}: only egg and the reading are compared", archive.display()),
    }
}

fn main() {
    println!("cargo:rerun-if-changed=build.rs");
    declare_egg(&named_or("EGG_SRC", "../../../shared/docs/src"));
    link_library(&named_or("MULAVEDROP_LIB", "../../crates/mulavedrop/out/libmulavedrop.a"));
}
