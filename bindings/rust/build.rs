// Links target/staticlib/libexports.a of this repository, or that of the folder in POZSMETEG_LIB.
use std::env;
use std::path::Path;

/// One sentence on what is missing and what makes it.
fn missing(library: &Path) -> String {
    let kit = env::split_paths(&env::var_os("PATH").unwrap_or_default()).any(|folder| folder.join("rt").is_file());
    let without = if kit { "" } else { ", for which the Rattle kit's `rt` has to be on the PATH, and it is not" };
    let made = format!("`tools/staticlib` makes target/staticlib/libexports.a{without}");
    format!("there is no static library {}: {made}; POZSMETEG_LIB may name another folder that has one", library.display())
}

fn main() {
    let here = env::var("CARGO_MANIFEST_DIR").unwrap();
    let folder = env::var("POZSMETEG_LIB").unwrap_or(format!("{here}/../../target/staticlib"));
    println!("cargo::rerun-if-env-changed=POZSMETEG_LIB");
    println!("cargo::rerun-if-changed={folder}/libexports.a");
    let library = Path::new(&folder).join("libexports.a");
    if !library.is_file() {
        println!("cargo::error={}", missing(&library));
        return;
    }
    println!("cargo::rustc-link-search=native={folder}");
    println!("cargo::rustc-link-lib=static=exports");
}
