//! Links libwirepulley.a: from the folder WIREPULLEY_LIB_DIR, else from target/staticlib of the repository that this folder stands in.
//! And takes over the numbers that the C header promises, so that they stand in one place.

use std::env;
use std::fs;
use std::path::{Path, PathBuf};

fn main() {
    println!("cargo:rerun-if-env-changed=WIREPULLEY_LIB_DIR");
    let here = PathBuf::from(env::var_os("CARGO_MANIFEST_DIR").expect("cargo names the crate's folder"));
    let named = env::var_os("WIREPULLEY_LIB_DIR").map(PathBuf::from);
    let target = env::var("TARGET").unwrap_or_default();
    // What `tools/build library` writes is for x86-64; a folder that is named may hold another build.
    if named.is_none() && !(target.starts_with("x86_64-") && target.contains("linux")) {
        fail(&format!("the library is for x86-64 Linux, and this build is for {target}: give cargo --target x86_64-unknown-linux-gnu, or set WIREPULLEY_LIB_DIR to a folder with a build for this one"));
    }
    let folder = named.unwrap_or(here.join("../../target/staticlib"));
    let library = folder.join("libwirepulley.a");
    println!("cargo:rerun-if-changed={}", library.display());
    if !library.is_file() {
        fail(&format!(
            "{} is not there: make it by `tools/build library`, or set WIREPULLEY_LIB_DIR",
            library.display()
        ));
    }
    println!("cargo:rustc-link-search=native={}", folder.display());
    println!("cargo:rustc-link-lib=static=wirepulley");
    take_numbers(&here.join("../c/wirepulley.h"));
}

/// Writes each number of the header to a file of its name, which the crate includes.
fn take_numbers(header: &Path) {
    println!("cargo:rerun-if-changed={}", header.display());
    let text = fs::read_to_string(header).unwrap_or_else(|error| fail(&format!("{}: {error}", header.display())));
    let folder = PathBuf::from(env::var_os("OUT_DIR").expect("cargo names a folder for what is made"));
    for name in ["WIREPULLEY_LONGEST_SHEET", "WIREPULLEY_STACK"] {
        let defined =
            text.lines().find_map(|line| line.strip_prefix("#define ")?.strip_prefix(name)?.strip_prefix(' '));
        let number = defined.unwrap_or_else(|| fail(&format!("{}: no {name}", header.display())));
        fs::write(folder.join(name), number).unwrap_or_else(|error| fail(&format!("{name}: {error}")));
    }
}

fn fail(reason: &str) -> ! {
    eprintln!("wirepulley: {reason}");
    std::process::exit(1);
}
