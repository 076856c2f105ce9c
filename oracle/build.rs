//! Finds the original Rust files and writes the module declarations that
//! compile them where they stand.

use std::env;
use std::fmt::Write as _;
use std::fs;
use std::path::{Path, PathBuf};
use std::process;

const BODEGA: [&str; 5] = ["conflease", "heartbeat", "localread", "messages", "request"];
const UTILS: [&str; 2] = ["bitmap", "keyrange"];

fn main() {
    println!("cargo::rerun-if-env-changed=BODEGA_SRC");
    println!("cargo::rerun-if-changed=build.rs");

    let package = PathBuf::from(env::var_os("CARGO_MANIFEST_DIR").unwrap());
    let folder = match env::var_os("BODEGA_SRC") {
        Some(folder) => package.parent().unwrap().join(folder),
        None => package.join("../../shared/docs/src"),
    };
    println!("cargo::rustc-env=BODEGA_FOLDER={}", folder.display());
    let out = PathBuf::from(env::var_os("OUT_DIR").unwrap());
    declare(
        &folder.join("src/protocols/bodega"),
        &BODEGA,
        "",
        &out.join("bodega.rs"),
    );
    declare(
        &folder.join("src/utils"),
        &UTILS,
        "pub(crate) ",
        &out.join("utils.rs"),
    );
}

fn declare(folder: &Path, names: &[&str], visibility: &str, to: &Path) {
    let mut text = String::new();
    for name in names {
        let file = folder.join(name).with_extension("rs");
        println!("cargo::rerun-if-changed={}", file.display());
        let Ok(file) = file.canonicalize() else {
            println!(
                "cargo::error=no original Rust file at {}: set BODEGA_SRC to the papers' docs/src \
                 (a path seen from the repository's root; default ../shared/docs/src)",
                file.display()
            );
            process::exit(1);
        };
        writeln!(
            text,
            "#[allow(clippy::all, dead_code, unused)]\n#[path = {file:?}]\n{visibility}mod {name};"
        )
        .unwrap();
    }
    fs::write(to, text).unwrap();
}
