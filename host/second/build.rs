//! Links the product's archives (environment variables RAILNOISE_ARCHIVE and RAILNOISE_REQUESTS_ARCHIVE, with
//! LINK_FLAGS if they need some) and the plain program into the test programs. Without the archives, and
//! without the feature `mock`, only the plain program can be tried.

use std::env;
use std::path::{Path, PathBuf};
use std::process::Command;

/// Compiles host/c/plain.c with a flag into an object file of that name, and links it.
fn link_plain(name: &str, flag: &str) {
    let here = PathBuf::from(env::var("CARGO_MANIFEST_DIR").expect("set by cargo"));
    let source = here.join("../c/plain.c");
    let include = here.join("../../include");
    let object = PathBuf::from(env::var("OUT_DIR").expect("set by cargo")).join(name);
    println!("cargo:rerun-if-changed={}", source.display());
    for header in ["railnoise.h", "railnoise_requests.h"] {
        println!("cargo:rerun-if-changed={}", include.join(header).display());
    }
    let status = Command::new("gcc")
        .args(["-std=c11", "-O2", "-Wall", "-Wextra", "-Werror", "-fPIC", flag, "-c", "-I"])
        .args([&include, Path::new("-o"), &object, &source])
        .status()
        .expect("gcc runs");
    assert!(status.success(), "plain.c does not compile");
    println!("cargo:rustc-link-arg-bins={}", object.display());
}

const ARCHIVES: [&str; 2] = ["RAILNOISE_ARCHIVE", "RAILNOISE_REQUESTS_ARCHIVE"];

/// Links the product's archives, each of which shows its own functions alone; false when none is named.
fn link_product() -> bool {
    let named = ARCHIVES.map(env::var_os);
    if named.iter().all(Option::is_none) {
        return false;
    }
    for (variable, archive) in ARCHIVES.into_iter().zip(named) {
        let archive = archive.unwrap_or_else(|| panic!("{variable} is missing beside the other archive"));
        let archive = Path::new(&archive).canonicalize().unwrap_or_else(|_| panic!("{variable} names no file"));
        println!("cargo:rerun-if-changed={}", archive.display());
        println!("cargo:rustc-link-arg-bins={}", archive.display());
    }
    for flag in env::var("LINK_FLAGS").unwrap_or_default().split_whitespace() {
        println!("cargo:rustc-link-arg-bins={flag}");
    }
    true
}

fn main() {
    println!("cargo:rustc-check-cfg=cfg(product)");
    println!("cargo:rerun-if-changed=build.rs");
    for variable in ARCHIVES.into_iter().chain(["LINK_FLAGS"]) {
        println!("cargo:rerun-if-env-changed={variable}");
    }
    link_plain("plain.o", "-UDIGIT_LOOP");
    link_plain("digits.o", "-DDIGIT_LOOP");
    if env::var_os("CARGO_FEATURE_MOCK").is_some() || link_product() {
        println!("cargo:rustc-cfg=product");
    }
    println!("cargo:rustc-link-arg-bins=-lm");
}
