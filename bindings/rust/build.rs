// Where the library is: lib/libaoc.a of AOC_PREFIX, a folder that tools/install filled or a release that was unpacked; without
// AOC_PREFIX that of the prefix in which this folder lies (PREFIX/share/aoc/rust). The archive is linked: a host needs no file beside it.
use std::path::PathBuf;

fn main() {
    println!("cargo:rerun-if-env-changed=AOC_PREFIX");
    let prefix = match std::env::var_os("AOC_PREFIX") {
        Some(prefix) => PathBuf::from(prefix),
        None => PathBuf::from(std::env::var_os("CARGO_MANIFEST_DIR").expect("cargo sets it")).join("../../.."),
    };
    let lib = prefix.join("lib");
    let archive = lib.join("libaoc.a");
    if !archive.exists() {
        panic!("no {}: AOC_PREFIX has to name a folder that tools/install filled, or a release that was unpacked", archive.display());
    }
    println!("cargo:rerun-if-changed={}", archive.display());
    println!("cargo:rustc-link-search=native={}", lib.display());
    println!("cargo:rustc-link-lib=static=aoc");
}
