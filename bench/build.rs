//! Tells the linker where the archive is, and the program by which compiler
//! it was built.

use std::env;
use std::process::Command;

fn compiler() -> String {
    let rustc = env::var("RUSTC").expect("cargo names the compiler");
    let said = Command::new(rustc).arg("--version").output().expect("the compiler starts");
    String::from_utf8_lossy(&said.stdout).trim().to_string()
}

fn main() {
    let folder = env::var("ARCHIVE_DIR").expect("ARCHIVE_DIR names the folder of liblavushmir.a");
    println!("cargo:rustc-link-search=native={folder}");
    println!("cargo:rustc-link-lib=static=lavushmir");
    // An archive may carry parts of a Rust library of another version than this
    // program's. A few of their names are the same; the first one counts.
    println!("cargo:rustc-link-arg=-Wl,--allow-multiple-definition");
    println!("cargo:rustc-env=BENCH_COMPILER={}", compiler());
    println!("cargo:rerun-if-env-changed=ARCHIVE_DIR");
    println!("cargo:rerun-if-changed={folder}/liblavushmir.a");
    // An archive of an older date than the last one is another archive too.
    println!("cargo:rerun-if-env-changed=ARCHIVE_SUM");
}
