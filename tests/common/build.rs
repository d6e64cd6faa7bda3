//! Tells the linker where the archive is. tests/archive.sh sets what is read here.

use std::env;

fn given(name: &str) -> String {
    println!("cargo:rerun-if-env-changed={name}");
    env::var(name).unwrap_or_else(|_| panic!("{name} is not set; see tests/archive.sh"))
}

fn main() {
    let (folder, name) = (given("ARCHIVE_DIR"), given("ARCHIVE_NAME"));
    // An archive of an older date than the last one is another archive too.
    given("ARCHIVE_SUM");
    println!("cargo:rerun-if-changed={folder}/lib{name}.a");
    println!("cargo:rustc-link-search=native={folder}");
    println!("cargo:rustc-link-lib=static={name}");
    // An archive may carry parts of a Rust library of another version than this
    // program's. A few of their names are the same; the first one counts.
    println!("cargo:rustc-link-arg=-Wl,--allow-multiple-definition");
}
