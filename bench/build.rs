//! Compiles `plain.c` at -O2, and links it.

use std::env;
use std::process::Command;

fn run(program: &str, arguments: &[&str]) {
    let status = Command::new(program).args(arguments).status();
    assert!(status.is_ok_and(|status| status.success()), "{program} {arguments:?} failed");
}

fn main() {
    let out = env::var("OUT_DIR").expect("cargo sets OUT_DIR");
    let (object, archive) = (format!("{out}/plain.o"), format!("{out}/libplain.a"));
    run("gcc", &["-std=c99", "-Wall", "-Wextra", "-O2", "-c", "plain.c", "-o", &object]);
    run("ar", &["rcs", &archive, &object]);
    println!("cargo::rerun-if-changed=plain.c");
    println!("cargo::rustc-link-search=native={out}");
    println!("cargo::rustc-link-lib=static=plain");
}
