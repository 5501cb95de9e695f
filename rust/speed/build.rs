//! Compiles the C peer by cc -O2, or by the compiler that CC names, and links it.

use std::env;
use std::path::{Path, PathBuf};
use std::process::Command;

const SOURCES: [&str; 2] = ["peer", "messages"];
const HEADERS: [&str; 3] = ["peer/peer.h", "peer/inside.h", "../../include/cetskobi.h"];
const FLAGS: [&str; 6] = [
    "-std=c11",
    "-O2",
    "-Wall",
    "-Wextra",
    "-Wpedantic",
    "-Werror",
];

fn main() {
    println!("cargo:rerun-if-env-changed=CC");
    for header in HEADERS {
        println!("cargo:rerun-if-changed={header}");
    }
    let out = PathBuf::from(env::var_os("OUT_DIR").expect("cargo says where to put it"));
    for name in SOURCES {
        let (source, object) = (format!("peer/{name}.c"), out.join(format!("{name}.o")));
        println!("cargo:rerun-if-changed={source}");
        compile(&source, &object);
        println!("cargo:rustc-link-arg={}", object.display());
    }
}

fn compile(source: &str, object: &Path) {
    let named = env::var("CC").unwrap_or_default();
    // CC may have arguments of its own.
    let mut words = named.split_whitespace();
    let compiler = words.next().unwrap_or("cc");
    let done = Command::new(compiler)
        .args(words)
        .args(FLAGS)
        .args(["-I../../include", "-c", source, "-o"])
        .arg(object)
        .status();
    match done {
        Ok(status) if status.success() => {}
        Ok(_) => panic!("{compiler} does not compile {source}"),
        Err(why) => panic!("no C compiler {compiler} ({why}): install gcc or clang, or set CC"),
    }
}
