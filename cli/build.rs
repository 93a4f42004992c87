//! Compiles dist/audala.c with the machine's C compiler and links the object. Nothing is fetched.
use std::env;
use std::path::Path;
use std::process::Command;

fn main() {
    let top = Path::new(env!("CARGO_MANIFEST_DIR")).join("..");
    let object = Path::new(&env::var("OUT_DIR").expect("cargo sets OUT_DIR")).join("audala.o");
    let compiler = env::var("CC").unwrap_or_else(|_| "cc".to_string());
    let status = Command::new(&compiler)
        .args(["-std=c99", "-O2", "-fPIC", "-I"])
        .arg(top.join("include"))
        .arg("-c")
        .arg(top.join("dist/audala.c"))
        .arg("-o")
        .arg(&object)
        .status();
    match status {
        Ok(status) if status.success() => {}
        Ok(status) => panic!("{compiler} does not compile dist/audala.c: {status}"),
        Err(error) => panic!("the C compiler {compiler} does not start: {error}"),
    }
    println!("cargo:rustc-link-arg={}", object.display());
    for name in ["dist/audala.c", "include/audala.rs", "include/audala.h"] {
        println!("cargo:rerun-if-changed={}", top.join(name).display());
    }
}
