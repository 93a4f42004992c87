//! Links the static library that `tools/staticlib.sh` writes, or the one in the folder that AUDALA_LIB names, and beside it dist/audala.c as bench/run.sh builds it,
//! with `c_` before the names of its entries; include/audala.rs is written with these names for it.
use std::path::Path;

fn main() {
    println!("cargo:rerun-if-env-changed=AUDALA_LIB");
    let here = Path::new(env!("CARGO_MANIFEST_DIR"));
    let lib = std::env::var_os("AUDALA_LIB").map_or(here.join("../target/staticlib"), std::path::PathBuf::from);
    let c = here.join("../target/c");
    for (folder, name) in [(&lib, "audala"), (&c, "c_audala")] {
        println!("cargo:rustc-link-search=native={}", folder.display());
        println!("cargo:rustc-link-lib=static={name}");
        // Cargo does not look at what it links: without this line an older library would be timed.
        println!("cargo:rerun-if-changed={}", folder.join(format!("lib{name}.a")).display());
    }
    let module = here.join("../include/audala.rs");
    println!("cargo:rerun-if-changed={}", module.display());
    let text = std::fs::read_to_string(module).expect("include/audala.rs");
    let renamed = text.replace("fn audala_", "fn c_audala_").replace("entries::audala_", "entries::c_audala_");
    // A file that is included has no comments and attributes of its own.
    let inner: String = renamed.lines().filter(|line| !line.starts_with("//!") && !line.starts_with("#!")).map(|line| format!("{line}\n")).collect();
    let out = std::env::var_os("OUT_DIR").expect("OUT_DIR");
    std::fs::write(Path::new(&out).join("c_audala.rs"), inner).expect("c_audala.rs");
}
