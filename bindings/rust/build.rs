//! Links the static library: `lib/libtealmuze_c.a` of this crate, or the one in the folder `TEALMUZE_LIB_DIR`.
use std::env;
use std::path::PathBuf;

fn main() {
    println!("cargo:rerun-if-env-changed=TEALMUZE_LIB_DIR");
    let folder = match env::var_os("TEALMUZE_LIB_DIR") {
        Some(folder) => PathBuf::from(folder),
        None => PathBuf::from(env::var_os("CARGO_MANIFEST_DIR").unwrap()).join("lib"),
    };
    let archive = folder.join("libtealmuze_c.a");
    if !archive.is_file() {
        panic!(
            "{} is missing: make it by tools/bindings, or set TEALMUZE_LIB_DIR",
            archive.display()
        );
    }
    println!("cargo:rerun-if-changed={}", archive.display());
    println!("cargo:rustc-link-search=native={}", folder.display());
    println!("cargo:rustc-link-lib=static=tealmuze_c");
}
