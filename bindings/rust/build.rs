//! Links `lib/TARGET/libjilqamur.a`, which is in the folder of this crate. `JILQAMUR_LIBS` lists other folders in place
//! of it, as `PATH` does; these may have the kit's `liblibc_c.a` beside the library. Where there is no library nothing
//! is linked, so that `cargo check` and `cargo doc` work.

use std::path::PathBuf;

fn main() {
    println!("cargo:rerun-if-env-changed=JILQAMUR_LIBS");
    let own = format!("{}/lib", std::env::var("CARGO_MANIFEST_DIR").expect("cargo names the folder of the crate"));
    println!("cargo:rerun-if-changed={own}");
    // The library for glibc serves musl as it is.
    let target = std::env::var("TARGET").expect("cargo names the target").replace("-linux-musl", "-linux-gnu");
    let folders: Vec<PathBuf> = match std::env::var_os("JILQAMUR_LIBS") {
        Some(listed) => std::env::split_paths(&listed).collect(),
        None => vec![PathBuf::from(format!("{own}/{target}"))],
    };
    let has = |name: &str| folders.iter().any(|folder| folder.join(name).is_file());
    if !has("libjilqamur.a") {
        println!("cargo:warning=there is no libjilqamur.a for {target} in {folders:?}: no program will link");
        return;
    }
    for folder in &folders {
        println!("cargo:rustc-link-search=native={}", folder.display());
    }
    println!("cargo:rustc-link-lib=static=jilqamur");
    if has("liblibc_c.a") {
        println!("cargo:rustc-link-lib=static=libc_c");
    }
}
