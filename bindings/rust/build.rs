//! Names the folder of `libjeihpal.a`: what `JEIHPAL_LIB` says, or where `./build --library` leaves it in a checkout.
use std::env;
use std::path::PathBuf;

fn main() {
    println!("cargo:rerun-if-env-changed=JEIHPAL_LIB");
    let folder = match env::var_os("JEIHPAL_LIB") {
        Some(folder) => PathBuf::from(folder),
        None => PathBuf::from(env!("CARGO_MANIFEST_DIR")).join("../out"),
    };
    let archive = folder.join("libjeihpal.a");
    if !archive.is_file() {
        // `cargo check` and rust-analyzer need none; a program without it doesn't link.
        println!(
            "cargo:warning=there is no {}: ./build --library makes it, or JEIHPAL_LIB names its folder",
            archive.display()
        );
    }
    println!("cargo:rerun-if-changed={}", archive.display());
    println!("cargo:rustc-link-search=native={}", folder.display());
    println!("cargo:rustc-link-lib=static=jeihpal");
}
