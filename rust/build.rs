// Finds the kernel's archive: in the folder that SHEAFBUCKLE_LIB_DIR names, else where `make` of this repository puts it.
use std::env;
use std::path::PathBuf;

fn main() {
    let folder = match env::var_os("SHEAFBUCKLE_LIB_DIR") {
        Some(folder) => PathBuf::from(folder),
        None => PathBuf::from(env::var_os("CARGO_MANIFEST_DIR").unwrap()).join("../target/staticlib"),
    };
    let archive = folder.join("libsheafbuckle.a");
    println!("cargo:rerun-if-env-changed=SHEAFBUCKLE_LIB_DIR");
    println!("cargo:rerun-if-changed={}", archive.display());
    if !archive.exists() {
        println!(
            "cargo:warning={} is not there: run `make` in the repository, or name the archive's folder in SHEAFBUCKLE_LIB_DIR",
            archive.display()
        );
    }
    println!("cargo:rustc-link-search=native={}", folder.display());
    println!("cargo:rustc-link-lib=static=sheafbuckle");
}
