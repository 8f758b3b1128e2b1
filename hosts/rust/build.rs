//! Links the proved engine, libginghamowl.a, which hosts/build puts into hosts/target.
//! GINGHAMOWL_ARCHIVE may name another folder that holds it, as PREFIX/lib after `hosts/install PREFIX`.
use std::env;
use std::path::PathBuf;
use std::process::exit;

fn main() {
    println!("cargo:rerun-if-env-changed=GINGHAMOWL_ARCHIVE");
    let folder = match env::var_os("GINGHAMOWL_ARCHIVE") {
        Some(folder) => PathBuf::from(folder),
        None => PathBuf::from(env::var_os("CARGO_MANIFEST_DIR").unwrap()).join("../target"),
    };
    let archive = folder.join("libginghamowl.a");
    println!("cargo:rerun-if-changed={}", archive.display());
    if !archive.is_file() {
        eprintln!("{} is missing: run hosts/build, or name its folder in GINGHAMOWL_ARCHIVE", archive.display());
        exit(1);
    }
    println!("cargo:rustc-link-search=native={}", folder.display());
    println!("cargo:rustc-link-lib=static=ginghamowl");
}
