//! Links the proved library, `libfoqheran.a`: from the folder that `FOQHERAN_LIB` names, or else from `lib/` beside
//! this file.
use std::path::PathBuf;

fn main() {
    println!("cargo:rerun-if-env-changed=FOQHERAN_LIB");
    let own = PathBuf::from(std::env::var_os("CARGO_MANIFEST_DIR").expect("cargo sets it")).join("lib");
    let folder = std::env::var_os("FOQHERAN_LIB").map_or(own, PathBuf::from);
    if folder.is_relative() {
        // cargo runs this in the crate's folder, wherever it was started itself
        fail(&format!("FOQHERAN_LIB has to be an absolute path, and is {}", folder.display()));
    }
    let library = folder.join("libfoqheran.a");
    if !library.is_file() {
        fail(&format!(
            "{} is not there: build it with embed/build of the project, and name its folder in FOQHERAN_LIB",
            library.display()
        ));
    }
    println!("cargo:rerun-if-changed={}", library.display());
    println!("cargo:rustc-link-search=native={}", folder.display());
    println!("cargo:rustc-link-lib=static=foqheran");
}

fn fail(why: &str) -> ! {
    eprintln!("error: {why}");
    std::process::exit(1);
}
