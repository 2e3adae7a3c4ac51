//! Links the static library of crate `exported_c`, which bench/run makes, and the player in C, compiled here with the header
//! that `embed/build` makes ready. The library of the calls comes with the crate `foqheran`.
use std::path::{Path, PathBuf};
use std::process::Command;

fn main() {
    let target = Path::new(env!("CARGO_MANIFEST_DIR")).join("../target");
    let exported = target.join("staticlib/libexported.a");
    assert!(exported.exists(), "{} is not there: run bench/run first", exported.display());
    println!("cargo:rustc-link-search=native={}", target.join("staticlib").display());
    println!("cargo:rustc-link-lib=static=exported");
    println!("cargo:rerun-if-changed={}", exported.display());

    let include = target.join("embed/include");
    assert!(include.exists(), "{} is not there: run bench/run, or embed/build first", include.display());
    let made = PathBuf::from(std::env::var_os("OUT_DIR").expect("cargo sets it"));
    let (object, archive) = (made.join("in_place.o"), made.join("libin_place.a"));
    let compiler = std::env::var_os("CC").unwrap_or_else(|| "cc".into());
    run(Command::new(compiler)
        .args(["-std=c11", "-O2", "-fPIC", "-c", "src/in_place.c", "-I"])
        .arg(&include)
        .arg("-o")
        .arg(&object));
    let _ = std::fs::remove_file(&archive);
    run(Command::new("ar").arg("crs").arg(&archive).arg(&object));
    println!("cargo:rustc-link-search=native={}", made.display());
    println!("cargo:rustc-link-lib=static=in_place");
    println!("cargo:rerun-if-changed=src/in_place.c");
    println!("cargo:rerun-if-changed={}", include.join("foqheran.h").display());
    println!("cargo:rerun-if-env-changed=CC");
}

fn run(command: &mut Command) {
    let done = command.status().unwrap_or_else(|why| panic!("{command:?}: {why}"));
    assert!(done.success(), "{command:?} failed");
}
