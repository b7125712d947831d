//! Links the library: the one in the folder that `CEFINDRATO_LIBRARY_FOLDER` names, or else the one that pkg-config knows. It is
//! the static one, so that a program needs nothing where it runs; with `CEFINDRATO_SHARED=1` it is the shared one.
use std::env;
use std::process::{exit, Command};

const NOT_FOUND: &str = "libcefindrato is not found: install it with `./install.sh PREFIX` and add PREFIX/lib/pkgconfig to \
    PKG_CONFIG_PATH, or build it with `bindings/build.sh FOLDER` and set CEFINDRATO_LIBRARY_FOLDER=FOLDER";

/// The folder of the library.
fn folder() -> Option<String> {
    if let Ok(folder) = env::var("CEFINDRATO_LIBRARY_FOLDER") {
        return Some(folder);
    }
    let found = Command::new("pkg-config").args(["--variable=libdir", "cefindrato"]).output().ok()?;
    let folder = String::from_utf8(found.stdout).ok()?.trim_end().to_owned();
    (found.status.success() && !folder.is_empty()).then_some(folder)
}

fn main() {
    for name in ["CEFINDRATO_LIBRARY_FOLDER", "CEFINDRATO_SHARED", "PKG_CONFIG_PATH"] {
        println!("cargo:rerun-if-env-changed={name}");
    }
    let folder = folder().unwrap_or_else(|| {
        eprintln!("{NOT_FOUND}");
        exit(1)
    });
    println!("cargo:rustc-link-search=native={folder}");
    if env::var("CEFINDRATO_SHARED").map_or(false, |value| value == "1") {
        println!("cargo:rustc-link-lib=dylib=cefindrato");
    } else {
        println!("cargo:rerun-if-changed={folder}/libcefindrato.a");
        println!("cargo:rustc-link-lib=static=cefindrato");
    }
}
