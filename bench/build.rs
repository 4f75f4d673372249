//! Links the static libraries wave_plan and bench_edit: from the folder in WAVE_PLAN_LIB_DIR, or
//! from where the build leaves them.

use std::env;
use std::path::{Path, PathBuf};

fn main() {
    let manifest = env::var_os("CARGO_MANIFEST_DIR").expect("set for build scripts");
    let folder = match env::var_os("WAVE_PLAN_LIB_DIR") {
        Some(folder) if !folder.is_empty() => PathBuf::from(folder),
        _ => Path::new(&manifest).join("../target/staticlib"),
    };
    println!("cargo:rerun-if-env-changed=WAVE_PLAN_LIB_DIR");
    println!("cargo:rustc-link-search=native={}", folder.display());
    for library in ["wave_plan", "bench_edit"] {
        let archive = folder.join(format!("lib{library}.a"));
        println!("cargo:rerun-if-changed={}", archive.display());
        println!("cargo:rustc-link-lib=static={library}");
    }
}
