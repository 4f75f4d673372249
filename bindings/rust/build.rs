//! Links the static library: from the folder in WAVE_PLAN_LIB_DIR, or from where `make lib`
//! leaves it.

use std::env;
use std::path::{Path, PathBuf};

fn main() {
    let manifest = env::var_os("CARGO_MANIFEST_DIR").expect("set for build scripts");
    let folder = match env::var_os("WAVE_PLAN_LIB_DIR") {
        Some(folder) if !folder.is_empty() => PathBuf::from(folder),
        _ => Path::new(&manifest).join("../../target/staticlib"),
    };
    let archive = folder.join("libwave_plan.a");
    println!("cargo:rerun-if-env-changed=WAVE_PLAN_LIB_DIR");
    println!("cargo:rerun-if-changed={}", archive.display());
    println!("cargo:rustc-link-search=native={}", folder.display());
    println!("cargo:rustc-link-lib=static=wave_plan");
    if !archive.exists() {
        let archive = archive.display();
        println!("cargo:warning=no {archive}: run `make lib`, or set WAVE_PLAN_LIB_DIR");
    }
}
