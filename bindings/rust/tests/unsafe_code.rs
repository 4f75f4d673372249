//! Unsafe code stands in `src/lent.rs` and in no other file. The compiler denies it in the library but for that module; this
//! holds that there is no other exception, and that the examples have none.

use std::fs;
use std::path::{Path, PathBuf};

/// The files below a folder.
fn files(folder: &Path) -> Vec<PathBuf> {
    let entries = fs::read_dir(folder).expect("a folder");
    let paths = entries.map(|entry| entry.expect("an entry").path());
    let below = |path: PathBuf| match path.is_dir() {
        true => files(&path),
        false => vec![path],
    };
    paths.flat_map(below).collect()
}

/// The lines of code with the word, comments aside.
fn lines_with(word: &str, file: &Path) -> Vec<String> {
    let text = fs::read_to_string(file).expect("text");
    let lines = text.lines().map(str::trim);
    let code = lines.filter(|line| !line.starts_with("//") && line.contains(word));
    code.map(str::to_string).collect()
}

#[test]
fn unsafe_code_in_one_file() {
    let package = Path::new(env!("CARGO_MANIFEST_DIR"));
    let mut sources = [
        files(&package.join("src")),
        files(&package.join("examples")),
    ]
    .concat();
    sources.push(package.join("build.rs"));
    for file in sources {
        let found = lines_with("unsafe", &file);
        match file.file_name().and_then(|name| name.to_str()) {
            Some("lib.rs") => assert_eq!(found, ["#![deny(unsafe_code)]", "#[allow(unsafe_code)]"]),
            Some("lent.rs") => assert_eq!(found, ["unsafe {"]),
            _ => assert!(found.is_empty(), "{}: {found:?}", file.display()),
        }
    }
}
