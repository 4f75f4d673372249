//! Starts a program with a list on its standard input, or with files.

use std::io::{ErrorKind, Write};
use std::path::{Path, PathBuf};
use std::process::{self, Command, Stdio};
use std::sync::atomic::{AtomicUsize, Ordering};
use std::{env, fs};

/// A program under test: the path in the variable, or the one that the build leaves.
fn path(variable: &str, name: &str) -> PathBuf {
    match env::var_os(variable) {
        Some(path) => PathBuf::from(path),
        None => Path::new(env!("CARGO_MANIFEST_DIR"))
            .join("../../target/bin")
            .join(name),
    }
}

/// What the program *sheet* prints for a list.
pub fn sheet_program(list: &[u8]) -> Vec<u8> {
    told(&path("SHEET_PROGRAM", "sheet"), list, &[]).output
}

/// What the program *poster* prints for a list.
pub fn poster_program(list: &[u8]) -> Vec<u8> {
    told(&path("POSTER_PROGRAM", "poster"), list, &[]).output
}

/// What the program *function_text* tells for a list and arguments.
pub fn function_text_program(list: &[u8], arguments: &[&str]) -> Told {
    told(
        &path("FUNCTION_TEXT_PROGRAM", "function_text"),
        list,
        arguments,
    )
}

/// What the program *doubt* tells for a list and arguments.
pub fn doubt_program(list: &[u8], arguments: &[&str]) -> Told {
    told(&path("DOUBT_PROGRAM", "doubt"), list, arguments)
}

/// What the program *crew* tells for a list and arguments.
pub fn crew_program(list: &[u8], arguments: &[&str]) -> Told {
    told(&path("CREW_PROGRAM", "crew"), list, arguments)
}

/// What the program *agree* tells for arguments.
pub fn agree_program(arguments: &[&str]) -> Told {
    told(&path("AGREE_PROGRAM", "agree"), b"", arguments)
}

/// What the program *agree* tells for a file that holds a list and one that holds a sheet.
pub fn agree_on(list: &[u8], sheet: &[u8]) -> Told {
    let folder = Folder::new();
    let (list, sheet) = (folder.file("list", list), folder.file("sheet", sheet));
    agree_program(&[&list, &sheet])
}

/// A folder for files of one test, which goes with it.
pub struct Folder(PathBuf);

impl Folder {
    pub fn new() -> Folder {
        static FOLDERS: AtomicUsize = AtomicUsize::new(0);
        let number = FOLDERS.fetch_add(1, Ordering::Relaxed);
        let folder = env::temp_dir().join(format!("wave_plan_{}_{number}", process::id()));
        fs::create_dir(&folder).expect("a new folder");
        Folder(folder)
    }

    /// A file in the folder that holds these bytes: its path.
    pub fn file(&self, name: &str, bytes: &[u8]) -> String {
        let path = self.0.join(name);
        fs::write(&path, bytes).expect("a new file");
        path.into_os_string()
            .into_string()
            .expect("a path in UTF-8")
    }
}

impl Drop for Folder {
    fn drop(&mut self) {
        // Where it cannot be removed, it stays.
        let _ = fs::remove_dir_all(&self.0);
    }
}

/// What a program writes to standard output and to standard error.
pub struct Told {
    pub output: Vec<u8>,
    pub errors: Vec<u8>,
}

/// What a program tells for a list. It must end by itself; its exit status is left free.
fn told(path: &Path, list: &[u8], arguments: &[&str]) -> Told {
    let mut program = Command::new(path)
        .args(arguments)
        .stdin(Stdio::piped())
        .stdout(Stdio::piped())
        .stderr(Stdio::piped())
        .spawn()
        .unwrap_or_else(|error| panic!("{}: {error}", path.display()));
    let mut input = program.stdin.take().expect("standard input is a pipe");
    match input.write_all(list) {
        // The program may stop reading when the list is too long, or not start where an argument is wrong.
        Err(error) if error.kind() == ErrorKind::BrokenPipe => {}
        written => written.expect("the list is written"),
    }
    drop(input);
    let output = program.wait_with_output().expect("the program ends");
    assert!(output.status.code().is_some(), "ended by a signal");
    Told {
        output: output.stdout,
        errors: output.stderr,
    }
}
