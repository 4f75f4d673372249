//! A folder for a desk's files, and the edits, sheets and clashes of the model.

use independent::graph::{Bank, Graph};
use independent::reach::Edit;
use independent::sheet::sheet_text;
use std::fs;
use std::path::{Path, PathBuf};
use std::process;
use std::sync::atomic::{AtomicUsize, Ordering};

/// A new folder, which goes when it is dropped.
pub struct Folder(PathBuf);

impl Folder {
    pub fn new() -> Folder {
        static MADE: AtomicUsize = AtomicUsize::new(0);
        let made = MADE.fetch_add(1, Ordering::Relaxed);
        let name = format!("desk-test-{}-{made}", process::id());
        let path = std::env::temp_dir().join(name);
        fs::create_dir(&path).expect("a new folder");
        Folder(path)
    }

    pub fn at(&self) -> &Path {
        &self.0
    }

    /// The path of a file in it, as a word of a line.
    pub fn path(&self, name: &str) -> String {
        let path = self.0.join(name);
        path.to_str().expect("a path in UTF-8").to_string()
    }

    /// A file in it, with these bytes.
    pub fn file(&self, name: &str, bytes: &[u8]) -> String {
        let path = self.path(name);
        fs::write(&path, bytes).expect("the file is written");
        path
    }

    /// The names of the files in it.
    pub fn names(&self) -> Vec<String> {
        let entries = fs::read_dir(&self.0).expect("the folder is there");
        let name = |entry: fs::DirEntry| entry.file_name().to_string_lossy().to_string();
        let mut names: Vec<String> = entries
            .map(|entry| name(entry.expect("an entry")))
            .collect();
        names.sort();
        names
    }
}

impl Drop for Folder {
    fn drop(&mut self) {
        fs::remove_dir_all(&self.0).expect("the folder goes");
    }
}

/// An edit as a line says it.
pub type Made = (Edit, Bank, Bank);

/// The graph after an edit, if no refusal is due; there is no cap.
pub fn after(graph: &Graph, (edit, a, b): Made) -> Option<Graph> {
    let named = a < graph.banks() && b < graph.banks() && a != b;
    match edit {
        Edit::Add if named && !graph.clash(a, b) && graph.degree(a).max(graph.degree(b)) < 23 => {
            Some(graph.with(a, b))
        }
        Edit::Strike if named && graph.clash(a, b) => Some(graph.without(a, b)),
        _ => None,
    }
}

/// An edit as the row of a list.
pub fn row((edit, a, b): Made) -> String {
    let sign = match edit {
        Edit::Add => '+',
        Edit::Strike => '-',
    };
    format!("{sign} {a} {b}")
}

/// The edit that undoes one.
pub fn undoing((edit, a, b): Made) -> Made {
    match edit {
        Edit::Add => (Edit::Strike, a, b),
        Edit::Strike => (Edit::Add, a, b),
    }
}

/// The strikes of `D b`.
pub fn strikes(graph: &Graph, b: Bank) -> Vec<Made> {
    let ascending = graph.neighbours(b);
    ascending.map(|q| (Edit::Strike, b, q)).collect()
}

/// The sheet of a graph, from the model.
pub fn sheet(graph: &Graph) -> String {
    sheet_text(&graph.waves(), graph.clashes())
}

/// What `clashes b` answers for each bank in turn.
pub fn clash_lines(graph: &Graph) -> String {
    let line = |b: Bank| {
        let numbers: Vec<String> = graph.neighbours(b).map(|q| q.to_string()).collect();
        match numbers.as_slice() {
            [] => "none\n".to_string(),
            numbers => numbers.join(" ") + "\n",
        }
    };
    (0..graph.banks()).map(line).collect()
}
