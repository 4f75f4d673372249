//! Files: a journal's file, and the files that lists and sheets are read from and texts are written to.

use std::ffi::OsString;
use std::fs::{self, File, OpenOptions};
use std::io::{self, Read, Write};
use std::os::unix::fs::{FileExt, MetadataExt};
use std::path::{Path, PathBuf};

/// One byte more than a list or a journal may have, so that a longer file shows.
const MOST_BYTES: u64 = 60_001;

/// A journal's file, as the journal needs it.
pub trait Disk {
    /// Writes bytes behind the first `length` ones and syncs them.
    fn append(&mut self, length: u64, bytes: &[u8]) -> io::Result<()>;

    /// Cuts the file to so many bytes, if it has more, and syncs it.
    fn cut(&mut self, length: u64) -> io::Result<()>;

    /// Makes these bytes the whole of the file and syncs it. Where that fails the file has what it had.
    fn replace(&mut self, bytes: &[u8]) -> io::Result<()>;

    /// Whether this is the file at a path.
    fn is_at(&self, path: &Path) -> bool;
}

/// A file, open and locked against a second desk. One that was made for it goes again if nothing was ever put into
/// it; without the lock it is not this desk's to remove.
pub struct LockedFile {
    file: File,
    path: PathBuf,
    made_empty: bool,
}

impl LockedFile {
    /// Opens the file at a path, or makes one there if that is asked for.
    pub fn open(path: &Path, make: bool) -> io::Result<LockedFile> {
        let mut options = OpenOptions::new();
        options.read(true).write(true);
        let (file, made_empty) = match options.open(path) {
            Err(error) if make && error.kind() == io::ErrorKind::NotFound => {
                (options.create_new(true).open(path)?, true)
            }
            opened => (opened?, false),
        };
        if !file.metadata()?.is_file() {
            return Err(io::Error::other("not a regular file"));
        }
        let mut opened = LockedFile {
            file,
            path: fs::canonicalize(path)?,
            made_empty: false,
        };
        opened.lock()?;
        opened.made_empty = made_empty;
        Ok(opened)
    }

    /// Locks the file. One that was replaced since it was opened is another desk's.
    fn lock(&self) -> io::Result<()> {
        let busy = || io::Error::other("another desk has it open");
        match self.file.try_lock() {
            Ok(()) if is_same(&self.file, &self.path) => Ok(()),
            Ok(()) | Err(fs::TryLockError::WouldBlock) => Err(busy()),
            Err(fs::TryLockError::Error(error)) => Err(error),
        }
    }

    /// Its bytes, as far as a journal can reach.
    pub fn bytes(&self) -> io::Result<Vec<u8>> {
        read_from(&self.file)
    }
}

impl Disk for LockedFile {
    /// A file that was moved away, or cut by another program, is not written to: what is written there would not be
    /// found again.
    fn append(&mut self, length: u64, bytes: &[u8]) -> io::Result<()> {
        if !is_same(&self.file, &self.path) || self.file.metadata()?.len() < length {
            return Err(io::Error::other("it was moved, removed or cut meanwhile"));
        }
        self.file.write_all_at(bytes, length)?;
        self.file.sync_data()
    }

    fn cut(&mut self, length: u64) -> io::Result<()> {
        if self.file.metadata()?.len() > length {
            self.file.set_len(length)?;
        }
        self.file.sync_all()
    }

    fn replace(&mut self, bytes: &[u8]) -> io::Result<()> {
        self.file = replace_file(&self.path, bytes)?;
        self.made_empty = false;
        Ok(())
    }

    fn is_at(&self, path: &Path) -> bool {
        is_same(&self.file, path)
    }
}

impl Drop for LockedFile {
    fn drop(&mut self) {
        if self.made_empty {
            // Nothing is lost where this fails: the file is empty.
            let _ = fs::remove_file(&self.path);
        }
    }
}

/// Whether the file at a path is this one.
fn is_same(file: &File, path: &Path) -> bool {
    match (file.metadata(), fs::metadata(path)) {
        (Ok(a), Ok(b)) => (a.dev(), a.ino()) == (b.dev(), b.ino()),
        _ => false,
    }
}

/// The bytes of a list, a journal or a sheet; of a longer file so many that it shows.
pub fn read_file(path: &Path) -> io::Result<Vec<u8>> {
    read_from(&File::open(path)?)
}

fn read_from(file: &File) -> io::Result<Vec<u8>> {
    let mut bytes = Vec::new();
    file.take(MOST_BYTES).read_to_end(&mut bytes)?;
    Ok(bytes)
}

/// Makes a text the whole of the file at a path, or writes it to what is there, if that is no regular file. Where it
/// fails a file has what it had.
pub fn write_text(path: &Path, text: &str) -> io::Result<()> {
    match OpenOptions::new().write(true).open(path) {
        Err(error) if error.kind() == io::ErrorKind::NotFound => {
            replace_file(path, text.as_bytes())?;
        }
        Ok(file) if file.metadata()?.is_file() => {
            replace_file(&fs::canonicalize(path)?, text.as_bytes())?;
        }
        other => other?.write_all(text.as_bytes())?,
    }
    Ok(())
}

/// Makes these bytes the whole of the file at a path, by way of a second file beside it, and locks the new file.
fn replace_file(path: &Path, bytes: &[u8]) -> io::Result<File> {
    let beside = beside(path)?;
    let written =
        write_new(&beside, path, bytes).and_then(|file| fs::rename(&beside, path).map(|()| file));
    if written.is_err() {
        // What went wrong is in the answer; a file left over is replaced the next time.
        let _ = fs::remove_file(&beside);
    }
    let file = written?;
    File::open(folder(path))?.sync_all()?;
    Ok(file)
}

/// A new file, locked and synced, that may be read and written by those who may the one that it is to replace.
fn write_new(beside: &Path, path: &Path, bytes: &[u8]) -> io::Result<File> {
    match fs::remove_file(beside) {
        Err(error) if error.kind() != io::ErrorKind::NotFound => return Err(error),
        _ => {}
    }
    let mut options = OpenOptions::new();
    let mut file = options
        .read(true)
        .write(true)
        .create_new(true)
        .open(beside)?;
    if let Ok(old) = fs::metadata(path) {
        file.set_permissions(old.permissions())?;
    }
    file.try_lock()?;
    file.write_all(bytes)?;
    file.sync_all()?;
    Ok(file)
}

/// The path of the second file.
fn beside(path: &Path) -> io::Result<PathBuf> {
    let name = path
        .file_name()
        .ok_or_else(|| io::Error::other("not the name of a file"))?;
    let mut hidden = OsString::from(".");
    hidden.push(name);
    hidden.push(".desk");
    Ok(path.with_file_name(hidden))
}

/// The folder that a file is in.
fn folder(path: &Path) -> &Path {
    match path.parent() {
        Some(parent) if parent != Path::new("") => parent,
        _ => Path::new("."),
    }
}
