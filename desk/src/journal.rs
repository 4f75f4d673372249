//! A journal on disk: an edit is written and synced before it counts as made.

use crate::disk::Disk;
use crate::trouble::Trouble;
use std::path::Path;
use wave_plan::{Edit, Refused};

/// The tags of the fields of an add and of a strike.
const EDIT_TAGS: [u8; 2] = [0x2B, 0x2D];

/// A journal's bytes and the file that has the same.
pub struct Journal {
    disk: Box<dyn Disk>,
    bytes: Vec<u8>,
    name: String,
}

impl Journal {
    /// The journal in a file that has just these bytes. The name is for what is said of it.
    pub fn new(disk: Box<dyn Disk>, bytes: Vec<u8>, name: String) -> Journal {
        Journal { disk, bytes, name }
    }

    pub fn name(&self) -> &str {
        &self.name
    }

    /// Whether it is in the file at a path.
    pub fn is_at(&self, path: &Path) -> bool {
        self.disk.is_at(path)
    }

    /// Makes an edit by a call that records it at the end of the bytes, and brings the new bytes to the disk. Where
    /// that fails, bytes and file are as before, and the edit must not count.
    pub fn record(
        &mut self,
        call: impl FnOnce(&mut Vec<u8>) -> Result<Edit, Refused>,
    ) -> Result<Edit, Trouble> {
        let length = self.bytes.len();
        let edit = call(&mut self.bytes)?;
        match self.disk.append(length as u64, &self.bytes[length..]) {
            Ok(()) => Ok(edit),
            Err(error) => {
                self.bytes.truncate(length);
                let not_made = format!("not made, {} could not be written", self.name);
                let trouble = Trouble::file(&not_made, &error);
                Err(match self.disk.cut(length as u64) {
                    Ok(()) => trouble,
                    Err(error) => Trouble::file(&format!("{trouble}; nor cut back"), &error),
                })
            }
        }
    }

    /// Starts it anew: these bytes are now all of it.
    pub fn restart(&mut self, bytes: Vec<u8>) -> Result<(), Trouble> {
        let failed = format!("not made, {} could not be written", self.name);
        let replaced = self.disk.replace(&bytes);
        replaced.map_err(|error| Trouble::file(&failed, &error))?;
        self.bytes = bytes;
        Ok(())
    }
}

/// The tags of the fields of a journal that a replay has accepted, without the bytes left over.
fn tags(mut journal: &[u8]) -> Vec<u8> {
    let mut tags = Vec::new();
    while let [tag, low, high, value @ ..] = journal {
        tags.push(*tag);
        let length = u16::from_le_bytes([*low, *high]);
        journal = value.get(usize::from(length)..).unwrap_or(&[]);
    }
    tags
}

/// How many fields such a journal has.
pub fn fields(journal: &[u8]) -> usize {
    tags(journal).len()
}

/// Whether such a journal has an edit.
pub fn has_edit(journal: &[u8]) -> bool {
    tags(journal).iter().any(|tag| EDIT_TAGS.contains(tag))
}
