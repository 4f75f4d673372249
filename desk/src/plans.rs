//! Where plans come from and go to: opened, loaded, replayed, kept and come back to; and the journal that is on.

use crate::disk::{self, Disk, LockedFile};
use crate::journal::{fields, has_edit, Journal};
use crate::screen::Screen;
use crate::session::{Present, Session};
use crate::text;
use crate::trouble::Trouble;
use std::collections::btree_map::{BTreeMap, Entry};
use std::io;
use std::path::Path;
use wave_plan::{Name, Plan, Refused, Shelf};

impl Session {
    pub(crate) fn open(&mut self, n: u16, screen: &mut Screen<'_>) -> Result<(), Trouble> {
        let plan = Plan::open(n)?;
        Ok(self.take(plan, false, screen)?)
    }

    /// The plan of a list. A list that is refused changes nothing, at whatever row.
    pub(crate) fn load(&mut self, list: &Path, screen: &mut Screen<'_>) -> Result<(), Trouble> {
        let list = disk::read_file(list).map_err(|error| Trouble::unread(&error))?;
        let plan = Plan::read_list(&list).map_err(|refused| Trouble::at("row", refused))?;
        Ok(self.take(plan, false, screen)?)
    }

    /// The plan of a journal, which is not recorded in.
    pub(crate) fn replay(&mut self, file: &Path, screen: &mut Screen<'_>) -> Result<(), Trouble> {
        let journal = disk::read_file(file).map_err(|error| Trouble::unread(&error))?;
        let (plan, whole, left) = replayed(&journal)?;
        screen.say(&format!("{}\n", fields_line(file, whole, left)))?;
        Ok(self.take(plan, has_edit(whole), screen)?)
    }

    /// Makes a plan the present one. A journal that is on was of another and ends.
    fn take(&mut self, plan: Plan, begun: bool, screen: &mut Screen<'_>) -> io::Result<()> {
        self.end_journal("; edits from here on are not recorded", screen)?;
        screen.say(&text::size(&plan))?;
        self.present = Some(Present::new(plan, begun));
        Ok(())
    }

    fn end_journal(&mut self, further: &str, screen: &mut Screen<'_>) -> io::Result<()> {
        match self.journal.take() {
            Some(journal) => {
                screen.say(&format!("journal {} ends here{further}\n", journal.name()))
            }
            None => Ok(()),
        }
    }

    /// Records each edit in a file from here on: in a new journal of the present plan, or in the journal that the
    /// file has, which is replayed first.
    pub(crate) fn record_in(
        &mut self,
        file: &Path,
        screen: &mut Screen<'_>,
    ) -> Result<(), Trouble> {
        if self.records_in(file) {
            return Err(Trouble::said("it is on already"));
        }
        let open = self.present.is_some();
        let disk = match LockedFile::open(file, open) {
            Err(error) if !open && error.kind() == io::ErrorKind::NotFound => {
                return Err(Trouble::no_plan().of("there is no journal yet"));
            }
            opened => {
                opened.map_err(|error| Trouble::file("the file could not be opened", &error))?
            }
        };
        let bytes = disk.bytes().map_err(|error| Trouble::unread(&error))?;
        if bytes.is_empty() {
            self.start_journal(disk, file, screen)
        } else {
            self.go_on(disk, &bytes, file, screen)
        }
    }

    /// Starts a journal of the present plan in an empty file.
    fn start_journal(
        &mut self,
        mut disk: LockedFile,
        file: &Path,
        screen: &mut Screen<'_>,
    ) -> Result<(), Trouble> {
        let bytes = self.present()?.plan.start_journal()?;
        disk.replace(&bytes)
            .map_err(|error| Trouble::file("not started, the file could not be written", &error))?;
        self.end_journal("", screen)?;
        let name = file.display().to_string();
        screen.say(&format!(
            "{name}: fields 1 to {} written; each edit is recorded from here on\n",
            fields(&bytes)
        ))?;
        self.journal = Some(Journal::new(Box::new(disk), bytes, name));
        Ok(())
    }

    /// Goes on with the journal that a file has, after its last whole field.
    fn go_on(
        &mut self,
        mut disk: LockedFile,
        journal: &[u8],
        file: &Path,
        screen: &mut Screen<'_>,
    ) -> Result<(), Trouble> {
        let (plan, whole, left) = replayed(journal)?;
        if left > 0 {
            let cut = disk.cut(whole.len() as u64);
            cut.map_err(|error| {
                Trouble::file(
                    "not opened, the bytes left over could not be cut off",
                    &error,
                )
            })?;
        }
        self.end_journal("", screen)?;
        if self.present.is_some() {
            screen.say("the plan that was open gives way\n")?;
        }
        let cut = if left > 0 { " and cut off" } else { "" };
        screen.say(&format!(
            "{}{cut}; each edit is recorded from here on\n",
            fields_line(file, whole, left)
        ))?;
        self.take(plan, has_edit(whole), screen)?;
        let name = file.display().to_string();
        self.journal = Some(Journal::new(Box::new(disk), whole.to_vec(), name));
        Ok(())
    }

    /// Keeps the present plan.
    pub(crate) fn keep(&mut self, name: Name, screen: &mut Screen<'_>) -> Result<(), Trouble> {
        let present = self.present.as_mut().ok_or_else(Trouble::no_plan)?;
        let shelf = shelf(&mut self.shelves, present.plan.banks())?;
        present.plan.keep(shelf, name)?;
        Ok(screen.say(&format!("kept as {}\n", shown(name)))?)
    }

    /// Comes back to a kept plan, of as many banks as the present one. A journal that is on ends.
    pub(crate) fn back(&mut self, name: Name, screen: &mut Screen<'_>) -> Result<(), Trouble> {
        let present = self.present.as_mut().ok_or_else(Trouble::no_plan)?;
        let shelf = shelf(&mut self.shelves, present.plan.banks())?;
        let mut plan = present.plan.clone();
        let moved = plan.come_back(shelf, name)?;
        let (before, after) = (present.plan.waves(), plan.waves());
        let line = |&b| text::moved(b, &before, &after);
        let lines: Vec<String> = moved.iter().map(line).collect();
        self.take(plan, false, screen)?;
        Ok(screen.edited(
            &format!("back {}: {} moved", shown(name), moved.len()),
            &lines,
        )?)
    }
}

/// The shelf for plans of n banks.
fn shelf(shelves: &mut BTreeMap<u16, Shelf>, n: u16) -> Result<&mut Shelf, Refused> {
    match shelves.entry(n) {
        Entry::Occupied(there) => Ok(there.into_mut()),
        Entry::Vacant(place) => Ok(place.insert(Shelf::open(n)?)),
    }
}

/// A name as it is shown: without the spaces at its end.
fn shown(name: Name) -> String {
    String::from_utf8_lossy(name.bytes()).trim_end().to_string()
}

/// The plan of a journal, its whole fields, and how many bytes were left over.
fn replayed(journal: &[u8]) -> Result<(Plan, &[u8], usize), Trouble> {
    let (plan, left) = Plan::replay(journal).map_err(|refused| Trouble::at("field", refused))?;
    Ok((plan, &journal[..journal.len() - left], left))
}

/// Which fields of the journal in a file were replayed, and how many bytes were left over.
fn fields_line(file: &Path, whole: &[u8], left: usize) -> String {
    let name = file.display();
    format!(
        "{name}: fields 1 to {} replayed, bytes left over: {left}",
        fields(whole)
    )
}
