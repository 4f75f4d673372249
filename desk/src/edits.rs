//! Edits, ranks and undoing. An edit is made on a copy of the plan, and the copy becomes the plan once the edit is on
//! the disk.

use crate::journal::Journal;
use crate::screen::Screen;
use crate::session::Session;
use crate::trouble::Trouble;
use wave_plan::{Bank, Edit, Kind, LastEdit, Plan, Refusal};

impl Session {
    /// Makes an edit, and notes it to be undone.
    pub(crate) fn edit(
        &mut self,
        kind: Kind,
        a: Bank,
        b: Bank,
        screen: &mut Screen<'_>,
    ) -> Result<(), Trouble> {
        let (line, moved) = self.change(kind, a, b)?;
        self.present()?.made.push((kind, a, b));
        Ok(screen.edited(&line, &moved)?)
    }

    /// Makes an edit and records it in the journal, if one is on. The answer is what to show of it: how many banks
    /// were taken up, and those that moved.
    fn change(&mut self, kind: Kind, a: Bank, b: Bank) -> Result<(String, Vec<String>), Trouble> {
        let present = self.present.as_mut().ok_or_else(Trouble::no_plan)?;
        let mut plan = present.plan.clone();
        let edit = make(&mut plan, self.journal.as_mut(), kind, a, b)?;
        let (taken_up, moved) = (edit.trail.len(), edit.moved.len());
        let line = format!("{}: {taken_up} taken up, {moved} moved", kind.row((a, b)));
        let last = LastEdit::new(kind, a, b, &present.plan, &plan, edit);
        let lines = last.moved_lines();
        present.last = Some(last);
        present.plan = plan;
        present.begun = true;
        Ok((line, lines))
    }

    /// Strikes all clashes of bank b, lowest neighbour first, each as an edit of its own. The first that is not made
    /// ends it.
    pub(crate) fn strike_all(&mut self, b: Bank, screen: &mut Screen<'_>) -> Result<(), Trouble> {
        let neighbours = self.present()?.plan.clashes_of(b)?;
        if neighbours.is_empty() {
            return Ok(screen.say(&format!("D {}: no clashes\n", b.0))?);
        }
        for q in neighbours {
            let struck = self.edit(Kind::Striking, b, q, screen);
            struck.map_err(|trouble| trouble.of(&Kind::Striking.row((b, q))))?;
        }
        Ok(())
    }

    /// Undoes the last edit that is not undone yet.
    pub(crate) fn undo(&mut self, screen: &mut Screen<'_>) -> Result<(), Trouble> {
        let Some(&(kind, a, b)) = self.present()?.made.last() else {
            return Err(Trouble::no_edit("undo"));
        };
        let back = match kind {
            Kind::Adding => Kind::Striking,
            Kind::Striking => Kind::Adding,
        };
        let changed = self.change(back, a, b);
        let (line, moved) = changed.map_err(|trouble| trouble.of(&back.row((a, b))))?;
        self.present()?.made.pop();
        Ok(screen.edited(&line, &moved)?)
    }

    /// Sets the rank of bank b, before the first edit. A journal that is on is started anew: ranks stand before its
    /// edits.
    pub(crate) fn rank(
        &mut self,
        b: Bank,
        rank: u16,
        screen: &mut Screen<'_>,
    ) -> Result<(), Trouble> {
        let present = self.present.as_mut().ok_or_else(Trouble::no_plan)?;
        if present.begun {
            return Err(Refusal::LateRank.into());
        }
        let mut plan = present.plan.clone();
        plan.set_rank(b, rank)?;
        if let Some(journal) = &mut self.journal {
            journal.restart(plan.start_journal()?)?;
        }
        present.plan = plan;
        Ok(screen.say(&format!("bank {} has rank {rank}\n", b.0))?)
    }
}

/// Makes an edit by the calls, and records it in a journal, if there is one.
fn make(
    plan: &mut Plan,
    journal: Option<&mut Journal>,
    kind: Kind,
    a: Bank,
    b: Bank,
) -> Result<Edit, Trouble> {
    match (kind, journal) {
        (Kind::Adding, None) => Ok(plan.add(a, b)?),
        (Kind::Striking, None) => Ok(plan.strike(a, b)?),
        (Kind::Adding, Some(journal)) => journal.record(|bytes| plan.add_recorded(a, b, bytes)),
        (Kind::Striking, Some(journal)) => {
            journal.record(|bytes| plan.strike_recorded(a, b, bytes))
        }
    }
}
