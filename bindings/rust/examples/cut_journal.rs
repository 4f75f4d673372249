//! Records edits in a journal, loses its last bytes, replays what is whole and goes on from there.

use wave_plan::{Bank, Plan, Refused};

fn main() -> Result<(), Refused> {
    let mut plan = Plan::open(4)?;
    let mut journal = plan.start_journal()?;
    plan.add_recorded(Bank(0), Bank(1), &mut journal)?;
    plan.add_recorded(Bank(1), Bank(2), &mut journal)?;
    plan.strike_recorded(Bank(0), Bank(1), &mut journal)?;
    println!("recorded: {} bytes, {plan:?}", journal.len());

    // As after a crash while the journal was written to a file.
    journal.truncate(journal.len() - 4);

    let (mut plan, left_over) = Plan::replay(&journal)?;
    println!("replayed: {left_over} bytes left over, {plan:?}");

    journal.truncate(journal.len() - left_over);
    plan.strike_recorded(Bank(1), Bank(2), &mut journal)?;
    let (again, left_over) = Plan::replay(&journal)?;
    println!("recorded: {} bytes, {plan:?}", journal.len());
    println!("the same again: {}", (again, left_over) == (plan, 0));
    Ok(())
}
