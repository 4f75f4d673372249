//! Calls the library from Rust: opens a plan of four banks, adds four clashes, prints the sheet.

use wave_plan::{Bank, Plan, Refused};

fn main() -> Result<(), Refused> {
    let mut plan = Plan::open(4)?;
    for (a, b) in [(0, 1), (1, 2), (2, 3), (0, 3)] {
        let edit = plan.add(Bank(a), Bank(b))?;
        let (taken_up, moved) = (edit.trail.len(), edit.moved.len());
        println!("+ {a} {b}: {taken_up} taken up, {moved} moved");
    }
    print!("{}", plan.sheet()?);
    Ok(())
}
