//! Keeps a plan, tries an edit, prints each bank that it moved, and comes back.

use wave_plan::{Bank, Name, Plan, Refused, Shelf, Wave};

fn main() -> Result<(), Refused> {
    let mut plan = Plan::read_list("N 6\n+ 0 4\n+ 0 2\n+ 2 3\n+ 1 3\n+ 1 5\n+ 2 5\n")?;
    let mut shelf = Shelf::open(plan.banks())?;
    plan.keep(&mut shelf, Name::Morning)?;

    let before = plan.waves();
    let edit = plan.strike(Bank(2), Bank(5))?;
    println!("- 2 5: {} waves", plan.wave_count());
    print_moved(&edit.moved, &before, &plan.waves());

    let before = plan.waves();
    let moved = plan.come_back(&shelf, Name::Morning)?;
    println!("{}: {} waves", Name::Morning, plan.wave_count());
    print_moved(&moved, &before, &plan.waves());
    Ok(())
}

fn print_moved(moved: &[Bank], before: &[Wave], after: &[Wave]) {
    for &bank in moved {
        let at = usize::from(bank.0);
        println!("{bank}: {} to {}", before[at].letter(), after[at].letter());
    }
}
