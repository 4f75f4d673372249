//! Prints the sheet of a list from standard input. If the list is refused: the row, the question that was answered no and
//! what to do.

use std::io::{self, Read};
use wave_plan::{Plan, Refused};

fn main() -> io::Result<()> {
    let mut list = Vec::new();
    io::stdin().read_to_end(&mut list)?;
    match sheet(&list) {
        Ok(sheet) => print!("{sheet}"),
        Err(refused) => {
            let refusal = refused.refusal;
            println!("REFUSED {} ROW {}", refusal.number(), refused.place);
            println!("{} No.", refusal.question());
            println!("To do: {}.", refusal.advice());
        }
    }
    Ok(())
}

fn sheet(list: &[u8]) -> Result<String, Refused> {
    Plan::read_list(list)?.sheet()
}
