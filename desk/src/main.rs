//! The program desk. `desk` starts with nothing open, `desk JOURNAL` as if `journal JOURNAL` were its first line.

use desk::screen::Screen;
use std::env;
use std::io::{self, BufWriter, IsTerminal};
use std::process::ExitCode;

fn main() -> ExitCode {
    let arguments: Result<Vec<String>, _> =
        env::args_os().skip(1).map(|a| a.into_string()).collect();
    let journal = match arguments.as_deref() {
        Ok([]) => None,
        Ok([journal]) if !journal.starts_with('-') => Some(journal.as_str()),
        _ => {
            eprintln!("usage: desk [JOURNAL], then a command in each line of standard input; help lists them");
            return ExitCode::from(2);
        }
    };
    let terminal = io::stdin().is_terminal() && io::stdout().is_terminal();
    let mut out = BufWriter::new(io::stdout().lock());
    match desk::run(
        &mut io::stdin().lock(),
        &mut Screen::new(&mut out, terminal),
        journal,
    ) {
        Ok(()) => ExitCode::SUCCESS,
        Err(error) => {
            eprintln!("desk: {error}");
            ExitCode::FAILURE
        }
    }
}
