//! Reads a list from standard input and prints what the program *sheet* is to print for it; with
//! the argument `poster`, what the program *poster* is to print.

use independent::{poster, sheet};
use std::env;
use std::io::{self, Read, Write};

fn main() -> io::Result<()> {
    let output = match env::args().nth(1).as_deref() {
        Some("poster") => poster::program_output,
        _ => sheet::program_output,
    };
    let mut list = Vec::new();
    io::stdin().read_to_end(&mut list)?;
    io::stdout().write_all(&output(&list))
}
