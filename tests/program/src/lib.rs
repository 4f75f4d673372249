//! Runs the programs *sheet*, *poster*, *doubt*, *crew* and *function_text* on a list, and *agree* on a list and a
//! sheet, and judges what they print.
//!
//! - `run`: starts a program.
//! - `read_back`: reads the waves and the foot off a printed sheet or poster and holds them against
//!   the rule and the list, without the model.

pub mod read_back;
pub mod run;

use independent::crew::{self, Asked};
use independent::{check_sheet, doubt, poster, sheet};

/// The program *sheet* prints for this list what the model does; a sheet also follows the rule and adds up.
pub fn agrees_with_model(list: &[u8]) {
    let printed = run::sheet_program(list);
    same(list, &printed, &sheet::program_output(list));
    if !printed.starts_with(b"REFUSED") {
        read_back::sheet_follows_rule(list, &printed);
    }
}

/// The program *poster* prints for this list what the model does; a poster also follows the rule and adds up.
pub fn poster_agrees_with_model(list: &[u8]) {
    let printed = run::poster_program(list);
    same(list, &printed, &poster::program_output(list));
    if !printed.starts_with(b"REFUSED") {
        read_back::poster_follows_rule(list, &printed);
    }
}

/// The program *function_text* prints for this list what the model does: the sheet, and with an argument the poster.
pub fn function_text_agrees_with_model(list: &[u8]) {
    for (arguments, wanted) in [
        (&[][..], sheet::program_output(list)),
        (&["poster"][..], poster::program_output(list)),
    ] {
        let told = run::function_text_program(list, arguments);
        same(list, &told.output, &wanted);
        assert!(told.errors.is_empty());
    }
}

/// The program *doubt* prints for this list and these banks what the model does.
pub fn doubt_agrees_with_model(list: &[u8], banks: &[u16]) {
    let arguments: Vec<String> = banks.iter().map(u16::to_string).collect();
    let arguments: Vec<&str> = arguments.iter().map(String::as_str).collect();
    let told = run::doubt_program(list, &arguments);
    same(list, &told.output, &doubt::program_output(list, banks));
    assert!(told.errors.is_empty());
}

/// The program *crew* prints for this list, and so many couriers or steps, what the model does.
pub fn crew_agrees_with_model(list: &[u8], asked: Asked) {
    let told = match asked {
        Asked::Couriers(couriers) => run::crew_program(list, &[&couriers.to_string()]),
        Asked::Within(limit) => run::crew_program(list, &["within", &limit.to_string()]),
    };
    same(list, &told.output, &crew::program_output(list, asked));
    assert!(told.errors.is_empty());
}

/// The program *agree* prints for this list and this sheet what the model does: the answer.
pub fn agree_agrees_with_model(list: &[u8], sheet: &[u8]) -> Vec<u8> {
    let told = run::agree_on(list, sheet);
    let about = [list, b" and ", sheet].concat();
    let wanted = check_sheet::program_output(list, sheet);
    same(&about, &told.output, &wanted);
    assert!(told.errors.is_empty());
    told.output
}

fn same(list: &[u8], printed: &[u8], wanted: &[u8]) {
    assert!(
        printed == wanted,
        "list: {}\nprinted: {}\nwanted: {}",
        list.escape_ascii(),
        printed.escape_ascii(),
        wanted.escape_ascii()
    );
}
