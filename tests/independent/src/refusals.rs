//! The answers to the questions that a call asks. The first no wins.

pub const ACCEPTED: u16 = 0;
pub const TOO_MANY_BANKS: u16 = 1;
pub const SLICE_TOO_SHORT: u16 = 2;
pub const NO_PLAN: u16 = 3;
pub const NO_SUCH_BANK: u16 = 4;
pub const SAME_BANK: u16 = 5;
pub const CLASH_EXISTS: u16 = 6;
pub const NO_SUCH_CLASH: u16 = 7;
pub const DEGREE_FULL: u16 = 8;
pub const LIST_TOO_LONG: u16 = 9;
pub const NOT_AN_N_ROW: u16 = 10;
pub const NOT_A_ROW: u16 = 11;
pub const OUTPUT_TOO_SHORT: u16 = 12;
pub const NOT_A_FIRST_FIELD: u16 = 13;
pub const NOT_A_FIELD: u16 = 14;
pub const NO_SPACE: u16 = 15;
pub const UNKNOWN_NAME: u16 = 16;
pub const NOTHING_KEPT: u16 = 17;
pub const RANK_AFTER_EDIT: u16 = 18;
pub const CAP_OUT_OF_SPAN: u16 = 19;
pub const CAP_PASSED: u16 = 20;
pub const WRONG_NUMBER: u16 = 21;
pub const MANY_BANKS_BY_RULE: u16 = 22;
pub const D_RETIRED: u16 = 23;
pub const CREW_OUT_OF_SPAN: u16 = 24;
pub const NO_CREW: u16 = 25;

pub const NO_SHEET: u16 = 26;
pub const SHEET_CLASH: u16 = 27;

/// A question: the given number if the answer is no.
pub fn ask(yes: bool, number: u16) -> Result<(), u16> {
    if yes {
        Ok(())
    } else {
        Err(number)
    }
}
