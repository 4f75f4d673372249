//! The lines of answers: those that the programs crew, agree and doubt print, and those about a plan. A refusal is
//! the program's own line, then the question that was answered no and what to do.

use crate::trouble::Trouble;
use wave_plan::{Bank, Day, Place, Plan, Refusal, Refused, Wave, WrongSheet};

/// Lines, or the lines of a refusal.
pub type Lines = Result<String, Trouble>;

/// How large a plan is.
pub fn size(plan: &Plan) -> String {
    format!(
        "banks {}, clashes {}, waves {}, cap {}\n",
        plan.banks(),
        plan.clashes(),
        plan.wave_count(),
        plan.cap()
    )
}

/// The line of a bank that moved.
pub fn moved(b: Bank, before: &[Wave], after: &[Wave]) -> String {
    let letter = |waves: &[Wave]| waves[usize::from(b.0)].letter();
    format!("{}: {} to {}", b.0, letter(before), letter(after))
}

/// The banks, one space between them, or that there are none.
pub fn banks(banks: &[Bank]) -> String {
    let numbers: Vec<String> = banks.iter().map(|b| b.0.to_string()).collect();
    match numbers.as_slice() {
        [] => "none\n".to_string(),
        numbers => format!("{}\n", numbers.join(" ")),
    }
}

/// The day of so many couriers, as the program crew prints it.
pub fn crew(plan: &mut Plan, couriers: u16) -> Lines {
    match plan.crew_steps(couriers) {
        Ok(day) => Ok(day_lines(plan, &day)),
        Err(refused) => refusal(&format!("CREW {couriers}"), refused),
    }
}

/// The fewest couriers who end within so many steps, and their day, as the program crew prints it.
pub fn within(plan: &mut Plan, limit: u16) -> Lines {
    match plan.least_crew(limit) {
        Ok(couriers) => Ok(format!("CREW {couriers}\n{}", crew(plan, couriers)?)),
        Err(refused) => refusal(&format!("WITHIN {limit}"), refused),
    }
}

/// A line for each step: its number, the letter of its wave, its banks.
fn day_lines(plan: &Plan, day: &Day) -> String {
    let waves = plan.waves();
    let line = |step: u16| {
        let banks = (0u16..).zip(&day.steps).filter(|(_, &s)| s == step);
        let banks: Vec<u16> = banks.map(|(b, _)| b).collect();
        let letter = waves[usize::from(banks[0])].letter();
        let banks: String = banks.iter().map(|b| format!(" {b}")).collect();
        format!("{step} {letter}{banks}\n")
    };
    (1..=day.total).map(line).collect()
}

/// The verdict on a sheet, as the program agree prints it.
pub fn agree(plan: &mut Plan, sheet: &[u8]) -> Lines {
    match plan.check_sheet(sheet) {
        Ok(()) => {
            let not = if plan.sheet()?.as_bytes() == sheet {
                ""
            } else {
                "not "
            };
            Ok(format!("ACCEPTED\n{not}the planner's own sheet\n"))
        }
        Err(WrongSheet::NoSheet { line }) => {
            program(&format!("REFUSED 26 line {line}"), Refusal::NoSheet)
        }
        Err(WrongSheet::ManyWaves) => {
            let k = plan.wave_count();
            program(
                &format!("REFUSED 27 more than {k} waves"),
                Refusal::SheetClash,
            )
        }
        Err(WrongSheet::Clash(Bank(a), Bank(b))) => {
            let letter = letter_on(sheet, a);
            let line = format!("REFUSED 27 banks {a} and {b} clash in wave {letter}");
            program(&line, Refusal::SheetClash)
        }
        Err(WrongSheet::Refused(refused)) => Err(refused.into()),
    }
}

/// The letter of the line of a sheet that has this bank.
fn letter_on(sheet: &[u8], bank: u16) -> String {
    let sheet = String::from_utf8_lossy(sheet);
    let bank = bank.to_string();
    let waves = sheet.lines().skip(1);
    let mut lines = waves.map(|line| line.split(' ').collect::<Vec<_>>());
    let line = lines.find(|words| words.contains(&bank.as_str()));
    line.map_or(String::new(), |words| words[0].to_string())
}

/// The wave of bank b as kept and as read straight off the rule, as the program doubt prints it.
pub fn doubt(plan: &mut Plan, b: Bank) -> Lines {
    match doubt_line(plan, b) {
        Ok(line) => Ok(line),
        Err(refused) => refusal(&format!("BANK {}", b.0), refused),
    }
}

fn doubt_line(plan: &mut Plan, b: Bank) -> Result<String, Refused> {
    let read = plan.wave_by_rule(b)?.letter();
    let kept = plan.wave_of(b)?.letter();
    let mut line = format!("BANK {} KEPT {kept} READ {read}", b.0);
    let earlier = |q: &Bank| Place::of(plan, *q).is_earlier_than(Place::of(plan, b));
    let earlier: Vec<Bank> = plan.neighbours_of(b).into_iter().filter(earlier).collect();
    for q in earlier {
        line += &format!(" FROM {} {}", q.0, plan.wave_by_rule(q)?.letter());
    }
    Ok(line + "\n")
}

/// The line of a program for a refused call, and the question.
fn refusal(asked: &str, refused: Refused) -> Lines {
    let line = format!("{asked} REFUSED {}", refused.number());
    program(&line, refused.refusal)
}

/// The line of a program for a refusal, then the question that was answered no.
fn program(line: &str, refusal: Refusal) -> Lines {
    let refused = Trouble::from(refusal);
    Err(Trouble::Program(format!("{line}\n{refused}")))
}
