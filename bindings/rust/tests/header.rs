//! The refusals against `include/wave_plan.h`.

use wave_plan::Refusal;

/// A refusal as the header has it.
struct Defined {
    name: &'static str,
    number: u16,
    question: &'static str,
}

/// The header's refusals: lines `#define WAVE_PLAN_NAME number /* question */`.
fn defined() -> Vec<Defined> {
    let header = include_str!("../../../include/wave_plan.h");
    let line = |line: &'static str| {
        let (name, rest) = line.strip_prefix("#define WAVE_PLAN_")?.split_once(' ')?;
        let (number, question) = rest.split_once("/*")?;
        Some(Defined {
            name,
            number: number.trim().parse().ok()?,
            question: question.strip_suffix("*/")?.trim(),
        })
    };
    header.lines().filter_map(line).collect()
}

/// `NO_SUCH_BANK` of `NoSuchBank`.
fn in_capitals(name: &str) -> String {
    let mut capitals = String::new();
    for letter in name.chars() {
        if letter.is_uppercase() && !capitals.is_empty() {
            capitals.push('_');
        }
        capitals.push(letter.to_ascii_uppercase());
    }
    capitals
}

/// The numbers in a question, as text without the commas of thousands.
fn figures(question: &str) -> Vec<String> {
    let plain = question.replace(',', "");
    let words = plain.split(|letter: char| !letter.is_ascii_digit());
    let figures = words.filter(|word| !word.is_empty());
    figures.map(str::to_string).collect()
}

#[test]
fn the_refusals_are_the_headers() {
    let defined = defined();
    assert_eq!(Refusal::ALL.len(), defined.len());
    for (refusal, defined) in Refusal::ALL.iter().zip(defined) {
        assert_eq!(in_capitals(&format!("{refusal:?}")), defined.name);
        assert_eq!(refusal.number(), defined.number, "{refusal:?}");
        let (question, wanted) = (refusal.question(), defined.question);
        assert_eq!(figures(question), figures(wanted), "{question} {wanted}");
    }
}

/// Numbers and refusals correspond, from 1 and without a gap.
#[test]
fn of_and_number_are_inverse() {
    let numbers: Vec<u16> = Refusal::ALL.iter().map(|r| r.number()).collect();
    let last = numbers.len() as u16;
    assert_eq!(numbers, (1..=last).collect::<Vec<_>>());
    for number in 0..=u16::MAX {
        let refusal = Refusal::of(number);
        assert_eq!(refusal.is_some(), (1..=last).contains(&number));
        assert!(refusal.map_or(true, |r| r.number() == number));
    }
}

/// A question ends in its mark, and what to do follows "to do:".
#[test]
fn wording() {
    for refusal in Refusal::ALL {
        assert!(refusal.question().ends_with('?'), "{refusal:?}");
        let advice = refusal.advice();
        assert!(advice.starts_with(char::is_lowercase) && !advice.ends_with('.'));
    }
}
