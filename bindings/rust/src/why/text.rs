//! The text of an explanation: short lines, with letters for waves.

use super::{Choice, Explanation, Order, Reason};
use crate::Bank;
use std::fmt;

/// How many of the earlier clashing banks that moved are named; the others are counted.
const MOST_MOVERS: usize = 3;

impl fmt::Display for Explanation {
    fn fmt(&self, f: &mut fmt::Formatter<'_>) -> fmt::Result {
        let mut lines = if self.taken_up {
            self.taken_up_lines()
        } else {
            self.left_alone_lines()
        };
        lines.extend(self.wave_lines());
        f.write_str(&lines.join("\n  "))
    }
}

impl Explanation {
    /// Each condition on the trail that holds for the bank.
    fn taken_up_lines(&self) -> Vec<String> {
        let mut lines: Vec<String> = Vec::new();
        let mut start = format!("bank {} was taken up:", self.bank.0);
        let mut say = |condition: String| {
            lines.push(format!("{start} {condition}"));
            start = "and".to_string();
        };
        for reason in &self.reasons {
            match reason {
                Reason::Named => say(format!("the row {} names it", self.kind.row(self.banks))),
                Reason::Turned { before, now } => say(turned(*before, *now)),
                Reason::LaterThan { .. } => {}
            }
        }
        self.movers().into_iter().for_each(say);
        lines
    }

    /// The earlier clashing banks that moved, if there are any.
    fn movers(&self) -> Option<String> {
        let movers: Vec<String> = self.reasons.iter().filter_map(mover).collect();
        let banks = match movers.len() {
            0 => return None,
            1 => "a clashing bank",
            _ => "clashing banks",
        };
        let named = movers[..movers.len().min(MOST_MOVERS)].join(", ");
        let others = match movers.len().saturating_sub(MOST_MOVERS) {
            0 => String::new(),
            others => format!(" and {others} more"),
        };
        Some(format!(
            "it is later than {banks} that moved: {named}{others}"
        ))
    }

    /// That no condition on the trail holds for the bank.
    fn left_alone_lines(&self) -> Vec<String> {
        let mut lines = vec![
            format!(
                "bank {} was not taken up, nothing of it changed",
                self.bank.0
            ),
            format!("the row {} does not name it", self.kind.row(self.banks)),
        ];
        if self.kept.is_empty() {
            lines.push("it clashes with neither of them".to_string());
        } else {
            let (a, b) = self.banks;
            lines.extend([a, b].map(|named| self.kept_line(named)));
        }
        lines.push("no earlier clashing bank moved".to_string());
        lines
    }

    /// That its order towards a named bank did not turn over.
    fn kept_line(&self, named: Bank) -> String {
        match self.kept.iter().find(|order| order.other.bank == named) {
            Some(order) => {
                let [earlier, _] = order.earlier_first();
                format!(
                    "its order towards bank {} did not turn over: bank {} earlier, before and now",
                    named.0, earlier.bank.0
                )
            }
            None => format!("it does not clash with bank {}", named.0),
        }
    }

    /// Its wave after the edit, and before it if it moved.
    fn wave_lines(&self) -> Vec<String> {
        let now = |said: &str| format!("wave now: {}", chosen(&self.now, said, "is", "holds"));
        match &self.before {
            Some(before) => {
                let before = chosen(before, "", "was", "held");
                vec![format!("wave before: {before}"), now("")]
            }
            None => vec![now(" as before")],
        }
    }
}

/// That an order turned over, and who was and is earlier.
fn turned(before: Order, now: Order) -> String {
    format!(
        "its order towards bank {} turned over, and they clash\n  order before: {}\n  order now: {}",
        now.other.bank.0,
        compared(before),
        compared(now)
    )
}

/// The earlier one of two banks, and by what.
fn compared(order: Order) -> String {
    let [first, second] = order.earlier_first();
    let clashes = match first.clashes {
        1 => "1 clash".to_string(),
        more => format!("{more} clashes"),
    };
    let by = if first.clashes != second.clashes {
        format!("{clashes} to {}", second.clashes)
    } else if first.rank != second.rank {
        let (rank, other) = (first.rank, second.rank);
        format!("{clashes} each and the smaller rank, {rank} to {other}")
    } else {
        format!("{clashes} each and the smaller number")
    };
    format!("bank {} earlier, with {by}", first.bank.0)
}

/// A clashing bank that moved, with its letters.
fn mover(reason: &Reason) -> Option<String> {
    match reason {
        Reason::LaterThan { bank, from, to } => {
            let (from, to) = (from.letter(), to.letter());
            Some(format!("{} from {from} to {to}", bank.0))
        }
        _ => None,
    }
}

/// A wave, and that it is the lowest free one. The verbs are in the tense of before or now.
fn chosen(choice: &Choice, said: &str, is: &str, holds: &str) -> String {
    let mut held = String::new();
    for (wave, bank) in &choice.held {
        let start = match held.is_empty() {
            true => format!("{} {is} held", wave.letter()),
            false => format!(", {}", wave.letter()),
        };
        held += &format!("{start} by bank {}", bank.0);
    }
    if held.is_empty() {
        held = format!("no earlier clashing bank {holds} it");
    }
    format!("{}{said}, the lowest free: {held}", choice.wave.letter())
}
