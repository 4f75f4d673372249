//! Median and quartiles of a measure over repeats.

use std::fmt;

#[derive(Clone, Copy, Debug)]
pub struct Spread {
    pub low: f64,
    pub median: f64,
    pub high: f64,
}

impl Spread {
    /// The quartiles of at least one value.
    pub fn of(values: impl IntoIterator<Item = f64>) -> Spread {
        let mut values: Vec<f64> = values.into_iter().collect();
        values.sort_by(|a, b| a.partial_cmp(b).expect("numbers"));
        let last = (values.len() - 1) as f64;
        let at = |part: f64| values[(part * last).round() as usize];
        Spread {
            low: at(0.25),
            median: at(0.5),
            high: at(0.75),
        }
    }

    /// The spread of top over bottom, repeat by repeat.
    pub fn ratio(top: &[f64], bottom: &[f64]) -> Spread {
        Spread::of(top.iter().zip(bottom).map(|(top, bottom)| top / bottom))
    }
}

/// Median, and the quartiles in brackets.
impl fmt::Display for Spread {
    fn fmt(&self, f: &mut fmt::Formatter) -> fmt::Result {
        let [low, median, high] = [self.low, self.median, self.high].map(figure);
        write!(f, "{median} ({low} to {high})")
    }
}

/// A number with about three digits.
pub fn figure(value: f64) -> String {
    match value {
        value if value >= 100.0 => format!("{value:.0}"),
        value if value >= 10.0 => format!("{value:.1}"),
        value if value >= 0.1 => format!("{value:.2}"),
        value if value > -0.1 => format!("{value:.4}"),
        value => format!("{value:.1}"),
    }
}
