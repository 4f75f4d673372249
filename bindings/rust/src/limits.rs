//! The limits of `include/wave_plan.h`, under its names, and the cells of the slices.

/// Declares limits, and for the test a table of them.
macro_rules! limits {
    ($($(#[$about:meta])* $name:ident: $kind:ty = $value:literal;)*) => {
        $($(#[$about])* pub(crate) const $name: $kind = $value;)*

        #[cfg(test)]
        const LIMITS: &[(&str, usize)] = &[$((stringify!($name), $value)),*];
    };
}

limits! {
    MOST_BANKS: u16 = 1024;
    MOST_RANK: u16 = 9999;
    ROW_CELLS: usize = 23;
    COUNT_CELLS: usize = 24;
    TALLY_CELLS: usize = 4;
    MOST_SHEET_BYTES: usize = 4084;
    MOST_POSTER_BYTES: usize = 8200;
    MOST_JOURNAL_BYTES: usize = 60_000;
    /// The field of one edit in a journal.
    ENTRY_BYTES: usize = 11;
    /// The places of a shelf.
    PLACES: usize = 3;
    /// The most results of a call that changes a plan.
    RECORD_RESULTS: usize = 3;
}

/// The cells of a kept plan of n banks.
pub(crate) fn place_cells(n: u16) -> usize {
    50 * usize::from(n) + 5
}

#[cfg(test)]
mod tests {
    use super::*;

    #[test]
    fn limits_of_the_header() {
        let header = include_str!("../../../include/wave_plan.h");
        let defines = |name: &str| {
            let mut lines = header.lines().map(|line| line.split_whitespace());
            lines.find_map(|mut words| {
                let found = words.next() == Some("#define") && words.next() == Some(name);
                found.then(|| words.collect::<Vec<_>>().join(" "))
            })
        };
        for (name, value) in LIMITS {
            let define = defines(&format!("WAVE_PLAN_{name}"));
            assert_eq!(define, Some(value.to_string()), "{name}");
        }
        let cells = defines("WAVE_PLAN_PLACE_CELLS(n)");
        assert_eq!(cells.as_deref(), Some("(50 * (size_t)(n) + 5)"));
        assert_eq!((place_cells(0), place_cells(1024)), (5, 51_205));
    }
}
