//! The commands: how each is written, and what it does.

/// How a command is written, and what it does.
pub struct Entry {
    pub form: &'static str,
    pub does: &'static str,
}

/// Declares the commands in the order in which `help` shows them.
macro_rules! commands {
    ($($form:literal: $does:literal;)*) => {
        /// All commands.
        pub const COMMANDS: &[Entry] = &[$(Entry { form: $form, does: $does }),*];
    };
}

commands! {
    "open N": "a plan of N banks, 0 to 1,024, without a clash";
    "load LIST": "the plan of the list in the file LIST";
    "+ a b": "banks a and b clash";
    "- a b": "banks a and b do not clash any more";
    "D b": "strike all clashes of bank b, one after the other, lowest neighbour first";
    "K b r": "bank b has rank r, 0 to 9,999; before the first edit";
    "wave b": "the wave of bank b";
    "clashes b": "the banks that clash with bank b";
    "sheet [FILE]": "the sheet, here or into a file";
    "poster [FILE]": "the gate poster, here or into a file";
    "keep NAME": "keep the plan as MORNING, NOON or CLOSE";
    "back NAME": "come back to the plan of as many banks that is kept as NAME";
    "cap [C]": "the most waves that an edit may lead to, 1 to 24";
    "crew Q": "the day of Q couriers, 1 to 64";
    "within L": "the fewest couriers who end within L steps, and their day";
    "agree SHEET": "whether the sheet in the file SHEET is one of this plan";
    "doubt b": "the wave of bank b, read straight off the rule; at most 16 banks";
    "journal FILE": "record each edit in FILE from here on; go on with the journal that it has, if it has one";
    "replay FILE": "the plan of the journal in FILE, which is read and not recorded in";
    "picture FILE [numbers]": "the plan as a picture (SVG) into a file, with the bank numbers if asked for";
    "why [b]": "why the last edit left bank b in its wave or moved it; alone, each bank that moved";
    "undo": "undo the last edit made here that is not undone yet";
    "help": "these lines";
    "quit": "end";
}

/// The entry of the command with this first word.
pub fn entry(word: &str) -> Option<&'static Entry> {
    let first = |entry: &&Entry| entry.form.split(' ').next() == Some(word);
    COMMANDS.iter().find(first)
}

/// The lines of `help`.
pub fn lines() -> String {
    let line = |entry: &Entry| format!("{:22}  {}\n", entry.form, entry.does);
    COMMANDS.iter().map(line).collect()
}
