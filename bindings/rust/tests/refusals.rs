//! Each refusal that a plan or a shelf of the package can get, and that the plan is as it was.

use wave_plan::{Bank, Name, Plan, Refusal, Refused, Shelf, WrongSheet};

const A: Bank = Bank(0);
const B: Bank = Bank(1);

/// M8: six banks in two waves.
fn plan() -> Plan {
    Plan::read_list("N 6\n+ 0 4\n+ 0 2\n+ 2 3\n+ 1 3\n+ 1 5\n+ 2 5\n").expect("a list")
}

/// The refusal of a call on the plan, which changes nothing.
fn refusal<T>(call: impl FnOnce(&mut Plan) -> Result<T, Refused>) -> Option<Refusal> {
    let mut called = plan();
    let refused = call(&mut called).err().map(|refused| refused.refusal);
    assert_eq!(called, plan());
    refused
}

/// The refusal of a list or a journal, and its place.
fn at<T>(made: Result<T, Refused>) -> Option<(Refusal, u16)> {
    made.err().map(|refused| (refused.refusal, refused.place))
}

#[test]
fn edits() {
    assert_eq!(refusal(|p| p.add(A, Bank(6))), Some(Refusal::NoSuchBank));
    assert_eq!(refusal(|p| p.add(B, B)), Some(Refusal::SameBank));
    assert_eq!(refusal(|p| p.add(Bank(4), A)), Some(Refusal::ClashThere));
    assert_eq!(refusal(|p| p.strike(A, B)), Some(Refusal::NoClash));
    assert_eq!(refusal(|p| p.set_cap(25)), Some(Refusal::CapOutOfSpan));
    assert_eq!(refusal(|p| p.set_cap(1)), Some(Refusal::CapPassed));
    assert_eq!(refusal(|p| p.set_rank(A, 1)), Some(Refusal::LateRank));
    let mut star = Plan::open(25).expect("opened");
    for b in 1..24 {
        star.add(A, Bank(b)).expect("added");
    }
    let full = star.add(A, Bank(24)).map_err(|refused| refused.refusal);
    assert_eq!(full, Err(Refusal::RowFull));
}

#[test]
fn a_cap_that_an_edit_would_pass() {
    let mut plan = plan();
    plan.set_cap(2).expect("set");
    let before = plan.clone();
    assert_eq!(
        plan.strike(Bank(2), Bank(5)),
        Err(Refusal::CapPassed.into())
    );
    assert_eq!(plan, before);
}

#[test]
fn ranks() {
    let mut plan = Plan::open(2).expect("opened");
    assert_eq!(plan.set_rank(Bank(2), 0), Err(Refusal::NoSuchBank.into()));
    assert_eq!(plan.set_rank(A, 10_000), Err(Refusal::NoPlan.into()));
    assert_eq!(plan.ranks(), [0, 0]);
    assert_eq!(plan.set_rank(A, 9999), Ok(()));
    assert_eq!(plan.ranks(), [9999, 0]);
    assert_eq!(plan.wave_of(A).map(|wave| wave.letter()), Ok('A'));
}

#[test]
fn questions() {
    assert_eq!(refusal(|p| p.wave_of(Bank(6))), Some(Refusal::NoSuchBank));
    assert_eq!(
        refusal(|p| p.clashes_of(Bank(6))),
        Some(Refusal::NoSuchBank)
    );
    assert_eq!(
        refusal(|p| p.wave_by_rule(Bank(6))),
        Some(Refusal::NoSuchBank)
    );
    assert_eq!(refusal(|p| p.crew_steps(0)), Some(Refusal::CrewSpan));
    assert_eq!(refusal(|p| p.least_crew(1025)), Some(Refusal::CrewSpan));
    assert_eq!(refusal(|p| p.least_crew(1)), Some(Refusal::NoCrew));
    let many = Plan::open(17).expect("opened").wave_by_rule(A);
    assert_eq!(many, Err(Refusal::ManyBanksByRule.into()));
    assert_eq!(plan().neighbours_of(Bank(6)), []);
}

#[test]
fn lists() {
    let long = vec![b'\n'; 60_001];
    assert_eq!(at(Plan::read_list(long)), Some((Refusal::LongList, 0)));
    assert_eq!(at(Plan::read_list("")), Some((Refusal::NoFirstRow, 1)));
    assert_eq!(at(Plan::read_list("V 2\n")), Some((Refusal::NoFirstRow, 2)));
    assert_eq!(
        at(Plan::read_list("N 1025")),
        Some((Refusal::TooManyBanks, 1))
    );
    assert_eq!(
        at(Plan::read_list("N 2\n+ 0")),
        Some((Refusal::UnreadableRow, 2))
    );
    let late = "N 2\n+ 0 1\nK 0 1";
    assert_eq!(at(Plan::read_list(late)), Some((Refusal::LateRank, 3)));
    let retired = "V 2\nN 2\nD 0";
    assert_eq!(at(Plan::read_list(retired)), Some((Refusal::DRetired, 3)));
}

#[test]
fn journals() {
    let journal = plan().start_journal().expect("started");
    assert_eq!(
        at(Plan::replay(&journal[..4])),
        Some((Refusal::NoFirstField, 1))
    );
    let with = |byte: usize, value: u8| {
        let mut changed = journal.clone();
        changed[byte] = value;
        changed
    };
    assert_eq!(
        at(Plan::replay(&with(5, 0))),
        Some((Refusal::WrongField, 2))
    );
    assert_eq!(
        at(Plan::replay(&with(8, 2))),
        Some((Refusal::WrongNumber, 2))
    );
    assert_eq!(
        at(Plan::replay(&with(16, 0x4B))),
        Some((Refusal::LateRank, 3))
    );
    let mut cut = journal[..journal.len() - 1].to_vec();
    let before = cut.clone();
    let recorded = refusal(|p| p.add_recorded(A, B, &mut cut));
    assert_eq!((recorded, cut), (Some(Refusal::WrongField), before));
}

/// A journal with no space for one entry more in 60,000 bytes.
#[test]
fn a_full_journal() {
    let mut plan = Plan::open(2).expect("opened");
    let edits = b"\x2B\x04\0\0\0\x01\0\x2D\x04\0\0\0\x01\0";
    let mut journal = [b"\x4E\x02\0\x02\0", edits.repeat(4285).as_slice()].concat();
    assert_eq!(journal.len(), 59_995);
    assert_eq!(Plan::replay(&journal), Ok((plan.clone(), 0)));
    let full = plan.add_recorded(A, B, &mut journal);
    assert_eq!(
        (full, journal.len()),
        (Err(Refusal::NoSpace.into()), 59_995)
    );
    assert_eq!(plan.clashes(), 0);
}

#[test]
fn kept_plans() {
    let mut shelf = Shelf::open(6).expect("opened");
    assert_eq!(
        refusal(|p| p.come_back(&shelf, Name::Noon)),
        Some(Refusal::NothingKept)
    );
    let larger = Plan::open(7).expect("opened").keep(&mut shelf, Name::Noon);
    assert_eq!(larger, Err(Refusal::ShortSlice.into()));
    let mut smaller = Plan::open(5).expect("opened");
    assert_eq!(
        smaller.keep(&mut shelf, Name::Noon),
        Err(Refusal::NoPlan.into())
    );
    let back = smaller.come_back(&shelf, Name::Noon);
    assert_eq!(back, Err(Refusal::NoPlan.into()));
    let many = Shelf::open(1025).err();
    assert_eq!(many, Some(Refusal::TooManyBanks.into()));
    assert_eq!("Noon".parse::<Name>(), Err(Refusal::UnknownName.into()));
}

/// The refusal of a wrong sheet, and what is said of it.
#[test]
fn sheets() {
    let sheets = [
        (
            "WAVES 2\n",
            Refusal::NoSheet,
            "refused 26: line 2 is wrong for this plan",
        ),
        (
            "WAVES 2\nA 0 1 2\nB 3 4 5\nTOTAL 6 6\n",
            Refusal::SheetClash,
            "refused 27: banks 0 and 2 clash in one wave",
        ),
        (
            "WAVES 3\nA 0\nB 2 1 4\nC 3 5\nTOTAL 6 6\n",
            Refusal::NoSheet,
            "refused 26: line 3 is wrong for this plan",
        ),
        (
            "WAVES 3\nA 0 3\nB 1 2 4\nC 5\nTOTAL 6 6\n",
            Refusal::SheetClash,
            "refused 27: more waves than the plan has",
        ),
    ];
    for (sheet, refusal, said) in sheets {
        let wrong: WrongSheet = plan().check_sheet(sheet).expect_err("a wrong sheet");
        assert_eq!(
            (wrong.refusal(), wrong.to_string()),
            (refusal, said.to_string())
        );
    }
}
