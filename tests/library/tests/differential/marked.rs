//! The paper's marked examples, its example sheet, ranks, caps, a journal and a shelf, through the
//! wrapper that owns its memory.

use wave_plan::{Bank, Edit, Name, Plan, Refusal, Refused, Shelf, Wave};

fn banks(numbers: &[u16]) -> Vec<Bank> {
    numbers.iter().copied().map(Bank).collect()
}

fn opened(n: u16, clashes: &[(u16, u16)]) -> Plan {
    let mut plan = Plan::open(n).expect("opened");
    for &(a, b) in clashes {
        plan.add(Bank(a), Bank(b)).expect("added");
    }
    plan
}

fn waves(plan: &Plan, n: u16) -> Vec<u16> {
    let wave = |b| plan.wave_of(Bank(b)).expect("a bank").0;
    (0..n).map(wave).collect()
}

fn reach(edit: Result<Edit, Refused>, trail: &[u16], moved: &[u16]) {
    let edit = edit.expect("accepted");
    assert_eq!(edit.trail, banks(trail));
    assert_eq!(edit.moved, banks(moved));
}

fn refused(number: u16, place: u16) -> Refused {
    let refusal = Refusal::of(number).expect("a refusal");
    Refused { refusal, place }
}

#[test]
fn m1() {
    assert_eq!(
        opened(0, &[]).sheet(),
        Ok("WAVES 0\nTOTAL 0 0\n".to_string())
    );
}

#[test]
fn m2_to_m4() {
    let mut plan = opened(3, &[]);
    reach(plan.add(Bank(1), Bank(2)), &[1, 2], &[2]);
    assert_eq!(waves(&plan, 3), [0, 0, 1]);
    reach(plan.add(Bank(0), Bank(1)), &[1, 0], &[0]);
    assert_eq!(waves(&plan, 3), [1, 0, 1]);
    reach(plan.add(Bank(0), Bank(2)), &[0, 1, 2], &[0, 1, 2]);
    assert_eq!(waves(&plan, 3), [0, 1, 2]);
}

#[test]
fn m5_to_m7() {
    let mut plan = opened(4, &[(0, 1), (1, 2), (2, 3)]);
    assert_eq!(waves(&plan, 4), [1, 0, 1, 0]);
    reach(plan.add(Bank(0), Bank(3)), &[0, 1, 2, 3], &[0, 1, 2, 3]);
    assert_eq!(waves(&plan, 4), [0, 1, 0, 1]);
    reach(plan.strike(Bank(0), Bank(3)), &[1, 2, 0, 3], &[1, 2, 0, 3]);
    assert_eq!(waves(&plan, 4), [1, 0, 1, 0]);
}

#[test]
fn m8_to_m9() {
    let clashes = [(0, 4), (0, 2), (2, 3), (1, 3), (1, 5), (2, 5)];
    let mut plan = opened(6, &clashes);
    assert_eq!(waves(&plan, 6), [1, 0, 0, 1, 0, 1]);
    assert_eq!(plan.clashes_of(Bank(2)), Ok(banks(&[0, 3, 5])));
    reach(
        plan.strike(Bank(2), Bank(5)),
        &[0, 2, 3, 4, 5],
        &[0, 2, 3, 4],
    );
    assert_eq!(waves(&plan, 6), [0, 0, 1, 2, 1, 1]);
    assert_eq!(plan.clashes_of(Bank(2)), Ok(banks(&[0, 3])));
}

#[test]
fn the_example_list() {
    let list = b"N 4\n+ 0 1\n+ 1 2\n+ 2 3\n+ 0 3";
    let plan = Plan::read_list(list).expect("accepted");
    let sheet = "WAVES 2\nA 0 2\nB 1 3\nTOTAL 4 4\n";
    assert_eq!(plan.sheet(), Ok(sheet.to_string()));
    assert_eq!(plan.wave_of(Bank(3)), Ok(Wave(1)));
}

/// M2 and M3 where bank 1 has a larger rank: another order, another trail. A new journal has the ranks.
#[test]
fn ranks() {
    let mut plan = Plan::read_list(b"N 3\nK 1 300\nK 2 9999\nK 2 0\n").expect("accepted");
    assert_eq!(plan.ranks(), [0, 300, 0]);
    reach(plan.add(Bank(1), Bank(2)), &[2, 1], &[1]);
    assert_eq!(waves(&plan, 3), [0, 1, 0]);
    reach(plan.add(Bank(0), Bank(1)), &[1, 0, 2], &[1, 0, 2]);
    assert_eq!(waves(&plan, 3), [1, 0, 1]);
    assert_eq!(plan.ranks(), [0, 300, 0]);
    let journal = plan.start_journal().expect("started");
    let fields = [
        &[0x4E, 2, 0, 3, 0][..],
        &[0x4B, 8, 0, 1, 0, 0, 0, 1, 0, 44, 1],
        &[0x2B, 8, 0, 2, 0, 0, 0, 0, 0, 1, 0],
        &[0x2B, 8, 0, 3, 0, 0, 0, 1, 0, 2, 0],
    ];
    assert_eq!(journal, fields.concat());
    let (again, left) = Plan::replay(&journal).expect("replayed");
    assert_eq!((again.ranks(), left), (plan.ranks(), 0));
    let mut late = [&journal[..], &journal[5..16]].concat();
    assert_eq!(Plan::replay(&late).err(), Some(refused(21, 5)));
    late[41] = 4;
    assert_eq!(Plan::replay(&late).err(), Some(refused(18, 5)));
    let late = b"N 3\nD 0\nK 1 300";
    assert_eq!(Plan::read_list(late).err(), Some(refused(18, 3)));
    let mut shelf = Shelf::open(3).expect("opened");
    assert_eq!(plan.keep(&mut shelf, Name::Noon), Ok(()));
    let mut other = opened(3, &[(0, 1), (1, 2)]);
    assert_eq!(other.come_back(&shelf, Name::Noon), Ok(vec![]));
    assert_eq!(other.ranks(), [0, 300, 0]);
}

/// M9's strike needs a third wave. The cap is kept with the plan, and no journal has it.
#[test]
fn caps() {
    let clashes = [(0, 4), (0, 2), (2, 3), (1, 3), (1, 5), (2, 5)];
    let mut plan = opened(6, &clashes);
    assert_eq!(plan.cap(), 24);
    assert_eq!(plan.set_cap(0), Err(refused(19, 0)));
    assert_eq!(plan.set_cap(25), Err(refused(19, 0)));
    assert_eq!(plan.set_cap(1), Err(refused(20, 0)));
    assert_eq!(plan.set_cap(2), Ok(()));
    let mut journal = plan.start_journal().expect("started");
    let started = journal.clone();
    assert_eq!(plan.strike(Bank(2), Bank(5)), Err(refused(20, 0)));
    let answer = plan.strike_recorded(Bank(2), Bank(5), &mut journal);
    assert_eq!((answer, &journal), (Err(refused(20, 0)), &started));
    assert_eq!(plan.add(Bank(2), Bank(4)), Err(refused(20, 0)));
    assert_eq!(waves(&plan, 6), [1, 0, 0, 1, 0, 1]);
    let mut shelf = Shelf::open(6).expect("opened");
    assert_eq!(plan.keep(&mut shelf, Name::Morning), Ok(()));
    assert_eq!(plan.set_cap(3), Ok(()));
    reach(
        plan.strike_recorded(Bank(2), Bank(5), &mut journal),
        &[0, 2, 3, 4, 5],
        &[0, 2, 3, 4],
    );
    assert_eq!((plan.cap(), plan.set_cap(2)), (3, Err(refused(20, 0))));
    let (again, _) = Plan::replay(&journal).expect("replayed");
    assert_eq!((again.cap(), again.sheet()), (24, plan.sheet()));
    assert!(plan.come_back(&shelf, Name::Morning).is_ok());
    assert_eq!(plan.cap(), 2);
    assert_eq!(plan.strike(Bank(2), Bank(5)), Err(refused(20, 0)));
}

#[test]
fn a_journal() {
    let mut plan = opened(4, &[(2, 1)]);
    let mut journal = plan.start_journal().expect("started");
    reach(
        plan.add_recorded(Bank(1), Bank(0), &mut journal),
        &[1, 0],
        &[0],
    );
    let again = plan.add_recorded(Bank(0), Bank(1), &mut journal);
    assert_eq!(again, Err(refused(6, 0)));
    assert!(plan.strike_recorded(Bank(1), Bank(2), &mut journal).is_ok());
    let fields = [
        &[0x4E, 2, 0, 4, 0][..],
        &[0x2B, 8, 0, 1, 0, 0, 0, 1, 0, 2, 0],
        &[0x2B, 8, 0, 2, 0, 0, 0, 1, 0, 0, 0],
        &[0x2D, 8, 0, 3, 0, 0, 0, 1, 0, 2, 0],
    ];
    assert_eq!(journal, fields.concat());
    let (again, left) = Plan::replay(&journal).expect("replayed");
    assert_eq!((again.sheet(), left), (plan.sheet(), 0));
    let (cut, left) = Plan::replay(&journal[..37]).expect("replayed");
    assert_eq!((waves(&cut, 4), left), (vec![1, 0, 1, 0], 10));
    journal[19] = 5;
    assert_eq!(Plan::replay(&journal).err(), Some(refused(21, 3)));
    journal[17] = 4;
    assert_eq!(Plan::replay(&journal).err(), Some(refused(14, 3)));
}

/// A journal whose fields have length 4 still replays, and is continued so.
#[test]
fn a_journal_without_numbers() {
    let fields = [
        &[0x4E, 2, 0, 4, 0][..],
        &[0x2B, 4, 0, 1, 0, 2, 0],
        &[0x2B, 4, 0, 1, 0, 0, 0],
    ];
    let mut journal = fields.concat();
    let (mut plan, left) = Plan::replay(&journal).expect("replayed");
    assert_eq!((waves(&plan, 4), left), (vec![1, 0, 1, 0], 0));
    assert!(plan.strike_recorded(Bank(1), Bank(2), &mut journal).is_ok());
    let field = [0x2D, 4, 0, 1, 0, 2, 0];
    assert_eq!(journal, [&fields.concat()[..], &field].concat());
    let (again, left) = Plan::replay(&journal).expect("replayed");
    assert_eq!((again.sheet(), left), (plan.sheet(), 0));
}

/// M5 is kept in the morning, M6 at noon.
#[test]
fn a_shelf() {
    let mut plan = opened(4, &[(0, 1), (1, 2), (2, 3)]);
    let mut shelf = Shelf::open(4).expect("opened");
    for name in Name::ALL {
        assert_eq!(plan.come_back(&shelf, name), Err(refused(17, 0)));
    }
    assert_eq!(plan.keep(&mut shelf, Name::Morning), Ok(()));
    assert!(plan.add(Bank(0), Bank(3)).is_ok());
    assert_eq!(plan.keep(&mut shelf, Name::Noon), Ok(()));
    assert!(plan.add(Bank(0), Bank(2)).is_ok());
    assert_eq!(waves(&plan, 4), [0, 2, 1, 2]);
    assert_eq!(plan.come_back(&shelf, Name::Noon), Ok(banks(&[1, 2, 3])));
    assert_eq!(waves(&plan, 4), [0, 1, 0, 1]);
    let whole = banks(&[0, 1, 2, 3]);
    assert_eq!(plan.come_back(&shelf, Name::Morning), Ok(whole));
    assert_eq!(waves(&plan, 4), [1, 0, 1, 0]);
    assert_eq!(plan.clashes_of(Bank(3)), Ok(banks(&[2])));
    assert_eq!(plan.keep(&mut shelf, Name::Noon), Ok(()));
    assert_eq!(plan.come_back(&shelf, Name::Noon), Ok(vec![]));
    assert_eq!(plan.come_back(&shelf, Name::Close), Err(refused(17, 0)));
    let other = opened(5, &[]);
    assert_eq!(other.keep(&mut shelf, Name::Close), Err(refused(2, 0)));
    assert_eq!(Shelf::open(1025).err(), Some(refused(1, 0)));
}

#[test]
fn refusals() {
    assert_eq!(Plan::open(1025).err(), Some(refused(1, 0)));
    let mut plan = opened(2, &[(0, 1)]);
    assert_eq!(plan.add(Bank(0), Bank(2)), Err(refused(4, 0)));
    assert_eq!(plan.add(Bank(1), Bank(1)), Err(refused(5, 0)));
    assert_eq!(plan.add(Bank(1), Bank(0)), Err(refused(6, 0)));
    assert_eq!(plan.wave_of(Bank(2)), Err(refused(4, 0)));
    assert_eq!(plan.clashes_of(Bank(2)), Err(refused(4, 0)));
    assert!(plan.strike(Bank(1), Bank(0)).is_ok());
    assert_eq!(plan.strike(Bank(1), Bank(0)), Err(refused(7, 0)));
    let list = b"N 0002\n+ 00 01\n+ 00005 1";
    assert_eq!(Plan::read_list(list).err(), Some(refused(11, 3)));
}
