//! What a plan is as a Rust value: cloned, compared, printed, sent to other threads and read from several.

use std::thread;
use wave_plan::{Bank, Edit, Name, Plan, Refused, Shelf, Wave, WrongSheet};

fn ring() -> Plan {
    Plan::read_list("N 5\n+ 0 1\n+ 1 2\n+ 2 3\n+ 3 4\n+ 4 0\n").expect("a list")
}

#[test]
fn values_can_be_sent_and_shared() {
    fn sent_and_shared<T: Send + Sync + 'static>() {}
    sent_and_shared::<(Plan, Shelf, Edit, Refused, WrongSheet)>();
}

#[test]
fn a_plan_is_read_from_several_threads() {
    let plan = ring();
    let sheet = plan.sheet().expect("a sheet");
    thread::scope(|scope| {
        for b in 0..4 {
            let (plan, sheet) = (&plan, &sheet);
            scope.spawn(move || {
                let wave = plan.wave_of(Bank(b)).expect("a bank");
                assert_eq!(plan.wave_by_rule(Bank(b)), Ok(wave));
                assert_eq!(plan.sheet().as_ref(), Ok(sheet));
            });
        }
    });
}

#[test]
fn a_plan_is_sent_to_a_thread_and_back() {
    let mut plan = ring();
    let edited = thread::spawn(move || plan.strike(Bank(4), Bank(0)).map(|edit| (plan, edit)));
    let (plan, edit) = edited.join().expect("ended").expect("struck");
    assert_eq!((plan.clashes(), edit.trail.len()), (4, 5));
}

/// However a plan was made, it is the same with the same banks, clashes, ranks and cap.
#[test]
fn equal_plans() {
    let plan = ring();
    let journal = plan.start_journal().expect("started");
    assert_eq!(Plan::replay(&journal), Ok((plan.clone(), 0)));
    let mut added = Plan::open(5).expect("opened");
    for b in 0..5 {
        assert_ne!(added, plan);
        added.add(Bank((b + 1) % 5), Bank(b)).expect("added");
    }
    assert_eq!(added, plan);
    let mut shelf = Shelf::open(5).expect("opened");
    plan.keep(&mut shelf, Name::Close).expect("kept");
    let mut back = Plan::open(5).expect("opened");
    let moved = back.come_back(&shelf, Name::Close).expect("back");
    assert_eq!((&back, moved), (&plan, vec![Bank(1), Bank(3), Bank(4)]));
    back.set_cap(3).expect("set");
    assert_ne!(back, plan);
}

/// The clone stays as it is.
#[test]
fn a_clone_has_its_own_memory() {
    let mut plan = ring();
    let clone = plan.clone();
    plan.add(Bank(0), Bank(2)).expect("added");
    assert_ne!(clone, plan);
    assert_eq!(clone, ring());
}

#[test]
fn what_a_plan_tells_without_questions() {
    let plan = ring();
    assert_eq!(
        (plan.banks(), plan.clashes(), plan.wave_count(), plan.cap()),
        (5, 5, 3, 24)
    );
    assert_eq!(plan.waves(), [0, 1, 0, 1, 2].map(Wave));
    for b in (0..5).map(Bank) {
        assert_eq!(Ok(plan.neighbours_of(b)), plan.clashes_of(b));
    }
    let printed = "Plan { banks: 5, clashes: 5, waves: 3, cap: 24, .. }";
    assert_eq!(format!("{plan:?}"), printed);
    let shelf = Shelf::open(5).expect("opened");
    assert_eq!(format!("{shelf:?}"), "Shelf { banks: 5, .. }");
}

/// The names as text are those that the library takes, without their spaces.
#[test]
fn names() {
    for name in Name::ALL {
        assert_eq!(format!("{name:8}").as_bytes(), name.bytes());
        assert_eq!(name.to_string().parse(), Ok(name));
    }
}

#[test]
fn letters() {
    let letters: String = (0..24).map(|wave| Wave(wave).letter()).collect();
    assert_eq!(letters, "ABCDEFGHJKLMNPQRSTUVWXYZ");
}
