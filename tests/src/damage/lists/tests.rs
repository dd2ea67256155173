use super::*;
use crate::boards::{random, KINDS};
use crate::refusals::BY_ENTRY;
use crate::{linear, paper};

/// The number and the place that someone tells of lists.
type Told = Option<(u16, usize)>;

/// Whether entry i of u's list has the fault of this number.
fn has(number: u16, rings: &Rings, u: usize, i: usize) -> bool {
    let v = rings[u][i];
    match number {
        9 => usize::from(v) >= rings.len(),
        18 => usize::from(v) == u,
        19 => rings[u][..i].contains(&v),
        20 => rings
            .get(usize::from(v))
            .is_some_and(|ring| !ring.contains(&(u as u16))),
        _ => panic!("{number} is no fault of an entry"),
    }
}

/// The first of these faults of an entry.
fn entry(numbers: &[u16], rings: &Rings, u: usize, i: usize) -> Told {
    let number = numbers.iter().find(|&&number| has(number, rings, u, i))?;
    Some((*number, u))
}

/// The first entry of u's list that has one of these faults.
fn list(numbers: &[u16], rings: &Rings, u: usize) -> Told {
    (0..rings[u].len()).find_map(|i| entry(numbers, rings, u, i))
}

/// As it is to be.
fn rightly(rings: &Rings) -> Told {
    (0..rings.len()).find_map(|u| list(&BY_ENTRY, rings, u))
}

/// The first that someone tells of an entry, in the order of lists and entries.
fn by_entries(rings: &Rings, tell: impl Fn(usize, usize) -> Told) -> Told {
    (0..rings.len()).find_map(|u| (0..rings[u].len()).find_map(|i| tell(u, i)))
}

/// Ways to misread the rule, each of which some damage must find out.
const WRONGLY: [(&str, fn(&Rings) -> Told); 9] = [
    ("one number for all", |rings| {
        rightly(rings).map(|(_, u)| (9, u))
    }),
    ("the last bad entry of the list", |rings| {
        let last = |u: usize| {
            (0..rings[u].len())
                .rev()
                .find_map(|i| entry(&BY_ENTRY, rings, u, i))
        };
        (0..rings.len()).find_map(last)
    }),
    ("each number for the whole list before the next", |rings| {
        let by_number = |u: usize| {
            BY_ENTRY
                .iter()
                .find_map(|&number| list(&[number], rings, u))
        };
        (0..rings.len()).find_map(by_number)
    }),
    ("each number for all lists before the next", |rings| {
        let lists = |number: u16| (0..rings.len()).find_map(|u| list(&[number], rings, u));
        BY_ENTRY.into_iter().find_map(lists)
    }),
    ("the highest name", |rings| {
        (0..rings.len())
            .rev()
            .find_map(|u| list(&BY_ENTRY, rings, u))
    }),
    ("the first of two equal entries is a repeat too", |rings| {
        by_entries(rings, |u, i| {
            let times = rings[u].iter().filter(|&&v| v == rings[u][i]).count();
            let repeat = (times > 1).then_some((19, u));
            entry(&[9, 18], rings, u, i)
                .or(repeat)
                .or(entry(&[20], rings, u, i))
        })
    }),
    ("nobody returns a name that no post has", |rings| {
        rightly(rings).map(|(number, u)| (if number == 9 { 20 } else { number }, u))
    }),
    ("only higher posts must return a wire", |rings| {
        by_entries(rings, |u, i| {
            let higher = usize::from(rings[u][i]) > u;
            entry(if higher { &BY_ENTRY } else { &BY_ENTRY[..3] }, rings, u, i)
        })
    }),
    ("the post that does not return the wire", |rings| {
        by_entries(rings, |u, i| {
            let (number, _) = entry(&BY_ENTRY, rings, u, i)?;
            let place = if number == 20 { rings[u][i].into() } else { u };
            Some((number, place))
        })
    }),
];

/// On every kind of board each plan gets what is foretold, from both
/// implementations and from the rule as it stands above.
#[test]
fn every_plan_gets_its_refusal() {
    let mut rng = Rng::new(9);
    for kind in KINDS {
        for n in [5, 6, 9, 14, 30] {
            let board = random(kind, n, &mut rng);
            for plan in Plan::all() {
                let Some((bad, told)) = plan.made(&board, &mut rng) else {
                    assert!(n < 14, "{kind:?} {n}: {plan:?} has no place");
                    continue;
                };
                assert_eq!(paper::check(&bad.block()), Err(told), "{plan:?}");
                assert_eq!(linear::check(&bad.block()), Err(told), "{plan:?}");
                let place = usize::from(told.place);
                assert_eq!(rightly(&bad.rings), Some((told.number, place)), "{plan:?}");
            }
        }
    }
}

/// On every kind of board each misreading is found out by some plan.
#[test]
fn every_misreading_is_found_out() {
    let mut rng = Rng::new(10);
    for kind in KINDS {
        let board = random(kind, 20, &mut rng);
        let all = Plan::all().into_iter();
        let made: Vec<_> = all.filter_map(|plan| plan.made(&board, &mut rng)).collect();
        for (how, wrongly) in WRONGLY {
            let found = made.iter().any(|(bad, told)| {
                let place = usize::from(told.place);
                wrongly(&bad.rings) != Some((told.number, place))
            });
            assert!(found, "{kind:?}: {how}");
        }
    }
}

/// A first bad entry has one fault alone (one of n or more is returned by nobody, but
/// has no list that could), so that of the orders in which its faults could be tried
/// only 9 before 20 shows on a block; the order of entries and of lists does.
#[test]
fn a_first_bad_entry_has_one_fault() {
    let mut rng = Rng::new(11);
    for round in 0..40 {
        let board = random(KINDS[round % KINDS.len()], 6 + round, &mut rng);
        let all = Plan::all().into_iter();
        for (bad, told) in all.filter_map(|plan| plan.made(&board, &mut rng)) {
            let (u, rings) = (usize::from(told.place), &bad.rings);
            let is_bad = |&i: &usize| entry(&BY_ENTRY, rings, u, i).is_some();
            let first = (0..rings[u].len()).find(is_bad).unwrap();
            let faults = BY_ENTRY
                .iter()
                .filter(|&&number| has(number, rings, u, first));
            assert_eq!(faults.collect::<Vec<_>>(), [&told.number]);
        }
    }
}

/// Every slip is told somewhere, also as a single one, and no plan stands twice.
#[test]
fn there_are_plans_of_all_sorts() {
    let plans = Plan::all();
    assert_eq!(plans.len(), 55);
    for (i, plan) in plans.iter().enumerate() {
        assert!(!plans[..i].contains(plan), "{plan:?}");
    }
    for one in SLIPS {
        assert!(plans.contains(&Plan::One(one)) && plans.contains(&Plan::Lost(one)));
        for other in SLIPS {
            let both = one.number() != other.number();
            assert_eq!(plans.contains(&Plan::Two(one, other)), both);
            assert_eq!(plans.contains(&Plan::TwoLists(one, other)), both);
        }
    }
}
