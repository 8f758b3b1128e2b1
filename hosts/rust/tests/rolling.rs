//! Rolling windows beside lists of days, and their valuations beside those of files with the same days.
use common::{example_paths, file, in_four_bytes, into_buffers};
use ginghamowl::{value, Case, DaysForm, Refusal, RollingWindow, DAY_RATES, ENTRIES, WINDOW_BYTES, WINDOW_DAYS};
use std::collections::VecDeque;
use std::fs;

mod common;

type Day = [i32; DAY_RATES];

/// Where the parts of a window stand in its bytes.
const START: usize = 8;
const RATES: usize = 16;
const SUMS: usize = RATES + 2 * DAY_RATES * WINDOW_DAYS;

fn case(name: &str) -> Case {
    Case::read(&file(name)).unwrap()
}

/// From -900 upwards, a little uneven; any list of such days passes refusal 6.
fn day(number: usize) -> Day {
    std::array::from_fn(|t| 20 * (number % 500) as i32 + (number * 60 + t).pow(2) as i32 % 11 - 900)
}

/// A day whose forward rates are out of limits where `others` is above 6,000.
fn flat(first: i32, others: i32) -> Day {
    std::array::from_fn(|t| if t == 0 { first } else { others })
}

/// A window of these days, the oldest of which stands in this slot.
fn window_from(start: usize, days: &[Day]) -> RollingWindow {
    let mut window = RollingWindow::new();
    for _ in 0..start {
        window.add(&flat(-1_000, 10_000)).unwrap();
        window.drop().unwrap();
    }
    for day in days {
        window.add(day).unwrap();
    }
    window
}

/// The window with other bytes from this place on.
fn with_bytes(window: &RollingWindow, at: usize, bytes: &[u8]) -> RollingWindow {
    let mut all = window.to_bytes();
    all[at..at + bytes.len()].copy_from_slice(bytes);
    RollingWindow::from_bytes(&all)
}

fn assert_holds(window: &RollingWindow, days: &VecDeque<Day>) {
    assert_eq!(*days, window.days().unwrap());
    assert_eq!((window.len(), window.is_empty()), (days.len(), days.is_empty()));
}

/// Every call refuses the window, whatever else is wrong, and leaves it as it was.
fn assert_damaged(window: &RollingWindow) {
    let mut called = window.clone();
    let mut wrong = case("c1");
    wrong.ufr = 5_001;
    assert_eq!(called.add(&day(0)), Err(Refusal::Damaged));
    assert_eq!(called.add(&[i32::MAX; DAY_RATES]), Err(Refusal::Damaged));
    assert_eq!(called.drop(), Err(Refusal::Damaged));
    assert_eq!(called.days(), Err(Refusal::Damaged));
    assert_eq!(called.value(&wrong), Err(Refusal::Damaged));
    assert_eq!(called.value_into(&wrong, &mut [], &mut []), Err(Refusal::Damaged));
    assert_eq!(called, *window);
}

#[test]
fn empty() {
    let window = RollingWindow::new();
    assert_eq!(window, RollingWindow::default());
    assert_eq!(window.to_bytes(), [0; WINDOW_BYTES]);
    assert_holds(&window, &VecDeque::new());
}

/// Fills the window, goes round it twice and empties it, beside a list of days.
#[test]
fn beside_a_list_of_days() {
    let (mut window, mut days) = (RollingWindow::new(), VecDeque::new());
    for number in 0..WINDOW_DAYS {
        assert_eq!(window.add(&day(number)), Ok(()));
        days.push_back(day(number));
        assert_holds(&window, &days);
    }
    for number in WINDOW_DAYS..3 * WINDOW_DAYS {
        assert_eq!(window.add(&day(number)), Err(Refusal::RollingFull));
        assert_eq!(window.drop(), Ok(()));
        days.pop_front();
        assert_holds(&window, &days);
        assert_eq!(window.add(&day(number)), Ok(()));
        days.push_back(day(number));
        assert_holds(&window, &days);
    }
    while days.pop_front().is_some() {
        assert_eq!(window.drop(), Ok(()));
        assert_holds(&window, &days);
    }
    assert_eq!(window.drop(), Err(Refusal::RollingEmpty));
}

#[test]
fn layout() {
    let window = window_from(69, &[flat(-1_000, 10_000), flat(-2, 300)]);
    let mut bytes = [0; WINDOW_BYTES];
    for slot in 0..WINDOW_DAYS {
        for t in 0..DAY_RATES {
            let rate: i16 = match (slot, t) {
                (0, 0) => -2,
                (0, _) => 300,
                (_, 0) => -1_000,
                _ => 10_000,
            };
            let at = RATES + 2 * (DAY_RATES * slot + t);
            bytes[at..at + 2].copy_from_slice(&rate.to_ne_bytes());
        }
    }
    for t in 0..DAY_RATES {
        let sum: i64 = if t == 0 { -1_002 } else { 10_300 };
        bytes[SUMS + 8 * t..SUMS + 8 * t + 8].copy_from_slice(&sum.to_ne_bytes());
    }
    bytes[..8].copy_from_slice(&2u64.to_ne_bytes());
    bytes[START..START + 8].copy_from_slice(&69u64.to_ne_bytes());
    assert_eq!(window.to_bytes(), bytes);
    assert_eq!(RollingWindow::from_bytes(&bytes), window);
}

#[test]
fn refused_changes() {
    let mut window = window_from(68, &[day(1), day(2), day(3)]);
    let before = window.clone();
    for wrong in [-1_001, 10_001, 65_536, -65_536, 64_536, i32::MIN, i32::MAX] {
        for term in 0..DAY_RATES {
            let mut day = day(4);
            day[term] = wrong;
            assert_eq!(window.add(&day), Err(Refusal::Rate));
        }
    }
    assert_eq!(window, before);

    let days: Vec<Day> = (0..WINDOW_DAYS).map(day).collect();
    let mut full = window_from(30, &days);
    assert_eq!(full.add(&[10_001; DAY_RATES]), Err(Refusal::RollingFull));
    assert_eq!(full, window_from(30, &days));
    let mut empty = window_from(30, &[]);
    assert_eq!(empty.drop(), Err(Refusal::RollingEmpty));
    assert_eq!(empty, window_from(30, &[]));
}

#[test]
fn damaged() {
    let days: Vec<Day> = (0..WINDOW_DAYS).map(day).collect();
    for (start, count) in [(0, 0), (69, 1), (50, 40), (7, WINDOW_DAYS)] {
        let right = window_from(start, &days[..count]);
        assert_eq!(RollingWindow::from_bytes(&right.to_bytes()), right);
        for wrong in [71, u64::MAX, 1 << 32 | count as u64, u64::MAX - start as u64] {
            assert_damaged(&with_bytes(&right, 0, &wrong.to_ne_bytes()));
        }
        for wrong in [70, u64::MAX, 1 << 32 | start as u64, start as u64 + 70] {
            assert_damaged(&with_bytes(&right, START, &wrong.to_ne_bytes()));
        }
        for byte in 0..8 {
            for term in [0, 31, 59] {
                let at = SUMS + 8 * term + byte;
                assert_damaged(&with_bytes(&right, at, &[right.to_bytes()[at] ^ 0x80]));
            }
        }
        for (held, day) in days[..count].iter().enumerate() {
            let at = RATES + 2 * DAY_RATES * ((start + held) % WINDOW_DAYS);
            assert_damaged(&with_bytes(&right, at, &10_001i16.to_ne_bytes()));
            assert_damaged(&with_bytes(&right, at, &(day[0] as i16 + 1).to_ne_bytes()));
        }
    }
    let one = window_from(3, &[flat(0, 0)]); // a rate out of limits, with the sum that belongs to it
    let out_of_limits = with_bytes(&one, RATES + 2 * DAY_RATES * 3, &(-1_001i16).to_ne_bytes());
    assert_damaged(&with_bytes(&out_of_limits, SUMS, &(-1_001i64).to_ne_bytes()));
}

/// Windows that hold the same days are worth the same, wherever the oldest stands and whatever lies in free slots.
#[test]
fn free_slots() {
    let days = [day(5), day(6), day(7)];
    let plain = window_from(0, &days);
    for start in [0, 1, 42, 68] {
        let mut window = window_from(start, &days);
        for slot in (3..WINDOW_DAYS).map(|free| (start + free) % WINDOW_DAYS) {
            window = with_bytes(&window, RATES + 2 * DAY_RATES * slot, &[0x80; 2 * DAY_RATES]);
        }
        assert_ne!(window, plain);
        assert_eq!(window.days(), plain.days());
        assert_eq!(window.value(&case("up")), plain.value(&case("up")));
    }
}

/// Each example with days in two bytes is worth what its file is, and the case of each example with other days what the
/// file with these is, whichever form its own days have.
#[test]
fn valued_as_files_are() {
    let all: Vec<Case> =
        example_paths().into_iter().filter_map(|path| Case::read(&fs::read(path).unwrap()).ok()).collect();
    let (two, four): (Vec<Case>, Vec<Case>) = all.into_iter().partition(|case| case.days_form == DaysForm::TwoBytes);
    assert!(two.len() >= 10 && four.len() >= 2);
    for case in &two {
        let (window, expected) = (window_from(66, &case.days), value(&case.save().unwrap()));
        assert_eq!(window.value(case), expected);
        assert_eq!(window.value(&in_four_bytes(case)), expected);
    }
    for case in two.iter().chain(&four) {
        for days in [&two[0].days[..], &[day(8), day(9)]] {
            let with_days = Case { days_form: DaysForm::TwoBytes, days: days.to_vec(), ..case.clone() };
            assert_eq!(window_from(69, days).value(case), value(&with_days.save().unwrap()));
        }
    }
}

/// A case's own days are judged by its own form: what is out of limits in two bytes may be within them in four.
#[test]
fn own_days_in_four_bytes() {
    let window = window_from(69, &[day(8)]);
    let with = |days_form, own| Case { days_form, days: vec![own], ..case("c1") };
    let expected = window.value(&case("c1"));
    assert!(expected.is_ok());
    for (own, refusal) in [(flat(10_001, 10_001), Refusal::Rate), (flat(0, 6_001), Refusal::Growth)] {
        assert_eq!(window.value(&with(DaysForm::TwoBytes, own)), Err(refusal));
        assert_eq!(window.value(&with(DaysForm::FourBytes, own)), expected);
    }
    for own in [flat(1_000_001, 0), flat(-100_001, 0)] {
        assert_eq!(window.value(&with(DaysForm::FourBytes, own)), Err(Refusal::Rate));
    }
    assert_eq!(window.value(&with(DaysForm::FourBytes, flat(-1, 600_000))), Err(Refusal::Growth));
}

#[test]
fn lengths_of_buffers() {
    let (case, window) = (case("up"), window_from(12, &[day(1), day(2)]));
    into_buffers(&window.value(&case).unwrap(), |factors, rates| window.value_into(&case, factors, rates));
}

/// A refusal, and what brings a case to it.
type Fault = (Refusal, fn(&mut Case));

/// Of the case's faults, in their order, the first is given, and ahead of what is wrong with the window's days; a short
/// buffer comes before all of them. Days in four bytes are checked behind the people, and the equity correlation behind
/// them. A refusal changes no buffer.
#[test]
fn refused_valuations() {
    let ufr: [Fault; 1] = [(Refusal::Ufr, |case| case.ufr = 5_001)];
    let days: [Fault; 2] = [
        (Refusal::DayCount, |case| case.days.clear()),
        (Refusal::Rate, |case| case.days.iter_mut().for_each(|day| day[59] = 1 << 24)),
    ];
    let others: [Fault; 7] = [
        (Refusal::FlowCount, |case| case.pension.clear()),
        (Refusal::Flow, |case| case.pension.push(1 << 32)),
        (Refusal::FlowCount, |case| case.bonds = vec![0; 61]),
        (Refusal::Flow, |case| case.bonds.push(u64::MAX)),
        (Refusal::Amount, |case| case.amounts.private_equity = 100_000_000_001),
        (Refusal::Shock, |case| case.shocks.duration = 501),
        (Refusal::People, |case| case.people.mean_age = 1_201),
    ];
    let equity: [Fault; 1] = [(Refusal::Shock, |case| case.shocks.equity_correlation = 1_001)];
    let steep_day: [Fault; 1] = [(Refusal::Growth, |case| case.days.iter_mut().for_each(|day| day[58] = 10_000))];
    let steep_in_four: [Fault; 1] =
        [(Refusal::Growth, |case| case.days.iter_mut().for_each(|day| day[58] = 1_000_000))];
    let forms = [
        (case("c1"), [&ufr[..], &days, &others, &equity, &steep_day].concat()),
        (in_four_bytes(&case("c1")), [&ufr[..], &others, &days, &equity, &steep_in_four].concat()),
    ];
    let refused = |window: &RollingWindow, case: &Case, refusal: Refusal| {
        let (mut factors, mut rates) = ([7; ENTRIES], [-7; ENTRIES]);
        assert_eq!(window.value(case), Err(refusal));
        assert_eq!(window.value_into(case, &mut factors, &mut rates), Err(refusal));
        assert_eq!(window.value_into(case, &mut factors[1..], &mut rates), Err(Refusal::Buffer));
        assert_eq!((factors, rates), ([7; ENTRIES], [-7; ENTRIES]));
    };
    let (right, empty, steep) =
        (window_from(0, &[day(1)]), window_from(5, &[]), window_from(69, &[flat(0, 6_000), flat(0, 6_001)]));
    for (c1, faults) in forms {
        for (first, (refusal, spoil)) in faults.iter().enumerate() {
            for (_, spoil_again) in &faults[first..] {
                let mut case = c1.clone();
                spoil_again(&mut case);
                spoil(&mut case);
                for window in [&right, &empty, &steep] {
                    refused(window, &case, *refusal);
                }
            }
        }
        refused(&empty, &c1, Refusal::DayCount);
        refused(&steep, &c1, Refusal::Growth);
        assert!(right.value(&c1).is_ok());
    }
}
