//! Days in two bytes and in four: the same cases in either form, and rates that a form does not hold.
use common::{c1_case, cases, file, in_four_bytes, rewritten};
use ginghamowl::{listing, rates_part, refusal, value, Case, DaysForm, FormError, Refusal, DAY_RATES};
use std::error::Error;

mod common;

/// A case that is read tells its form.
#[test]
fn forms_of_days() {
    assert_eq!((DaysForm::TwoBytes as u64, DaysForm::FourBytes as u64), (2, 4));
    for (name, _, _) in cases().iter().filter(|case| refusal(&case.1).is_none()) {
        let four = name == "seven" || name == "longest";
        let form = if four { DaysForm::FourBytes } else { DaysForm::TwoBytes };
        assert_eq!(Case::read(&file(name)).unwrap().days_form, form, "{name}");
    }
    let seven = Case::read(&file("seven")).unwrap();
    assert!(
        seven.days.iter().flatten().any(|rate| rate % 100 != 0)
            && seven.days.iter().flatten().any(|&rate| rate > 32_767)
    );
}

/// Each example with days in two bytes, rewritten to four: another case, other bytes, and the same valuation.
#[test]
fn rewritten_cases() {
    let mut count = 0;
    for (name, file, _) in cases() {
        let Ok(case) = Case::read(&file) else { continue };
        if case.days_form == DaysForm::TwoBytes {
            let (saved, four) = (case.save().unwrap(), in_four_bytes(&case));
            assert_ne!(four, case, "{name}");
            assert_eq!(four.save(), Ok(rewritten(&saved)), "{name}");
            assert_eq!(Case::read(&rewritten(&file)), Ok(four), "{name}");
            assert_eq!(value(&rewritten(&file)), value(&file), "{name}");
            assert_eq!(rates_part(&rewritten(&file)).len(), 2 * rates_part(&file).len(), "{name}");
            count += 1;
        }
    }
    assert!(count >= 10);
}

/// Each accepted example is worth the same in four bytes, and from there it is the same case again.
#[test]
fn stored_cases_in_form() {
    let mut counts = [0, 0];
    for (name, file, expected) in cases() {
        let Ok(case) = Case::read(&file) else { continue };
        let four = case.in_form(DaysForm::FourBytes).unwrap();
        let saved = four.save().unwrap();
        assert_eq!(value(&saved), value(&file), "{name}");
        let listed = listing(value(&saved).map(|valuation| valuation.judged()));
        assert!(expected.starts_with(&listed), "{name}");
        assert_eq!(case.in_form(case.days_form), Ok(case.clone()), "{name}");
        if case.days_form == DaysForm::TwoBytes {
            assert_eq!(four, in_four_bytes(&case), "{name}");
            assert_eq!(four.in_form(DaysForm::TwoBytes), Ok(case), "{name}");
            counts[0] += 1;
        } else {
            assert_eq!(four, case, "{name}");
            counts[1] += 1;
        }
    }
    assert!(counts[0] >= 10 && counts[1] >= 2);
}

/// The first rate that two bytes do not hold is named, also one near a whole step, below 0 and out of limits.
#[test]
fn rates_that_two_bytes_do_not_hold() {
    for rate in [22_613, 1, 99, -1, -99, -150, 1_000_001, i32::MAX, i32::MIN] {
        let mut days = vec![[0; DAY_RATES], [100; DAY_RATES], [rate; DAY_RATES]];
        days[1][40] = rate;
        let case = Case { days_form: DaysForm::FourBytes, days, ..c1_case() };
        let error = case.in_form(DaysForm::TwoBytes).unwrap_err();
        assert_eq!(error, FormError { form: DaysForm::TwoBytes, day: 2, term: 41, rate, count: 61 });
        let text = format!(
            "two bytes hold whole steps of 0.00001 only, and rates that they do not hold are 61; the first is that of day 2, \
             term 41: {rate} steps of 0.0000001"
        );
        assert_eq!((Box::new(error) as Box<dyn Error>).to_string(), text);
        assert_eq!(case.in_form(DaysForm::FourBytes), Ok(case));
    }
    for whole in [0, 100, -100, 1_000_000, -100_000, 2_147_483_600, -2_147_483_600] {
        let case = Case { days_form: DaysForm::FourBytes, days: vec![[whole; DAY_RATES]], ..c1_case() };
        let two = case.in_form(DaysForm::TwoBytes).unwrap();
        assert_eq!((two.days_form, &two.days[..]), (DaysForm::TwoBytes, &[[whole / 100; DAY_RATES]][..]));
        assert_eq!(two.in_form(DaysForm::FourBytes), Ok(case));
    }
}

/// Rates out of limits stay so in four bytes, and one that an i32 has no room for there is named.
#[test]
fn rates_that_four_bytes_do_not_hold() {
    for rate in [-1_001, 10_001, 21_474_836, -21_474_836] {
        let case = Case { days: vec![[rate; DAY_RATES]], ..c1_case() };
        let four = case.in_form(DaysForm::FourBytes).unwrap();
        assert_eq!((case.save(), four.save()), (Err(Refusal::Rate), Err(Refusal::Rate)));
        assert_eq!((four.days[0], four.in_form(DaysForm::TwoBytes)), ([100 * rate; DAY_RATES], Ok(case)));
    }
    for rate in [21_474_837, -21_474_837, 42_949_673, i32::MAX, i32::MIN] {
        let mut case = Case { days: vec![[1; DAY_RATES]; 3], ..c1_case() };
        (case.days[2][0], case.days[2][59]) = (rate, rate);
        let error = case.in_form(DaysForm::FourBytes).unwrap_err();
        assert_eq!(error, FormError { form: DaysForm::FourBytes, day: 3, term: 1, rate, count: 2 });
        let text = format!(
            "four bytes hold less than 2^31 steps of 0.0000001 of either sign, and rates that they do not hold are 2; the \
             first is that of day 3, term 1: {rate} steps of 0.00001"
        );
        assert_eq!(error.to_string(), text);
    }
    let none = Case { days: vec![], ..c1_case() };
    assert_eq!(none.in_form(DaysForm::FourBytes), Ok(Case { days_form: DaysForm::FourBytes, ..none }));
}
