//! Cases that are read and saved: the example files of cases/, and cases at their limits and past them.
use common::{c1_case, cases, file, in_four_bytes, rewritten};
use ginghamowl::{refusal, value, Amounts, Case, DaysForm, People, Refusal, Shocks, DAY_RATES, FILE_BYTES};

mod common;

/// The case `up` of tests/inputs/examples.py, whose numbers are all unlike; but for its days.
fn up_case(days: Vec<[i32; DAY_RATES]>) -> Case {
    Case {
        days_form: DaysForm::TwoBytes,
        ufr: 4_321,
        days,
        pension: vec![31_415_927, 27_182_818, 16_180_339],
        bonds: vec![9_876_543, 0, 45_678_912, 0, 34_567_891],
        amounts: Amounts {
            mature: 1_234_567,
            emerging: 765_433,
            private_equity: 543_211,
            property: 987_659,
            commodities: 321_987,
            credit: 654_321,
            cash: 111_213,
            currency: 61_718_191,
        },
        shocks: Shocks {
            up_shift: 320,
            down_shift: 180,
            mature_fall: 251,
            emerging_fall: 353,
            private_fall: 307,
            property_fall: 149,
            currency_fall: 457,
            commodities_fall: 349,
            spread_rise: 509,
            correlation: 401,
            spread: 2_345,
            duration: 73,
            equity_correlation: 1_000,
        },
        people: People { heads: 1_237, pension_age: 804, mean_age: 541 },
    }
}

#[test]
fn cases_by_their_fields() {
    assert_eq!(Case::read(&file("c1")), Ok(c1_case()));
    assert_eq!(c1_case().save(), Ok(file("c1")));
    let up = Case::read(&file("up")).unwrap();
    assert_eq!(up, up_case(up.days.clone()));
    assert_eq!((up.days.len(), up.days[0][0], up.days[1][59], up.days[2][59]), (3, 206, 751, 542));
    assert_eq!(up.save(), Ok(file("up")));
    assert_eq!(Case::read(&file("c4")).unwrap().days, [[-1_000; DAY_RATES]]);
}

/// Each example is read and saved; what was saved holds the same case, is worth the same and is no longer.
#[test]
fn stored_cases_saved() {
    for (name, file, _) in cases() {
        let read = Case::read(&file);
        assert_eq!(read.as_ref().err(), refusal(&file).as_ref(), "{name}");
        if let Ok(case) = read {
            let saved = case.save().unwrap();
            assert!(saved.len() <= file.len(), "{name}");
            assert_eq!(Case::read(&saved), Ok(case), "{name}");
            assert_eq!(value(&saved), value(&file), "{name}");
        }
    }
    let mut largest = Case::read(&file("largest")).unwrap();
    largest.shocks.equity_correlation = 999;
    assert_eq!(largest.save().unwrap().len(), 9_225);
    assert_eq!(Case::read(&file("longest")).unwrap().save().unwrap().len(), FILE_BYTES);
}

#[test]
fn fields_left_out() {
    for (form, least, bits) in [(DaysForm::TwoBytes, 160, 0x66), (DaysForm::FourBytes, 280, 0xe4)] {
        let mut case = Case { days_form: form, ..c1_case() };
        case.amounts.cash = 0;
        let shortest = case.save().unwrap();
        assert_eq!((shortest.len(), shortest[0], shortest[1]), (least, 0, bits));
        case.ufr = 4_201;
        case.bonds = vec![0];
        case.amounts.currency = 1;
        case.shocks.equity_correlation = 999;
        let whole = case.save().unwrap();
        assert_eq!((whole.len(), whole[0], whole[1]), (least + 2 + 5 + 64 + 2, 1, bits | 0x19));
        assert_eq!(Case::read(&whole), Ok(case));

        // the same case with a UFR of 4,200, amounts of 0 and an equity correlation of 1,000 written out
        let mut longer = [&shortest[..], &[0x03, 0xe8]].concat();
        let amounts_at = if form == DaysForm::TwoBytes { 128 } else { 7 };
        longer[0] = 1;
        longer[1] = bits | 0x11;
        longer.splice(amounts_at..amounts_at, [0; 64]);
        longer.splice(2..2, [0x10, 0x68]);
        assert_eq!(Case::read(&longer).unwrap().save(), Ok(shortest));
    }
}

/// A refusal, and what brings a case to it.
type Fault = (u8, fn(&mut Case));

/// Of two faults, which are in the order of the checks, the first is given.
fn refused_in_order(case: &Case, faults: &[Fault]) {
    for (first, (number, spoil)) in faults.iter().enumerate() {
        for (_, spoil_again) in &faults[first..] {
            let mut case = case.clone();
            spoil_again(&mut case);
            spoil(&mut case);
            assert_eq!(case.save().unwrap_err().number(), *number);
            assert_eq!(case.save_into(&mut []).unwrap_err().number(), *number);
        }
    }
}

/// A fault of each kind. Days in four bytes are checked after the people, and the equity correlation after them.
#[test]
fn refused_cases() {
    let ufr: [Fault; 1] = [(9, |case| case.ufr = 5_001)];
    let days: [Fault; 3] = [
        (4, |case| case.days.resize(71, [0; DAY_RATES])),
        (4, |case| case.days.clear()),
        (5, |case| case.days.iter_mut().for_each(|day| day[59] = 1 << 24)),
    ];
    let others: [Fault; 8] = [
        (7, |case| case.pension.clear()),
        (8, |case| case.pension.push(1 << 32)),
        (7, |case| case.bonds = vec![0; 61]),
        (8, |case| case.bonds.push(u64::MAX)),
        (10, |case| case.amounts.private_equity = 100_000_000_001),
        (11, |case| case.shocks.duration = 501),
        (12, |case| case.people.mean_age = 1_201),
        (12, |case| case.people.heads = 0),
    ];
    let equity: [Fault; 1] = [(11, |case| case.shocks.equity_correlation = 1_001)];
    let steep: [Fault; 1] = [(6, |case| case.days.iter_mut().for_each(|day| day[58] = 10_000))];
    let steep_in_four: [Fault; 1] = [(6, |case| case.days.iter_mut().for_each(|day| day[58] = 1_000_000))];
    refused_in_order(&c1_case(), &[&ufr[..], &days, &others, &equity, &steep].concat());
    refused_in_order(&in_four_bytes(&c1_case()), &[&ufr[..], &others, &days, &equity, &steep_in_four].concat());
}

/// Rates and forward rates at the limits of their form, and one step past them.
#[test]
fn limits_of_rates() {
    for (form, unit) in [(DaysForm::TwoBytes, 1), (DaysForm::FourBytes, 100)] {
        let with = |rates: &[i32]| {
            let day = std::array::from_fn(|t| rates[t.min(rates.len() - 1)]);
            Case { days_form: form, days: vec![day], ..c1_case() }
        };
        let (least, most) = (-1_000 * unit, 10_000 * unit);
        for right in [&[least][..], &[most], &[0, 6_000 * unit], &[0, least]] {
            let case = with(right);
            assert_eq!(Case::read(&case.save().unwrap()), Ok(case));
        }
        for wrong in [least - 1, most + 1, 1 << 24, (1 << 24) + least, i32::MIN, i32::MAX] {
            assert_eq!(with(&[wrong, 0]).save(), Err(Refusal::Rate));
        }
        for wrong in [[0, 6_000 * unit + 1], [-1, 6_000 * unit], [1, least]] {
            assert_eq!(with(&wrong).save(), Err(Refusal::Growth));
        }
    }
}

#[test]
fn saving_into_buffers() {
    for (case, file) in [(c1_case(), file("c1")), (in_four_bytes(&c1_case()), rewritten(&file("c1")))] {
        let length = file.len();
        for room in [0, 1, length - 1, length, length + 1, 1000] {
            let mut out = vec![7; room];
            let answer = case.save_into(&mut out);
            if room < length {
                assert_eq!(answer, Err(Refusal::SavedBuffer));
                assert!(out.iter().all(|&byte| byte == 7));
            } else {
                assert_eq!((answer, &out[..length]), (Ok(length), &file[..]));
                assert!(out[length..].iter().all(|&byte| byte == 7));
            }
        }
    }
}
