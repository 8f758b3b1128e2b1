//! The correlation between the equity classes: its default, its limits, and what S2 and S are with it.
use common::{c1_case, in_four_bytes};
use ginghamowl::{refusal, value, Amounts, Bracket, Case, DaysForm, Refusal, Shocks, DEFAULT_EQUITY_CORRELATION};

mod common;

/// S2 and S in cents with four losses of 100, 200, 300 and 400 euros and with S6 of 100,000 euros, worked by hand: in units
/// of 100 euros the squares sum to 30 and the products of pairs to 35, so at 500 S2 is the root of 30 + 2 x 0.5 x 35.
const WORKED: [(u64, [u64; 2], [u64; 2]); 5] = [
    (0, [54_772, 54_773], [10_000_149, 10_000_151]),
    (1, [54_836, 54_837], [10_000_150, 10_000_151]),
    (500, [80_622, 80_623], [10_000_324, 10_000_325]),
    (999, [99_964, 99_965], [10_000_499, 10_000_500]),
    (1_000, [100_000, 100_000], [10_000_499, 10_000_500]),
];

/// C1 with these losses, with its days in either form.
fn forms(equity_correlation: u64) -> [Case; 2] {
    let amounts = Amounts { mature: 1_000, emerging: 2_000, private_equity: 500, property: 800, ..c1_case().amounts };
    let falls =
        Shocks { mature_fall: 100, emerging_fall: 100, private_fall: 600, property_fall: 500, ..Shocks::default() };
    let two = Case { amounts, shocks: Shocks { equity_correlation, ..falls }, ..c1_case() };
    let four = in_four_bytes(&two);
    [two, four]
}

/// The file with this number written out as its last field, whatever the number is.
fn written_out(case: &Case, number: u16) -> Vec<u8> {
    let shocks = Shocks { equity_correlation: DEFAULT_EQUITY_CORRELATION, ..case.shocks };
    let mut file = Case { shocks, ..case.clone() }.save().unwrap();
    file[0] |= 1;
    file.extend(number.to_be_bytes());
    file
}

#[test]
fn defaults() {
    assert_eq!((Shocks::default().equity_correlation, DEFAULT_EQUITY_CORRELATION), (1_000, 1_000));
    let falls = Shocks { up_shift: 7, ..Default::default() };
    assert_eq!((falls.up_shift, falls.duration, falls.equity_correlation), (7, 0, 1_000));
}

/// The field is the last two bytes, where its bit stands; a 1,000 is left out, and a file may have it.
#[test]
fn there_and_back() {
    for (number, ..) in WORKED {
        for case in forms(number) {
            let (saved, whole) = (case.save().unwrap(), written_out(&case, number as u16));
            assert_eq!(Case::read(&saved), Ok(case.clone()), "{number}");
            assert_eq!(Case::read(&whole), Ok(case.clone()), "{number}");
            assert_eq!(value(&saved), value(&whole), "{number}");
            if number == 1_000 {
                assert_eq!((saved[0], saved.len()), (0, whole.len() - 2));
                assert_eq!(saved.len(), if case.days_form == DaysForm::TwoBytes { 224 } else { 344 });
            } else {
                assert_eq!(saved, whole, "{number}");
            }
        }
    }
}

#[test]
fn valued_by_hand() {
    let bracket = |[lower, upper]: [u64; 2]| Bracket { lower, upper };
    let mut expected = value(&forms(1_000)[0].save().unwrap()).unwrap();
    for (number, s2, s) in WORKED {
        expected.figures.s2 = bracket(s2);
        expected.figures.s = bracket(s);
        for case in forms(number) {
            assert_eq!(value(&case.save().unwrap()).as_ref(), Ok(&expected), "{number}");
        }
    }
}

/// A refused case writes nothing, and a refused file is refused with the same number.
#[test]
fn past_the_limit() {
    for number in [1_001, 65_535, 65_536, 65_536 + 500, (1 << 32) + 1_000, u64::MAX] {
        for case in forms(number) {
            let mut out = [7; 1_000];
            assert_eq!(case.save(), Err(Refusal::Shock), "{number}");
            assert_eq!(case.save_into(&mut out), Err(Refusal::Shock), "{number}");
            assert_eq!(out, [7; 1_000], "{number}");
        }
    }
    for case in forms(500) {
        for number in [1_001, 1_024, 32_768, 65_535] {
            let mut file = written_out(&case, number);
            assert_eq!(refusal(&file), Some(Refusal::Shock), "{number}");
            assert_eq!(Case::read(&file), Err(Refusal::Shock), "{number}");
            assert_eq!(refusal(&file[..file.len() - 1]), Some(Refusal::EndsEarly), "{number}");
            assert_eq!(refusal(&file[..file.len() - 2]), Some(Refusal::EndsEarly), "{number}");
            file.push(0);
            assert_eq!(refusal(&file), Some(Refusal::Shock), "{number}");
        }
        let mut longer = written_out(&case, 500);
        longer.push(0);
        assert_eq!(refusal(&longer), Some(Refusal::BytesFollow));
        for bit in 1..8 {
            let mut file = written_out(&case, 500);
            file[0] ^= 1 << bit;
            assert_eq!(refusal(&file), Some(Refusal::Map), "{bit}");
        }
    }
}
