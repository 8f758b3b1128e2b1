//! A case by its fields: read from a case file, edited, and saved as the shortest file.
use crate::{raw, refusal, Refusal, DAY_RATES, FILE_BYTES};
use std::error::Error;
use std::fmt;

/// Of a file without the field.
const DEFAULT_UFR: u64 = 4200;

/// The correlation between the equity classes of a file without the field, in thousandths: the classes fall together.
pub const DEFAULT_EQUITY_CORRELATION: u64 = 1_000;

/// So many steps of a rate in four bytes are one of a rate in two.
const FINER: i32 = 100;

/// The two days fields of a case file, by the bytes of a rate. Rates of two bytes, and the same rates times 100 in four,
/// have the same valuation; but they are different cases, with different files. [`Case::in_form`] makes the one of the
/// other.
#[derive(Clone, Copy, Debug, Default, PartialEq, Eq)]
#[repr(u64)]
pub enum DaysForm {
    /// In steps of 0.00001, -1,000 to 10,000.
    #[default]
    TwoBytes = 2,
    /// In steps of 0.0000001, -100,000 to 1,000,000.
    FourBytes = 4,
}

/// What one case file holds. A case may have any numbers: `save` says which of them are out of limits.
#[derive(Clone, Debug, PartialEq, Eq)]
pub struct Case {
    /// How many bytes a rate of `days` has, and so its steps. A change of this field alone makes other rates of the same
    /// numbers; [`Case::in_form`] gives the same rates.
    pub days_form: DaysForm,
    /// In steps of 0.00001.
    pub ufr: u64,
    /// The zero rates of each day in the steps of `days_form`; term t stands at t - 1.
    pub days: Vec<[i32; DAY_RATES]>,
    /// Pension flows in euros, from term 1 on.
    pub pension: Vec<u64>,
    /// Bond flows in euros, from term 1 on; there may be none.
    pub bonds: Vec<u64>,
    pub amounts: Amounts,
    pub shocks: Shocks,
    pub people: People,
}

/// What the fund holds of each kind, and its currency exposure, in euros.
#[derive(Clone, Copy, Debug, Default, PartialEq, Eq)]
#[repr(C)]
pub struct Amounts {
    pub mature: u64,
    pub emerging: u64,
    pub private_equity: u64,
    pub property: u64,
    pub commodities: u64,
    pub credit: u64,
    pub cash: u64,
    pub currency: u64,
}

/// Shifts and credit spread in steps of 0.00001, credit duration in tenths of a year, all others in thousandths. The
/// default has no shock, and equity classes that fall together:
///
/// ```
/// let shocks = ginghamowl::Shocks { mature_fall: 250, ..Default::default() };
/// assert_eq!(shocks.equity_correlation, ginghamowl::DEFAULT_EQUITY_CORRELATION);
/// ```
#[derive(Clone, Copy, Debug, PartialEq, Eq)]
#[repr(C)]
pub struct Shocks {
    pub up_shift: u64,
    pub down_shift: u64,
    pub mature_fall: u64,
    pub emerging_fall: u64,
    pub private_fall: u64,
    pub property_fall: u64,
    pub currency_fall: u64,
    pub commodities_fall: u64,
    pub spread_rise: u64,
    /// Of S1 and S2.
    pub correlation: u64,
    pub spread: u64,
    pub duration: u64,
    /// Of the four equity classes with each other, whose losses make S2: mature, emerging and private equity, and
    /// property. 0 to 1,000. At 1,000 the classes fall together, and S2 is the sum of their losses, with no relief. At 0
    /// they are uncorrelated, which gives the smallest S2, and so the smallest buffer.
    pub equity_correlation: u64,
}

/// No shock. 0 would ask for the smallest buffer, so `equity_correlation` is [`DEFAULT_EQUITY_CORRELATION`].
impl Default for Shocks {
    fn default() -> Shocks {
        Shocks {
            up_shift: 0,
            down_shift: 0,
            mature_fall: 0,
            emerging_fall: 0,
            private_fall: 0,
            property_fall: 0,
            currency_fall: 0,
            commodities_fall: 0,
            spread_rise: 0,
            correlation: 0,
            spread: 0,
            duration: 0,
            equity_correlation: DEFAULT_EQUITY_CORRELATION,
        }
    }
}

/// The head count, and two ages in months.
#[derive(Clone, Copy, Debug, PartialEq, Eq)]
#[repr(C)]
pub struct People {
    pub heads: u64,
    pub pension_age: u64,
    pub mean_age: u64,
}

/// Why a case has no other form: a rate that this form does not hold. Two bytes hold whole steps of 0.00001 only; four
/// bytes hold every rate but those that are out of limits by far, which an `i32` has no room for in the finer steps.
#[derive(Clone, Copy, Debug, PartialEq, Eq)]
pub struct FormError {
    /// The form that was asked for.
    pub form: DaysForm,
    /// The day of the first such rate, counted from 1.
    pub day: usize,
    /// The term of that rate, 1 to 60.
    pub term: usize,
    /// That rate in the steps of the case.
    pub rate: i32,
    /// How many such rates the case has.
    pub count: usize,
}

/// The rate that is not held and why, and how many there are.
impl fmt::Display for FormError {
    fn fmt(&self, f: &mut fmt::Formatter<'_>) -> fmt::Result {
        let FormError { day, term, rate, count, .. } = self;
        let (held, steps) = match self.form {
            DaysForm::TwoBytes => ("two bytes hold whole steps of 0.00001 only", "0.0000001"),
            DaysForm::FourBytes => ("four bytes hold less than 2^31 steps of 0.0000001 of either sign", "0.00001"),
        };
        write!(f, "{held}, and rates that they do not hold are {count}; ")?;
        write!(f, "the first is that of day {day}, term {term}: {rate} steps of {steps}")
    }
}

impl Error for FormError {}

impl DaysForm {
    /// A rate of the other form in the steps of this one; `None` where it does not hold it.
    fn of_other(self, rate: i32) -> Option<i32> {
        match self {
            DaysForm::TwoBytes => (rate % FINER == 0).then_some(rate / FINER),
            DaysForm::FourBytes => rate.checked_mul(FINER),
        }
    }
}

impl Case {
    /// The case that a file holds. The engine judges the file, and an accepted one is taken apart here.
    pub fn read(file: &[u8]) -> Result<Case, Refusal> {
        match refusal(file) {
            Some(refusal) => Err(refusal),
            None => Ok(Rest(file).case()),
        }
    }

    /// The case with the same rates in this form, which has the same valuation; an equal case where the form is its own.
    /// Each number is 100 times as large in four bytes as in two, and nothing is rounded: a rate that the form does not
    /// hold is an error. Rates may be out of limits, and stay so: `save` judges them.
    pub fn in_form(&self, form: DaysForm) -> Result<Case, FormError> {
        let mut case = self.clone();
        if form == self.days_form {
            return Ok(case);
        }
        case.days_form = form;
        let mut not_held = None;
        for (day, rates) in (1..).zip(&mut case.days) {
            for (term, rate) in (1..).zip(rates) {
                match form.of_other(*rate) {
                    Some(held) => *rate = held,
                    None => not_held.get_or_insert(FormError { form, day, term, rate: *rate, count: 0 }).count += 1,
                }
            }
        }
        not_held.map_or(Ok(case), Err)
    }

    /// The shortest file of this case: with the days field of `days_form`, and without a UFR of 4,200, amounts that are all
    /// 0, an empty list of bonds and an `equity_correlation` of 1,000. Never `Refusal::SavedBuffer`.
    pub fn save(&self) -> Result<Vec<u8>, Refusal> {
        let mut file = vec![0; FILE_BYTES];
        let written = self.save_into(&mut file)?;
        file.truncate(written);
        Ok(file)
    }

    /// Writes the shortest file of this case to the front of a buffer of the caller, and returns how many bytes it has.
    /// Later bytes keep their content, and a refusal writes none.
    pub fn save_into(&self, out: &mut [u8]) -> Result<usize, Refusal> {
        let rates = self.days.concat();
        // SAFETY: the pointers and lengths are those of slices that live through the call; the one that is written is
        // borrowed alone.
        let saved = unsafe {
            raw::checked(raw::ginghamowl_save)(
                self.fields(),
                rates.as_ptr(),
                rates.len(),
                self.pension.as_ptr(),
                self.pension.len(),
                self.bonds.as_ptr(),
                self.bonds.len(),
                out.as_mut_ptr(),
                out.len(),
            )
        };
        match Refusal::numbered(saved.refusal) {
            Some(refusal) => Err(refusal),
            None => Ok(saved.written),
        }
    }

    /// The fields that are no lists.
    pub(crate) fn fields(&self) -> raw::HostCaseFields {
        raw::HostCaseFields {
            rate_bytes: self.days_form as u64,
            ufr: self.ufr,
            amounts: self.amounts,
            shocks: self.shocks,
            people: self.people,
        }
    }
}

/// What is left to read of an accepted file, which has every byte that its map and its counts announce.
struct Rest<'a>(&'a [u8]);

impl Rest<'_> {
    fn number(&mut self, length: usize) -> u64 {
        let (taken, rest) = self.0.split_at(length);
        self.0 = rest;
        taken.iter().fold(0, |number, &byte| number << 8 | u64::from(byte))
    }

    fn rate(&mut self, form: DaysForm) -> i32 {
        match form {
            DaysForm::TwoBytes => i32::from(self.number(2) as i16),
            DaysForm::FourBytes => self.number(4) as i32,
        }
    }

    fn days(&mut self, form: DaysForm) -> Vec<[i32; DAY_RATES]> {
        (0..self.number(1)).map(|_| std::array::from_fn(|_| self.rate(form))).collect()
    }

    fn flows(&mut self) -> Vec<u64> {
        (0..self.number(1)).map(|_| self.number(4)).collect()
    }

    fn amounts(&mut self) -> Amounts {
        Amounts {
            mature: self.number(8),
            emerging: self.number(8),
            private_equity: self.number(8),
            property: self.number(8),
            commodities: self.number(8),
            credit: self.number(8),
            cash: self.number(8),
            currency: self.number(8),
        }
    }

    /// The twelve shocks that stand together; `equity_correlation` has a field of its own.
    fn shocks(&mut self) -> Shocks {
        Shocks {
            up_shift: self.number(2),
            down_shift: self.number(2),
            mature_fall: self.number(2),
            emerging_fall: self.number(2),
            private_fall: self.number(2),
            property_fall: self.number(2),
            currency_fall: self.number(2),
            commodities_fall: self.number(2),
            spread_rise: self.number(2),
            correlation: self.number(2),
            spread: self.number(2),
            duration: self.number(2),
            equity_correlation: DEFAULT_EQUITY_CORRELATION,
        }
    }

    fn people(&mut self) -> People {
        People { heads: self.number(4), pension_age: self.number(2), mean_age: self.number(2) }
    }

    fn case(mut self) -> Case {
        let map = self.number(2);
        let stands = |bit: u32| map >> bit & 1 == 1;
        let mut case = Case {
            days_form: if stands(7) { DaysForm::FourBytes } else { DaysForm::TwoBytes },
            ufr: if stands(0) { self.number(2) } else { DEFAULT_UFR },
            days: if stands(1) { self.days(DaysForm::TwoBytes) } else { Vec::new() },
            pension: self.flows(),
            bonds: if stands(3) { self.flows() } else { Vec::new() },
            amounts: if stands(4) { self.amounts() } else { Amounts::default() },
            shocks: self.shocks(),
            people: self.people(),
        };
        if stands(7) {
            case.days = self.days(DaysForm::FourBytes);
        }
        if stands(8) {
            case.shocks.equity_correlation = self.number(2);
        }
        case
    }
}
