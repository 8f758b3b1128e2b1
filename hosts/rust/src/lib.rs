//! The valuation of one pension fund from one case file, every figure proved.
//!
//! This crate wraps the functions of `include/ginghamowl.h`; it is safe to call with any bytes and numbers, and depends on
//! nothing but the standard library and the engine's archive. The archive must be of this crate's version: the first call
//! of the engine panics where it is of another.
//!
//! What the numbers mean is in `docs/METHOD.md` of the repository, cited as METHOD with the name of a section: a case file
//! (METHOD, The case file), a figure (METHOD, The exact working), a refusal (METHOD, Refusals), saving (METHOD, Saving a
//! case), a rolling window (METHOD, A rolling window of days), a history (METHOD, The UFR from a history of months) and
//! zero rates in four bytes (METHOD, Rates in four bytes).
//!
//! ```
//! match ginghamowl::value(b"") {
//!     Ok(valuation) => println!("{} at {:?} cents", valuation.verdict, valuation.figures.l),
//!     Err(refusal) => println!("{refusal}"),
//! }
//! ```

use std::error::Error;
use std::fmt;

mod case;
mod months;
mod raw;
mod rolling;
mod words;

pub use case::{Amounts, Case, DaysForm, FormError, People, Shocks, DEFAULT_EQUITY_CORRELATION};
pub use months::History;
pub use rolling::RollingWindow;
pub use words::{refusal_sentence, verdict_sentence, verdict_word};

/// The version of this crate, which is that of the repository.
pub const VERSION: &str = env!("CARGO_PKG_VERSION");

/// The longest accepted file has this many bytes. Of a longer one, the first `FILE_BYTES + 1` decide the refusal.
pub const FILE_BYTES: usize = 17625;

/// A day of a case has the zero rates of the terms 1 to this.
pub const DAY_RATES: usize = 60;

/// A rolling window holds at most this many days.
pub const WINDOW_DAYS: usize = 70;

/// A rolling window has this many bytes.
pub const WINDOW_BYTES: usize = 8896;

/// A history has this many months.
pub const HISTORY_MONTHS: usize = 120;

/// A history has this many bytes, two for each month.
pub const HISTORY_BYTES: usize = 2 * HISTORY_MONTHS;

/// The terms of the curve, in years, are 1 to this.
pub const TERMS: usize = 120;

/// A lent buffer of factors or rates has at least this many entries.
pub const ENTRIES: usize = 2 * TERMS;

/// Two whole numbers; the exact figure, in the same units, is at least the lower and at most the upper.
#[derive(Clone, Copy, Debug, PartialEq, Eq)]
pub struct Bracket<N> {
    pub lower: N,
    pub upper: N,
}

/// The money figures in cents: liabilities L, bonds B, assets A, the losses S1 to S6, the root buffer S.
/// L is at the adjusted curve, whose factors a valuation gives; B is at the curve as it is, without UFR.
#[derive(Clone, Copy, Debug, PartialEq, Eq)]
pub struct Figures {
    pub l: Bracket<u64>,
    pub b: Bracket<u64>,
    pub a: Bracket<u64>,
    pub s1: Bracket<u64>,
    pub s2: Bracket<u64>,
    pub s3: Bracket<u64>,
    pub s4: Bracket<u64>,
    pub s5: Bracket<u64>,
    pub s6: Bracket<u64>,
    pub s: Bracket<u64>,
}

/// The verdict on a fund, by the engine's numbers. `Onbeslist` is undecided: a border lies inside a bracket.
#[derive(Clone, Copy, Debug, PartialEq, Eq)]
#[repr(u8)]
pub enum Verdict {
    Dekkingstekort = 1,
    Reservetekort = 2,
    VrijVermogen = 3,
    Onbeslist = 4,
}

/// Why a file, a case, or a call with a rolling window or a history of months is refused, by the numbers of METHOD,
/// Refusals.
#[derive(Clone, Copy, Debug, PartialEq, Eq)]
#[repr(u8)]
pub enum Refusal {
    EndsEarly = 1,
    BytesFollow = 2,
    Map = 3,
    DayCount = 4,
    Rate = 5,
    Growth = 6,
    FlowCount = 7,
    Flow = 8,
    Ufr = 9,
    Amount = 10,
    Shock = 11,
    People = 12,
    Buffer = 13,
    SavedBuffer = 14,
    RollingFull = 15,
    RollingEmpty = 16,
    History = 17,
    Month = 18,
    MonthsUfr = 19,
    Damaged = 27,
}

/// The money figures and the verdict of an accepted file.
#[derive(Clone, Copy, Debug, PartialEq, Eq)]
pub struct Judged {
    pub figures: Figures,
    pub verdict: Verdict,
}

/// What an accepted file is worth. Factors count 10^-12 and zero rates steps of 0.00001; term t stands at t - 1.
#[derive(Clone, Debug, PartialEq, Eq)]
pub struct Valuation {
    pub factors: [Bracket<u64>; TERMS],
    pub zero_rates: [Bracket<i64>; TERMS],
    pub figures: Figures,
    pub verdict: Verdict,
}

/// A point of the window: doubles that hold the whole numbers of a bracket.
#[derive(Clone, Copy, Debug, PartialEq)]
pub enum Point {
    Factor(f64, f64),
    Money(f64, f64),
    Blank,
}

/// The kit of the toolchain that the engine is proved with, as the archive tells it.
pub fn kit() -> String {
    // SAFETY: the call takes nothing.
    let kit = unsafe { raw::checked(raw::ginghamowl_version)() }.kit;
    kit.into_iter().take_while(|&byte| byte != 0).map(char::from).collect()
}

/// The valuation of a case file.
pub fn value(file: &[u8]) -> Result<Valuation, Refusal> {
    let mut factors = [0; ENTRIES];
    let mut rates = [0; ENTRIES];
    let judged = value_into(file, &mut factors, &mut rates)?;
    Ok(Valuation::of_entries(&factors, &rates, judged))
}

/// The valuation of a case file into buffers of the caller: lower and upper, term by term, into the entries 0 to 239.
/// Later entries keep their content, and a refusal changes neither buffer.
pub fn value_into(file: &[u8], factors: &mut [u64], rates: &mut [i64]) -> Result<Judged, Refusal> {
    // SAFETY: the pointers and lengths are those of slices that live through the call; the two that are written are
    // borrowed alone.
    let answer = unsafe {
        raw::checked(raw::ginghamowl_value)(
            file.as_ptr(),
            file.len(),
            factors.as_mut_ptr(),
            factors.len(),
            rates.as_mut_ptr(),
            rates.len(),
        )
    };
    answer.into()
}

/// Why a file is refused, without valuing it; `None` where it is accepted. Never `Refusal::Buffer`.
pub fn refusal(file: &[u8]) -> Option<Refusal> {
    // SAFETY: the pointer and the length are those of a slice.
    Refusal::numbered(unsafe { raw::checked(raw::ginghamowl_refusal)(file.as_ptr(), file.len()) })
}

/// The part of the file that holds the zero rates, 120 bytes for each day, or 240 where a rate has four, which
/// [`Case::read`] says (`days_form`); empty where the file is refused.
pub fn rates_part(file: &[u8]) -> &[u8] {
    // SAFETY: the pointer and the length are those of a slice.
    let part = unsafe { raw::checked(raw::ginghamowl_rates_part)(file.as_ptr(), file.len()) };
    &file[part.offset..part.offset + part.length]
}

/// Point 1 to 120 is a factor, 121 to 130 a money figure (L B A S1 S2 S3 S4 S5 S6 S), any other is blank. A figure needs no
/// factors. A factor is blank also where one of its two entries, 2t - 2 and 2t - 1 for term t, is not lent, and any point
/// where an end is above 2^53: after a valuation neither occurs.
pub fn window_point(point: u64, factors: &[u64], figures: &Figures) -> Point {
    // SAFETY: the pointer and the length are those of a slice.
    let shown = unsafe {
        raw::checked(raw::ginghamowl_window_point)(point, factors.as_ptr(), factors.len(), (*figures).into())
    };
    match shown.kind {
        1 => Point::Factor(shown.lower, shown.upper),
        2 => Point::Money(shown.lower, shown.upper),
        _ => Point::Blank,
    }
}

/// The listing of an answer: a line for each figure and one for the verdict, or R and the refusal.
pub fn listing(answer: Result<Judged, Refusal>) -> String {
    let mut out = [0; raw::LISTING_BYTES];
    // SAFETY: the pointer and the length are those of an array that only this call has.
    let length = unsafe { raw::checked(raw::ginghamowl_listing)(answer.into(), out.as_mut_ptr(), out.len()) };
    out[..length].iter().map(|&byte| char::from(byte)).collect()
}

impl Valuation {
    fn of_entries(factors: &[u64; ENTRIES], rates: &[i64; ENTRIES], judged: Judged) -> Valuation {
        Valuation {
            factors: std::array::from_fn(|i| Bracket { lower: factors[2 * i], upper: factors[2 * i + 1] }),
            zero_rates: std::array::from_fn(|i| Bracket { lower: rates[2 * i], upper: rates[2 * i + 1] }),
            figures: judged.figures,
            verdict: judged.verdict,
        }
    }

    /// The figures and the verdict, without the curve.
    pub fn judged(&self) -> Judged {
        Judged { figures: self.figures, verdict: self.verdict }
    }

    /// The factors as `window_point` and the other functions of the engine take them.
    pub fn factor_entries(&self) -> [u64; ENTRIES] {
        std::array::from_fn(|i| {
            let factor = self.factors[i / 2];
            if i % 2 == 0 {
                factor.lower
            } else {
                factor.upper
            }
        })
    }
}

impl Figures {
    /// The figures by the names of the listing and in its order.
    pub fn named(&self) -> [(&'static str, Bracket<u64>); 10] {
        [
            ("L", self.l),
            ("B", self.b),
            ("A", self.a),
            ("S1", self.s1),
            ("S2", self.s2),
            ("S3", self.s3),
            ("S4", self.s4),
            ("S5", self.s5),
            ("S6", self.s6),
            ("S", self.s),
        ]
    }
}

impl Verdict {
    fn numbered(number: u8) -> Verdict {
        match number {
            1 => Verdict::Dekkingstekort,
            2 => Verdict::Reservetekort,
            3 => Verdict::VrijVermogen,
            _ => Verdict::Onbeslist,
        }
    }

    fn number(self) -> u8 {
        self as u8
    }

    /// What the verdict says.
    pub fn sentence(self) -> &'static str {
        verdict_sentence(self.number())
    }
}

/// The verdict as the listing writes it.
impl fmt::Display for Verdict {
    fn fmt(&self, f: &mut fmt::Formatter<'_>) -> fmt::Result {
        f.write_str(verdict_word(self.number()))
    }
}

impl Refusal {
    /// Every refusal, in the order of the numbers: 1 to 19, and 27.
    pub const ALL: [Refusal; 20] = [
        Refusal::EndsEarly,
        Refusal::BytesFollow,
        Refusal::Map,
        Refusal::DayCount,
        Refusal::Rate,
        Refusal::Growth,
        Refusal::FlowCount,
        Refusal::Flow,
        Refusal::Ufr,
        Refusal::Amount,
        Refusal::Shock,
        Refusal::People,
        Refusal::Buffer,
        Refusal::SavedBuffer,
        Refusal::RollingFull,
        Refusal::RollingEmpty,
        Refusal::History,
        Refusal::Month,
        Refusal::MonthsUfr,
        Refusal::Damaged,
    ];

    /// The number of the refusal (METHOD, Refusals).
    pub fn number(self) -> u8 {
        self as u8
    }

    /// What is wrong, and the limit.
    pub fn sentence(self) -> &'static str {
        refusal_sentence(self.number())
    }

    /// The refusal that the engine's answer names; 0 is none. The engine gives no other number, and one from another
    /// archive must not pass for an acceptance.
    fn numbered(number: u8) -> Option<Refusal> {
        let named = Refusal::ALL.into_iter().find(|refusal| refusal.number() == number);
        assert!(named.is_some() || number == 0, "{}: {number}", refusal_sentence(number));
        named
    }
}

/// The number, what is wrong, and the limit.
impl fmt::Display for Refusal {
    fn fmt(&self, f: &mut fmt::Formatter<'_>) -> fmt::Result {
        write!(f, "refused, {}: {}", self.number(), self.sentence())
    }
}

impl Error for Refusal {}
