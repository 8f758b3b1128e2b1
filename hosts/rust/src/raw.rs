//! include/ginghamowl.h for Rust.
use crate::{Amounts, Bracket, Figures, Judged, People, Refusal, RollingWindow, Shocks, Verdict, DAY_RATES, VERSION};
use std::sync::OnceLock;

pub const LISTING_BYTES: usize = 512;

#[repr(C)]
pub struct HostVersion {
    pub major: u32,
    pub minor: u32,
    pub patch: u32,
    pub kit: [u8; 32],
}

#[derive(Clone, Copy, Default)]
#[repr(C)]
pub struct HostBracket {
    pub lower: u64,
    pub upper: u64,
}

#[derive(Clone, Copy, Default)]
#[repr(C)]
pub struct HostFigures {
    pub l: HostBracket,
    pub b: HostBracket,
    pub a: HostBracket,
    pub s1: HostBracket,
    pub s2: HostBracket,
    pub s3: HostBracket,
    pub s4: HostBracket,
    pub s5: HostBracket,
    pub s6: HostBracket,
    pub s: HostBracket,
}

#[derive(Clone, Copy, Default)]
#[repr(C)]
pub struct HostValuation {
    pub refusal: u8,
    pub verdict: u8,
    pub figures: HostFigures,
}

#[repr(C)]
pub struct HostPart {
    pub offset: usize,
    pub length: usize,
}

#[repr(C)]
pub struct HostPoint {
    pub kind: u8,
    pub lower: f64,
    pub upper: f64,
}

/// The three records have the header's layout themselves.
#[repr(C)]
pub struct HostCaseFields {
    pub rate_bytes: u64,
    pub ufr: u64,
    pub amounts: Amounts,
    pub shocks: Shocks,
    pub people: People,
}

#[repr(C)]
pub struct HostSaved {
    pub refusal: u8,
    pub written: usize,
}

#[repr(C)]
pub struct HostDay {
    pub rates: [i32; DAY_RATES],
}

/// The rolling window has the header's layout itself.
#[repr(C)]
pub struct HostChangedWindow {
    pub refusal: u8,
    pub window: RollingWindow,
}

#[repr(C)]
pub struct HostUfr {
    pub refusal: u8,
    pub ufr: u64,
}

extern "C" {
    pub fn ginghamowl_version() -> HostVersion;
    pub fn ginghamowl_value(
        file: *const u8,
        file_length: usize,
        factors: *mut u64,
        factors_length: usize,
        rates: *mut i64,
        rates_length: usize,
    ) -> HostValuation;
    pub fn ginghamowl_refusal(file: *const u8, file_length: usize) -> u8;
    pub fn ginghamowl_rates_part(file: *const u8, file_length: usize) -> HostPart;
    pub fn ginghamowl_window_point(
        point: u64,
        factors: *const u64,
        factors_length: usize,
        figures: HostFigures,
    ) -> HostPoint;
    pub fn ginghamowl_listing(valuation: HostValuation, out: *mut u8, out_length: usize) -> usize;
    pub fn ginghamowl_save(
        fields: HostCaseFields,
        rates: *const i32,
        rates_length: usize,
        pension: *const u64,
        pension_length: usize,
        bonds: *const u64,
        bonds_length: usize,
        out: *mut u8,
        out_length: usize,
    ) -> HostSaved;
    pub fn ginghamowl_rolling_empty() -> RollingWindow;
    pub fn ginghamowl_rolling_add(window: RollingWindow, day: HostDay) -> HostChangedWindow;
    pub fn ginghamowl_rolling_drop(window: RollingWindow) -> HostChangedWindow;
    pub fn ginghamowl_rolling_value(
        window: RollingWindow,
        fields: HostCaseFields,
        case_rates: *const i32,
        case_rates_length: usize,
        pension: *const u64,
        pension_length: usize,
        bonds: *const u64,
        bonds_length: usize,
        factors: *mut u64,
        factors_length: usize,
        rates: *mut i64,
        rates_length: usize,
    ) -> HostValuation;
    pub fn ginghamowl_ufr_of(history: *const u8, history_length: usize, start: u64) -> HostUfr;
    pub fn ginghamowl_value_with_months(
        file: *const u8,
        file_length: usize,
        history: *const u8,
        history_length: usize,
        start: u64,
        factors: *mut u64,
        factors_length: usize,
        rates: *mut i64,
        rates_length: usize,
    ) -> HostValuation;
}

/// A function of the engine. The first call panics where the archive is of another version than this crate, since its
/// structs may then be others, so every call of the engine is written `checked(function)(..)`.
pub fn checked<F>(function: F) -> F {
    static OF_THIS_VERSION: OnceLock<()> = OnceLock::new();
    // SAFETY: the call takes nothing.
    OF_THIS_VERSION.get_or_init(|| unsafe { ginghamowl_version() }.require(VERSION));
    function
}

impl HostVersion {
    fn require(&self, version: &str) {
        let told = format!("{}.{}.{}", self.major, self.minor, self.patch);
        assert!(
            told == version,
            "the engine's archive is of version {told}, and the crate ginghamowl is of version {version}; hosts/build \
             makes the archive of the crate's version, and GINGHAMOWL_ARCHIVE may name another folder"
        );
    }
}

impl From<HostBracket> for Bracket<u64> {
    fn from(b: HostBracket) -> Self {
        Bracket { lower: b.lower, upper: b.upper }
    }
}

impl From<Bracket<u64>> for HostBracket {
    fn from(b: Bracket<u64>) -> Self {
        HostBracket { lower: b.lower, upper: b.upper }
    }
}

impl From<HostFigures> for Figures {
    fn from(f: HostFigures) -> Self {
        Figures {
            l: f.l.into(),
            b: f.b.into(),
            a: f.a.into(),
            s1: f.s1.into(),
            s2: f.s2.into(),
            s3: f.s3.into(),
            s4: f.s4.into(),
            s5: f.s5.into(),
            s6: f.s6.into(),
            s: f.s.into(),
        }
    }
}

impl From<Figures> for HostFigures {
    fn from(f: Figures) -> Self {
        HostFigures {
            l: f.l.into(),
            b: f.b.into(),
            a: f.a.into(),
            s1: f.s1.into(),
            s2: f.s2.into(),
            s3: f.s3.into(),
            s4: f.s4.into(),
            s5: f.s5.into(),
            s6: f.s6.into(),
            s: f.s.into(),
        }
    }
}

impl From<Result<Judged, Refusal>> for HostValuation {
    fn from(answer: Result<Judged, Refusal>) -> Self {
        match answer {
            Ok(judged) => {
                HostValuation { refusal: 0, verdict: judged.verdict.number(), figures: judged.figures.into() }
            }
            Err(refusal) => HostValuation { refusal: refusal.number(), ..HostValuation::default() },
        }
    }
}

impl From<HostValuation> for Result<Judged, Refusal> {
    fn from(answer: HostValuation) -> Self {
        match Refusal::numbered(answer.refusal) {
            Some(refusal) => Err(refusal),
            None => Ok(Judged { figures: answer.figures.into(), verdict: Verdict::numbered(answer.verdict) }),
        }
    }
}

#[cfg(test)]
mod tests {
    use super::*;
    use std::mem::size_of;

    #[test]
    fn sizes_of_a_case() {
        assert_eq!((size_of::<Amounts>(), size_of::<Shocks>(), size_of::<People>()), (64, 104, 24));
        assert_eq!(size_of::<HostCaseFields>(), 208);
    }

    fn told(major: u32, minor: u32, patch: u32) -> HostVersion {
        HostVersion { major, minor, patch, kit: [0; 32] }
    }

    #[test]
    fn an_archive_of_this_version() {
        told(3, 14, 15).require("3.14.15");
        assert_eq!(checked(5), 5);
    }

    #[test]
    #[should_panic(
        expected = "is of version 3.14.15, and the crate ginghamowl is of version 3.14.16; hosts/build makes"
    )]
    fn another_patch() {
        told(3, 14, 15).require("3.14.16");
    }

    #[test]
    #[should_panic(
        expected = "is of version 31.4.15, and the crate ginghamowl is of version 3.14.15; hosts/build makes"
    )]
    fn another_minor() {
        told(31, 4, 15).require("3.14.15");
    }
}
