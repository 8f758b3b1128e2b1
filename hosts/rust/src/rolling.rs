//! A rolling window of days: the oldest is dropped, and each evening's is added.
use crate::{raw, Case, Judged, Refusal, Valuation, DAY_RATES, ENTRIES, WINDOW_BYTES, WINDOW_DAYS};

/// Up to 70 trading days, and beside them the sum of each term's rates. (The window of `window_point` is another thing: a
/// screen that shows a valuation.) Its rates have two bytes and are in steps of 0.00001: there is no window of days in four
/// bytes.
///
/// It is the struct `ginghamowl_rolling_window` of the header, byte for byte. Its bytes may be kept in a file, and any
/// bytes make a window: where they are damaged, each call answers `Refusal::Damaged`. A refused call changes nothing.
///
/// Windows are equal whose bytes are. Two that hold the same days are worth the same, and may still differ in where the
/// oldest stands and in what lies in free slots: compare their `days`.
///
/// ```
/// # fn main() -> Result<(), ginghamowl::Refusal> {
/// let mut window = ginghamowl::RollingWindow::new();
/// window.add(&[250; ginghamowl::DAY_RATES])?;
/// window.add(&[260; ginghamowl::DAY_RATES])?;
/// window.drop()?;
/// assert_eq!(window.days()?, [[260; ginghamowl::DAY_RATES]]);
/// # Ok(())
/// # }
/// ```
#[derive(Clone, Debug, PartialEq, Eq)]
#[repr(C)]
pub struct RollingWindow {
    count: u64,
    start: u64,
    rates: [[i16; DAY_RATES]; WINDOW_DAYS],
    sums: [i64; DAY_RATES],
}

impl RollingWindow {
    /// The window that holds no day.
    pub fn new() -> RollingWindow {
        // SAFETY: the call takes nothing.
        unsafe { raw::checked(raw::ginghamowl_rolling_empty)() }
    }

    /// The window of these bytes, whatever they are. Of what a file has, `bytes[..].try_into()` makes the array, or says
    /// that it has another length.
    pub fn from_bytes(bytes: &[u8; WINDOW_BYTES]) -> RollingWindow {
        // SAFETY: the struct has as many bytes, and whole numbers alone; any bytes are such numbers.
        unsafe { std::mem::transmute(*bytes) }
    }

    /// The bytes of the window, which may be kept in a file. Those of each number are in the machine's order.
    pub fn to_bytes(&self) -> [u8; WINDOW_BYTES] {
        // SAFETY: the struct has as many bytes, and none of them is padding.
        unsafe { std::mem::transmute(self.clone()) }
    }

    /// Adds a day as the newest; term t's rate, in steps of 0.00001, stands at t - 1. Refused are, in this order, a
    /// damaged window, one of 70 days (`RollingFull`), and a rate out of limits (`Rate`).
    pub fn add(&mut self, day: &[i32; DAY_RATES]) -> Result<(), Refusal> {
        // SAFETY: all is handed in by value.
        self.become_changed(unsafe {
            raw::checked(raw::ginghamowl_rolling_add)(self.clone(), raw::HostDay { rates: *day })
        })
    }

    /// Drops the oldest day. Refused are a damaged window, then an empty one (`RollingEmpty`).
    pub fn drop(&mut self) -> Result<(), Refusal> {
        self.become_changed(self.dropped())
    }

    /// The days held, oldest first, as a `Case` has them in two bytes; none where the window is empty. Refused is only a
    /// damaged window. The engine judges it, and the days of one that is not damaged are taken out here.
    pub fn days(&self) -> Result<Vec<[i32; DAY_RATES]>, Refusal> {
        if Refusal::numbered(self.dropped().refusal) == Some(Refusal::Damaged) {
            return Err(Refusal::Damaged);
        }
        let (start, count) = (self.start as usize, self.count as usize);
        Ok((start..start + count).map(|slot| self.rates[slot % WINDOW_DAYS].map(i32::from)).collect())
    }

    /// How many days the window says that it holds. A damaged one may say any number.
    pub fn len(&self) -> usize {
        self.count as usize
    }

    /// Whether the window says that it holds no day.
    pub fn is_empty(&self) -> bool {
        self.count == 0
    }

    /// The valuation of a case with the days of this window in place of its own: what `value` gives of a file with these
    /// days, and the other fields of the case. The case's own days may be in four bytes. Refused are, in this order, a
    /// damaged window; a case that `Case::save` refuses, its own days included; an empty window (`DayCount`); days whose
    /// forward rates are out of limits (`Growth`).
    pub fn value(&self, case: &Case) -> Result<Valuation, Refusal> {
        let mut factors = [0; ENTRIES];
        let mut rates = [0; ENTRIES];
        let judged = self.value_into(case, &mut factors, &mut rates)?;
        Ok(Valuation::of_entries(&factors, &rates, judged))
    }

    /// The same into buffers of the caller, as the function `value_into` has it. A buffer that is too short is refused
    /// right after a damaged window.
    pub fn value_into(&self, case: &Case, factors: &mut [u64], rates: &mut [i64]) -> Result<Judged, Refusal> {
        let case_rates = case.days.concat();
        // SAFETY: the pointers and lengths are those of slices that live through the call; the two that are written are
        // borrowed alone.
        let answer = unsafe {
            raw::checked(raw::ginghamowl_rolling_value)(
                self.clone(),
                case.fields(),
                case_rates.as_ptr(),
                case_rates.len(),
                case.pension.as_ptr(),
                case.pension.len(),
                case.bonds.as_ptr(),
                case.bonds.len(),
                factors.as_mut_ptr(),
                factors.len(),
                rates.as_mut_ptr(),
                rates.len(),
            )
        };
        answer.into()
    }

    /// What dropping the oldest day gives. Of all refusals, damage comes first.
    fn dropped(&self) -> raw::HostChangedWindow {
        // SAFETY: the window is handed in by value.
        unsafe { raw::checked(raw::ginghamowl_rolling_drop)(self.clone()) }
    }

    fn become_changed(&mut self, changed: raw::HostChangedWindow) -> Result<(), Refusal> {
        match Refusal::numbered(changed.refusal) {
            Some(refusal) => Err(refusal),
            None => {
                *self = changed.window;
                Ok(())
            }
        }
    }
}

impl Default for RollingWindow {
    fn default() -> Self {
        RollingWindow::new()
    }
}
