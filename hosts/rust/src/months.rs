//! A history of months, whose mean is the UFR: each month end's forward rate takes the place of the oldest.
use crate::{raw, Judged, Refusal, Valuation, ENTRIES, HISTORY_MONTHS};

/// The month-end forward rates of ten years in a ring, and the place of the oldest.
///
/// Its bytes are those that the header names a history: two for each month, two's complement, the high byte first, in
/// steps of 0.00001. Any bytes and any start make a history: `ufr` and `value` say what is out of limits. Histories are
/// equal whose bytes and start are.
///
/// ```
/// # fn main() -> Result<(), ginghamowl::Refusal> {
/// let mut history = ginghamowl::History::new(&[3_150; ginghamowl::HISTORY_MONTHS], 0);
/// assert_eq!(history.ufr()?, 3_200);
/// history.replace_oldest(3_149)?;
/// assert_eq!(history.ufr()?, 3_100);
/// # Ok(())
/// # }
/// ```
#[derive(Clone, Debug, PartialEq, Eq)]
pub struct History {
    bytes: Vec<u8>,
    start: u64,
}

impl History {
    /// The history of these months, in steps of 0.00001, from the first place of the ring on; the oldest stands at
    /// `start`, which is 0 where the months are given oldest first. There must be 120. A month that two bytes have no
    /// room for is kept as the end of their range, which is out of limits as well.
    pub fn new(months: &[i32], start: u64) -> History {
        History { bytes: months.iter().copied().flat_map(month_bytes).collect(), start }
    }

    /// The history of these bytes, whatever they are and however many; the oldest month stands at `start`.
    pub fn from_bytes(bytes: &[u8], start: u64) -> History {
        History { bytes: bytes.to_vec(), start }
    }

    /// The bytes of the history. They and the start may be kept in a file.
    pub fn to_bytes(&self) -> Vec<u8> {
        self.bytes.clone()
    }

    /// The place of the oldest month in the ring, as it was given, or as `replace_oldest` has moved it.
    pub fn start(&self) -> u64 {
        self.start
    }

    /// The months, oldest first. Refused is only a history that has not 240 bytes, or whose start is above 119
    /// (`Refusal::History`). The engine judges it, and the months are taken out here.
    pub fn months(&self) -> Result<Vec<i32>, Refusal> {
        let oldest = self.oldest()?;
        let (newer, older) = self.bytes.split_at(2 * oldest);
        let pairs = older.chunks(2).chain(newer.chunks(2));
        Ok(pairs.map(|pair| i16::from_be_bytes([pair[0], pair[1]]).into()).collect())
    }

    /// Puts a month, in steps of 0.00001, in place of the oldest; it is then the newest. Refused are, in this order,
    /// what `months` refuses, and a history that has a month out of limits after the change (`Refusal::Month`). A
    /// refused call changes nothing. A UFR out of limits does not matter here.
    pub fn replace_oldest(&mut self, month: i32) -> Result<(), Refusal> {
        let oldest = self.oldest()?;
        let mut changed = self.clone();
        changed.bytes[2 * oldest..2 * oldest + 2].copy_from_slice(&month_bytes(month));
        changed.start = (self.start + 1) % HISTORY_MONTHS as u64;
        if changed.ufr() == Err(Refusal::Month) {
            return Err(Refusal::Month);
        }
        *self = changed;
        Ok(())
    }

    /// The UFR in steps of 0.00001: the mean of the months, rounded to the nearest 100 steps, halves upward. Refused are,
    /// in this order, a history that has not 240 bytes or whose start is above 119 (`Refusal::History`), a month out of
    /// limits (`Refusal::Month`), and a UFR outside 0 to 5,000 (`Refusal::MonthsUfr`).
    pub fn ufr(&self) -> Result<u64, Refusal> {
        // SAFETY: the pointer and the length are those of a slice that lives through the call.
        let found = unsafe { raw::checked(raw::ginghamowl_ufr_of)(self.bytes.as_ptr(), self.bytes.len(), self.start) };
        match Refusal::numbered(found.refusal) {
            Some(refusal) => Err(refusal),
            None => Ok(found.ufr),
        }
    }

    /// The valuation of a case file with the UFR of this history, as if it stood in the file's UFR field. Refused are, in
    /// this order, a file that `value` refuses, its own UFR included, and a history that `ufr` refuses.
    pub fn value(&self, file: &[u8]) -> Result<Valuation, Refusal> {
        let mut factors = [0; ENTRIES];
        let mut rates = [0; ENTRIES];
        let judged = self.value_into(file, &mut factors, &mut rates)?;
        Ok(Valuation::of_entries(&factors, &rates, judged))
    }

    /// The same into buffers of the caller, as the function `value_into` has it. A buffer that is too short is refused
    /// first.
    pub fn value_into(&self, file: &[u8], factors: &mut [u64], rates: &mut [i64]) -> Result<Judged, Refusal> {
        // SAFETY: the pointers and lengths are those of slices that live through the call; the two that are written are
        // borrowed alone.
        let answer = unsafe {
            raw::checked(raw::ginghamowl_value_with_months)(
                file.as_ptr(),
                file.len(),
                self.bytes.as_ptr(),
                self.bytes.len(),
                self.start,
                factors.as_mut_ptr(),
                factors.len(),
                rates.as_mut_ptr(),
                rates.len(),
            )
        };
        answer.into()
    }

    /// The place of the oldest month, in a ring of 120. Of all refusals, that of another length or start comes first.
    fn oldest(&self) -> Result<usize, Refusal> {
        match self.ufr() {
            Err(Refusal::History) => Err(Refusal::History),
            _ => Ok(self.start as usize),
        }
    }
}

fn month_bytes(month: i32) -> [u8; 2] {
    (month.clamp(i16::MIN.into(), i16::MAX.into()) as i16).to_be_bytes()
}
