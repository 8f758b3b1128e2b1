//! Histories of months beside lists of months, and their valuations beside those of files with the UFR in its field.
use common::{example_paths, in_four_bytes, into_buffers};
use ginghamowl::{refusal, value, Case, DaysForm, History, Refusal, ENTRIES, HISTORY_BYTES, HISTORY_MONTHS};
use std::collections::{BTreeSet, VecDeque};
use std::fs;

mod common;

const FLAT: [i32; HISTORY_MONTHS] = [3_100; HISTORY_MONTHS];

/// The example files, each with its refusal.
fn files() -> Vec<(Vec<u8>, Option<Refusal>)> {
    example_paths()
        .into_iter()
        .map(|path| {
            let file = fs::read(path).unwrap();
            let refusal = refusal(&file);
            (file, refusal)
        })
        .collect()
}

fn accepted_files() -> Vec<Vec<u8>> {
    files().into_iter().filter(|(_, refusal)| refusal.is_none()).map(|(file, _)| file).collect()
}

/// The file with bit 0 of its map set and this UFR behind the map: in place of its own, or inserted.
fn with_ufr_field(file: &[u8], ufr: u64) -> Vec<u8> {
    let others = if file[1] & 1 == 1 { 4 } else { 2 };
    [&[file[0], file[1] | 1], &(ufr as u16).to_be_bytes()[..], &file[others..]].concat()
}

/// The file without the field: its UFR is 4,200.
fn without_ufr_field(file: &[u8]) -> Vec<u8> {
    let others = if file[1] & 1 == 1 { 4 } else { 2 };
    [&[file[0], file[1] & !1], &file[others..]].concat()
}

/// Months as even as they can be, with this sum.
fn with_sum(sum: i32) -> [i32; HISTORY_MONTHS] {
    let months = HISTORY_MONTHS as i32;
    std::array::from_fn(|i| sum.div_euclid(months) + i32::from((i as i32) < sum.rem_euclid(months)))
}

/// The mean rounded to the nearest 100 steps, halves upward.
fn rounded_mean<'a>(months: impl IntoIterator<Item = &'a i32>) -> i32 {
    100 * (months.into_iter().sum::<i32>() + 6_000).div_euclid(12_000)
}

/// The months with another at one place.
fn with_month(mut months: [i32; HISTORY_MONTHS], place: usize, month: i32) -> [i32; HISTORY_MONTHS] {
    months[place] = month;
    months
}

/// Histories that each check refuses, the last two by their UFR.
fn refused_histories() -> [(History, Refusal); 7] {
    [
        (History::new(&[], 0), Refusal::History),
        (History::new(&FLAT[1..], 0), Refusal::History),
        (History::new(&FLAT, 120), Refusal::History),
        (History::new(&with_month(FLAT, 0, -1_001), 0), Refusal::Month),
        (History::new(&with_month(FLAT, 119, 10_001), 119), Refusal::Month),
        (History::new(&[-51; HISTORY_MONTHS], 0), Refusal::MonthsUfr),
        (History::new(&[5_050; HISTORY_MONTHS], 0), Refusal::MonthsUfr),
    ]
}

#[test]
fn layout() {
    let history = History::new(&with_month(with_month(FLAT, 1, -2), 119, 258), 7);
    let mut bytes = [0x0c, 0x1c].repeat(HISTORY_MONTHS);
    bytes[2..4].copy_from_slice(&[0xff, 0xfe]);
    bytes[238..].copy_from_slice(&[0x01, 0x02]);
    assert_eq!((history.to_bytes(), history.start()), (bytes.clone(), 7));
    assert_eq!(bytes.len(), HISTORY_BYTES);
    assert_eq!(History::from_bytes(&bytes, 7), history);
    assert_ne!(History::from_bytes(&bytes, 8), history);
}

/// Where the mean is half a hundred below q hundreds it is rounded to these, and a 120th of a step less to a hundred less.
#[test]
fn rounding() {
    let within =
        |hundreds: i32| if (0..=50).contains(&hundreds) { Ok(hundreds as u64 * 100) } else { Err(Refusal::MonthsUfr) };
    for q in -9..=100 {
        assert_eq!(History::new(&with_sum(12_000 * q - 6_000), 0).ufr(), within(q));
        assert_eq!(History::new(&with_sum(12_000 * q - 6_001), 119).ufr(), within(q - 1));
    }
}

#[test]
fn lengths_and_starts() {
    let bytes = History::new(&FLAT, 0).to_bytes().repeat(2);
    for length in [0, 1, 239, 240, 241, 480] {
        for start in [0, 1, 119, 120, 256, 1 << 32, u64::MAX] {
            let history = History::from_bytes(&bytes[..length], start);
            let right = length == HISTORY_BYTES && start < 120;
            assert_eq!(history.ufr(), if right { Ok(3_100) } else { Err(Refusal::History) });
            assert_eq!(history.months(), if right { Ok(FLAT.to_vec()) } else { Err(Refusal::History) });
        }
    }
}

/// At each place; also numbers that two bytes have no room for.
#[test]
fn limits_of_months() {
    for place in 0..HISTORY_MONTHS {
        for right in [-1_000, 10_000] {
            assert!(History::new(&with_month(FLAT, place, right), 0).ufr().is_ok());
        }
        for wrong in [-1_001, 10_001, -32_768, 32_767, 65_536, -65_536, 65_536 + 3_100, i32::MIN, i32::MAX] {
            assert_eq!(History::new(&with_month(FLAT, place, wrong), 0).ufr(), Err(Refusal::Month));
        }
    }
}

/// A month comes each month end, and the oldest goes, beside a list of months; it goes round the ring three times.
#[test]
fn beside_a_list_of_months() {
    let mut months: VecDeque<i32> = (0..120).map(|month| 40 * month - 1_000).collect();
    let given: Vec<i32> = (0..120).map(|place| months[(place + 120 - 50) % 120]).collect();
    let mut history = History::new(&given, 50);
    for end in 0..360i32 {
        assert_eq!(months, history.months().unwrap());
        assert_eq!(history.ufr(), Ok(rounded_mean(&months) as u64));
        let month = end * end % 9_001 - 400;
        assert_eq!(history.replace_oldest(month), Ok(()));
        months.pop_front();
        months.push_back(month);
        assert_eq!(history.start(), (51 + end as u64) % 120);
    }
}

#[test]
fn refused_replacements() {
    for (history, refusal) in refused_histories() {
        let mut called = history.clone();
        assert_eq!(called.ufr(), Err(refusal));
        if refusal == Refusal::History {
            assert_eq!(called.replace_oldest(3_100), Err(refusal));
            assert_eq!(called.replace_oldest(10_001), Err(refusal));
        } else {
            assert_eq!(called.replace_oldest(10_001), Err(Refusal::Month));
        }
        assert_eq!(called, history);
    }
    let mut history = History::new(&FLAT, 119);
    for wrong in [-1_001, 10_001, 65_536 + 3_100, i32::MIN, i32::MAX] {
        assert_eq!(history.replace_oldest(wrong), Err(Refusal::Month));
    }
    assert_eq!(history, History::new(&FLAT, 119));
    let mut wrong = History::new(&with_month(FLAT, 4, 10_001), 3); // the second to go is out of limits
    assert_eq!(wrong.replace_oldest(3_100), Err(Refusal::Month));
    wrong = History::from_bytes(&wrong.to_bytes(), 4);
    assert_eq!((wrong.replace_oldest(3_100), wrong), (Ok(()), History::new(&FLAT, 5)));
    let mut low = History::new(&[-51; HISTORY_MONTHS], 0); // a UFR out of limits comes back with the months
    assert_eq!((low.replace_oldest(69), low.ufr()), (Ok(()), Ok(0)));
}

/// Each example, with the field and without it, is worth what the file is that has the UFR found in its field.
#[test]
fn valued_as_files_are() {
    let accepted = accepted_files();
    assert!(accepted.len() >= 10);
    let mut changed = 0;
    for file in &accepted {
        for ufr in [0, 2_500, 5_000] {
            let history = History::new(&with_sum(120 * ufr + 5_999), 60);
            let named = with_ufr_field(file, ufr as u64);
            let expected = value(&named);
            assert!(expected.is_ok());
            changed += usize::from(value(file) != expected);
            for given in [file, &named, &without_ufr_field(file), &with_ufr_field(file, 4_321)] {
                assert_eq!(history.value(given), expected);
            }
        }
    }
    assert!(changed >= 2 * accepted.len());
}

/// A history gives each example with days in two bytes, and the same rewritten to four, the same valuation; with four bytes
/// it is that of the file with the UFR found in its field.
#[test]
fn days_in_four_bytes() {
    let history = History::new(&FLAT, 5);
    let (mut two_bytes, mut four_bytes) = (0, 0);
    for file in accepted_files() {
        let case = Case::read(&file).unwrap();
        if case.days_form == DaysForm::TwoBytes {
            assert_eq!(history.value(&in_four_bytes(&case).save().unwrap()), history.value(&file));
            two_bytes += 1;
        } else {
            assert_eq!(history.value(&file), value(&with_ufr_field(&file, 3_100)));
            four_bytes += 1;
        }
    }
    assert!(two_bytes >= 10 && four_bytes >= 2);
}

#[test]
fn lengths_of_buffers() {
    let (file, history) = (&accepted_files()[0], History::new(&FLAT, 5));
    into_buffers(&history.value(file).unwrap(), |factors, rates| history.value_into(file, factors, rates));
}

/// A short buffer, then the file's own refusal, then the history's. A refusal changes no buffer.
#[test]
fn refused_valuations() {
    let mut seen = BTreeSet::new();
    for (file, own) in files().into_iter().chain([(with_ufr_field(&accepted_files()[0], 5_001), Some(Refusal::Ufr))]) {
        for (history, of_history) in refused_histories() {
            let (mut factors, mut rates) = ([7; ENTRIES], [-7; ENTRIES]);
            let expected = own.unwrap_or(of_history);
            assert_eq!(history.value(&file), Err(expected));
            assert_eq!(history.value_into(&file, &mut factors, &mut rates), Err(expected));
            assert_eq!(history.value_into(&file, &mut factors[1..], &mut rates), Err(Refusal::Buffer));
            assert_eq!((factors, rates), ([7; ENTRIES], [-7; ENTRIES]));
            seen.insert(expected.number());
        }
        assert_eq!(History::new(&FLAT, 0).value(&file).err(), own);
    }
    assert!(seen.into_iter().eq((1..=12).chain(17..=19)));
}
