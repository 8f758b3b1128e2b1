//! What the tests share. Each is a program of its own, and none needs all of it.
#![allow(dead_code)]

use ginghamowl::{Amounts, Case, DaysForm, Judged, People, Refusal, Shocks, Valuation, DAY_RATES, ENTRIES};
use std::fs;
use std::path::PathBuf;

fn cases_folder() -> PathBuf {
    PathBuf::from(env!("CARGO_MANIFEST_DIR")).join("../../cases")
}

/// The example files of cases/, by name.
pub fn example_paths() -> Vec<PathBuf> {
    let mut paths: Vec<PathBuf> = fs::read_dir(cases_folder())
        .unwrap()
        .map(|entry| entry.unwrap().path())
        .filter(|path| path.extension().is_some_and(|end| end == "case"))
        .collect();
    paths.sort();
    paths
}

/// Name, bytes, and listing and curve of each example.
pub fn cases() -> Vec<(String, Vec<u8>, String)> {
    example_paths()
        .into_iter()
        .map(|path| {
            let text = |end| fs::read_to_string(path.with_extension(end)).unwrap();
            let expected = text("txt") + &text("curve");
            (path.file_stem().unwrap().to_str().unwrap().to_owned(), fs::read(&path).unwrap(), expected)
        })
        .collect()
}

/// The bytes of an example.
pub fn file(name: &str) -> Vec<u8> {
    fs::read(cases_folder().join(name).with_extension("case")).unwrap()
}

/// The case of file C1.
pub fn c1_case() -> Case {
    Case {
        days_form: DaysForm::default(),
        ufr: 4_200,
        days: vec![[0; DAY_RATES]],
        pension: vec![1_000_000],
        bonds: vec![],
        amounts: Amounts { cash: 1_100_000, ..Amounts::default() },
        shocks: Shocks::default(),
        people: People { heads: 100, pension_age: 780, mean_age: 460 },
    }
}

/// A case with days in two bytes, rewritten to four: every rate times 100.
pub fn in_four_bytes(case: &Case) -> Case {
    assert_eq!(case.days_form, DaysForm::TwoBytes);
    let days = case.days.iter().map(|day| day.map(|rate| 100 * rate)).collect();
    Case { days_form: DaysForm::FourBytes, days, ..case.clone() }
}

/// A file with days in two bytes, rewritten to four: bit 7 in place of bit 1, every rate times 100, the days after the
/// people, and so before the field of bit 8.
pub fn rewritten(file: &[u8]) -> Vec<u8> {
    let count_at = if file[1] & 1 == 1 { 4 } else { 2 };
    let (days, others) = file[count_at..].split_at(1 + 2 * DAY_RATES * usize::from(file[count_at]));
    let (others, equity) = others.split_at(others.len() - 2 * usize::from(file[0] & 1));
    let rates = days[1..].chunks(2).map(|pair| 100 * i32::from(i16::from_be_bytes([pair[0], pair[1]])));
    let mut all = [&[file[0], file[1] ^ 0x82], &file[2..count_at], others, &days[..1]].concat();
    all.extend(rates.flat_map(i32::to_be_bytes));
    all.extend(equity);
    all
}

/// A valuation into buffers of many lengths: one that is too short is refused and leaves both; otherwise both hold the
/// curve, and keep what follows it.
pub fn into_buffers(expected: &Valuation, value_into: impl Fn(&mut [u64], &mut [i64]) -> Result<Judged, Refusal>) {
    for f in [0, 1, 239, 240, 241, 1000] {
        for r in [0, 1, 239, 240, 241, 1000] {
            let (mut factors, mut rates) = (vec![7; f], vec![-7; r]);
            let answer = value_into(&mut factors, &mut rates);
            if f < ENTRIES || r < ENTRIES {
                assert_eq!(answer, Err(Refusal::Buffer));
                assert!(factors.iter().all(|&x| x == 7) && rates.iter().all(|&x| x == -7));
            } else {
                assert_eq!(answer, Ok(expected.judged()));
                assert_eq!(factors[..ENTRIES], expected.factor_entries());
                assert!(rates[..ENTRIES].chunks(2).eq(expected.zero_rates.iter().map(|rate| [rate.lower, rate.upper])));
                assert!(factors[240..].iter().all(|&x| x == 7) && rates[240..].iter().all(|&x| x == -7));
            }
        }
    }
}
