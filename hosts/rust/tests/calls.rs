//! Calls with buffers and files of every kind, and the example files of cases/, whose numbers are those of
//! tests/reference/reference.py.
use common::{cases, file};
use ginghamowl::{
    kit, listing, rates_part, refusal, refusal_sentence, value, value_into, verdict_word, window_point, Bracket,
    Judged, Point, Refusal, Verdict, ENTRIES, FILE_BYTES, VERSION,
};
use std::fs;
use std::path::PathBuf;

mod common;

/// What is beside an example: the listing, then the curve (F and Z) and the rates' part (P).
fn text_of(file: &[u8]) -> String {
    let answer = value(file);
    let mut text = listing(answer.as_ref().map(|v| v.judged()).map_err(|refusal| *refusal));
    if let Ok(valuation) = answer {
        for (name, t, ends) in valuation
            .factors
            .iter()
            .enumerate()
            .map(|(i, f)| ("F", i + 1, (f.lower as i64, f.upper as i64)))
            .chain(valuation.zero_rates.iter().enumerate().map(|(i, z)| ("Z", i + 1, (z.lower, z.upper))))
        {
            text += &format!("{name} {t} {} {}\n", ends.0, ends.1);
        }
    }
    let part = rates_part(file);
    let offset = if part.is_empty() { 0 } else { part.as_ptr() as usize - file.as_ptr() as usize };
    text + &format!("P {offset} {}\n", part.len())
}

#[test]
fn stored_cases() {
    let all = cases();
    assert!(all.len() >= 16);
    for (name, file, expected) in all {
        assert_eq!(text_of(&file), expected, "{name}");
    }
}

#[test]
fn refusals_by_number() {
    for number in 1..=12u8 {
        let found = refusal(&file(&format!("refused_{number:02}"))).unwrap();
        assert_eq!((found.number(), found), (number, Refusal::ALL[number as usize - 1]));
        assert_eq!(found.to_string(), format!("refused, {number}: {}", refusal_sentence(number)));
    }
    assert_eq!(refusal(&file("c1")), None);
    assert!(Refusal::ALL.iter().map(|refusal| refusal.number()).eq((1..=19).chain([27])));
}

#[test]
fn lengths_of_buffers() {
    let c1 = file("c1");
    for f in [0, 1, 239, 240, 241, 1000] {
        for r in [0, 1, 239, 240, 241, 1000] {
            for (bytes, number) in [(&c1[..], 0), (&c1[1..], 3), (&[][..], 1)] {
                let (mut factors, mut rates) = (vec![7; f], vec![-7; r]);
                let answer = value_into(bytes, &mut factors, &mut rates);
                let short = f < ENTRIES || r < ENTRIES;
                if short || number != 0 {
                    assert_eq!(answer.unwrap_err().number(), if short { 13 } else { number });
                    assert!(factors.iter().all(|&x| x == 7) && rates.iter().all(|&x| x == -7));
                } else {
                    assert_eq!(answer.unwrap().verdict, Verdict::VrijVermogen);
                    assert_eq!(
                        (factors[0], factors[1], rates[0], rates[1]),
                        (1_000_000_000_000, 1_000_000_000_000, 0, 0)
                    );
                    assert!(factors[..240].iter().all(|&x| x != 7) && rates[..240].iter().all(|&x| x != -7));
                    assert!(factors[240..].iter().all(|&x| x == 7) && rates[240..].iter().all(|&x| x == -7));
                }
            }
        }
    }
}

#[test]
fn window() {
    let up = value(&file("up")).unwrap();
    let entries = up.factor_entries();
    for (i, factor) in up.factors.iter().enumerate() {
        let shown = Point::Factor(factor.lower as f64, factor.upper as f64);
        assert_eq!(window_point(i as u64 + 1, &entries, &up.figures), shown);
    }
    for (i, (_, figure)) in up.figures.named().iter().enumerate() {
        let shown = Point::Money(figure.lower as f64, figure.upper as f64);
        assert_eq!(window_point(i as u64 + 121, &entries, &up.figures), shown);
    }
    for point in [0, 131, u64::MAX] {
        assert_eq!(window_point(point, &entries, &up.figures), Point::Blank);
    }
    assert_eq!(window_point(1, &[u64::MAX; ENTRIES], &up.figures), Point::Blank);
}

#[test]
fn window_over_short_buffers() {
    let up = value(&file("up")).unwrap();
    let entries = up.factor_entries();
    for lent in 0..=ENTRIES {
        for (i, factor) in up.factors.iter().enumerate() {
            let factor = Point::Factor(factor.lower as f64, factor.upper as f64);
            let shown = if 2 * i + 1 < lent { factor } else { Point::Blank };
            assert_eq!(window_point(i as u64 + 1, &entries[..lent], &up.figures), shown);
        }
        for (i, (_, figure)) in up.figures.named().iter().enumerate() {
            let shown = Point::Money(figure.lower as f64, figure.upper as f64);
            assert_eq!(window_point(i as u64 + 121, &entries[..lent], &up.figures), shown);
        }
        for point in [0, 131, u64::MAX] {
            assert_eq!(window_point(point, &entries[..lent], &up.figures), Point::Blank);
        }
    }
}

#[test]
fn listings() {
    let largest = Bracket { lower: u64::MAX, upper: u64::MAX };
    let mut figures = value(&file("c1")).unwrap().figures;
    figures.s5 = largest;
    for verdict in [Verdict::Dekkingstekort, Verdict::Reservetekort, Verdict::VrijVermogen, Verdict::Onbeslist] {
        let text = listing(Ok(Judged { figures, verdict }));
        assert!(text.ends_with(&format!("\nV {verdict}\n")));
        assert!(text.contains("\nS5 18446744073709551615 18446744073709551615\n"));
    }
    assert_eq!(listing(Err(Refusal::Buffer)), "R 13\n");
}

#[test]
fn words_and_version() {
    let repository = PathBuf::from(env!("CARGO_MANIFEST_DIR")).join("../..");
    assert_eq!(VERSION, fs::read_to_string(repository.join("VERSION")).unwrap().trim());
    let words = fs::read_to_string(repository.join("hosts/words.toml")).unwrap();
    assert!(words.contains(&format!("\nkit = \"{}\"\n", kit())));
    assert_eq!(
        (refusal_sentence(0), refusal_sentence(20)),
        ("no refusal has this number", "no refusal has this number")
    );
    assert_eq!((verdict_word(3), verdict_word(5)), ("VRIJ VERMOGEN", "no verdict has this number"));
    assert!(Verdict::Onbeslist.sentence().starts_with("undecided: "));
    assert_eq!(cases().iter().map(|case| case.1.len()).max(), Some(FILE_BYTES));
}

#[test]
fn threads() {
    let files = [file("c1"), file("up"), file("refused_06")];
    let alone: Vec<_> = files.iter().map(|file| value(file)).collect();
    std::thread::scope(|scope| {
        for _ in 0..4 {
            scope.spawn(|| {
                for _ in 0..50 {
                    assert!(files.iter().map(|file| value(file)).eq(alone.iter().cloned()));
                }
            });
        }
    });
}
