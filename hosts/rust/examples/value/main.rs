//! cargo run --example value FILE: the listing of a case file, and its curve at some terms.
//!
//! Exit status: 0 valued, 1 refused, 2 no answer: the file can't be read, the call is wrong or the output was lost.
use ginghamowl::Valuation;
use std::ffi::OsStr;
use std::fs::File;
use std::io::{self, Read};
use std::process::ExitCode;

mod output;

fn main() -> ExitCode {
    let arguments: Vec<_> = std::env::args_os().skip(1).collect();
    let [argument] = &arguments[..] else {
        return no_answer("usage: value FILE | --version");
    };
    let (status, text) = if argument == "--version" {
        (0, format!("ginghamowl {}\n", ginghamowl::VERSION))
    } else {
        match contents(argument) {
            Err(error) => return no_answer(&format!("{}: {error}", argument.to_string_lossy())),
            Ok(file) => match ginghamowl::value(&file) {
                Err(refusal) => (1, format!("{refusal}\n")),
                Ok(valuation) => (0, shown(&valuation)),
            },
        }
    };
    match output::print(&text) {
        Err(error) => no_answer(&format!("standard output: {error}")),
        Ok(()) => ExitCode::from(status),
    }
}

fn no_answer(why: &str) -> ExitCode {
    output::complain(why);
    ExitCode::from(2)
}

/// The file, or as much of it as decides the refusal.
fn contents(path: &OsStr) -> io::Result<Vec<u8>> {
    let mut bytes = Vec::new();
    File::open(path)?.take(ginghamowl::FILE_BYTES as u64 + 1).read_to_end(&mut bytes)?;
    Ok(bytes)
}

fn shown(valuation: &Valuation) -> String {
    let mut text = String::new();
    for term in [1, 5, 10, 20, 30, 40, 50, 60, 120] {
        let (factor, rate) = (valuation.factors[term - 1], valuation.zero_rates[term - 1]);
        text += &format!(
            "term {term:3}: factor {} to {} × 10^-12, zero rate {} to {} steps\n",
            factor.lower, factor.upper, rate.lower, rate.upper
        );
    }
    text + &ginghamowl::listing(Ok(valuation.judged()))
}
