//! The commands of the second program.

use std::io::{self, Read, Write};
use std::process::ExitCode;

use second::{cases, limits, listing, make};

const USAGE: &str = "\
usage: second list < STRIP           prints the listing of one strip
       second many < CASES           prints the listings of the strips of a case file
       second bytes N < CASES        prints the bytes of strip N of a case file, counted from 1
       second make SEED COUNT        prints a case file
       second limits                 prints what holds on either side of each limit";

fn main() -> ExitCode {
    let arguments: Vec<String> = std::env::args().skip(1).collect();
    match run(&arguments) {
        Ok(()) => ExitCode::SUCCESS,
        Err(trouble) => {
            eprintln!("second: {trouble}");
            ExitCode::FAILURE
        }
    }
}

/// Carries out a command, or tells what hinders it.
fn run(arguments: &[String]) -> Result<(), String> {
    let words: Vec<&str> = arguments.iter().map(String::as_str).collect();
    match words[..] {
        ["list"] => print(listing::listing(&input()?)),
        ["many"] => print(cases::listings(&text()?).map_err(|fault| fault.to_string())?),
        ["bytes", number] => print(strip_number(number)?),
        ["make", seed, count] => {
            let seed = seed.parse().map_err(|_| "SEED is a whole number below 2^64")?;
            let count = count.parse().map_err(|_| "COUNT is a whole number")?;
            print(make::case_file(seed, count))
        }
        ["limits"] => print(limits::limits()),
        _ => Err(USAGE.to_string()),
    }
}

/// The strip with this number in the case file on standard input.
fn strip_number(number: &str) -> Result<Vec<u8>, String> {
    let strips = cases::strips(&text()?).map_err(|fault| fault.to_string())?;
    let place = number.parse().ok().and_then(|number: usize| number.checked_sub(1));
    place
        .and_then(|place| strips.get(place).cloned())
        .ok_or_else(|| format!("N is a number from 1 to {}, the strips of the case file", strips.len()))
}

/// All bytes of standard input.
fn input() -> Result<Vec<u8>, String> {
    let mut bytes = Vec::new();
    io::stdin().lock().read_to_end(&mut bytes).map_err(|trouble| format!("the input cannot be read: {trouble}"))?;
    Ok(bytes)
}

/// All of standard input as text.
fn text() -> Result<String, String> {
    String::from_utf8(input()?).map_err(|_| "the input is no text".to_string())
}

/// Writes an output whole.
fn print(output: impl AsRef<[u8]>) -> Result<(), String> {
    let mut out = io::stdout().lock();
    out.write_all(output.as_ref())
        .and_then(|()| out.flush())
        .map_err(|trouble| format!("the output cannot be written: {trouble}"))
}
