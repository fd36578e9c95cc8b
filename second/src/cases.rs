//! Case files: many strips as text, a line each.
//!
//! A blank line and a line that begins with `#` are passed over. Every other line is a strip. It is made of parts with
//! blanks between them, whose bytes stand one behind the other: hexadecimal digits, two to a byte; or `repeat HEX N`,
//! the bytes HEX N times; or `empty`, no bytes.

use std::fmt;

use crate::listing::listing;
use crate::strip::WORD;

/// The most bytes that a line may give.
const MOST: usize = 1 << 20;

/// As many equal words in a row are written as a repeat.
const WORTH_A_REPEAT: usize = 8;

/// A strip of a case file: its line, and what the comment before it says.
#[derive(Clone, Debug, PartialEq, Eq)]
pub struct Case {
    pub comment: String,
    pub line: String,
}

impl fmt::Display for Case {
    fn fmt(&self, f: &mut fmt::Formatter<'_>) -> fmt::Result {
        write!(f, "# {}\n{}\n", self.comment, self.line)
    }
}

/// What is wrong with a line.
#[derive(Clone, Copy, Debug, PartialEq, Eq)]
pub enum Fault {
    /// A part is not an even number of hexadecimal digits.
    Digits,
    /// A repeat has no number.
    Count,
    /// The line gives more bytes than are taken.
    TooMany,
}

impl fmt::Display for Fault {
    fn fmt(&self, f: &mut fmt::Formatter<'_>) -> fmt::Result {
        match self {
            Fault::Digits => write!(f, "a part is an even number of hexadecimal digits"),
            Fault::Count => write!(f, "a repeat is the word repeat, digits and a number"),
            Fault::TooMany => write!(f, "a line gives at most {MOST} bytes"),
        }
    }
}

/// A fault and its line, counted from 1.
#[derive(Clone, Copy, Debug, PartialEq, Eq)]
pub struct FaultyLine {
    pub line: usize,
    pub fault: Fault,
}

impl fmt::Display for FaultyLine {
    fn fmt(&self, f: &mut fmt::Formatter<'_>) -> fmt::Result {
        write!(f, "line {}: {}", self.line, self.fault)
    }
}

/// The bytes of a part of hexadecimal digits.
fn bytes_of(part: &str) -> Result<Vec<u8>, Fault> {
    let digits: Option<Vec<u32>> = part.chars().map(|sign| sign.to_digit(16)).collect();
    let digits = digits.filter(|digits| digits.len() % 2 == 0).ok_or(Fault::Digits)?;
    Ok(digits.chunks_exact(2).map(|pair| (pair[0] * 16 + pair[1]) as u8).collect())
}

/// The strip of a line.
pub fn strip_of_line(line: &str) -> Result<Vec<u8>, Fault> {
    let mut strip = Vec::new();
    let mut parts = line.split_whitespace();
    while let Some(part) = parts.next() {
        let (bytes, times) = match part {
            "empty" => continue,
            "repeat" => {
                let bytes = bytes_of(parts.next().ok_or(Fault::Digits)?)?;
                let times: usize = parts.next().and_then(|number| number.parse().ok()).ok_or(Fault::Count)?;
                (bytes, times)
            }
            digits => (bytes_of(digits)?, 1),
        };
        let more = bytes.len().checked_mul(times).filter(|&more| more <= MOST - strip.len());
        strip.reserve(more.ok_or(Fault::TooMany)?);
        strip.extend(bytes.iter().cycle().take(bytes.len() * times));
    }
    Ok(strip)
}

/// The strips of a case file, in order.
pub fn strips(text: &str) -> Result<Vec<Vec<u8>>, FaultyLine> {
    text.lines()
        .enumerate()
        .filter(|(_, line)| !line.trim().is_empty() && !line.starts_with('#'))
        .map(|(before, line)| strip_of_line(line).map_err(|fault| FaultyLine { line: before + 1, fault }))
        .collect()
}

/// The listings of the strips of a case file, each behind a line with its number, counted from 1.
pub fn listings(text: &str) -> Result<String, FaultyLine> {
    let strips = strips(text)?;
    Ok((1..).zip(&strips).map(|(number, strip)| format!("strip {number}\n{}", listing(strip))).collect())
}

/// The line of a strip: its words as digits, and many equal words in a row as a repeat.
pub fn line_of_strip(strip: &[u8]) -> String {
    if strip.is_empty() {
        return "empty".to_string();
    }
    let words: Vec<&[u8]> = strip.chunks(WORD).collect();
    let parts: Vec<String> = words
        .chunk_by(|left, right| left == right)
        .flat_map(|run| {
            let digits: String = run[0].iter().map(|byte| format!("{byte:02X}")).collect();
            if run.len() < WORTH_A_REPEAT {
                vec![digits; run.len()]
            } else {
                vec![format!("repeat {digits} {}", run.len())]
            }
        })
        .collect();
    parts.join(" ")
}

#[cfg(test)]
mod tests {
    use super::*;

    #[test]
    fn digits_are_bytes() {
        assert_eq!(strip_of_line("11003001 70"), Ok(vec![0x11, 0, 0x30, 1, 0x70]));
        assert_eq!(strip_of_line("aB"), Ok(vec![0xAB]));
        assert_eq!(strip_of_line("123"), Err(Fault::Digits));
        assert_eq!(strip_of_line("1G"), Err(Fault::Digits));
    }

    #[test]
    fn repeats_and_the_empty_strip() {
        assert_eq!(strip_of_line("01 repeat 0203 2 04"), Ok(vec![1, 2, 3, 2, 3, 4]));
        assert_eq!(strip_of_line("empty"), Ok(vec![]));
        assert_eq!(strip_of_line("repeat 01 0"), Ok(vec![]));
        assert_eq!(strip_of_line("repeat 01"), Err(Fault::Count));
        assert_eq!(strip_of_line("repeat"), Err(Fault::Digits));
        assert_eq!(strip_of_line("repeat 00 99999999999"), Err(Fault::TooMany));
        assert_eq!(strip_of_line(&format!("00 repeat 00 {}", usize::MAX)), Err(Fault::TooMany));
    }

    #[test]
    fn blank_lines_and_comments_are_passed_over() {
        assert_eq!(strips("# one\n01\n\n  \n02\n"), Ok(vec![vec![1], vec![2]]));
        assert_eq!(strips("01\n\nx\n"), Err(FaultyLine { line: 3, fault: Fault::Digits }));
    }

    #[test]
    fn a_strip_is_written_as_it_is_read() {
        for line in ["empty", "01", "01020304 05", "repeat 01020304 8", "00000000 repeat 00000001 9 000000"] {
            assert_eq!(line_of_strip(&strip_of_line(line).unwrap()), line);
        }
        assert_eq!(line_of_strip(&[1; 29]), "01010101 01010101 01010101 01010101 01010101 01010101 01010101 01");
    }

    #[test]
    fn listings_are_numbered() {
        let text = "11000000 20000000 70000000\nempty\n";
        assert_eq!(listings(text), Ok("strip 1\nsheet gray 0 0\nstrip 2\nstrip refused 2 word 0\n".to_string()));
    }
}
