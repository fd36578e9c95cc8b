//! The stored files are what the commands of README.md make.

use second::{cases, limits, make};

const STRIPS: &str = include_str!("../../crates/trials/stdin");
const LISTINGS_AND_LIMITS: &str = include_str!("../../crates/trials/stdout");

/// The first line on which two texts differ, for a message that can be read.
fn first_difference(left: &str, right: &str) -> Option<usize> {
    let differs = left.lines().zip(right.lines()).position(|(left, right)| left != right);
    differs.or((left != right).then(|| left.lines().count().min(right.lines().count()))).map(|line| line + 1)
}

#[test]
fn the_strips_are_made_again() {
    assert_eq!(first_difference(&make::case_file(1, 400), STRIPS), None);
}

#[test]
fn the_listings_and_the_limits_are_made_again() {
    let listings = cases::listings(STRIPS).expect("a case file");
    assert_eq!(first_difference(&(listings + &limits::limits()), LISTINGS_AND_LIMITS), None);
}

#[test]
fn the_worked_strip_comes_first() {
    assert!(LISTINGS_AND_LIMITS.starts_with("strip 1\nsheet gray 3 1\nmask 2 chords 1\nopen 64\n7 7 4\nstrip 2\n"));
}
