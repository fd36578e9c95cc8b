//! The four kinds of cell: their picks, their bounds and their words.

use std::fmt;

/// A cell of one kind: a member of a bounded lattice that has a word of 32 bits.
///
/// Its text is the form in which a listing shows it.
pub trait Cell: Copy + Eq + fmt::Debug + fmt::Display + 'static {
    /// The cell that lies under all others.
    const LEAST: Self;
    /// The cell that all others lie under.
    const GREATEST: Self;

    /// The greatest cell that lies under both.
    fn meet(self, other: Self) -> Self;

    /// The least cell that both lie under.
    fn join(self, other: Self) -> Self;

    /// The cell that a word stands for, or none where the word is no cell of this kind.
    fn from_word(word: u32) -> Option<Self>;

    /// The word of this cell.
    fn to_word(self) -> u32;
}

/// A gray level, 0 to 255.
#[derive(Clone, Copy, Debug, PartialEq, Eq)]
pub struct Gray(pub u8);

impl Cell for Gray {
    const LEAST: Self = Gray(0);
    const GREATEST: Self = Gray(255);

    fn meet(self, other: Self) -> Self {
        Gray(self.0.min(other.0))
    }

    fn join(self, other: Self) -> Self {
        Gray(self.0.max(other.0))
    }

    fn from_word(word: u32) -> Option<Self> {
        u8::try_from(word).ok().map(Gray)
    }

    fn to_word(self) -> u32 {
        self.0.into()
    }
}

impl fmt::Display for Gray {
    fn fmt(&self, f: &mut fmt::Formatter<'_>) -> fmt::Result {
        write!(f, "{}", self.0)
    }
}

/// A height in millimetres.
#[derive(Clone, Copy, Debug, PartialEq, Eq)]
pub struct Height(pub i32);

impl Cell for Height {
    const LEAST: Self = Height(i32::MIN);
    const GREATEST: Self = Height(i32::MAX);

    fn meet(self, other: Self) -> Self {
        Height(self.0.min(other.0))
    }

    fn join(self, other: Self) -> Self {
        Height(self.0.max(other.0))
    }

    fn from_word(word: u32) -> Option<Self> {
        Some(Height(i32::from_be_bytes(word.to_be_bytes())))
    }

    fn to_word(self) -> u32 {
        u32::from_be_bytes(self.0.to_be_bytes())
    }
}

impl fmt::Display for Height {
    fn fmt(&self, f: &mut fmt::Formatter<'_>) -> fmt::Result {
        write!(f, "{}", self.0)
    }
}

/// A set of eight marks; mark i is in it where bit i is 1.
#[derive(Clone, Copy, Debug, PartialEq, Eq)]
pub struct Flags(pub u8);

impl Cell for Flags {
    const LEAST: Self = Flags(0);
    const GREATEST: Self = Flags(0xFF);

    fn meet(self, other: Self) -> Self {
        Flags(self.0 & other.0)
    }

    fn join(self, other: Self) -> Self {
        Flags(self.0 | other.0)
    }

    fn from_word(word: u32) -> Option<Self> {
        u8::try_from(word).ok().map(Flags)
    }

    fn to_word(self) -> u32 {
        self.0.into()
    }
}

impl fmt::Display for Flags {
    fn fmt(&self, f: &mut fmt::Formatter<'_>) -> fmt::Result {
        write!(f, "{}", self.0)
    }
}

/// An echo strength: a float of 32 bits that is a number and not the negative zero, known by its rank.
#[derive(Clone, Copy, Debug, PartialEq, Eq)]
pub struct Return {
    rank: i64,
}

impl Return {
    /// 2³¹: words below it are their own rank, the others rank below zero.
    const SIGN: i64 = 1 << 31;
    /// The word of the positive infinity.
    const INFINITY: i64 = 0x7F80_0000;

    /// The rank of this cell: its place in the order of strengths, 0 for zero.
    pub fn rank(self) -> i64 {
        self.rank
    }
}

impl Cell for Return {
    const LEAST: Self = Return { rank: -Return::INFINITY };
    const GREATEST: Self = Return { rank: Return::INFINITY };

    fn meet(self, other: Self) -> Self {
        Return { rank: self.rank.min(other.rank) }
    }

    fn join(self, other: Self) -> Self {
        Return { rank: self.rank.max(other.rank) }
    }

    fn from_word(word: u32) -> Option<Self> {
        match word {
            0x7F80_0001..=0x7FFF_FFFF | 0xFF80_0001..=0xFFFF_FFFF => None,
            _ => {
                let bits = i64::from(word);
                let rank = if bits < Self::SIGN { bits } else { Self::SIGN - bits };
                Some(Return { rank })
            }
        }
    }

    fn to_word(self) -> u32 {
        let bits = if self.rank >= 0 { self.rank } else { Self::SIGN - self.rank };
        u32::try_from(bits).expect("the rank of a return is that of a word of 32 bits")
    }
}

impl fmt::Display for Return {
    fn fmt(&self, f: &mut fmt::Formatter<'_>) -> fmt::Result {
        write!(f, "{:08X}", self.to_word())
    }
}

/// The name of a kind of cell, as a head numbers it and a listing writes it.
#[derive(Clone, Copy, Debug, PartialEq, Eq)]
pub enum CellKind {
    Gray,
    Height,
    Flags,
    Return,
}

impl CellKind {
    /// All kinds, in the order of their numbers.
    pub const ALL: [CellKind; 4] = [CellKind::Gray, CellKind::Height, CellKind::Flags, CellKind::Return];

    /// The kind with this number in a head.
    pub fn from_number(number: u32) -> Option<Self> {
        Self::ALL.into_iter().find(|kind| kind.number() == number)
    }

    /// The number of this kind in a head, 1 to 4.
    pub fn number(self) -> u32 {
        match self {
            CellKind::Gray => 1,
            CellKind::Height => 2,
            CellKind::Flags => 3,
            CellKind::Return => 4,
        }
    }

    /// The word for this kind in a listing.
    pub fn name(self) -> &'static str {
        match self {
            CellKind::Gray => "gray",
            CellKind::Height => "height",
            CellKind::Flags => "flags",
            CellKind::Return => "return",
        }
    }

    /// Whether a raw word is a cell of this kind.
    pub fn is_cell(self, word: u32) -> bool {
        match self {
            CellKind::Gray => Gray::from_word(word).is_some(),
            CellKind::Height => Height::from_word(word).is_some(),
            CellKind::Flags => Flags::from_word(word).is_some(),
            CellKind::Return => Return::from_word(word).is_some(),
        }
    }
}

#[cfg(test)]
mod tests {
    use super::*;

    fn echo(word: u32) -> Return {
        Return::from_word(word).expect("a word of a return")
    }

    #[test]
    fn gray_words_are_0_to_255() {
        assert_eq!(Gray::from_word(0), Some(Gray(0)));
        assert_eq!(Gray::from_word(255), Some(Gray(255)));
        assert_eq!(Gray::from_word(256), None);
        assert_eq!(Gray::from_word(u32::MAX), None);
    }

    #[test]
    fn gray_picks_the_smaller_and_the_greater() {
        assert_eq!(Gray(7).meet(Gray(9)), Gray(7));
        assert_eq!(Gray(7).join(Gray(9)), Gray(9));
    }

    #[test]
    fn heights_are_in_twos_complement() {
        assert_eq!(Height::from_word(0xFFFF_FFFF), Some(Height(-1)));
        assert_eq!(Height::from_word(0x8000_0000), Some(Height(-2_147_483_648)));
        assert_eq!(Height(-2).to_word(), 0xFFFF_FFFE);
        assert_eq!(Height(-3).meet(Height(2)), Height(-3));
        assert_eq!(Height(-3).to_string(), "-3");
    }

    #[test]
    fn flags_meet_in_both_and_join_in_either() {
        assert_eq!(Flags(0b1100).meet(Flags(0b1010)), Flags(0b1000));
        assert_eq!(Flags(0b1100).join(Flags(0b1010)), Flags(0b1110));
        assert_eq!(Flags::from_word(256), None);
    }

    #[test]
    fn returns_are_all_words_but_not_a_number() {
        for word in [0, 0x8000_0000, 0x7F80_0000, 0xFF80_0000, 0x0000_0001, 0x3F80_0000] {
            assert!(CellKind::Return.is_cell(word), "{word:08X}");
        }
        for word in [0x7F80_0001, 0x7FC0_0000, 0x7FFF_FFFF, 0xFF80_0001, 0xFFFF_FFFF] {
            assert!(!CellKind::Return.is_cell(word), "{word:08X}");
        }
    }

    #[test]
    fn ranks_go_by_strength() {
        assert_eq!(echo(0xBF80_0000).rank(), -1_065_353_216);
        assert_eq!(echo(0x3F80_0000).rank(), 1_065_353_216);
        assert_eq!(echo(0x8000_0000).rank(), 0);
        assert_eq!(echo(0xFF80_0000), Return::LEAST);
        assert_eq!(echo(0x7F80_0000), Return::GREATEST);
    }

    #[test]
    fn returns_pick_by_rank() {
        let (minus_two, minus_one, one) = (echo(0xC000_0000), echo(0xBF80_0000), echo(0x3F80_0000));
        assert_eq!(minus_two.meet(minus_one), minus_two);
        assert_eq!(minus_two.join(minus_one), minus_one);
        assert_eq!(minus_one.meet(one), minus_one);
        assert_eq!(minus_one.join(one).to_string(), "3F800000");
    }

    #[test]
    fn the_negative_zero_is_zero() {
        assert_eq!(echo(0x8000_0000).to_string(), "00000000");
        assert_eq!(echo(0x8000_0001).to_string(), "80000001");
        assert_eq!(echo(0xFF80_0000).to_string(), "FF800000");
    }

    #[test]
    fn kinds_are_numbered_from_1_to_4() {
        assert_eq!(CellKind::from_number(0), None);
        assert_eq!(CellKind::from_number(2), Some(CellKind::Height));
        assert_eq!(CellKind::from_number(4), Some(CellKind::Return));
        assert_eq!(CellKind::from_number(5), None);
    }
}
