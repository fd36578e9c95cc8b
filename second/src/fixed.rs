//! The strips that every case file begins with: each rule of the reading and of the listing, and both sides of limits.
//!
//! They are written as lines of a case file, so that each can be checked by eye against the layout of a strip.

use crate::cases::Case;

/// Strips that are read, and do something worth seeing.
const READ: &[(&str, &str)] = &[
    ("the worked strip", "11003001 20000003 00000007 00000009 00000004 500001EF 5000020F 60000003 70000000"),
    ("no cells and no steps", "11000000 20000000 70000000"),
    (
        "the worked strip with a window over its two right columns",
        "11003001 20000003 00000007 00000009 00000004 30001000 40002001 500001EF 5000020F 60000003 70000000",
    ),
    ("eroded", "11003001 20000003 00000007 00000009 00000004 500001EF 5000020F 60000001 70000000"),
    ("dilated", "11003001 20000003 00000007 00000009 00000004 500001EF 5000020F 60000002 70000000"),
    ("closed", "11003001 20000003 00000007 00000009 00000004 500001EF 5000020F 60000004 70000000"),
    (
        "opened, closed, opened, closed",
        "11003001 20000003 00000007 00000009 00000004 500001EF 5000020F 60000003 60000004 60000003 60000004 70000000",
    ),
    (
        "eroded by (-1, 0), then by (1, 0): at the edge the first finds no cell",
        "11002001 20000002 00000007 00000009 500001CF 60000001 5000020F 60000001 70000000",
    ),
    (
        "a bend, opened and closed under the square (0, 0) (1, 0) (0, 1) (1, 1)",
        "11005004 20000014 00000005 00000005 00000005 00000005 00000002 00000005 00000005 00000002 00000005 00000005 \
         00000002 00000002 00000002 00000005 00000005 00000002 00000002 00000002 00000002 00000008 \
         500001EF 5000020F 500001F0 50000210 60000003 60000004 70000000",
    ),
    (
        "the letter H on a sheet of 4 by 4, eroded and closed",
        "11004004 20000010 00000001 00000002 00000003 00000004 00000005 00000006 00000007 00000008 \
         00000009 0000000A 0000000B 0000000C 0000000D 0000000E 0000000F 00000010 \
         500001CE 5000020E 500001CF 500001EF 5000020F 500001D0 50000210 60000001 60000004 70000000",
    ),
    ("gray words 0 and 255", "11002001 20000002 00000000 000000FF 70000000"),
    ("flags words 0 and 255", "13002001 20000002 00000000 000000FF 70000000"),
    ("flags meet in both", "13003001 20000003 00000003 00000006 00000004 500001EF 5000020F 60000001 70000000"),
    ("flags join in either", "13003001 20000003 00000003 00000006 00000004 500001EF 5000020F 60000002 70000000"),
    ("a height sheet is shown with its southmost row last", "12002002 20000004 00000001 00000002 00000003 00000004 70000000"),
    (
        "heights below zero, and the least and the greatest",
        "12002003 20000006 FFFFFFFF 00000000 80000000 7FFFFFFF FFFFFF38 000000C8 70000000",
    ),
    (
        "a height sheet eroded under (0, 0) (0, 1), of which the second lies south",
        "12001003 20000003 00000001 FFFFFFFE 00000003 500001EF 500001F0 60000001 70000000",
    ),
    (
        "a window on a height sheet counts on what is shown: row 0 is the northmost",
        "12002003 20000006 00000001 00000002 00000003 00000004 00000005 00000006 30000000 40002001 70000000",
    ),
    (
        "a window on the two lower rows of a height sheet, dilated: the row above it is not seen",
        "12001003 20000003 00000002 00000003 00000009 30000001 40001002 500001EF 500001F0 60000002 70000000",
    ),
    ("raw words of heights that would say something elsewhere", "12002002 20000004 70000000 11003001 30000000 60000001 70000000"),
    ("return 80000000 is listed as zero, without a call", "14002001 20000002 80000000 00000000 70000000"),
    (
        "return 80000000, eroded with its neighbour",
        "14003001 20000003 80000000 00000001 80000001 500001EF 5000020F 60000001 70000000",
    ),
    ("return infinities are cells", "14002001 20000002 7F800000 FF800000 70000000"),
    (
        "returns below and above zero, opened",
        "14005001 20000005 BF800000 C0000000 3F800000 FF7FFFFF 7F7FFFFF 500001EF 5000020F 60000003 70000000",
    ),
    (
        "returns below and above zero, closed",
        "14005001 20000005 BF800000 C0000000 3F800000 FF7FFFFF 7F7FFFFF 500001EF 5000020F 60000004 70000000",
    ),
    ("a return sheet whose mask finds no cell, eroded", "14001001 20000001 3F800000 500003DE 60000001 70000000"),
    ("a return sheet whose mask finds no cell, dilated", "14001001 20000001 3F800000 500003DE 60000002 70000000"),
    ("a height sheet whose mask finds no cell, eroded", "12001001 20000001 00000005 50000000 60000001 70000000"),
    ("a height sheet whose mask finds no cell, dilated", "12001001 20000001 00000005 50000000 60000002 70000000"),
    ("a flags sheet whose mask finds no cell, opened", "13001001 20000001 00000005 500001FE 60000003 70000000"),
    ("a gray sheet whose mask finds no cell, closed", "11001001 20000001 00000005 500001FE 60000004 70000000"),
    ("a head of 5 by 0", "11005000 20000000 70000000"),
    ("a head of 0 by 5", "11000005 20000000 70000000"),
    ("a height head of 5 by 0", "12005000 20000000 70000000"),
    ("a flags head of 4095 by 0", "13FFF000 20000000 70000000"),
    ("a return head of 0 by 4095", "14000FFF 20000000 70000000"),
    ("a head of 5 by 0 and a call without a mask: 9 before 10", "11005000 20000000 60000003 70000000"),
    ("a head of 0 by 5 and a call with a mask", "11000005 20000000 500001EF 60000001 70000000"),
    ("a window on a head of 5 by 0", "11005000 20000000 30000000 40005005 70000000"),
    ("a window without columns", "11002001 20000002 00000001 00000002 30000000 40000001 70000000"),
    ("a window without rows", "11002001 20000002 00000001 00000002 30000000 40001000 70000000"),
    ("a window without columns and rows", "11002001 20000002 00000001 00000002 30001000 40000000 70000000"),
    ("a window right of the sheet", "11002001 20000002 00000001 00000002 30002000 40001001 70000000"),
    ("a window below the sheet", "11002001 20000002 00000001 00000002 30000001 40001001 70000000"),
    ("a window off the sheet and a call with a mask", "11002001 20000002 00000001 00000002 30002000 40001001 500001EF 60000002 70000000"),
    ("a window that is the sheet", "11002001 20000002 00000001 00000002 30000000 40002001 70000000"),
    ("a window larger than the sheet", "11002001 20000002 00000001 00000002 30000000 40FFFFFF 70000000"),
    ("a window whose column plus width is 4096", "11002001 20000002 00000001 00000002 30001000 40FFF001 70000000"),
    ("a window whose row plus height is 4096", "11001002 20000002 00000001 00000002 30000001 40001FFF 70000000"),
    ("a window whose column plus width is 8190", "11002001 20000002 00000001 00000002 30FFF000 40FFF001 70000000"),
    (
        "a filter on a window finds no cell outside it",
        "11003003 20000009 00000001 00000001 00000001 00000001 00000009 00000008 00000001 00000007 00000006 \
         30001001 40002002 500001CE 500001EF 60000001 70000000",
    ),
    ("a call without a mask", "11002001 20000002 00000001 00000002 60000001 70000000"),
    ("each call without a mask, then each with one", "11002001 20000002 00000001 00000002 60000001 60000002 60000003 60000004 500001CF 500001EF 60000004 60000003 60000002 60000001 70000000"),
    ("a mask behind the last call", "11002001 20000002 00000001 00000002 500001EF 60000001 500001EF 5000020F 70000000"),
    ("a mask and no call", "11002001 20000002 00000001 00000002 500001EF 70000000"),
    ("a call parts two masks", "11003001 20000003 00000007 00000009 00000004 500001EF 60000001 5000020F 60000001 70000000"),
    ("points that come twice count once", "11002001 20000002 00000001 00000002 500001EF 5000020F 500001EF 5000020F 5000020F 60000002 70000000"),
    ("points out of order, chords all the same", "11002001 20000002 00000001 00000002 5000020F 500001F0 500001CF 500001AE 500001EF 60000001 70000000"),
    ("points at offsets of 15", "11001001 20000001 00000005 50000000 500003C0 5000001E 500003DE 60000001 70000000"),
    ("a field of 31 to the right", "11001001 20000001 00000005 500001EF 500003EF 60000001 70000000"),
    ("a field of 31 downward", "11001001 20000001 00000005 500001FF 60000001 70000000"),
    ("fields of 31 both", "11001001 20000001 00000005 500003FF 70000000"),
    ("of two points beyond 15 the first is told", "11001001 20000001 00000005 500001EF 500003EF 500001FF 500001EF 70000000"),
    (
        "a mask that is refused, and the one before stays",
        "11003001 20000003 00000007 00000009 00000004 500001EF 5000020F 60000001 500001EF 500003EF 500001FF 60000001 70000000",
    ),
    (
        "a mask that is refused behind a window, and one that is made later",
        "11002001 20000002 00000001 00000002 30000000 40002001 500003E0 60000003 500001CF 60000002 70000000",
    ),
    ("the widest sheet that is filtered, 2048 by 1", "11800001 20000800 repeat 00000007 2047 00000009 500001EF 5000020F 60000003 70000000"),
    ("2049 by 1", "11801001 20000801 repeat 00000007 2048 00000009 500001EF 5000020F 60000003 70000000"),
    ("the highest sheet that is filtered, 1 by 2048", "12001800 20000800 repeat FFFFFFF9 2047 00000009 500001EF 500001F0 60000004 70000000"),
    ("1 by 2049", "13001801 20000801 repeat 00000007 2048 00000009 500001EF 500001F0 60000004 70000000"),
    ("2049 by 1 without a mask: 9 before 10", "11801001 20000801 repeat 00000007 2049 60000003 70000000"),
    ("2049 by 1 and a table that would be too small: 9 before 11", "11801001 20000801 repeat 00000007 2049 500001E0 500001FE 60000002 70000000"),
    (
        "a window of 2048 by 1 on a sheet of 2049 by 1",
        "11801001 20000801 repeat 00000007 2048 00000009 30001000 40FFF001 500001EF 5000020F 60000002 70000000",
    ),
    (
        "8 rows and 2 lengths on a width of 994: the table of 16384 cells just serves",
        "113E2001 200003E2 repeat 00000007 993 00000009 500001EF 5000020F 500001F6 60000002 70000000",
    ),
    (
        "8 rows and 2 lengths on a width of 995: the table is too small",
        "113E3001 200003E3 repeat 00000007 994 00000009 500001EF 5000020F 500001F6 60000002 60000003 70000000",
    ),
    (
        "8 rows and 4 lengths on a window 482 wide: the table of 16384 cells just serves",
        "111E3001 200001E3 repeat 00000007 482 00000009 30001000 401E2001 \
         500001E8 50000208 50000228 50000248 500001E9 50000209 50000229 500001EF 60000004 70000000",
    ),
    (
        "8 rows and 4 lengths on a width of 483: the table is too small, and the next mask serves",
        "111E3001 200001E3 repeat 00000007 482 00000009 \
         500001E8 50000208 50000228 50000248 500001E9 50000209 50000229 500001EF 60000004 500001CF 60000002 70000000",
    ),
    ("a strip of 65536 bytes, of one cell and many points", "11001001 20000001 00000007 repeat 500001EF 16380 70000000"),
    (
        "a strip of 65536 bytes, of 4094 by 4 cells, a window of 3 by 2 and 3 steps",
        "11FFE004 20003FF8 repeat 00000007 16374 00000005 00000003 30FFB002 40FFF002 500001EF 5000020F 60000001 70000000",
    ),
];

/// Strips that are refused, by number and word.
const REFUSED: &[(&str, &str)] = &[
    ("1: 65537 bytes", "11001001 20000001 00000007 repeat 500001EF 16380 70000000 00"),
    ("1: 65540 bytes, a point more", "11001001 20000001 00000007 repeat 500001EF 16381 70000000"),
    ("1: 65537 bytes of which none says anything", "repeat 00 65537"),
    ("65536 bytes of which none says anything: 3", "repeat 00 65536"),
    ("2 behind 65536 bytes: the end is missing", "11001001 20000001 00000007 repeat 500001EF 16381"),
    ("4 at the last word of 65536 bytes", "11001001 20000001 00000007 repeat 500001EF 16380 30000000"),
    ("2: nothing at all", "empty"),
    ("2: one byte", "11"),
    ("2: two bytes", "1100"),
    ("2: three bytes", "110030"),
    ("2: a head alone", "11003001"),
    ("2: a head and a byte", "11003001 20"),
    ("2: no raw words", "11003001 20000003"),
    ("2: a raw word too few", "11003001 20000003 00000007 00000009"),
    ("2: three bytes of a raw word", "11003001 20000003 00000007 00000009 000000"),
    ("2: no end behind the cells", "11001001 20000001 00000007"),
    ("2: a corner and nothing behind it", "11001001 20000001 00000007 30000000"),
    ("2: a window and no end", "11001001 20000001 00000007 30000000 40001001"),
    ("2: points and no end", "11001001 20000001 00000007 500001EF"),
    ("2: two bytes of the end", "11001001 20000001 00000007 500001EF 60000001 7000"),
    ("2: 4095 by 4095 cells are announced, none is there", "11FFFFFF 20FFE001"),
    ("2: 4095 by 4095 cells are announced, two are there", "11FFFFFF 20FFE001 00000000 000000FF"),
    ("3: kind 0 at the head", "01003001 20000003"),
    ("3: kind 8 at the head", "81003001"),
    ("3: kind 15 at the head", "FFFFFFFF"),
    ("3: kind 0 at the cells", "11001001 00000001 00000007"),
    ("3: kind 9 at a step", "11001001 20000001 00000007 90000000"),
    ("3: call 0", "11001001 20000001 00000007 500001EF 60000000 70000000"),
    ("3: call 5", "11001001 20000001 00000007 500001EF 60000005 70000000"),
    ("3: a call of 16 and 1", "11001001 20000001 00000007 500001EF 60000011 70000000"),
    ("3: a call of 2 with bit 27", "11001001 20000001 00000007 500001EF 68000002 70000000"),
    ("3: a point with bit 10", "11001001 20000001 00000007 500005EF 60000001 70000000"),
    ("3: a point with bit 27", "11001001 20000001 00000007 580001EF 60000001 70000000"),
    ("3: a corner with bit 24", "11001001 20000001 00000007 31000000 40001001 70000000"),
    ("3: a corner with bit 27", "11001001 20000001 00000007 38000000 40001001 70000000"),
    ("3: an extent with bit 24", "11001001 20000001 00000007 30000000 41001001 70000000"),
    ("3: an extent with bit 27", "11001001 20000001 00000007 30000000 48001001 70000000"),
    ("3: an end with a body of 1", "11001001 20000001 00000007 70000001"),
    ("3: an end with bit 27", "11001001 20000001 00000007 78000000"),
    ("3 before 4: a corner with an unused bit where the head is due", "31000000 20000000 70000000"),
    ("3 before 4: a point with an unused bit where the cells are due", "11001001 500005EF"),
    ("3 before 4: a call 0 where an extent is due", "11001001 20000001 00000007 30000000 60000000"),
    ("3 before 4: an extent with an unused bit behind a step", "11001001 20000001 00000007 500001EF 44001001 70000000"),
    ("3 before 4: an end with a body where the head is due", "70000001"),
    ("4: cells where the head is due", "20000000 70000000"),
    ("4: a corner where the head is due", "30000000"),
    ("4: an extent where the head is due", "40000000"),
    ("4: a point where the head is due", "500001EF"),
    ("4: a call where the head is due", "60000001"),
    ("4: an end where the head is due", "70000000"),
    ("4: a second head where the cells are due", "11001001 11001001"),
    ("4 before 5: a head with kind of cell 9 where the cells are due", "11001001 19001001"),
    ("4 before 5: a head with kind of cell 0 at a step", "11001001 20000001 00000007 10001001"),
    ("4 before 5: cells with a wrong number at a step", "11001001 20000001 00000007 20000005"),
    ("4: a corner where the cells are due", "11001001 30000000"),
    ("4: an end where the cells are due, though no cell is announced", "11000000 70000000"),
    ("4: a head behind the cells", "11001001 20000001 00000007 11001001"),
    ("4: cells behind the cells", "11001001 20000001 00000007 20000001"),
    ("4: a raw word too many, which is a word of kind 2", "12001001 20000001 00000007 20000001 70000000"),
    ("4: a corner and a point", "11001001 20000001 00000007 30000000 500001EF 70000000"),
    ("4: a corner and the end", "11001001 20000001 00000007 30000000 70000000"),
    ("4: a corner and a corner", "11001001 20000001 00000007 30000000 30000000 40001001 70000000"),
    ("4: an extent without a corner", "11001001 20000001 00000007 40001001 70000000"),
    ("4: an extent and then a corner", "11001001 20000001 00000007 40001001 30000000 70000000"),
    ("4: a second window", "11001001 20000001 00000007 30000000 40001001 30000000 40001001 70000000"),
    ("4: a second extent", "11001001 20000001 00000007 30000000 40001001 40001001 70000000"),
    ("4: a window behind a point", "11001001 20000001 00000007 500001EF 30000000 40001001 70000000"),
    ("4: a window behind a call", "11001001 20000001 00000007 500001EF 60000001 30000000 40001001 70000000"),
    ("4: a head behind a step", "11001001 20000001 00000007 500001EF 11001001 70000000"),
    ("4: one byte behind the end", "11001001 20000001 00000007 70000000 00"),
    ("4: two bytes behind the end", "11001001 20000001 00000007 70000000 7000"),
    ("4: three bytes behind the end", "11001001 20000001 00000007 70000000 700000"),
    ("4: four bytes behind the end, an end", "11001001 20000001 00000007 70000000 70000000"),
    ("4: four bytes behind the end, which say nothing", "11001001 20000001 00000007 70000000 FFFFFFFF"),
    ("4: five bytes behind the end", "11001001 20000001 00000007 70000000 500001EF 00"),
    ("5: a cell too few is announced", "11003001 20000002 00000007 00000009 70000000"),
    ("5: a cell too many is announced", "11003001 20000004 00000007 00000009 00000004 00000004 70000000"),
    ("5: cells of 5 by 0 are 0", "11005000 20000005 00000000 00000000 00000000 00000000 00000000 70000000"),
    ("5: 4095 by 4095 and one cell too many", "11FFFFFF 20FFE002"),
    ("5: 4096 by 4096 cells for a head of 0 by 0", "11000000 21000000"),
    ("5 before 2: a head with kind of cell 9 alone", "19003001"),
    ("6: gray 256", "11002001 20000002 000000FF 00000100 70000000"),
    ("6: a gray word with its highest bit set", "11001001 20000001 80000000 70000000"),
    ("6: an end where a gray word is due", "11002001 20000002 00000007 70000000"),
    ("6: flags 256", "13002001 20000002 000000FF 00000100 70000000"),
    ("6: return 7F800001", "14002001 20000002 7F800000 7F800001 70000000"),
    ("6: return 7FC00000", "14002001 20000002 7F800000 7FC00000 70000000"),
    ("6: return 7FFFFFFF", "14002001 20000002 7FFFFFFF 7F800000 70000000"),
    ("6: return FF800001", "14002001 20000002 FF800000 FF800001 70000000"),
    ("6: return FFFFFFFF", "14002001 20000002 FFFFFFFF FFFFFFFF 70000000"),
    ("6: 4095 by 4095 cells are announced, the third is none", "11FFFFFF 20FFE001 00000000 000000FF 00000100"),
    (
        "6 before the rest: a raw word that is no cell in a strip that is wrong further on",
        "11001001 20000001 00000100 00000000",
    ),
];

/// The fixed strips, the worked strip first.
pub fn fixed() -> Vec<Case> {
    let told = |&(comment, line): &(&str, &str)| case(comment, line.to_string());
    let heads = [0].into_iter().chain(5..16).map(|kind| {
        let comment = format!("5: a head with kind of cell {kind}");
        Case { comment, line: format!("1{kind:X}001001 20000001 00000007 70000000") }
    });
    READ.iter().map(told).chain(large_masks()).chain(REFUSED.iter().map(told)).chain(heads).collect()
}

/// A strip with what it is for.
fn case(comment: &str, line: String) -> Case {
    Case { comment: comment.to_string(), line }
}

/// Strips with masks of very many points.
fn large_masks() -> [Case; 3] {
    let square = points(|_, _| true);
    let staircase = points(|u, v| u <= v);
    let comb = points(|u, _| u % 2 == 0);
    let cells = "00000007 00000001 00000009 00000003 00000005 00000008";
    [
        case("all 961 points on a sheet of 3 by 2", format!("11003002 20000006 {cells} {square} 60000003 70000000")),
        case(
            "a mask with every length from 1 to 31: no width is small enough for the table",
            format!("13001001 20000001 00000007 {staircase} 60000001 70000000"),
        ),
        case("a mask of every other column", format!("14003002 20000006 {cells} {comb} 60000002 70000000")),
    ]
}

/// The words of all points (u, v) that are wanted, row by row.
fn points(wanted: impl Fn(i32, i32) -> bool) -> String {
    let wanted = &wanted;
    let words: Vec<String> = (-15..=15)
        .flat_map(|v| (-15..=15).filter(move |&u| wanted(u, v)).map(move |u| (u, v)))
        .map(|(u, v)| format!("{:08X}", 0x5000_0000 + 32 * (u + 15) + (v + 15)))
        .collect();
    words.join(" ")
}

#[cfg(test)]
mod tests {
    use super::*;
    use crate::cases::strip_of_line;
    use crate::listing::listing;
    use crate::strip;

    fn bytes(line: &str) -> Vec<u8> {
        strip_of_line(line).expect("a line of a case file")
    }

    #[test]
    fn strips_that_are_read_are_read() {
        for (comment, line) in READ {
            assert!(strip::read(&bytes(line)).is_ok(), "{comment}");
        }
        for case in large_masks() {
            assert!(strip::read(&bytes(&case.line)).is_ok(), "{}", case.comment);
        }
    }

    #[test]
    fn strips_that_are_refused_tell_the_number_in_their_comment() {
        for (comment, line) in REFUSED {
            let refusal = strip::read(&bytes(line)).expect_err(comment);
            let number = refusal.number().to_string();
            let (first, rest) = comment.split_once([':', ' ']).expect("a comment has words");
            let told = if first.len() == 1 { first } else { rest.rsplit(' ').next().expect("a last word") };
            assert_eq!(told, number, "{comment}");
        }
    }

    #[test]
    fn heads_without_a_kind_of_cell() {
        let heads = fixed().into_iter().filter(|case| case.comment.starts_with("5: a head with kind of cell "));
        let listings: Vec<String> = heads.map(|case| listing(&bytes(&case.line))).collect();
        assert_eq!(listings, ["strip refused 5 word 0\n"; 12]);
    }

    #[test]
    fn the_table_just_serves_and_is_just_too_small() {
        let listed = |begin: &str| {
            let (_, line) = READ.iter().find(|(comment, _)| comment.starts_with(begin)).expect("a fixed strip");
            listing(&bytes(line)).lines().take(3).collect::<Vec<_>>().join("; ")
        };
        // (1 + 8 - 1) * (994 + 31 - 2) + 994 * 1 = 8184 + 994 picks.
        assert_eq!(listed("8 rows and 2 lengths on a width of 994"), "sheet gray 994 1; mask 3 chords 2; dilate 9178");
        assert_eq!(
            listed("8 rows and 2 lengths on a width of 995"),
            "sheet gray 995 1; mask 3 chords 2; dilate refused 11"
        );
        // (1 + 8 - 1) * (511 + 510 + 509) + 482 * 2 = 12240 + 964 picks, and twice as many.
        assert_eq!(listed("8 rows and 4 lengths on a window"), "sheet gray 482 1; mask 8 chords 3; close 26408");
    }

    #[test]
    fn the_largest_sheet_under_its_window() {
        let (_, line) = READ.last().expect("a fixed strip");
        assert_eq!(bytes(line).len(), strip::LONGEST);
        assert_eq!(listing(&bytes(line)), "sheet gray 3 2\nmask 2 chords 1\nerode 64\n7 7 7\n5 3 3\n");
    }
}
