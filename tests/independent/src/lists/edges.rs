//! The edges of the paper and more, with outputs that are set down here and not worked out.

use crate::sheet::LETTERS;

/// A list and what the program *sheet* prints for it.
pub struct Case {
    pub name: String,
    pub list: Vec<u8>,
    pub output: String,
}

fn case(name: &str, list: impl Into<Vec<u8>>, output: impl Into<String>) -> Case {
    Case {
        name: name.to_string(),
        list: list.into(),
        output: output.into(),
    }
}

fn refused(name: &str, list: impl Into<Vec<u8>>, number: u16, row: usize) -> Case {
    case(name, list, format!("REFUSED {number} ROW {row}\n"))
}

/// All cases.
pub fn edges() -> Vec<Case> {
    let mut cases = marked_examples();
    cases.extend(row_1_edges());
    cases.extend(v2_edges());
    cases.extend(later_row_edges());
    cases.extend(rank_edges());
    cases.extend(rank_refusals());
    cases.extend(degree_edges());
    cases.extend(length_edges());
    cases
}

/// The paper's list example and M1 to M9.
fn marked_examples() -> Vec<Case> {
    let square = "N 4\n+ 0 1\n+ 1 2\n+ 2 3\n+ 0 3";
    let square_sheet = "WAVES 2\nA 0 2\nB 1 3\nTOTAL 4 4\n";
    let path_sheet = "WAVES 2\nA 1 3\nB 0 2\nTOTAL 4 3\n";
    let m8 = "N 6\n+ 0 4\n+ 0 2\n+ 2 3\n+ 1 3\n+ 1 5\n+ 2 5";
    vec![
        case("example", square, square_sheet),
        case(
            "example with a last line feed",
            format!("{square}\n"),
            square_sheet,
        ),
        case("M1", "N 0", "WAVES 0\nTOTAL 0 0\n"),
        case("M1 with a last line feed", "N 0\n", "WAVES 0\nTOTAL 0 0\n"),
        case("M2", "N 3\n+ 1 2\n", "WAVES 2\nA 0 1\nB 2\nTOTAL 3 1\n"),
        case(
            "M3",
            "N 3\n+ 1 2\n+ 0 1",
            "WAVES 2\nA 1\nB 0 2\nTOTAL 3 2\n",
        ),
        case(
            "M4",
            "N 3\n+ 1 2\n+ 0 1\n+ 0 2",
            "WAVES 3\nA 0\nB 1\nC 2\nTOTAL 3 3\n",
        ),
        case("M5", "N 4\n+ 0 1\n+ 1 2\n+ 2 3\n", path_sheet),
        case("M6", square, square_sheet),
        case("M7", format!("{square}\n- 0 3"), path_sheet),
        case("M8", m8, "WAVES 2\nA 1 2 4\nB 0 3 5\nTOTAL 6 6\n"),
        case(
            "M9",
            format!("{m8}\n- 2 5\n"),
            "WAVES 3\nA 0 1\nB 2 4 5\nC 3\nTOTAL 6 5\n",
        ),
    ]
}

fn row_1_edges() -> Vec<Case> {
    let all_banks: String = (0..1024).map(|b| format!(" {b}")).collect();
    vec![
        case(
            "1,024 banks",
            "N 1024",
            format!("WAVES 1\nA{all_banks}\nTOTAL 1024 0\n"),
        ),
        case("one bank", "N 1", "WAVES 1\nA 0\nTOTAL 1 0\n"),
        refused("1,025 banks", "N 1025", 1, 1),
        refused("9,999 banks and nonsense", "N 9999\n?", 1, 1),
        refused("10,000 banks", "N 10000", 10, 1),
        case("padded bank count", "N 0001", "WAVES 1\nA 0\nTOTAL 1 0\n"),
        refused("bank count padded to five digits", "N 00004", 10, 1),
        refused("empty list", "", 10, 1),
        refused("a lone line feed", "\n", 10, 1),
        refused("an empty first row", "\nN 4\n", 10, 1),
        refused("no N row", "+ 0 1\n", 10, 1),
    ]
}

fn v2_edges() -> Vec<Case> {
    let square = "N 4\n+ 0 1\n+ 1 2\n+ 2 3\n+ 0 3";
    let square_sheet = "WAVES 2\nA 0 2\nB 1 3\nTOTAL 4 4\n";
    vec![
        case("V 2", format!("V 2\n{square}"), square_sheet),
        case(
            "V 2 with a last line feed",
            format!("V 2\n{square}\n"),
            square_sheet,
        ),
        case(
            "V 2, padded numbers and ranks",
            "V 2\nN 0002\nK 0001 0\nK 00 9\n+ 00 01",
            "WAVES 2\nA 1\nB 0\nTOTAL 2 1\n",
        ),
        case("V 2, no banks", "V 2\nN 0\n", "WAVES 0\nTOTAL 0 0\n"),
        refused("V 2 alone", "V 2", 10, 2),
        refused("V 2 alone with a line feed", "V 2\n", 10, 2),
        refused("V 2 and an empty row", "V 2\n\nN 4\n", 10, 2),
        refused("V 2 twice", "V 2\nV 2\nN 4\n", 10, 2),
        refused("V 2 and no N row", "V 2\n+ 0 1\n", 10, 2),
        refused("V 2 and a D row for the N row", "V 2\nD 0\n", 10, 2),
        refused("V 2 and 1,025 banks", "V 2\nN 1025", 1, 2),
        refused("V 2 and 10,000 banks", "V 2\nN 10000", 10, 2),
        refused("V 02", "V 02\nN 4\n", 10, 1),
        refused("V, two spaces, 2", "V  2\nN 4\n", 10, 1),
        refused("V 2 and a space", "V 2 \nN 4\n", 10, 1),
        refused("V 2 and a carriage return", "V 2\r\nN 4\n", 10, 1),
        refused("V 1", "V 1\nN 4\n", 10, 1),
        refused("V", "V\nN 4\n", 10, 1),
        refused("V 2 after the N row", "N 4\nV 2\n+ 0 1\n", 11, 2),
        refused("V 2 after both", "V 2\nN 4\nV 2\n+ 0 1\n", 11, 3),
        refused("D after V 2", "V 2\nN 4\n+ 0 1\nD 0\n", 23, 4),
        refused("D after V 2, at once", "V 2\nN 4\nD 0\nK 0 1\n", 23, 3),
        refused("D after V 2, of no bank", "V 2\nN 4\nD 9999\n", 23, 3),
        refused("D after V 2, without banks", "V 2\nN 0\nD 0\n", 23, 3),
        refused("D after V 2, padded", "V 2\nN 4\nD 0001\n", 23, 3),
        refused("D after V 2, five digits", "V 2\nN 4\nD 00001\n", 11, 3),
        refused("D after V 2, no bank", "V 2\nN 4\nD\n", 11, 3),
        refused("K after an edit after V 2", "V 2\nN 4\n+ 0 1\nK 0 1", 18, 4),
        refused("other refusals after V 2", "V 2\nN 4\n+ 0 4\n", 4, 3),
    ]
}

fn later_row_edges() -> Vec<Case> {
    vec![
        case(
            "a leading zero",
            "N 9\n+ 05 1",
            "WAVES 2\nA 0 1 2 3 4 6 7 8\nB 5\nTOTAL 9 1\n",
        ),
        case(
            "padded to four digits",
            "N 0002\n+ 0000 0001",
            "WAVES 2\nA 0\nB 1\nTOTAL 2 1\n",
        ),
        refused("padded to five digits", "N 9\n+ 00005 1", 11, 2),
        refused("padded, and not there", "N 9\n+ 0009 0001", 4, 2),
        refused("far banks", "N 9\n+ 9999 9999", 4, 2),
        refused("five digits", "N 9\n+ 10000 1", 11, 2),
        refused(
            "the first bank that is not there",
            "N 9\n+ 0 8\n+ 0 9\n",
            4,
            3,
        ),
        refused("D of a bank that is not there", "N 9\nD 9\n", 4, 2),
        refused("no bank at all", "N 0\nD 0\n", 4, 2),
        refused("a bank with itself", "N 9\n+ 3 3\n", 5, 2),
        refused("strike of a bank with itself", "N 9\n- 3 3\n", 5, 2),
        refused("added twice", "N 9\n+ 3 4\n+ 4 3\n", 6, 3),
        refused("struck without a clash", "N 9\n+ 3 4\n- 4 5\n", 7, 3),
        refused("struck twice", "N 9\n+ 3 4\n- 4 3\n- 3 4\n", 7, 4),
        refused("struck by D before", "N 9\n+ 3 4\nD 4\n- 3 4\n", 7, 4),
        refused("an empty row", "N 9\n+ 3 4\n\n+ 5 6\n", 11, 3),
        refused("an empty last row", "N 9\n+ 3 4\n\n", 11, 3),
        refused("a second N row", "N 9\n+ 3 4\nN 9\n", 11, 3),
        refused("the first of two refusals", "N 9\n+ 3 3\n?\n", 5, 2),
        refused(
            "the last row, without a line feed",
            "N 9\n+ 3 4\n+ 3",
            11,
            3,
        ),
        case(
            "D without clashes",
            "N 3\nD 1\n",
            "WAVES 1\nA 0 1 2\nTOTAL 3 0\n",
        ),
        case(
            "D and new clashes",
            "N 4\n+ 0 1\n+ 0 2\n+ 0 3\n+ 1 2\nD 0\n+ 0 3",
            "WAVES 2\nA 0 1\nB 2 3\nTOTAL 4 2\n",
        ),
    ]
}

/// Sheets of lists with K rows.
fn rank_edges() -> Vec<Case> {
    let path = "+ 0 1\n+ 1 2\n+ 2 3";
    let later_one_first = "WAVES 2\nA 0 2\nB 1 3\nTOTAL 4 3\n";
    vec![
        case(
            "a tie that rank decides against number",
            "N 2\nK 0 1\n+ 0 1",
            "WAVES 2\nA 1\nB 0\nTOTAL 2 1\n",
        ),
        case(
            "equal ranks go by number",
            "N 2\nK 1 7\nK 0 7\n+ 0 1",
            "WAVES 2\nA 0\nB 1\nTOTAL 2 1\n",
        ),
        case(
            "degree goes before rank",
            "N 3\nK 1 9999\n+ 0 1\n+ 1 2\n",
            "WAVES 2\nA 1\nB 0 2\nTOTAL 3 2\n",
        ),
        case(
            "M5 with the second bank of the path later",
            format!("N 4\nK 1 1\n{path}"),
            later_one_first,
        ),
        case(
            "M5 with all ranks turned round",
            format!("N 4\nK 3 0\nK 2 1\nK 1 2\nK 0 3\n{path}"),
            later_one_first,
        ),
        case(
            "the last rank of a bank counts",
            "N 2\nK 0 0\nK 1 3\nK 0 5\n+ 0 1",
            "WAVES 2\nA 1\nB 0\nTOTAL 2 1\n",
        ),
        case(
            "and not the largest",
            "N 2\nK 0 5\nK 1 3\nK 0 0\n+ 0 1",
            "WAVES 2\nA 0\nB 1\nTOTAL 2 1\n",
        ),
        case(
            "9,998 is before 9,999",
            "N 2\nK 0 9999\nK 1 9998\n+ 0 1",
            "WAVES 2\nA 1\nB 0\nTOTAL 2 1\n",
        ),
        case(
            "ranks of 256 and 255",
            "N 2\nK 0 256\nK 1 255\n+ 0 1",
            "WAVES 2\nA 1\nB 0\nTOTAL 2 1\n",
        ),
        case(
            "padded ranks",
            "N 0002\nK 0000 0010\nK 01 009\n+ 0 1",
            "WAVES 2\nA 1\nB 0\nTOTAL 2 1\n",
        ),
        case(
            "ranks without an edit",
            "N 3\nK 1 4\nK 0 9999\n",
            "WAVES 1\nA 0 1 2\nTOTAL 3 0\n",
        ),
        case(
            "ranks stay through a strike",
            "N 2\nK 0 1\n+ 0 1\n- 0 1\n+ 1 0",
            "WAVES 2\nA 1\nB 0\nTOTAL 2 1\n",
        ),
        case(
            "ranks stay through a D row",
            "N 2\nK 0 1\n+ 0 1\nD 0\n+ 1 0",
            "WAVES 2\nA 1\nB 0\nTOTAL 2 1\n",
        ),
    ]
}

/// K rows that are refused: 11, then 18, then 4.
fn rank_refusals() -> Vec<Case> {
    vec![
        refused("a rank of 10,000", "N 3\nK 0 10000", 11, 2),
        refused("a rank of five digits", "N 3\nK 0 00001", 11, 2),
        refused("K without a rank", "N 3\nK 0\n", 11, 2),
        refused("a rank of a bank that is not there", "N 3\nK 3 1", 4, 2),
        refused("a rank where there is no bank", "N 0\nK 0 0", 4, 2),
        refused("K in the place of N", "K 0 1\nN 3", 10, 1),
        refused("K after an add", "N 3\n+ 0 1\nK 0 1", 18, 3),
        refused("K after a strike", "N 3\n+ 0 1\n- 0 1\nK 0 1\n", 18, 4),
        refused("K after a D row", "N 3\n+ 0 1\nD 0\nK 0 1", 18, 4),
        refused(
            "K after a D row that struck nothing",
            "N 3\nK 1 2\nD 0\nK 0 1",
            18,
            4,
        ),
        refused("the same rank again", "N 3\nK 0 1\n+ 0 1\nK 0 1", 18, 4),
        refused("18 goes before 4", "N 3\n+ 0 1\nK 3 1", 18, 3),
        refused("11 goes before 18", "N 3\n+ 0 1\nK 0 10000", 11, 3),
        refused("11 goes before 4", "N 3\nK 9 10000", 11, 2),
        refused("the row before K", "N 3\n+ 0 0\nK 0 1", 5, 2),
    ]
}

fn degree_edges() -> Vec<Case> {
    let star: String = (1..24).map(|q| format!("+ 0 {q}\n")).collect();
    let star = format!("N 25\n{star}");
    let leaves: String = (1..24).map(|q| format!(" {q}")).collect();
    let pairs = (0..24).flat_map(|b| (0..b).map(move |a| (a, b)));
    let complete: String = pairs.map(|(a, b)| format!("+ {b} {a}\n")).collect();
    let complete = format!("N 24\n{complete}");
    let letters = LETTERS.chars().enumerate();
    let lines: String = letters
        .map(|(b, letter)| format!("{letter} {b}\n"))
        .collect();
    vec![
        case(
            "a 23rd clash",
            star.clone(),
            format!("WAVES 2\nA 0 24\nB{leaves}\nTOTAL 25 23\n"),
        ),
        refused("a 24th clash", format!("{star}+ 0 24"), 8, 25),
        refused("a 24th clash, named last", format!("{star}+ 24 0"), 8, 25),
        refused(
            "a clash again at full degree",
            format!("{star}+ 7 0"),
            6,
            25,
        ),
        case(
            "all clashes of 24 banks",
            complete.clone(),
            format!("WAVES 24\n{lines}TOTAL 24 276\n"),
        ),
        refused(
            "one more is there already",
            format!("{complete}+ 0 23\n"),
            6,
            278,
        ),
    ]
}

fn length_edges() -> Vec<Case> {
    let pairs = "+ 0 1\n- 1 0\n".repeat(4999);
    let full = format!("N 2\n{pairs}D 0\nD 1\n");
    let open_end = format!("N 10\n{pairs}D 0\n+ 1");
    let clash_last = format!("N 100\n{pairs}+ 2 3");
    assert_eq!(
        [full.len(), open_end.len(), clash_last.len()],
        [60_000, 60_000, 59_999]
    );
    let rest: String = (4..100).map(|b| format!(" {b}")).collect();
    vec![
        case("60,000 bytes", full.clone(), "WAVES 1\nA 0 1\nTOTAL 2 0\n"),
        refused("60,001 bytes, the last a space", format!("{full} "), 9, 0),
        refused(
            "60,001 bytes, the last a line feed",
            format!("{full}\n"),
            9,
            0,
        ),
        refused(
            "60,000 bytes without a last line feed",
            open_end,
            11,
            10_001,
        ),
        case(
            "59,999 bytes",
            clash_last.clone(),
            format!("WAVES 2\nA 0 1 2{rest}\nB 3\nTOTAL 100 1\n"),
        ),
        case(
            "and a line feed",
            clash_last + "\n",
            format!("WAVES 2\nA 0 1 2{rest}\nB 3\nTOTAL 100 1\n"),
        ),
        refused("60,000 bytes that are no list", "x".repeat(60_000), 10, 1),
        refused("60,001 bytes that are no list", "x".repeat(60_001), 9, 0),
        refused("60,001 line feeds", "\n".repeat(60_001), 9, 0),
        refused(
            "60,001 bytes with a bank too many",
            format!("N 9999\n{}", "x".repeat(59_994)),
            9,
            0,
        ),
        refused("many bytes too many", "N 2\n".repeat(50_000), 9, 0),
    ]
}
