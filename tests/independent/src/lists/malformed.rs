//! Rows that do not read, lists with one of them, and rows one byte away from a good one.

use super::LIKELY_BYTES;

/// Rows that have none of the four forms. The banks they might name are below 30. No row is empty.
pub fn malformed_rows() -> Vec<Vec<u8>> {
    let groups = [
        // Another letter or sign.
        "N 4|N 0|N 30|V 2|V 1|V 02|V|V 2 |V 2 3|A 1 2|d 1|n 4|E 1|C 1|* 1 2|= 1 2|, 1 2|. 1 2|/ 1 2|# 1 2|% 1 2",
        "++ 1 2|-- 1 2|+- 1 2|DD 1|WAVES 2|TOTAL 4 4|REFUSED 11 ROW 2",
        // Parts missing or too many.
        "+|-|D|N|+ 1|- 1|+ 1 2 3|- 1 2 3|D 1 2|+ 1 2 + 3 4|+ 1 2 D 1|+ 1 2 # note|+ 1 2;",
        // Spaces missing or too many.
        " |  |+ |- |D |+ 1 |- 1 |+  1|+ 1 2 |- 1 2 |D 1 | + 1 2| - 1 2| D 1|+  1 2|+ 1  2|-  1 2",
        "- 1  2|D  1|+1 2|+ 12|+12|-1 2|D1",
        // Something else for a space, or after the row.
        "+\t1\t2|+\t1 2|+ 1\t2|D\t1|\t+ 1 2|+ 1 2\t|+ 1,2|+ 1, 2|+,1,2|+\u{a0}1 2|+ 1\u{a0}2",
        "\r|+ 1 2\r|- 1 2\r|D 1\r|+ 1\r2|+ 1 2\u{b}|+ 1 2\u{c}|+ 1 2\u{85}|\u{feff}+ 1 2",
        "\0|+ 1 2\0|+\0 1 2|+ 1 \0|+ \0 1|D \0",
        // Something else for a digit or a sign.
        "+ +1 2|+ 1 +2|+ -1 2|+ 1 -2|- -1 2|D -1|D +1|+05|+ a b|+ 1 b|+ a 2|D b|D x1|D 1x|+ 1 2x",
        "+ 1x 2|+ 0x1 2|+ 1.0 2|+ 1e0 2|+ 1_0 2|+ 1 /|+ 1 :|+ / 1|+ : 1|D /|D :",
        "+ \u{661} 2|+ \u{ff11} 2|+ 1 \u{b2}|\u{ff0b} 1 2|\u{2212} 1 2",
        // More than four digits.
        "+ 10000 1|+ 1 10000|+ 00005 1|+ 1 00005|D 00001|- 10000 1|D 10000|D 99999|+ 65537 1|D 65536|D 4294967296",
        "+ 99999999999999999999 1",
        // All this of a K row.
        "k 1 2|J 1 2|L 1 2|KK 1 2|K+ 1 2|+K 1 2|K|K 1|K 1 2 3|K 1 2 K 3 4|K 1 2;|K |K 1 |K 1 2 ",
        " K 1 2|K  1 2|K 1  2|K1 2|K 12|K12|K\t1 2|K 1\t2|K 1,2|K 1 2\r|K 1 2\0|K\u{a0}1 2|\u{212a} 1 2",
        "K a 2|K 1 b|K +1 2|K 1 +2|K 1 -2|K -1 2|K 1 2x|K 1 2.5|K 1 /|K 1 :|K / 1|K : 1|K 1 \u{b2}",
        "K 1 10000|K 10000 1|K 1 00005|K 00001 5|K 1 65536|K 65536 1|K 1 4294967296",
    ];
    let bytes: [&[u8]; 8] = [
        b"\x80",
        b"\xff",
        b"\xab 1 2",
        b"+ 1 \xb2",
        b"+ \xb1 2",
        b"+\xa01 2",
        b"\xc4 1",
        b"+ 1 2\xff",
    ];
    let text = groups.into_iter().flat_map(parted);
    let bytes = bytes.iter().map(|row| row.to_vec());
    text.chain(bytes).collect()
}

/// Rows of padded numbers, each with the same row unpadded.
pub fn padded_rows() -> Vec<(Vec<u8>, Vec<u8>)> {
    let padded = "+ 05 1|+ 1 05|+ 00 1|+ 1 00|+ 01 02|+ 0001 2|+ 1 0002|- 06 7|- 6 07|- 0006 0007";
    let plain = "+ 5 1|+ 1 5|+ 0 1|+ 1 0|+ 1 2|+ 1 2|+ 1 2|- 6 7|- 6 7|- 6 7";
    let padded_d = "D 01|D 00|D 000|D 0000|D 0006|D 012|+ 0099 0001|K 01 2|K 0099 0001";
    let plain_d = "D 1|D 0|D 0|D 0|D 6|D 12|+ 99 1|K 1 2|K 99 1";
    let pairs = parted(padded).into_iter().zip(parted(plain));
    pairs
        .chain(parted(padded_d).into_iter().zip(parted(plain_d)))
        .collect()
}

/// First rows that are no N row. No row is empty.
pub fn malformed_n_rows() -> Vec<Vec<u8>> {
    let groups = [
        "N|N | N 4|N  4|N 4 |N4|N\t4|\tN 4|N 4\t|N 4\r|N 4\0|N\0|\0|n 4|M 4|O 4|NN 4|N N 4|N 4 4",
        "N +4|N -4|N -0|N 00000|N 00004|N 10000|N 12345|N 65540",
        "N 4294967300|N 18446744073709551620|N x|N 4x|N x4|N 4.|N 4,|N 1,024|N 1_0|N 0x4|N /|N :",
        "V|V | V 2|V  2|V 2 |V2|V 02|V 0002|V 1|V 3|V 22|V +2|V 2.|V 2 4|V 2 N 4|V\t2|V 2\t|V 2\r|V 2\0|v 2|W 2",
        "U 2|VV 2|V\u{a0}2|V \u{b2}|V \u{662}|\u{feff}V 2|+ 0 1|- 0 1|D 0|K 0 1| |\r|4|N \u{664}|N\u{a0}4|\u{feff}N 4|\u{39d} 4",
    ];
    let bytes: [&[u8]; 4] = [b"\xce 4", b"N \xb4", b"\xff", b"N 4\x80"];
    let text = groups.into_iter().flat_map(parted);
    text.chain(bytes.iter().map(|row| row.to_vec())).collect()
}

/// The rows of a text that has a bar between rows.
fn parted(text: &str) -> Vec<Vec<u8>> {
    text.split('|').map(|row| row.as_bytes().to_vec()).collect()
}

/// Lists with one malformed row, at each kind of place.
pub fn malformed_lists() -> Vec<Vec<u8>> {
    let mut lists = Vec::new();
    for row in malformed_rows() {
        lists.push([b"N 30\nK 6 7\n", &row[..]].concat());
        lists.push([b"N 30\n+ 6 7\n", &row[..]].concat());
        lists.push([b"N 30\n+ 6 7\n", &row[..], b"\n"].concat());
        lists.push([b"N 30\n", &row[..], b"\n+ 6 7\n"].concat());
        lists.push([b"V 2\nN 30\n+ 6 7\n", &row[..]].concat());
        lists.push([&row[..], b"\n+ 6 7"].concat());
    }
    for row in malformed_n_rows() {
        lists.push(row.clone());
        lists.push([&row[..], b"\n"].concat());
        lists.push([&row[..], b"\n+ 0 1\n"].concat());
        lists.push([&row[..], b"\nN 4\n+ 0 1\n"].concat());
        lists.push([b"V 2\n", &row[..]].concat());
        lists.push([b"V 2\n", &row[..], b"\n+ 0 1\n"].concat());
    }
    lists
}

/// Lists in which one row is one byte away from a good one. Some of them are good.
pub fn near_lists() -> Vec<Vec<u8>> {
    let mut lists = Vec::new();
    for near in near_rows(b"N 9") {
        lists.push([&near[..], b"\n+ 6 8"].concat());
        lists.push([b"V 2\n", &near[..], b"\n+ 6 8"].concat());
    }
    for near in near_rows(b"V 2") {
        lists.push([&near[..], b"\nN 9\n+ 6 8\n- 8 6"].concat());
    }
    for near in near_rows(b"D 1") {
        lists.push([b"V 2\nN 9\n+ 1 2\n", &near[..], b"\n+ 3 4"].concat());
    }
    for row in [b"+ 6 8".as_slice(), b"- 1 2", b"D 1"] {
        for near in near_rows(row) {
            lists.push([b"N 9\n+ 1 2\n", &near[..], b"\n+ 3 4"].concat());
        }
    }
    for near in near_rows(b"K 3 4") {
        lists.push([b"N 9\nK 4 4\n", &near[..], b"\n+ 3 4"].concat());
    }
    lists
}

/// The rows that a row becomes if one byte is replaced, added or left out.
fn near_rows(row: &[u8]) -> Vec<Vec<u8>> {
    let spliced =
        |place: usize, out: usize, byte: &[u8]| [&row[..place], byte, &row[place + out..]].concat();
    let mut near = Vec::new();
    for place in 0..row.len() {
        near.push(spliced(place, 1, &[]));
        for byte in 0..=255 {
            near.push(spliced(place, 1, &[byte]));
        }
    }
    for place in 0..=row.len() {
        for &byte in LIKELY_BYTES {
            near.push(spliced(place, 0, &[byte]));
        }
    }
    near
}
