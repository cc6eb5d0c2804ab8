//! Strings by RFC 3629: its examples, its borders, and what it forbids.

use compare::answer_plain;
use sheets::Sheet;

fn kind(sheet: &Sheet) -> u32 {
    answer_plain(sheet, &[]).numbers[0]
}

#[test]
fn utf8_sequences_of_the_rfc() {
    let good: [&[u8]; 8] = [
        b"",
        b"A\xE2\x89\xA2\xCE\x91.",
        b"\xED\x95\x9C\xEA\xB5\xAD\xEC\x96\xB4",
        b"\xE6\x97\xA5\xE6\x9C\xAC\xE8\xAA\x9E",
        b"\xEF\xBB\xBF\xF0\xA3\x8E\xB4",
        b"\x00\x7F\xC2\x80\xDF\xBF\xE0\xA0\x80",
        b"\xED\x9F\xBF\xEE\x80\x80\xEF\xBF\xBF",
        b"\xF0\x90\x80\x80\xF4\x8F\xBF\xBF",
    ];
    let bad: [&[u8]; 12] = [
        b"\xC0\x80",
        b"\xC1\xBF",
        b"\xE0\x9F\xBF",
        b"\xED\xA0\x80",
        b"\xED\xA1\x8C\xED\xBE\xB4",
        b"\xF0\x8F\xBF\xBF",
        b"\xF4\x90\x80\x80",
        b"\xF5\x80\x80\x80",
        b"\x80",
        b"\xE2\x89",
        b"\xC2A",
        b"\xFF",
    ];
    let with = |s: &[u8]| Sheet {
        strings: vec![s.to_vec()],
        ..Sheet::default()
    };
    for s in good {
        assert_eq!(kind(&with(s)), 0, "{s:?}");
    }
    for s in bad {
        assert_eq!(kind(&with(s)), 1, "{s:?}");
    }
}
