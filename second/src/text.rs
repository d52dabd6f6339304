//! Lines and words of the bench's text: numbers, clock identities and octets.

use std::ops::RangeInclusive;

/// The longest line that can be a call, in octets without its newline.
pub const LONGEST: usize = 262_144;

/// The values a field may take, as the bench's page names their types.
pub type Range = RangeInclusive<i128>;

pub const U16: Range = 0..=65_535;
pub const U32: Range = 0..=4_294_967_295;
pub const U64: Range = 0..=18_446_744_073_709_551_615;
pub const I64: Range = -9_223_372_036_854_775_808..=9_223_372_036_854_775_807;
pub const U8: Range = 0..=255;

/// "A line that is empty or begins with `#` is passed over": its first octet alone decides.
pub fn passed_over(line: &[u8]) -> bool {
    matches!(line.first(), None | Some(b'#'))
}

/// The words of a line, or none where its octets or its spaces alone make it a bad line.
pub fn words(line: &[u8]) -> Option<Vec<&str>> {
    let printable = line.iter().all(|octet| (0x20..=0x7e).contains(octet));
    if line.len() > LONGEST || !printable {
        return None;
    }
    let words: Vec<&str> = std::str::from_utf8(line).ok()?.split(' ').collect();
    // A doubled, leading or trailing space leaves an empty word.
    let full = words.iter().all(|word| !word.is_empty());
    full.then_some(words)
}

/// A decimal number within its range. Leading zeros are read, however many; a `-` is read only
/// where the range has negative numbers, and there `-0` is 0.
pub fn number(word: &str, range: &Range) -> Option<i128> {
    let (negative, digits) = match word.strip_prefix('-') {
        Some(digits) => (true, digits),
        None => (false, word),
    };
    let plain = !digits.is_empty() && digits.bytes().all(|digit| digit.is_ascii_digit());
    if !plain || (negative && *range.start() >= 0) {
        return None;
    }
    let size = match digits.trim_start_matches('0') {
        "" => 0,
        // No type of the page holds a number of more than twenty digits.
        long if long.len() > 20 => return None,
        short => short.parse::<i128>().ok()?,
    };
    let value = if negative { -size } else { size };
    range.contains(&value).then_some(value)
}

/// A clock identity: 16 hex digits, capitals too.
pub fn clock(word: &str) -> Option<i128> {
    let plain = word.len() == 16 && word.bytes().all(|digit| digit.is_ascii_hexdigit());
    if !plain {
        return None;
    }
    i128::from_str_radix(word, 16).ok()
}

/// Octets in lower-case hex, two digits each; `-` stands for none.
pub fn octets(word: &str) -> Option<Vec<u8>> {
    if word == "-" {
        return Some(Vec::new());
    }
    let digits = word.as_bytes();
    if digits.is_empty() || digits.len() % 2 == 1 {
        return None;
    }
    let pair = |two: &[u8]| Some(16 * digit(two[0])? + digit(two[1])?);
    digits.chunks(2).map(pair).collect()
}

fn digit(character: u8) -> Option<u8> {
    let place = b"0123456789abcdef".iter().position(|known| *known == character)?;
    Some(place as u8)
}

/// Octets as they are written: lower-case hex, `-` for none.
pub fn hex(octets: &[u8]) -> String {
    if octets.is_empty() {
        return String::from("-");
    }
    let digit = |value: u8| char::from(b"0123456789abcdef"[usize::from(value)]);
    octets.iter().flat_map(|octet| [digit(octet / 16), digit(octet % 16)]).collect()
}

#[cfg(test)]
mod tests {
    use super::*;

    #[test]
    fn numbers_are_strict() {
        assert_eq!(number("0", &U8), Some(0));
        assert_eq!(number("255", &U8), Some(255));
        assert_eq!(number("256", &U8), None);
        assert_eq!(number("000255", &U8), Some(255));
        assert_eq!(number(&format!("{}7", "0".repeat(5_000)), &U8), Some(7));
        for bad in ["", "+5", "-0", "-1", " 5", "5 ", "0x5", "5.0", "1e2", "--5", "-", "٣"] {
            assert_eq!(number(bad, &U8), None, "{bad}");
        }
    }

    #[test]
    fn signed_numbers_reach_both_ends() {
        assert_eq!(number("-9223372036854775808", &I64), Some(i64::MIN as i128));
        assert_eq!(number("-9223372036854775809", &I64), None);
        assert_eq!(number("9223372036854775807", &I64), Some(i64::MAX as i128));
        assert_eq!(number("9223372036854775808", &I64), None);
        assert_eq!(number("18446744073709551615", &U64), Some(u64::MAX as i128));
        assert_eq!(number("18446744073709551616", &U64), None);
        assert_eq!(number(&"9".repeat(60), &U64), None);
        assert_eq!(number("-0", &I64), Some(0));
        assert_eq!(number("-007", &I64), Some(-7));
        assert_eq!(number("-", &I64), None);
        assert_eq!(number("--7", &I64), None);
    }

    #[test]
    fn clocks_may_have_capitals_and_octets_may_not() {
        assert_eq!(clock("00000000000000Ff"), Some(255));
        assert_eq!(clock("0000000000000ff"), None);
        assert_eq!(clock("000000000000000ff"), None);
        assert_eq!(clock("+00000000000000f"), None);
        assert_eq!(octets("-"), Some(vec![]));
        assert_eq!(octets("00ff"), Some(vec![0, 255]));
        for bad in ["", "0", "0f0", "0F", "0g", "--"] {
            assert_eq!(octets(bad), None, "{bad}");
        }
    }

    #[test]
    fn spaces_and_octets_of_a_line() {
        assert_eq!(words(b"a b"), Some(vec!["a", "b"]));
        for bad in [&b"a  b"[..], b" a", b"a ", b"a\tb", b"a\r", b"a\0", b"a\x7f", b"a\xc3\xa9"] {
            assert_eq!(words(bad), None, "{bad:?}");
        }
        assert!(words(&vec![b'a'; LONGEST]).is_some());
        assert!(words(&vec![b'a'; LONGEST + 1]).is_none());
    }

    #[test]
    fn the_first_octet_alone_passes_a_line_over() {
        assert!(passed_over(b""));
        assert!(passed_over(b"#\xff\r"));
        assert!(!passed_over(b" #"));
        assert!(!passed_over(b"\r"));
    }

    #[test]
    fn octets_are_written_as_they_are_read() {
        let all: Vec<u8> = (0..=255).collect();
        assert_eq!(octets(&hex(&all)), Some(all));
        assert_eq!(hex(&[]), "-");
    }
}
