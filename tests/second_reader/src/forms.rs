//! The forms of single fields: numbers, names and notes (answer 5).

/// Table of sizes: "time | 72,057,594,037,927,935 (2^56 − 1)".
pub const LATEST_TIME: u64 = 72_057_594_037_927_935;

/// Table of sizes: "instance, semaphore count | 4,294,967,295".
pub const LARGEST_NUMBER: u64 = 4_294_967_295;

/// Table of sizes: "name, note | 1 to 64 bytes".
pub const LONGEST_NAME: usize = 64;

/// "Numbers are decimal digits with no sign and no leading zero, except `0`
/// itself." The value is handed back if it is at most `largest`.
pub fn read_number(field: &[u8], largest: u64) -> Option<u64> {
    if !is_digits(field) || (field.len() > 1 && field[0] == b'0') {
        return None;
    }
    // No allowed number has more than 20 digits, so a longer one is out of
    // size whatever its value; one of 20 or fewer fits a u128.
    if field.len() > 20 {
        return None;
    }
    let value = field.iter().fold(0u128, |sum, &digit| sum * 10 + u128::from(digit - b'0'));
    u64::try_from(value).ok().filter(|&number| number <= largest)
}

/// An instance or a semaphore count.
pub fn read_small_number(field: &[u8]) -> Option<u32> {
    read_number(field, LARGEST_NUMBER).and_then(|number| u32::try_from(number).ok())
}

/// "Name bytes are 33 to 126 without the comma." and "name, note | 1 to 64
/// bytes". A note has a name's bytes and length too: "Any eighth field needs a
/// name's bytes and length, else 5".
pub fn read_name(field: &[u8]) -> Option<String> {
    let right_length = (1..=LONGEST_NAME).contains(&field.len());
    let right_bytes = field.iter().all(|&byte| (33..=126).contains(&byte) && byte != b',');
    if !right_length || !right_bytes {
        return None;
    }
    String::from_utf8(field.to_vec()).ok()
}

/// "optional for SIG, as an optional minus, digits (leading zeros allowed) and
/// optionally a dot and digits". Digits means one or more.
pub fn is_signal_value(note: &str) -> bool {
    let unsigned = note.strip_prefix('-').unwrap_or(note);
    match unsigned.split_once('.') {
        Some((whole, fraction)) => is_digits(whole.as_bytes()) && is_digits(fraction.as_bytes()),
        None => is_digits(unsigned.as_bytes()),
    }
}

fn is_digits(text: &[u8]) -> bool {
    !text.is_empty() && text.iter().all(u8::is_ascii_digit)
}

#[cfg(test)]
mod tests {
    use super::*;

    #[test]
    fn numbers() {
        assert_eq!(read_number(b"0", 9), Some(0));
        assert_eq!(read_number(b"72057594037927935", LATEST_TIME), Some(LATEST_TIME));
        assert_eq!(read_number(b"72057594037927936", LATEST_TIME), None);
        assert_eq!(read_small_number(b"4294967295"), Some(u32::MAX));
        assert_eq!(read_small_number(b"4294967296"), None);
        for wrong in ["", "00", "01", "+1", "-1", " 1", "1 ", "1.0", "1e3", "a", "99999999999999999999999"] {
            assert_eq!(read_number(wrong.as_bytes(), u64::MAX), None, "{wrong}");
        }
    }

    #[test]
    fn names() {
        assert!(read_name(&[b'a'; 64]).is_some());
        assert!(read_name(&[b'a'; 65]).is_none());
        assert!(read_name(b"").is_none());
        for byte in 0..=255u8 {
            let wanted = (33..=126).contains(&byte) && byte != 44;
            assert_eq!(read_name(&[b'a', byte]).is_some(), wanted, "byte {byte}");
        }
    }

    #[test]
    fn signal_values() {
        for right in ["0", "-0", "007", "-12.50", "12.3", "0.0"] {
            assert!(is_signal_value(right), "{right}");
        }
        for wrong in ["1.", ".5", "-", "1.2.3", "+1", "--1", "1.-2", "1e3", "x", "-.5"] {
            assert!(!is_signal_value(wrong), "{wrong}");
        }
    }
}
