//! Encoding and decoding of hexadecimal digits.

const DIGITS: &[u8; 16] = b"0123456789ABCDEF";

/// Decodes digits of either case; `None` if their number is odd or a character is not a digit.
pub fn read(digits: &[u8]) -> Option<Vec<u8>> {
    let (pairs, []) = digits.as_chunks::<2>() else {
        return None;
    };
    let mut bytes = Vec::with_capacity(pairs.len());
    for [high, low] in pairs {
        bytes.push(16 * value(*high)? + value(*low)?);
    }
    Some(bytes)
}

fn value(digit: u8) -> Option<u8> {
    match digit {
        b'0'..=b'9' => Some(digit - b'0'),
        b'A'..=b'F' => Some(digit - b'A' + 10),
        b'a'..=b'f' => Some(digit - b'a' + 10),
        _ => None,
    }
}

/// Appends the digits of the bytes, in capitals.
pub fn write(bytes: &[u8], digits: &mut Vec<u8>) {
    digits.reserve(2 * bytes.len());
    for byte in bytes {
        digits.extend([DIGITS[usize::from(byte >> 4)], DIGITS[usize::from(byte & 15)]]);
    }
}

#[cfg(test)]
mod tests {
    use super::{read, write};

    #[test]
    fn every_byte_round_trips_in_either_case() {
        for byte in 0..=255u8 {
            let mut digits = Vec::new();
            write(&[byte], &mut digits);
            assert_eq!(digits, format!("{byte:02X}").as_bytes());
            assert_eq!(read(&digits), Some(vec![byte]));
            assert_eq!(read(&digits.to_ascii_lowercase()), Some(vec![byte]));
        }
    }

    #[test]
    fn only_digits_are_read() {
        for byte in 0..=255u8 {
            assert_eq!(read(&[byte, b'0']).is_some(), byte.is_ascii_hexdigit(), "{byte}");
            assert_eq!(read(&[b'0', byte]).is_some(), byte.is_ascii_hexdigit(), "{byte}");
        }
    }

    #[test]
    fn an_odd_number_of_digits_is_an_error() {
        assert_eq!(read(b""), Some(vec![]));
        assert_eq!(read(b"0"), None);
        assert_eq!(read(b"010"), None);
    }
}
