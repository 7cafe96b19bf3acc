//! Box numbers: read, written, printed and refused.

use definition_log::{BoxError, BoxNumber};

/// The value and the text of packed bytes, or why there is none.
fn read(packed: &[u8]) -> Result<(u64, String), BoxError> {
    BoxNumber::try_from(packed).map(|number| (number.value(), number.to_string()))
}

/// What a slice of these bytes holds when a number was written into it, and the answer.
fn written<const N: usize>(value: u64, bytes: usize, mut out: [u8; N]) -> ([u8; N], Result<(), BoxError>) {
    let answer = BoxNumber::new(value, bytes).expect("a box number").write_to(&mut out);
    (out, answer)
}

#[test]
fn the_high_digit_is_first() {
    assert_eq!(read(&[0x12, 0x34]), Ok((1234, "1234".to_owned())));
    assert_eq!(read(&[0x00, 0x07]), Ok((7, "0007".to_owned())));
    assert_eq!(read(&[0x99]), Ok((99, "99".to_owned())));
    assert_eq!(read(&[0x00; 8]), Ok((0, "0".repeat(16))));
    assert_eq!(read(&[0x99; 8]), Ok((9_999_999_999_999_999, "9".repeat(16))));
}

#[test]
fn the_length_is_tried_before_the_digits() {
    for length in [0, 9, 10, 300] {
        assert_eq!(read(&vec![0xff; length]), Err(BoxError::BadLength), "{length} bytes");
    }
    for packed in [&[0xa0][..], &[0x0a], &[0x99, 0x9a], &[0xff; 8], &[0, 0, 0, 0, 0, 0, 0, 0x0f]] {
        assert_eq!(read(packed), Err(BoxError::BadDigit), "{packed:x?}");
    }
}

#[test]
fn leading_zeros_are_written() {
    assert_eq!(written(7, 1, [0xff; 3]), ([0x00, 0x00, 0x07], Ok(())));
    assert_eq!(written(99, 1, [0xff]), ([0x99], Ok(())));
    assert_eq!(written(9_999_999_999_999_999, 8, [0xff; 8]), ([0x99; 8], Ok(())));
}

#[test]
fn a_refusal_writes_nothing() {
    assert_eq!(written(100, 2, [0xff]), ([0xff], Err(BoxError::TooLarge)));
    assert_eq!(written(100, 2, []), ([], Err(BoxError::BadLength)));
    assert_eq!(written(0, 1, [0xff; 9]), ([0xff; 9], Err(BoxError::BadLength)));
}

#[test]
fn a_number_has_two_digits_for_each_byte() {
    for bytes in 1..=8 {
        let limit = 100_u64.pow(bytes as u32);
        let largest = BoxNumber::new(limit - 1, bytes).expect("it fits");
        assert_eq!((largest.value(), largest.bytes()), (limit - 1, bytes));
        assert_eq!(largest.to_string(), "9".repeat(2 * bytes));
        for value in [limit, limit + 1, u64::MAX] {
            assert_eq!(BoxNumber::new(value, bytes), Err(BoxError::TooLarge), "{value} in {bytes}");
        }
    }
    for bytes in [0, 9, usize::MAX] {
        assert_eq!(BoxNumber::new(u64::MAX, bytes), Err(BoxError::BadLength), "{bytes} bytes");
    }
}

#[test]
fn bytes_come_back_in_their_length() {
    for packed in (0..=u16::MAX).map(u16::to_be_bytes) {
        if let Ok(number) = BoxNumber::try_from(&packed[..]) {
            let mut out = [0xff; 2];
            assert_eq!((number.write_to(&mut out), out), (Ok(()), packed));
            assert_eq!(number.to_string(), format!("{:02x}{:02x}", packed[0], packed[1]));
        }
    }
}

#[test]
fn errors_say_why_and_which_number() {
    let errors = [BoxError::BadDigit, BoxError::BadLength, BoxError::TooLarge];
    assert_eq!(errors.map(BoxError::number), [11, 12, 13]);
    assert_eq!(BoxError::BadLength.to_string(), "a box number has 1 to 8 bytes (number 12)");
    assert_eq!(
        BoxError::TooLarge.to_string(),
        "the number has more than two digits for each byte (number 13)"
    );
}
