//! Integers and operators. Texts in base 8 without a prefix are 02's, request 2.

/// Reads an integer between `least` and `most`; `-` is allowed if `least` is below 0.
pub fn read(text: &[u8], least: i128, most: i128) -> Result<i128, u32> {
    let end = text.iter().rposition(|byte| !b"uUlL".contains(byte)).map_or(0, |last| last + 1);
    let text = &text[..end];
    let (base, digits) = match text {
        [b'0', b'x' | b'X', rest @ ..] => (16, rest),
        [b'0', b'b' | b'B', rest @ ..] => (2, rest),
        [b'0', b'o' | b'O', rest @ ..] => (8, rest),
        // Starts with 0 and goes on with anything else than the known prefixes, or not at all.
        [b'0', ..] => (8, text),
        _ => (10, text),
    };
    let (negative, digits) = match digits {
        [] => return Err(16),
        [b'+', rest @ ..] => (false, rest),
        [b'-', rest @ ..] if least < 0 => (true, rest),
        _ => (false, digits),
    };
    if digits.is_empty() {
        return Err(17);
    }
    let mut value = 0i128;
    for byte in digits {
        let digit = match byte {
            b'0'..=b'9' => byte - b'0',
            b'a'..=b'f' => byte - b'a' + 10,
            b'A'..=b'F' => byte - b'A' + 10,
            _ => return Err(17),
        };
        if i128::from(digit) >= base {
            return Err(17);
        }
        value = value * base + if negative { -i128::from(digit) } else { i128::from(digit) };
        if value > most {
            return Err(18);
        }
        if value < least {
            return Err(19);
        }
    }
    Ok(value)
}

/// The unsigned numbers of a width.
pub fn read_unsigned(text: &[u8], bits: u32) -> Result<u64, u32> {
    read(text, 0, (1 << bits) - 1).map(|value| value as u64)
}

pub fn read_signed(text: &[u8]) -> Result<i64, u32> {
    read(text, i64::MIN.into(), i64::MAX.into()).map(|value| value as i64)
}

/// A result in 64 bits with sign, or 24.
fn fits(value: i128) -> Result<i64, u32> {
    i64::try_from(value).map_err(|_| 24)
}

/// Prefix operator W, 1 to 4.
pub fn prefix(w: u32, operand: i64) -> Result<i64, u32> {
    match w {
        1 => Ok(operand),
        2 => fits(-i128::from(operand)),
        3 => Ok(-1 - operand),
        _ => Ok(i64::from(operand == 0)),
    }
}

/// Infix operator W, 1 to 18, both operands known.
pub fn infix(w: u32, left: i64, right: i64) -> Result<i64, u32> {
    let (wide_left, wide_right) = (i128::from(left), i128::from(right));
    let amount = if (0..=63).contains(&right) { Ok(right as u32) } else { Err(26) };
    let truth = |truth: bool| Ok(i64::from(truth));
    match w {
        1 => fits(wide_left + wide_right),
        2 => fits(wide_left - wide_right),
        3 => fits(wide_left * wide_right),
        4 | 5 if right == 0 => Err(25),
        4 => fits(wide_left / wide_right),
        5 if left == i64::MIN && right == -1 => Err(24),
        5 => fits(wide_left % wide_right),
        6 => Ok(left & right),
        7 => Ok(left | right),
        8 => Ok(left ^ right),
        // What passes bit 63 is dropped: the low 64 bits of the wide product.
        9 => amount.map(|amount| (wide_left << amount) as i64),
        10 => amount.map(|amount| wide_left.div_euclid(1 << amount) as i64),
        11 => truth(left != 0 && right != 0),
        12 => truth(left != 0 || right != 0),
        13 => truth(left < right),
        14 => truth(left > right),
        15 => truth(left <= right),
        16 => truth(left >= right),
        17 => truth(left == right),
        _ => truth(left != right),
    }
}
