//! Inputs for numbers and paths: all short texts, texts near the limits, telling values.

use std::collections::BTreeSet;

use crate::random::Random;

/// All texts over an alphabet up to a length, shorter ones first.
pub fn texts(alphabet: &[&str], longest: usize) -> Vec<String> {
    sequences(alphabet, longest).iter().map(|letters| letters.concat()).collect()
}

/// The same of anything.
pub fn sequences<T: Copy>(alphabet: &[T], longest: usize) -> Vec<Vec<T>> {
    let mut all = vec![Vec::new()];
    let mut last = 0;
    for _ in 0..longest {
        let end = all.len();
        for shorter in last..end {
            for letter in alphabet {
                all.push([&all[shorter][..], &[*letter]].concat());
            }
        }
        last = end;
    }
    all
}

/// Raw references of up to 24 bytes in their braces, with no slash or one, at each place.
pub fn long_references() -> impl Iterator<Item = String> {
    (0..=24).flat_map(|length: usize| {
        let inner = "l".repeat(length);
        let slash = (0..length).map(|place| format!("{}/{}", &inner[..place], &inner[place + 1..]));
        slash.chain([inner.clone()]).map(|inner| format!("&{{{inner}}}")).collect::<Vec<_>>()
    })
}

/// All pairs out of two lists, those of early places first.
pub fn pairs<'a, T>(left: &'a [T], right: &'a [T]) -> impl Iterator<Item = (&'a T, &'a T)> {
    pairs_of(left, right)
}

pub fn pairs_of<'a, T, U>(left: &'a [T], right: &'a [U]) -> impl Iterator<Item = (&'a T, &'a U)> {
    (0..left.len().max(right.len())).flat_map(move |place| {
        let below = left.iter().take(place).filter_map(move |one| Some((one, right.get(place)?)));
        let beside = right.iter().take(place + 1).filter_map(move |other| Some((left.get(place)?, other)));
        below.chain(beside)
    })
}

/// Texts near the limits of each width in each base, with signs, zeros, suffixes and slips.
pub fn near_limits(random: &mut Random, count: usize) -> Vec<String> {
    let limits: [i128; 12] = [
        0,
        1 << 7,
        1 << 8,
        1 << 15,
        1 << 16,
        1 << 31,
        1 << 32,
        1 << 63,
        1 << 64,
        -(1 << 63),
        10i128.pow(19),
        -(1 << 31),
    ];
    (0..count)
        .map(|_| {
            let value = random.pick(&limits) + random.below(7) as i128 - 3;
            let value = if random.once_in(4) { value * (random.below(40) as i128 - 20) } else { value };
            let magnitude = value.unsigned_abs();
            let (before, digits) = match random.below(8) {
                0 => (random.pick(&["0x", "0X"]), format!("{magnitude:x}")),
                1 => ("0x", format!("{magnitude:X}")),
                2 => (random.pick(&["0b", "0B"]), format!("{magnitude:b}")),
                3 => (random.pick(&["0o", "0O"]), format!("{magnitude:o}")),
                4 => ("0", format!("{magnitude:o}")),
                _ => ("", format!("{magnitude}")),
            };
            let sign = if value < 0 { "-" } else { random.pick(&["", "", "", "+", "-"]) };
            let (sign_before, sign_behind) = if random.once_in(6) { (sign, "") } else { ("", sign) };
            let zeros = "0".repeat(random.weighted(&[4, 1, 1]) * random.below(20));
            let slip = random.pick(&["", "", "", "", "g", "z", "-", "_", ".", "\u{e9}", " "]);
            let cut = random.below(digits.len() + 1);
            let suffix = random.pick(&["", "", "", "u", "L", "UL", "llu", "x"]);
            format!(
                "{sign_before}{before}{sign_behind}{zeros}{}{slip}{}{suffix}",
                &digits[..cut],
                &digits[cut..]
            )
        })
        .collect()
}

/// Numbers and cell widths in base 8 by a leading 0, good and bad ones, those at the end of each width;
/// and texts with a prefix or a sign in front, which are none.
pub const OCTAL: [&str; 48] = [
    "010",
    "08",
    "0",
    "00",
    "07",
    "010u",
    "0ULL",
    "09L",
    "+010",
    "-010",
    "0+7",
    "0-7",
    "00x1",
    "0_7",
    "0.7",
    "0 7",
    "07 ",
    "0a",
    "0z",
    "0u0",
    "0\u{e9}",
    "0x010",
    "0b010",
    "0o010",
    "0X",
    "0B",
    "0O",
    "0378",
    "04008",
    "0377",
    "0400",
    "0177777",
    "0200000",
    "037777777777",
    "040000000000",
    "0777777777777777777777",
    "01000000000000000000000",
    "01777777777777777777777",
    "02000000000000000000000",
    "020",
    "040",
    "0100",
    "016",
    "032",
    "064",
    "0020u",
    "000000000000000000000000000000377",
    "000000000000000000000000000000400",
];

/// Values near the powers of 2 and a few small ones, with both signs; the most telling first.
pub fn boundary_values() -> Vec<i64> {
    let mut values = vec![0, 1, -1, 64, i64::MIN, i64::MAX, 2, -7, 63, 3, 128, -129, 255, 256];
    values.extend((-6..=10).chain([62, 65, 100, -63, -64]));
    for bits in [7, 8, 15, 16, 31, 32, 33, 62, 63, 64] {
        for off in -1..=1 {
            let value = (1i128 << bits) + off;
            values.extend([value, -value, value / 3].iter().filter_map(|value| i64::try_from(*value).ok()));
        }
    }
    let mut seen = BTreeSet::new();
    values.retain(|value| seen.insert(*value));
    values
}
