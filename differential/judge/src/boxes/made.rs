//! Texts to read, and numbers to write into so many bytes.

use super::Case;
use crate::{by_02::boxes::LENGTHS, inputs::sequences, random::Random};

/// Lengths that no box number has: beside those that it may have, those that are such in fewer bits, and long ones.
pub const OUTSIDE: [usize; 12] = [0, 9, 10, 16, 255, 256, 257, 264, 4_096, 65_536, 65_537, 65_544];

/// How many of any digits are read, and of any size written.
const ANY: usize = 100_000;

/// The largest power of 100 below 2^64.
pub const POWERS: u32 = 9;

/// The texts. Those of a length outside come first, the others in any order, so that each sort comes up early.
pub fn texts() -> Vec<Case> {
    let random = &mut Random::new(1);
    let mut texts: Vec<Vec<u8>> = OUTSIDE.into_iter().flat_map(outside).collect();
    let mut others = sequences(&(0..=u8::MAX).collect::<Vec<_>>(), 2);
    for length in LENGTHS {
        others.extend(each_digit(length, random));
        others.extend(two_above(length));
    }
    others.extend((0..ANY).map(|_| any_text(random)));
    random.shuffle(&mut others);
    texts.extend(others);
    texts.into_iter().map(Case::Read).collect()
}

/// The bytes of digits, two in each.
fn packed(digits: &[u8]) -> Vec<u8> {
    digits.chunks(2).map(|pair| pair[0] << 4 | pair[1]).collect()
}

/// Texts of so many bytes with good digits and with bad ones: all, the first, the last.
fn outside(length: usize) -> Vec<Vec<u8>> {
    let alone = |place: usize, digit: u8| {
        let mut digits = vec![0; 2 * length];
        if let Some(at) = digits.get_mut(place) {
            *at = digit;
        }
        packed(&digits)
    };
    let last = (2 * length).saturating_sub(1);
    vec![vec![0; length], vec![0x99; length], vec![0xff; length], alone(0, 10), alone(last, 15)]
}

/// Each value of a digit at each place of a text of zeros, of nines and of any good digits.
fn each_digit(length: usize, random: &mut Random) -> Vec<Vec<u8>> {
    let mut texts = Vec::new();
    for (place, digit) in (0..2 * length).flat_map(|place| (0..16).map(move |digit| (place, digit))) {
        let any: Vec<u8> = (0..2 * length).map(|_| random.below(10) as u8).collect();
        texts.extend([vec![0; 2 * length], vec![9; 2 * length], any].map(|mut digits| {
            digits[place] = digit;
            packed(&digits)
        }));
    }
    texts
}

/// Two digits above 9 at each two places.
fn two_above(length: usize) -> impl Iterator<Item = Vec<u8>> {
    let places = (0..2 * length).flat_map(|second| (0..second).map(move |first| (first, second)));
    places.flat_map(move |(first, second)| {
        [(10, 10), (10, 15), (15, 10), (15, 15)].map(|pair| {
            let mut digits = vec![5; 2 * length];
            (digits[first], digits[second]) = pair;
            packed(&digits)
        })
    })
}

/// Of 1 to 8 bytes: good digits, often with zeros in front; with up to three above 9 among them; any bytes.
fn any_text(random: &mut Random) -> Vec<u8> {
    let length = random.pick(&LENGTHS.collect::<Vec<_>>());
    let sort = random.weighted(&[5, 4, 1]);
    if sort == 2 {
        return (0..length).map(|_| random.below(256) as u8).collect();
    }
    let zeros = if random.once_in(4) { random.below(2 * length + 1) } else { 0 };
    let digit = |place: usize| if place < zeros { 0 } else { random.below(10) as u8 };
    let mut digits: Vec<u8> = (0..2 * length).map(digit).collect();
    for _ in 0..sort * random.pick(&[1, 1, 2, 3]) {
        digits[random.below(2 * length)] = 10 + random.below(6) as u8;
    }
    packed(&digits)
}

/// The numbers: those at limits into each length first, in any order, and then any.
pub fn numbers() -> Vec<Case> {
    let random = &mut Random::new(2);
    let lengths = LENGTHS.chain(OUTSIDE);
    let at_limits = lengths.flat_map(|length| limits().into_iter().map(move |value| (value, length)));
    let mut numbers: Vec<(u64, usize)> = at_limits.collect();
    random.shuffle(&mut numbers);
    numbers.extend((0..ANY).map(|_| (any_number(random), random.below(11))));
    numbers.into_iter().map(|(value, length)| Case::Write(value, length)).collect()
}

/// A few small numbers, the powers of 100 with those beside them, and those at the ends of 32 and 64 bits.
fn limits() -> Vec<u64> {
    let mut values = vec![0, 1, 7, 9, 10, 99, 100, 101, u32::MAX.into(), 1 << 32, 1 << 63, u64::MAX];
    let powers = (0..=POWERS).map(|power| 100u64.pow(power));
    values.extend(powers.flat_map(|power| [power - 1, power, power + 1]));
    values.sort_unstable();
    values.dedup();
    values
}

/// Of up to 64 bits, of up to 20 digits, or near a power of 100.
fn any_number(random: &mut Random) -> u64 {
    match random.below(3) {
        0 => random.next() >> random.below(64),
        1 => random.next() % 10u64.pow(random.below(20) as u32),
        _ => {
            let power = 100u64.pow(random.below(POWERS as usize + 1) as u32);
            (power + random.below(7) as u64).saturating_sub(3)
        }
    }
}
