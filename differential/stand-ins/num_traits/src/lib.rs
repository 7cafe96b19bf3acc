//! Stand-in for `num_traits`: the four traits that docs/src names, for the integers it uses.

use std::num::ParseIntError;

pub trait Num: Sized {
    type FromStrRadixErr;
    fn from_str_radix(text: &str, radix: u32) -> Result<Self, Self::FromStrRadixErr>;
}

pub trait Unsigned: Num {}

pub trait Signed: Num {}

pub trait AsPrimitive<T> {
    fn as_(self) -> T;
}

macro_rules! numbers {
    ($($unsigned:ident $signed:ident),+) => {
        $(
            impl Num for $unsigned {
                type FromStrRadixErr = ParseIntError;
                fn from_str_radix(text: &str, radix: u32) -> Result<Self, ParseIntError> {
                    <$unsigned>::from_str_radix(text, radix)
                }
            }
            impl Num for $signed {
                type FromStrRadixErr = ParseIntError;
                fn from_str_radix(text: &str, radix: u32) -> Result<Self, ParseIntError> {
                    <$signed>::from_str_radix(text, radix)
                }
            }
            impl Unsigned for $unsigned {}
            impl Signed for $signed {}
            impl AsPrimitive<$unsigned> for $signed {
                fn as_(self) -> $unsigned {
                    self as $unsigned
                }
            }
        )+
    };
}

numbers!(u8 i8, u16 i16, u32 i32, u64 i64);
