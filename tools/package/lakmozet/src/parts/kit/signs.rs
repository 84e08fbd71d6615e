//! `cast_unsigned` and `cast_signed`, which Rust has from 1.87 on.

/// A number with a sign.
pub trait CastUnsigned {
    /// The type of the same bits without a sign.
    type Unsigned;

    /// The same bits.
    fn to_unsigned(self) -> Self::Unsigned;
}

/// A number without a sign.
pub trait CastSigned {
    /// The type of the same bits with a sign.
    type Signed;

    /// The same bits.
    fn to_signed(self) -> Self::Signed;
}

macro_rules! casts {
    ($($signed:ty, $unsigned:ty;)*) => { $(
        impl CastUnsigned for $signed {
            type Unsigned = $unsigned;

            #[inline(always)]
            fn to_unsigned(self) -> $unsigned {
                self as $unsigned
            }
        }

        impl CastSigned for $unsigned {
            type Signed = $signed;

            #[inline(always)]
            fn to_signed(self) -> $signed {
                self as $signed
            }
        }
    )* };
}

casts! { i8, u8; i16, u16; i32, u32; i64, u64; i128, u128; isize, usize; }
