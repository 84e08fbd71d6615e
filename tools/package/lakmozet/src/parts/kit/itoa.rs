//! Decimals of numbers, as the library `itoa` has them.

/// Room for the decimal of a number: the longest has 39 digits and a sign.
pub struct Buffer {
    bytes: [u8; 40],
}

/// A number that has a decimal of at most 40 bytes.
pub trait Integer: Copy {
    fn is_below_zero(self) -> bool;

    /// The number without its sign.
    fn size(self) -> u128;
}

impl Integer for u64 {
    fn is_below_zero(self) -> bool {
        false
    }

    fn size(self) -> u128 {
        u128::from(self)
    }
}

impl Integer for i64 {
    fn is_below_zero(self) -> bool {
        self < 0
    }

    fn size(self) -> u128 {
        u128::from(self.unsigned_abs())
    }
}

impl Integer for i128 {
    fn is_below_zero(self) -> bool {
        self < 0
    }

    fn size(self) -> u128 {
        self.unsigned_abs()
    }
}

impl Buffer {
    #[allow(clippy::new_without_default)] // as the library has it
    pub fn new() -> Buffer {
        Buffer { bytes: [0; 40] }
    }

    /// The decimal of a number.
    pub fn format<I: Integer>(&mut self, n: I) -> &str {
        let mut at = 40;
        let mut wide = n.size();
        // a division of 128 bits is slow, and seldom asked for
        while wide > u128::from(u64::MAX) {
            at -= 1;
            self.bytes[at] = b'0' + (wide % 10) as u8;
            wide /= 10;
        }
        let mut left = wide as u64;
        loop {
            at -= 1;
            self.bytes[at] = b'0' + (left % 10) as u8;
            left /= 10;
            if left == 0 {
                break;
            }
        }
        if n.is_below_zero() {
            at -= 1;
            self.bytes[at] = b'-';
        }
        core::str::from_utf8(&self.bytes[at..]).unwrap_or("")
    }
}
