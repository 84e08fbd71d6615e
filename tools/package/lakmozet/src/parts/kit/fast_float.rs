//! Numerals, as the toolchain's library `fast_float` cuts them into parts: the reader of TOML asks for these.

/// The number at the front of some bytes: digits, a point with digits, an exponent with digits.
pub struct Numeral<'a> {
    whole: &'a [u8],
    fraction: &'a [u8],
    exponent: &'a [u8],
    has_point: bool,
    all: &'a [u8],
}

fn digits(bytes: &[u8]) -> (&[u8], &[u8]) {
    bytes.split_at(bytes.iter().take_while(|b| b.is_ascii_digit()).count())
}

/// The digits of the exponent at the front of some bytes, where there is one, and what stands behind it.
fn exponent(bytes: &[u8]) -> Option<(&[u8], &[u8])> {
    let after = match bytes {
        [b'e' | b'E', b'+' | b'-', after @ ..] | [b'e' | b'E', after @ ..] => after,
        _ => return None,
    };
    let (found, after) = digits(after);
    (!found.is_empty()).then_some((found, after))
}

impl<'a> Numeral<'a> {
    pub fn scan(bytes: &'a [u8]) -> Numeral<'a> {
        let (whole, rest) = digits(bytes);
        let (has_point, fraction, rest) = match rest {
            [b'.', after @ ..] => {
                let (found, after) = digits(after);
                (true, found, after)
            }
            _ => (false, &rest[..0], rest),
        };
        let (exponent, rest) = exponent(rest).unwrap_or((&rest[..0], rest));
        Numeral {
            whole,
            fraction,
            exponent,
            has_point,
            all: &bytes[..bytes.len() - rest.len()],
        }
    }

    pub fn whole(&self) -> &'a [u8] {
        self.whole
    }

    pub fn has_point(&self) -> bool {
        self.has_point
    }

    pub fn fraction(&self) -> &'a [u8] {
        self.fraction
    }

    pub fn exponent(&self) -> &'a [u8] {
        self.exponent
    }

    #[allow(clippy::len_without_is_empty)] // as the library has it
    pub fn len(&self) -> usize {
        self.all.len()
    }

    /// The number of whole digits alone, where it fits.
    pub fn to_i64(&self, negative: bool) -> Option<i64> {
        if self.whole.is_empty() || self.has_point || !self.exponent.is_empty() {
            return None;
        }
        let mut n = 0i64;
        for digit in self.whole {
            let digit = i64::from(digit - b'0');
            n = n.checked_mul(10)?;
            n = if negative {
                n.checked_sub(digit)?
            } else {
                n.checked_add(digit)?
            };
        }
        Some(n)
    }

    /// Its value, which is only asked whether it is finite.
    pub fn to_float(&self, negative: bool) -> f64 {
        let size = core::str::from_utf8(self.all)
            .ok()
            .and_then(|text| text.parse().ok());
        let size: f64 = size.unwrap_or(f64::NAN);
        if negative {
            -size
        } else {
            size
        }
    }
}
