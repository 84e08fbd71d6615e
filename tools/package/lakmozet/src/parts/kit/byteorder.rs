//! Numbers as bytes, as the library `byteorder` has them.

/// An order of bytes.
pub trait ByteOrder {
    fn write_u16(into: &mut [u8], n: u16);
    fn write_u32(into: &mut [u8], n: u32);
    fn write_u64(into: &mut [u8], n: u64);
    fn write_u128(into: &mut [u8], n: u128);
    fn read_u32(from: &[u8]) -> u32;
    fn read_u64(from: &[u8]) -> u64;
    fn read_u128(from: &[u8]) -> u128;
}

/// The byte of the highest places first.
pub enum BigEndian {}

impl ByteOrder for BigEndian {
    fn write_u16(into: &mut [u8], n: u16) {
        into[..2].copy_from_slice(&n.to_be_bytes());
    }

    fn write_u32(into: &mut [u8], n: u32) {
        into[..4].copy_from_slice(&n.to_be_bytes());
    }

    fn write_u64(into: &mut [u8], n: u64) {
        into[..8].copy_from_slice(&n.to_be_bytes());
    }

    fn write_u128(into: &mut [u8], n: u128) {
        into[..16].copy_from_slice(&n.to_be_bytes());
    }

    fn read_u32(from: &[u8]) -> u32 {
        u32::from_be_bytes([from[0], from[1], from[2], from[3]])
    }

    fn read_u64(from: &[u8]) -> u64 {
        u64::from(Self::read_u32(from)) << 32 | u64::from(Self::read_u32(&from[4..]))
    }

    fn read_u128(from: &[u8]) -> u128 {
        u128::from(Self::read_u64(from)) << 64 | u128::from(Self::read_u64(&from[8..]))
    }
}
