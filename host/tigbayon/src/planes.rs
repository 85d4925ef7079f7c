//! Bit planes of sixty-four bytes.

use crate::ffi;

/// The planes of sixty-four bytes: bit n of plane p is bit p of byte n.
///
/// Byte n is byte n % 8 of word n / 8, byte 0 of a word being its lowest eight
/// bits. [`from_planes`] undoes it. Nothing is refused.
///
/// ```
/// use tigbayon::{from_planes, to_planes};
///
/// // Byte 0 is 0x81, byte 10 is 0x03.
/// let planes = to_planes(&[0x81, 0x03_0000, 0, 0, 0, 0, 0, 0]);
/// assert_eq!(planes, [0x401, 0x400, 0, 0, 0, 0, 0, 0x1]);
///
/// // Byte n is n.
/// let words = [
///     0x0706_0504_0302_0100,
///     0x0F0E_0D0C_0B0A_0908,
///     0x1716_1514_1312_1110,
///     0x1F1E_1D1C_1B1A_1918,
///     0x2726_2524_2322_2120,
///     0x2F2E_2D2C_2B2A_2928,
///     0x3736_3534_3332_3130,
///     0x3F3E_3D3C_3B3A_3938,
/// ];
/// let planes = to_planes(&words);
/// assert_eq!(planes[0], 0xAAAA_AAAA_AAAA_AAAA);
/// assert_eq!(planes[3], 0xFF00_FF00_FF00_FF00);
/// assert_eq!(planes[5], 0xFFFF_FFFF_0000_0000);
/// assert_eq!(planes[6], 0);
/// assert_eq!(from_planes(&planes), words);
/// ```
pub fn to_planes(words: &[u64; 8]) -> [u64; 8] {
    ffi::tb_to_planes(words).words
}

/// The eight words of the bytes that have these planes: bit p of byte n is bit n
/// of plane p.
///
/// [`to_planes`] undoes it. Nothing is refused.
///
/// ```
/// use tigbayon::{from_planes, to_planes};
///
/// // Plane 5 is lit, and in plane 0 the bit of byte 63 alone.
/// let planes = [1 << 63, 0, 0, 0, 0, u64::MAX, 0, 0];
/// let words = from_planes(&planes);
/// assert_eq!(words[..7], [0x2020_2020_2020_2020; 7]);
/// assert_eq!(words[7], 0x2120_2020_2020_2020);
/// assert_eq!(to_planes(&words), planes);
/// ```
pub fn from_planes(planes: &[u64; 8]) -> [u64; 8] {
    ffi::tb_from_planes(planes).words
}
