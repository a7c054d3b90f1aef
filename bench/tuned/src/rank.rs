//! Bids, each in 64 bits that compare as the rank does.
//!
//! | bits, from the highest on | what they hold |
//! |---|---|
//! | 1 | whether the bid is within the client's minimum |
//! | 4 | the class |
//! | 51 | the fraction |
//! | 8 | 255 less the client's place, so that the lower number ranks above |
//!
//! The fraction is the quotient of shares and parts as a double, and quotients compare just as cross products do: shares are
//! below 2^20 and parts at most 2^14. Where a/b is larger than c/d, a * d - c * b is at least 1, so a/b - c/d is at least
//! 1 / (b * d), which is more than 2^-34 of a/b. A quotient of doubles is off by no more than 2^-53 of its value, and of the 52
//! bits after its first the highest 45 are kept. So the larger fraction stays the larger one, and equal fractions have the same
//! bits.
//!
//! Of one client's bids the fractions differ, since its parts grow with k. So the last test of the rank needs no bits.

pub const WITHIN_MINIMUM: u64 = 1 << 63;

/// Below the least fraction, 1 / 2^14.
const LEAST: f64 = 1.0 / 32_768.0;

/// What all bids of a client have in common.
pub fn bits_of_client(class: u8, place: u8) -> u64 {
    u64::from(class) << 59 | u64::from(!place)
}

pub fn bits_of_fraction(shares: u32, parts: u32) -> u64 {
    let quotient = f64::from(shares) / f64::from(parts);
    (quotient.to_bits() - LEAST.to_bits()) >> 7 << 8
}

/// The place of the client that makes a bid.
pub fn place_of(bid: u64) -> u8 {
    !(bid as u8)
}

#[cfg(test)]
mod tests {
    use super::bits_of_fraction;

    /// For many pairs of parts, the largest shares over the first, and over the second the shares that come nearest.
    #[test]
    fn fractions_compare_as_cross_products() {
        let parts = || (1..=16_384_u32).step_by(7).chain(16_300..=16_384);
        for (b, d) in parts().flat_map(|b| parts().map(move |d| (b, d))) {
            let a = 1_000_000 * u64::from(b) / u64::from(b.max(d));
            let nearest = a * u64::from(d) / u64::from(b);
            for c in nearest.saturating_sub(1).max(1)..=(nearest + 1).min(1_000_000) {
                let crosswise = (a * u64::from(d)).cmp(&(c * u64::from(b)));
                assert_eq!(bits_of_fraction(a as u32, b).cmp(&bits_of_fraction(c as u32, d)), crosswise);
            }
        }
    }
}
