//! The desk's fee, of document 02 No. 7.

/// What the desk keeps of a payment to the merchant: the whole part of amount × rate / 10,000.
pub fn fee(amount: u64, rate: u32) -> u64 {
    let product = u128::from(amount) * u128::from(rate);
    u64::try_from(product / 10_000).expect("a rate of at most 10,000")
}

#[cfg(test)]
mod tests {
    use super::*;
    use crate::book::{HIGHEST_RATE, LARGEST};

    /// Amounts, and differences of two, at the edges of a cent of fee and of what a channel holds.
    const EDGES: [u64; 16] = [
        0,
        1,
        9,
        10,
        11,
        99,
        300,
        700,
        9_999,
        10_000,
        10_001,
        19_999,
        123_456_789,
        LARGEST / 2 - 1,
        LARGEST / 2,
        LARGEST,
    ];

    #[test]
    fn of_the_figures() {
        assert_eq!(
            [300, 700, 1_000].map(|amount| fee(amount, 250)),
            [7, 17, 25]
        );
        assert_eq!([9_999, 10_000].map(|amount| fee(amount, 1)), [0, 1]);
        assert_eq!(fee(LARGEST, 1_000), 922_337_203_685_477_580);
        assert_eq!([9, 10].map(|amount| fee(amount, 1_000)), [0, 1]);
        assert_eq!(fee(LARGEST, 0), 0);
    }

    /// As many cents as are whole, at every rate: ten thousand times the fee is at most amount ×
    /// rate, and one cent more is above it.
    #[test]
    fn whole_part() {
        for rate in 0..=HIGHEST_RATE {
            for amount in EDGES {
                let product = u128::from(amount) * u128::from(rate);
                let cents = u128::from(fee(amount, rate));
                let whole = 10_000 * cents <= product && product < 10_000 * (cents + 1);
                assert!(whole, "{amount} at {rate}");
            }
        }
    }

    /// By how much the fee rises for an amount larger by d, and the whole part of d × rate / 10,000.
    fn raise(amount: u64, d: u64, rate: u32) -> (u64, u64) {
        let least = u128::from(d) * u128::from(rate) / 10_000;
        let raise = fee(amount + d, rate) - fee(amount, rate);
        (raise, least.try_into().unwrap())
    }

    /// The bakeries' bound, at every rate: at least the whole part, and at most one cent more. Both
    /// ends come up.
    #[test]
    fn bound() {
        let mut met = [0, 0];
        for rate in 0..=HIGHEST_RATE {
            for (amount, d) in EDGES.iter().flat_map(|a| EDGES.map(|d| (*a, d))) {
                if amount > LARGEST - d {
                    continue;
                }
                let (raise, least) = raise(amount, d, rate);
                let over = raise.checked_sub(least);
                assert!(matches!(over, Some(0 | 1)), "{amount} and {d} at {rate}");
                met[over.unwrap() as usize] += 1;
            }
        }
        assert!(met.iter().all(|count| *count > 0), "{met:?}");
    }
}
