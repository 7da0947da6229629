//! The two sides of a channel that no signature is asked of.

/// The customer's and the merchant's key, of the right types.
pub fn keys() -> [[u8; 56]; 2] {
    [1, 2].map(|byte| {
        let mut key = [byte; 56];
        key[..8].copy_from_slice(&[0, 0, 0, 6, 0, 0, 0, 4]);
        key
    })
}
