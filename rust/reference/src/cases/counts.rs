//! Numbers of plans that the papers print.

/// The column of mosaic floorplans in Table I of 003, for 1 to 17 blocks, as it is
/// printed there. The number for 11 blocks is a misprint: the formula of 000 gives
/// 1,882,960, and the formula decides.
pub const MOSAIC: [u64; 17] = [
    1,
    2,
    6,
    22,
    92,
    422,
    2_074,
    10_754,
    58_202,
    326_240,
    1_882_690,
    11_140_560,
    67_329_992,
    414_499_438,
    2_593_341_586,
    16_458_756_586,
    105_791_986_682,
];

/// The number of ways to choose `k` of `n`.
fn binomial(n: u128, k: u128) -> u128 {
    (0..k).fold(1, |product, i| product * (n - i) / (i + 1))
}

/// The term for r of the formula in 000 for B(n), which by Corollary 4.2 is the
/// number of mosaic floorplans with n blocks and r vertical segments. By Algorithm
/// BP2FP each rise of the list gives one of these, so r is the number of rises.
///
/// # Panics
///
/// If the division leaves a rest, which it does for no n and r.
#[must_use]
pub fn term(n: u8, r: u8) -> u64 {
    let (n, r) = (u128::from(n), u128::from(r));
    let above = binomial(n + 1, r) * binomial(n + 1, r + 1) * binomial(n + 1, r + 2);
    let below = binomial(n + 1, 1) * binomial(n + 1, 2);
    assert_eq!(above % below, 0);
    u64::try_from(above / below).expect("less than 2^64")
}
