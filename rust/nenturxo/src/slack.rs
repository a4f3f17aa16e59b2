//! What an outline leaves free.

/// How much wider and higher an outline is than a plan needs, each way: below 0
/// if the plan does not fit.
///
/// ```
/// use nenturxo::{slack, Refusal, Slack};
///
/// fn in_words(slack: Slack) -> &'static str {
///     match (slack.across < 0, slack.up < 0) {
///         (false, false) => "fits",
///         (true, false) => "too wide",
///         (false, true) => "too high",
///         (true, true) => "too wide and too high",
///     }
/// }
///
/// // Two rooms side by side: 3 wide and 1 high, and 4 wide and 2 high.
/// let fits = |width, height| slack(&[0x02, 0x40], &[3, 4], &[1, 2], width, height).map(in_words);
/// assert_eq!(fits(7, 2)?, "fits");
/// assert_eq!(fits(6, 2)?, "too wide");
/// assert_eq!(fits(7, 1)?, "too high");
/// assert_eq!(fits(0, 0)?, "too wide and too high");
/// # Ok::<(), Refusal>(())
/// ```
#[derive(Clone, Copy, Debug, PartialEq, Eq, Hash)]
pub struct Slack {
    /// The width of the outline less what is needed from left to right.
    pub across: i64,
    /// The height of the outline less what is needed from bottom to top.
    pub up: i64,
}
