//! How two rooms stand to each other.

use crate::sys::Code;

/// The side on which a room is of another one. Of two different rooms of a
/// floorplan exactly one of the four holds.
#[derive(Clone, Copy, Debug, PartialEq, Eq, Hash)]
pub enum Side {
    /// The room is left of the other one.
    Left,
    /// The room is right of the other one.
    Right,
    /// The room is above the other one.
    Above,
    /// The room is below the other one.
    Below,
}

impl Side {
    /// The sides by their codes.
    const BY_CODE: [Self; 4] = [Self::Left, Self::Right, Self::Above, Self::Below];

    /// The side that a code stands for, if it is one of theirs: the code for
    /// mixed groups is not.
    pub(crate) fn from_code(code: Code) -> Option<Self> {
        let code = usize::try_from(code).ok()?;
        Self::BY_CODE.get(code).copied()
    }

    /// The side on which the other room is of this one.
    ///
    /// ```
    /// use nenturxo::Side;
    ///
    /// assert_eq!(Side::Left.opposite(), Side::Right);
    /// assert_eq!(Side::Below.opposite(), Side::Above);
    /// ```
    #[must_use]
    pub const fn opposite(self) -> Self {
        match self {
            Self::Left => Self::Right,
            Self::Right => Self::Left,
            Self::Above => Self::Below,
            Self::Below => Self::Above,
        }
    }
}

/// How a room stands to another one: on which side of it, and whether directly
/// or only through others.
///
/// ```
/// use nenturxo::{question, Relation, Side};
///
/// fn in_words(relation: Relation) -> &'static str {
///     match relation {
///         Relation { side: Side::Left, direct: true } => "beside, on the left",
///         Relation { side: Side::Left, direct: false } => "further left",
///         Relation { side: Side::Right, .. } => "on the right",
///         Relation { side: Side::Above | Side::Below, .. } => "above or below",
///     }
/// }
///
/// let three_side_by_side = [0x03, 0x48];
/// let (relation, touch) = question(&three_side_by_side, 1, 2)?;
/// assert_eq!((in_words(relation), touch), ("beside, on the left", true));
/// let (relation, touch) = question(&three_side_by_side, 1, 3)?;
/// assert_eq!((in_words(relation), touch), ("further left", false));
/// # Ok::<(), nenturxo::Refusal>(())
/// ```
#[derive(Clone, Copy, Debug, PartialEq, Eq, Hash)]
pub struct Relation {
    /// The side of the other room on which the room is.
    pub side: Side,
    /// Whether one segment holds the facing edges of the two rooms. If not,
    /// the room is on that side only through a chain of two or more such
    /// steps.
    pub direct: bool,
}

impl Relation {
    /// The relation that a code stands for, and whether the two rooms touch:
    /// of a code from 0 to 15 the lowest two bits are the side, the next one
    /// says that they touch and the highest one that the relation is direct.
    pub(crate) const fn from_code(code: Code) -> (Self, bool) {
        let side = Side::BY_CODE[(code & 3) as usize];
        let direct = code & 8 != 0;
        (Self { side, direct }, code & 4 != 0)
    }

    /// How the other room stands to this one: on the opposite side, and
    /// equally direct.
    ///
    /// ```
    /// use nenturxo::{Relation, Side};
    ///
    /// let left = Relation { side: Side::Left, direct: true };
    /// let right = Relation { side: Side::Right, direct: true };
    /// assert_eq!(left.reversed(), right);
    /// ```
    #[must_use]
    pub const fn reversed(self) -> Self {
        Self {
            side: self.side.opposite(),
            direct: self.direct,
        }
    }
}

#[cfg(test)]
mod tests {
    use super::{Relation, Side};

    const SIDES: [Side; 4] = [Side::Left, Side::Right, Side::Above, Side::Below];

    #[test]
    fn codes_0_to_3_stand_for_sides_and_others_for_none() {
        for (code, side) in (0..).zip(SIDES) {
            assert_eq!(Side::from_code(code), Some(side));
        }
        for code in [4, 5, 16, 256, -1, i32::MIN, i32::MAX] {
            assert_eq!(Side::from_code(code), None);
        }
    }

    #[test]
    fn every_code_stands_for_a_relation() {
        for (code, side) in (0..).zip(SIDES) {
            for (added, direct, touch) in [
                (0, false, false),
                (4, false, true),
                (8, true, false),
                (12, true, true),
            ] {
                let expected = (Relation { side, direct }, touch);
                assert_eq!(Relation::from_code(code + added), expected);
            }
        }
        // The library has no other codes; none of them is a panic.
        for code in [-1, 16, i32::MIN, i32::MAX] {
            assert!(SIDES.contains(&Relation::from_code(code).0.side));
        }
    }

    #[test]
    fn the_other_way_round_is_the_opposite_side_and_equally_direct() {
        let opposites = [Side::Right, Side::Left, Side::Below, Side::Above];
        for (side, opposite) in SIDES.into_iter().zip(opposites) {
            assert_eq!(side.opposite(), opposite);
            for direct in [false, true] {
                let reversed = Relation { side, direct }.reversed();
                assert_eq!((reversed.side, reversed.direct), (opposite, direct));
                assert_eq!(reversed.reversed(), Relation { side, direct });
            }
        }
    }
}
