//! How two rooms stand to each other: the four relations of the sheet, and by
//! the request M-102 whether directly or only through others.

/// The side on which a room is of another one.
#[derive(Clone, Copy, Debug, PartialEq, Eq, Hash)]
pub enum Side {
    /// It is left of the other one.
    Left,
    /// It is right of the other one.
    Right,
    /// It is above the other one.
    Above,
    /// It is below the other one.
    Below,
}

impl Side {
    /// All four.
    pub const ALL: [Self; 4] = [Self::Left, Self::Right, Self::Above, Self::Below];

    /// The side on which the other room is of this one.
    #[must_use]
    pub const fn opposite(self) -> Self {
        match self {
            Self::Left => Self::Right,
            Self::Right => Self::Left,
            Self::Above => Self::Below,
            Self::Below => Self::Above,
        }
    }
}

/// How a room stands to another one.
#[derive(Clone, Copy, Debug, PartialEq, Eq, Hash)]
pub struct Relation {
    /// The side of the other one on which it is.
    pub side: Side,
    /// Whether "it is direct, by one segment that holds their facing edges, or
    /// only through a chain of more steps".
    pub direct: bool,
}

impl Relation {
    /// How the other room stands to this one: on the opposite side, and
    /// equally direct, since the same segment holds the same two edges.
    #[must_use]
    pub const fn reversed(self) -> Self {
        Self {
            side: self.side.opposite(),
            direct: self.direct,
        }
    }
}
