//! What a move does, in a table: in most records no processor can guess the
//! next move.

use super::moves::{APART, JOINS_BOTH, REACHES, TURNS};

/// What decides on the effect of a move beside the move itself: the bits below.
pub(super) type State = u8;

/// The part that waits last and the one that waits longer are on two sides.
pub(super) const TURNED: State = 1;

/// The part that waits last is next to another one on its side.
pub(super) const LINKED: State = 2;

/// The move goes to the side where the last part waits.
pub(super) const TOWARD: State = JOINS_BOTH;

/// The hand is next to a part on the side where the last part does not wait.
pub(super) const BESIDE: State = 8;

/// Nothing waits.
pub(super) const NOTHING: State = 16;

/// What is known of the part that waits last, from the state in which it began
/// to wait. It was left on the other side than the move went. So the one that
/// waits longer is on the other side if the move went toward it, and what it
/// was beside is on its own side.
pub(super) const fn when_it_waits(state: State) -> State {
    state >> 2 & (TURNED | LINKED | NOTHING)
}

/// The effect of a move.
#[derive(Clone, Copy)]
#[repr(align(4))]
pub(super) struct Effect {
    /// The next state, but for what is known of the part that waits last if
    /// another one was last before.
    pub(super) then: State,
    /// Which node stays in hand, if any, and whether the case is rare.
    pub(super) kept: u8,
    /// The number of bytes that are written.
    pub(super) bytes: u8,
}

/// The node in hand, with the room as a child, stays in hand.
pub(super) const KEEPS_NODE: u8 = 1;

/// The node of the part that waited last is in hand.
pub(super) const KEEPS_WAITING: u8 = 2;

/// The plan is not slicing, or the hand joins more than one part, or no part
/// waits.
pub(super) const RARE: u8 = 128;

/// The effects, by the bits of the state and the indexed ones of the move.
pub(super) static EFFECTS: [Effect; 256] = {
    let mut effects = [Effect::of(0); 256];
    let mut index = 0;
    while index < 256 {
        effects[index] = Effect::of(index as u8);
        index += 1;
    }
    effects
};

/// A state and a move.
struct Case {
    bits: u8,
    /// The hand joins the part that waits last.
    joins_last: bool,
}

impl Case {
    const fn has(&self, bit: u8) -> bool {
        self.bits & bit != 0
    }

    /// The next state.
    const fn then(&self) -> State {
        let last = if self.joins_last {
            0
        } else if self.has(APART) {
            when_it_waits(self.bits) & (TURNED | LINKED)
        } else {
            self.bits & (TURNED | LINKED)
        };
        // The last part may then lie behind the room, on the side from which
        // the move came.
        let behind = self.has(APART) || !self.has(TOWARD) || self.joins_last && self.has(TURNED);
        let toward = if behind == self.has(TURNS) { TOWARD } else { 0 };
        let beside = if self.has(APART) {
            self.has(REACHES)
        } else if self.joins_last {
            self.has(BESIDE) || self.has(LINKED)
        } else {
            self.has(BESIDE) || self.has(REACHES)
        };
        last | toward | if beside { BESIDE } else { 0 }
    }

    /// Which node stays in hand. A node that is cut the other way than the
    /// next room is complete.
    const fn kept(&self) -> u8 {
        if self.has(APART) || self.has(TURNS) != self.joins_last {
            0
        } else if self.joins_last {
            KEEPS_WAITING
        } else {
            KEEPS_NODE
        }
    }

    /// One byte for the room and two for each node that is complete: that of
    /// the hand if another part joins, and the one that then does not stay in
    /// hand.
    const fn bytes(&self) -> u8 {
        let complete = !self.has(APART) && self.kept() == 0;
        1 + 2 * self.joins_last as u8 + 2 * complete as u8
    }

    const fn is_rare(&self) -> bool {
        let goes_beyond = self.has(BESIDE) && !self.has(TOWARD);
        let joins_more = self.joins_last && self.has(TURNED) && self.has(BESIDE);
        goes_beyond || joins_more || self.has(NOTHING)
    }
}

impl Effect {
    const fn of(bits: u8) -> Self {
        let reached = bits & (REACHES | TOWARD) == REACHES | TOWARD;
        let joins_last = reached && bits & APART == 0;
        let case = Case { bits, joins_last };
        Self {
            then: case.then(),
            kept: case.kept() | if case.is_rare() { RARE } else { 0 },
            bytes: case.bytes(),
        }
    }
}
