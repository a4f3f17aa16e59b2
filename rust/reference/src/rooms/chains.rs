//! Left, right, above and below in "Rooms, segments and the two orders" of the
//! sheet: by direct steps, and by chains of them.

use super::segments::Supports;
use crate::{Relation, Side};

/// Whether room a is directly on this side of room b: whether one segment
/// holds their facing edges, as a's right edge and b's left edge where a is
/// directly left of b.
pub(super) fn is_directly(side: Side, a: &Supports, b: &Supports) -> bool {
    match side {
        Side::Left => a.right == b.left,
        Side::Right => a.left == b.right,
        Side::Above => a.bottom == b.top,
        Side::Below => a.top == b.bottom,
    }
}

/// The chains of direct steps in a floorplan: "Room a is directly left of b if
/// one segment holds a's right edge and b's left edge. It is left of b if a
/// chain of direct steps leads from a to b. Above and below are formed
/// likewise."
///
/// All chains are found once, and then all pairs of rooms can be asked for,
/// each room named by its place in the list, from 0 on.
#[derive(Clone, Debug)]
pub struct Chains {
    left: Steps,
    above: Steps,
}

/// The least number of steps in a chain from one room (row) to another
/// (column).
type Steps = Vec<Vec<u8>>;

/// In place of a number of steps where no chain leads. Of 255 rooms a chain has
/// at most 254 steps, since none goes round.
const NO_CHAIN: u8 = u8::MAX;

impl Chains {
    /// Those of a floorplan of at most 255 rooms, from the segments that
    /// support the rooms.
    pub(super) fn of(rooms: &[Supports]) -> Self {
        let along = |side| chains(direct_steps(rooms, side));
        Self {
            left: along(Side::Left),
            above: along(Side::Above),
        }
    }

    /// The least number of direct steps by which the first room is on this
    /// side of the second, 1 if it is directly there; none if it is on another
    /// side. Read from its end, a chain by which a is left of b is one by which
    /// b is right of a, and likewise above and below.
    ///
    /// # Panics
    ///
    /// If the list has no such place.
    #[must_use]
    pub fn steps(&self, side: Side, first: usize, second: usize) -> Option<u8> {
        let least = match side {
            Side::Left => self.left[first][second],
            Side::Right => self.left[second][first],
            Side::Above => self.above[first][second],
            Side::Below => self.above[second][first],
        };
        (least != NO_CHAIN).then_some(least)
    }

    /// How a room stands to another one: on the side on which a chain leads
    /// from it to that one, and directly if one step does.
    ///
    /// # Panics
    ///
    /// Unless there is exactly one such side, as for any two different rooms
    /// of a floorplan (000, Observation 3.3), or as [`Self::steps`].
    #[must_use]
    pub fn relation(&self, first: usize, second: usize) -> Relation {
        let leads = |side| self.steps(side, first, second).map(|steps| (side, steps));
        let found: Vec<(Side, u8)> = Side::ALL.into_iter().filter_map(leads).collect();
        let [(side, steps)] = found[..] else {
            panic!("{first} and {second} have the relations {found:?}");
        };
        Relation {
            side,
            direct: steps == 1,
        }
    }
}

/// The direct steps: one from a to b if a is directly on this side of b.
fn direct_steps(rooms: &[Supports], side: Side) -> Steps {
    let step = |a, b| if is_directly(side, a, b) { 1 } else { NO_CHAIN };
    let row = |a| rooms.iter().map(|b| step(a, b)).collect();
    rooms.iter().map(row).collect()
}

/// The chains of such steps: first those with no room between, then with one
/// more room allowed at a time.
fn chains(steps: Steps) -> Steps {
    let mut chains = steps;
    for over in 0..chains.len() {
        let onward = chains[over].clone();
        for from in chains.iter_mut().filter(|from| from[over] != NO_CHAIN) {
            let to_there = from[over];
            for (least, &further) in from.iter_mut().zip(&onward) {
                // Where nothing leads on, the sum is again no chain.
                *least = to_there.saturating_add(further).min(*least);
            }
        }
    }
    chains
}

#[cfg(test)]
mod tests {
    use crate::cases::{asked, rooms};
    use crate::{plan_of, Contacts, Relation, Side};

    /// Holds two rooms of a list to a relation and a number of steps, both
    /// ways round.
    fn expect(corners: &[[u16; 4]], [first, second]: [usize; 2], side: Side, steps: u8) {
        let contacts = Contacts::of(&rooms(corners));
        let chains = contacts.chains();
        let direct = steps == 1;
        let relation = Relation { side, direct };
        assert_eq!(chains.relation(first, second), relation, "{corners:?}");
        assert_eq!(chains.relation(second, first), relation.reversed());
        for other in Side::ALL {
            let leads = (other == side).then_some(steps);
            assert_eq!(chains.steps(other, first, second), leads);
            assert_eq!(chains.steps(other.opposite(), second, first), leads);
            let is_directly = other == side && direct;
            assert_eq!(contacts.directly(other, first, second), is_directly);
            let back = contacts.directly(other.opposite(), second, first);
            assert_eq!(back, is_directly);
        }
    }

    #[test]
    fn one_segment_holds_facing_edges_wherever_it_slides() {
        // Two rows of two rooms: the upper cut left of the lower one, and
        // right of it. Each time two rooms share no piece of edge.
        for cut in [1, 3] {
            let lower = [[0, 0, 2, 1], [2, 0, 4, 1]];
            let upper = [[0, 1, cut, 2], [cut, 1, 4, 2]];
            let plan = [lower, upper].concat();
            for pair in [[0, 2], [0, 3], [1, 2], [1, 3]] {
                expect(&plan, pair, Side::Below, 1);
            }
            expect(&plan, [0, 1], Side::Left, 1);
            expect(&plan, [2, 3], Side::Left, 1);
        }
    }

    #[test]
    fn the_shortest_of_several_chains_counts() {
        // Between the first and the last room there are three rows, from the
        // top down: of three rooms, of two and of one.
        let plan = [
            [0, 0, 1, 3],
            [1, 2, 2, 3],
            [2, 2, 5, 3],
            [5, 2, 7, 3],
            [1, 1, 4, 2],
            [4, 1, 7, 2],
            [1, 0, 7, 1],
            [7, 0, 8, 3],
        ];
        expect(&plan, [0, 7], Side::Left, 2);
        expect(&plan, [0, 3], Side::Left, 3);
        expect(&plan, [1, 7], Side::Left, 3);
        expect(&plan, [6, 1], Side::Below, 2);
        // And the upper row alone.
        let row = [[0, 2, 1, 3], plan[1], plan[2], plan[3], [7, 2, 8, 3]];
        expect(&row, [0, 4], Side::Left, 4);
    }

    #[test]
    fn every_pair_of_the_worked_plans() {
        let mut pairs = 0;
        for plan in asked::PLANS {
            let drawn = plan_of(plan.record).unwrap().rooms;
            let chains = Contacts::of(&drawn).chains();
            for &([first, second], worked) in plan.pairs {
                let [a, b] = [first, second].map(|position| usize::from(position) - 1);
                assert_eq!(chains.steps(worked.side, a, b), Some(worked.steps));
                assert_eq!(chains.relation(a, b), worked.answer().0);
                pairs += 1;
            }
        }
        // Two plans of 3 rooms, five of 4, six of 5, two of 6 and one of 7.
        assert_eq!(pairs, 2 * 3 + 5 * 6 + 6 * 10 + 2 * 15 + 21);
    }
}
