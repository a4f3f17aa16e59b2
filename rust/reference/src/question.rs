//! The question of the sheet: how two positions of a record stand to each
//! other.

use crate::{plan_of, Contacts, Plan, Refusal, Relation};

/// The relation of the first position to the second in a record, and whether
/// the two touch.
///
/// # Errors
///
/// The first cause found in the order 9, 10, 11, 14, 12, 13, 16, 17.
pub fn question(record: &[u8], first: u8, second: u8) -> Result<(Relation, bool), Refusal> {
    Questions::about(plan_of(record)?).answer(first, second)
}

/// What all questions about one plan are answered from.
#[derive(Clone, Debug)]
pub struct Questions {
    plan: Plan,
    /// Which rooms of the drawing touch, and in which direct relations they
    /// are. By M-101 and M-102 that goes by the edges that one segment holds,
    /// and so is the same for every equivalent floorplan: the drawing serves
    /// as well as any.
    contacts: Contacts,
}

impl Questions {
    /// Those about a plan, whose rooms are a floorplan.
    ///
    /// # Panics
    ///
    /// As [`Contacts::of`].
    #[must_use]
    pub fn about(plan: Plan) -> Self {
        let contacts = Contacts::of(&plan.rooms);
        Self { plan, contacts }
    }

    /// The plan that they are about.
    #[must_use]
    pub fn plan(&self) -> &Plan {
        &self.plan
    }

    /// The relation of the first position to the second, and whether the two
    /// touch.
    ///
    /// # Errors
    ///
    /// The first cause found in the order 16, 17.
    pub fn answer(&self, first: u8, second: u8) -> Result<(Relation, bool), Refusal> {
        let is_position = |asked: u8| (1..=self.plan.labels.len()).contains(&usize::from(asked));
        if !is_position(first) || !is_position(second) {
            return Err(Refusal::PositionOutside);
        }
        if first == second {
            return Err(Refusal::PositionsEqual);
        }
        Ok((self.relation(first, second), self.touch(first, second)))
    }

    /// The relation of one position to another one, which is direct if one
    /// segment holds the facing edges of their rooms.
    fn relation(&self, first: u8, second: u8) -> Relation {
        let side = self.plan.side(place(first), place(second));
        let direct = self.contacts.directly(side, place(first), place(second));
        Relation { side, direct }
    }

    /// Whether the rooms of two positions touch.
    fn touch(&self, first: u8, second: u8) -> bool {
        self.contacts.touch(place(first), place(second))
    }
}

/// The place of a position in lists by position.
fn place(position: u8) -> usize {
    usize::from(position) - 1
}

#[cfg(test)]
mod tests {
    use super::question;
    use crate::cases::asked;
    use crate::{plan_of, Refusal};

    #[test]
    fn every_pair_of_the_worked_plans() {
        for plan in asked::PLANS {
            let (labels, record) = (plan.labels, plan.record);
            assert_eq!(plan_of(record).unwrap().labels, labels);
            assert_eq!(plan.pairs.len(), labels.len() * (labels.len() - 1) / 2);
            for &([first, second], standing) in plan.pairs {
                let (relation, touch) = standing.answer();
                let there = question(record, first, second);
                let back = question(record, second, first);
                assert_eq!(there, Ok((relation, touch)), "{labels:?}");
                assert_eq!(back, Ok((relation.reversed(), touch)), "{labels:?}");
            }
        }
    }

    #[test]
    fn a_position_outside_is_16_and_else_equal_ones_are_17() {
        let asked = |first, second| question(&[0x02, 0x40], first, second);
        assert_eq!(asked(0, 0), Err(Refusal::PositionOutside));
        assert_eq!(asked(3, 3), Err(Refusal::PositionOutside));
        assert_eq!(asked(0, 1), Err(Refusal::PositionOutside));
        assert_eq!(asked(1, 3), Err(Refusal::PositionOutside));
        assert_eq!(asked(1, 1), Err(Refusal::PositionsEqual));
        assert_eq!(asked(2, 2), Err(Refusal::PositionsEqual));
    }
}
