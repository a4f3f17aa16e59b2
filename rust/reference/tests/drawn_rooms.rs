//! The rooms of every small drawing, judged by "Rooms, segments and the two
//! orders" of the sheet: their labels, their positions and how they stand to
//! each other must be those that they were drawn from. And judged by the
//! requests M-101 and M-102: whether they touch, and whether they stand so
//! directly or through a chain of more steps, must be what a question is
//! answered with.

use reference::cases::{baxter_lists_up_to, every_code};
use reference::{drawing, labels_of, Contacts, Plan, Questions, Relation, Room, Side};

/// One way through a drawing: the relations left and right, or with the two
/// directions traded below and above.
#[derive(Clone, Copy)]
enum Way {
    Across,
    Up,
}

impl Way {
    /// Where a room starts and ends this way, then the other way.
    fn extents(self, room: Room) -> [u16; 4] {
        match self {
            Self::Across => [room.left, room.right, room.bottom, room.top],
            Self::Up => [room.bottom, room.top, room.left, room.right],
        }
    }

    /// The place where the segment begins that runs at `at` over the piece
    /// from `piece` on: a longest unbroken run of room edges.
    fn segment(self, rooms: &[Room], at: u16, piece: u16) -> u16 {
        let has_edge = |piece: u16| {
            rooms.iter().any(|&room| {
                let [start, end, from, to] = self.extents(room);
                (start == at || end == at) && (from..to).contains(&piece)
            })
        };
        let mut begin = piece;
        while begin > 0 && has_edge(begin - 1) {
            begin -= 1;
        }
        begin
    }

    /// Whether one segment holds the end of `a` and the start of `b`.
    fn directly(self, rooms: &[Room], a: Room, b: Room) -> bool {
        let ([_, end, from_a, _], [start, _, from_b, _]) = (self.extents(a), self.extents(b));
        end == start && self.segment(rooms, end, from_a) == self.segment(rooms, end, from_b)
    }

    /// Whether one segment that is not an outline side supports both rooms,
    /// from the same side or from opposite sides.
    fn supports_both(self, rooms: &[Room], a: Room, b: Room) -> bool {
        let ([start_a, end_a, from_a, _], [start_b, end_b, from_b, _]) =
            (self.extents(a), self.extents(b));
        [start_a, end_a].into_iter().any(|at| {
            let is_inner = at != 0 && usize::from(at) != rooms.len();
            let on_line = at == start_b || at == end_b;
            let segment = |piece| self.segment(rooms, at, piece);
            is_inner && on_line && segment(from_a) == segment(from_b)
        })
    }

    /// Whether a direct step leads from one room to another.
    fn steps(self, rooms: &[Room]) -> Vec<Vec<bool>> {
        let row = |&a: &Room| rooms.iter().map(|&b| self.directly(rooms, a, b)).collect();
        rooms.iter().map(row).collect()
    }

    /// The least number of direct steps in a chain from one room to another, 0
    /// if there is none: with each step come the rooms that were not reached
    /// before and that a step leads to from one reached last.
    fn chains(self, rooms: &[Room]) -> Vec<Vec<u8>> {
        let (n, directly) = (rooms.len(), self.steps(rooms));
        let mut chains = vec![vec![0; n]; n];
        for (from, least) in chains.iter_mut().enumerate() {
            let mut reached = vec![from];
            for steps in (1..).take(n) {
                let leads = |to: usize| reached.iter().any(|&over| directly[over][to]);
                let next = (0..n).filter(|&to| least[to] == 0 && leads(to));
                let next: Vec<usize> = next.collect();
                next.iter().for_each(|&to| least[to] = steps);
                reached = next;
            }
        }
        chains
    }
}

/// Holds a plan to the definitions, and gives the greatest of all least numbers
/// of steps.
fn check(questions: &Questions) -> u8 {
    let plan = questions.plan();
    let n = plan.rooms.len();
    let left = Way::Across.chains(&plan.rooms);
    let below = Way::Up.chains(&plan.rooms);
    let chains = Contacts::of(&plan.rooms).chains();
    let mut most = 0;
    for a in 0..n {
        let others = |holds: &dyn Fn(usize) -> bool| 1 + (0..n).filter(|&b| holds(b)).count();
        // 1 plus the number of rooms left of it or above it
        let label = others(&|b| left[b][a] + below[a][b] > 0);
        assert_eq!(label, usize::from(plan.labels[a]), "{plan:?}");
        // 1 plus the number of rooms left of it or below it
        let position = others(&|b| left[b][a] + below[b][a] > 0);
        assert_eq!(position, a + 1, "{plan:?}");

        for b in (0..n).filter(|&b| b != a) {
            let steps = [left[a][b], left[b][a], below[b][a], below[a][b]];
            check_pair(questions, [a, b], steps);
            for (side, steps) in Side::ALL.into_iter().zip(steps) {
                let leads = (steps > 0).then_some(steps);
                assert_eq!(chains.steps(side, a, b), leads, "{plan:?}, {a} and {b}");
                most = most.max(steps);
            }
        }
    }
    most
}

/// Holds the answer for two places to the definitions, given the least numbers
/// of steps by which the first is left, right, above and below, 0 for none.
fn check_pair(questions: &Questions, [a, b]: [usize; 2], steps: [u8; 4]) {
    let plan = questions.plan();
    let relations = Side::ALL.into_iter().zip(steps);
    let relations = relations.filter(|&(_, steps)| steps > 0);
    let relations = relations.map(|(side, steps)| Relation {
        side,
        direct: steps == 1,
    });
    let position = |at: usize| u8::try_from(at + 1).unwrap();
    let (relation, touch) = questions.answer(position(a), position(b)).unwrap();
    let relations: Vec<Relation> = relations.collect();
    assert_eq!(relations, [relation], "{plan:?}, {a} and {b}");

    let [room_a, room_b] = [a, b].map(|at| plan.rooms[at]);
    let expected = [Way::Across, Way::Up]
        .iter()
        .any(|way| way.supports_both(&plan.rooms, room_a, room_b));
    assert_eq!(touch, expected, "{plan:?}, {a} and {b}");
    // Two rooms in a direct relation always touch.
    assert!(touch || !relation.direct, "{plan:?}, {a} and {b}");
}

#[test]
fn every_plan_of_up_to_7_rooms() {
    let mut plans = 0;
    // The number of plans by the greatest number of steps.
    let mut of_steps = [0; 7];
    for labels in (1..=7)
        .flat_map(every_code)
        .flat_map(|code| labels_of(&code))
    {
        let rooms = drawing(&labels);
        let most = check(&Questions::about(Plan { labels, rooms }));
        of_steps[usize::from(most)] += 1;
        plans += 1;
    }
    assert_eq!(plans, baxter_lists_up_to(7));
    // One room alone, and 6 steps in the row and the pile of 7.
    assert_eq!((of_steps[0], of_steps[6]), (1, 2), "{of_steps:?}");
    assert!(
        of_steps[1..6].iter().all(|&count| count > 2),
        "{of_steps:?}"
    );
}
