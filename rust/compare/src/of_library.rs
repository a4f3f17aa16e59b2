//! Rooms, sides, relations, patterns, summaries, slacks and what traces come to
//! in the library's own types.

use reference::{Condition, Pattern, Relation, Room, Side, Summary, Traced};

/// A room as the library takes it.
#[must_use]
pub fn room(room: Room) -> nenturxo::Room {
    nenturxo::Room {
        left: room.left,
        bottom: room.bottom,
        right: room.right,
        top: room.top,
        name: room.name,
    }
}

/// A room list as the library takes it.
#[must_use]
pub fn rooms(rooms: &[Room]) -> Vec<nenturxo::Room> {
    rooms.iter().copied().map(room).collect()
}

/// A side as the library names it.
#[must_use]
pub fn side(side: Side) -> nenturxo::Side {
    match side {
        Side::Left => nenturxo::Side::Left,
        Side::Right => nenturxo::Side::Right,
        Side::Above => nenturxo::Side::Above,
        Side::Below => nenturxo::Side::Below,
    }
}

/// A relation as the library names it.
#[must_use]
pub fn relation(relation: Relation) -> nenturxo::Relation {
    let Relation { side, direct } = relation;
    let side = self::side(side);
    nenturxo::Relation { side, direct }
}

/// A pattern as the library names it.
#[must_use]
pub fn pattern(pattern: Pattern) -> nenturxo::Pattern {
    let condition = match pattern.condition {
        Condition::First => nenturxo::Condition::First,
        Condition::Second => nenturxo::Condition::Second,
    };
    let Pattern { i, j, k, l, .. } = pattern;
    nenturxo::Pattern {
        condition,
        i,
        j,
        k,
        l,
    }
}

/// A summary as the library takes it.
#[must_use]
pub fn summary(summary: Summary) -> nenturxo::Summary {
    nenturxo::Summary {
        plans: summary.plans,
        rooms: summary.rooms,
        rises: summary.rises,
        falls: summary.falls,
    }
}

/// A slack, across and up, as the library names it.
#[must_use]
pub fn slack((across, up): (i64, i64)) -> nenturxo::Slack {
    nenturxo::Slack { across, up }
}

/// What a trace comes to, as the library names it.
#[must_use]
pub fn traced(traced: Traced) -> nenturxo::Traced {
    let Traced { moves, rooms, runs } = traced;
    nenturxo::Traced { moves, rooms, runs }
}
