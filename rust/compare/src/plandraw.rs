//! What the program `plandraw` should draw.
//!
//! What a picture means is compared, and not its text: where the rooms and the
//! segments stand, and what is written in the rooms. Its measures are taken
//! from the picture itself.

use crate::program::Program;
use crate::svg::{self, Element};
use reference::{plan_of, segments, Edge, Line, Plan, Room, Segment};
use std::collections::BTreeSet;

impl Program {
    /// The program `plandraw`, which the variable `NENTURXO_PLANDRAW` names.
    /// What it draws is compared with the plan of the definitions. A refused
    /// record must give the line of `planlist`.
    ///
    /// # Panics
    ///
    /// Without that variable.
    #[must_use]
    pub fn plandraw() -> Self {
        Self::named_by("NENTURXO_PLANDRAW", |printed, input| match plan_of(input) {
            Ok(plan) => compare(printed, &plan),
            Err(_) => ensure(printed == reference::planlist(input), "another line"),
        })
    }
}

/// The picture in the documents: the one of the record 05 31 70.
///
/// # Panics
///
/// If there is none.
#[must_use]
pub fn worked_picture() -> String {
    let path = concat!(env!("CARGO_MANIFEST_DIR"), "/../../docs/worked-plan.svg");
    std::fs::read_to_string(path).unwrap_or_else(|error| panic!("{path}: {error}"))
}

/// An error that says what is wrong, unless it holds.
fn ensure(holds: bool, otherwise: impl Into<String>) -> Result<(), String> {
    if holds {
        Ok(())
    } else {
        Err(otherwise.into())
    }
}

/// Holds a picture to the plan that it should show: the outline, then each
/// room and what is written in it, by position, then the inner segments.
fn compare(printed: &str, plan: &Plan) -> Result<(), String> {
    ensure(printed.starts_with("<svg "), "it does not begin with <svg")?;
    ensure(printed.ends_with("</svg>\n"), "it does not end with </svg>")?;
    let svg = svg::read(printed)?;
    let n = plan.rooms.len();
    let [style, outline, drawn @ ..] = &svg.children[..] else {
        return Err("there is no style or no outline".into());
    };
    ensure(style.name == "style", "the style does not come first")?;
    let grid = Grid::new(&svg, outline, n)?;
    let rooms_and_lines = drawn.split_at_checked(2 * n);
    let (rooms, lines) = rooms_and_lines.ok_or("there are too few rooms")?;
    grid.compare_rooms(rooms, plan)?;
    grid.compare_lines(lines, &plan.rooms)
}

/// A box in a picture, in which y grows downward.
#[derive(Clone, Copy, Debug, PartialEq, Eq)]
struct Area {
    left: i32,
    top: i32,
    right: i32,
    bottom: i32,
}

impl Area {
    /// The area of a `<rect>`.
    fn of(rect: &Element<'_>) -> Result<Self, String> {
        ensure(rect.name == "rect", format!("<{}> is no <rect>", rect.name))?;
        let [left, top, width, height] = rect.numbers(["x", "y", "width", "height"])?;
        Ok(Self {
            left,
            top,
            right: left + width,
            bottom: top + height,
        })
    }

    /// The area whose edges lie so much further inside.
    fn less(self, inset: i32) -> Self {
        Self {
            left: self.left + inset,
            top: self.top + inset,
            right: self.right - inset,
            bottom: self.bottom - inset,
        }
    }

    /// Whether a line of digits is inside that is written so large around `x`
    /// on a line at `y`. A digit is less than 0.6 times as wide as it is high.
    fn has_digits(self, digits: &str, x: i32, y: i32, size: i32) -> bool {
        let half = digits.len() as i32 * size * 3;
        size > 0
            && 10 * (x - self.left) >= half
            && 10 * (self.right - x) >= half
            && y - size >= self.top
            && y <= self.bottom
    }
}

/// The grid of a plan as it stands in a picture.
struct Grid {
    n: i32,
    /// The units around the outline.
    margin: i32,
    /// The units of a grid step.
    step: i32,
}

impl Grid {
    /// The grid of `n` rooms whose outline is given: a square in the middle.
    fn new(svg: &Element<'_>, outline: &Element<'_>, n: usize) -> Result<Self, String> {
        let n = i32::try_from(n).map_err(|error| error.to_string())?;
        let (area, class) = (Area::of(outline)?, outline.attribute("class")?);
        ensure(class == "o", "the outline does not come first")?;
        let (margin, width) = (area.left, area.right - area.left);
        let grid = Self {
            n,
            margin,
            step: width / n,
        };
        let side = grid.step * n + 2 * margin;
        let whole = Area {
            left: 0,
            top: 0,
            right: side,
            bottom: side,
        };
        let view = svg.attribute("viewBox")?;
        ensure(margin > 0 && grid.step > 0, "no margin or no step")?;
        ensure(view == format!("0 0 {side} {side}"), "another view")?;
        ensure(area == whole.less(margin), "the outline is elsewhere")?;
        Ok(grid)
    }

    /// Where a grid line is, from the left.
    fn across(&self, x: u16) -> i32 {
        self.margin + self.step * i32::from(x)
    }

    /// Where a grid line is, from the top.
    fn down(&self, y: u16) -> i32 {
        self.margin + self.step * (self.n - i32::from(y))
    }

    /// The place of a room.
    fn place(&self, room: Room) -> Area {
        Area {
            left: self.across(room.left),
            top: self.down(room.top),
            right: self.across(room.right),
            bottom: self.down(room.bottom),
        }
    }

    /// Holds the rooms to a plan. Their rectangles lie just inside of their
    /// places, all by the same distance.
    fn compare_rooms(&self, drawn: &[Element<'_>], plan: &Plan) -> Result<(), String> {
        let inset = Area::of(&drawn[0])?.left - self.place(plan.rooms[0]).left;
        ensure(0 < inset && 4 * inset <= self.step, "a strange inset")?;
        let rooms = plan.rooms.iter().zip(&plan.labels);
        for ((position, (&room, label)), pair) in (1..).zip(rooms).zip(drawn.chunks_exact(2)) {
            let [rect, text] = pair else {
                return Err("a pair is no pair".into());
            };
            let area = Area::of(rect)?;
            let in_place = area == self.place(room).less(inset);
            ensure(in_place, format!("room {position} is elsewhere"))?;
            compare_names(text, area, &label.to_string(), &position.to_string())
                .map_err(|difference| format!("{difference} in room {position}"))?;
        }
        Ok(())
    }

    /// Holds the lines to the inner segments of a plan, found from the unit
    /// pieces of the rooms' edges. They end by the same distance before the
    /// segments that they meet.
    fn compare_lines(&self, lines: &[Element<'_>], rooms: &[Room]) -> Result<(), String> {
        let n = rooms.len();
        ensure(lines.len() == n - 1, "there are not n - 1 segments")?;
        let Some(first) = lines.first() else {
            return Ok(());
        };
        // Of the two, one is on a grid line.
        let [x, y] = first.numbers(["x1", "y1"])?;
        let gap = (x + y - 2 * self.margin) % self.step;
        ensure(0 < gap && 4 * gap <= self.step, "a strange gap")?;

        let drawn: Result<BTreeSet<Segment>, String> =
            lines.iter().map(|line| self.segment(line, gap)).collect();
        let is_inner = |segment: &Segment| match segment.0.line {
            Line::Vertical(at) | Line::Horizontal(at) => 0 < at && usize::from(at) < n,
        };
        let inner: BTreeSet<Segment> = segments(rooms).into_iter().filter(is_inner).collect();
        ensure(drawn? == inner, "the segments are others")
    }

    /// The segment that a line shows.
    fn segment(&self, line: &Element<'_>, gap: i32) -> Result<Segment, String> {
        ensure(line.name == "line", format!("<{}> is no line", line.name))?;
        let [x1, y1, x2, y2] = line.numbers(["x1", "y1", "x2", "y2"])?;
        let (column, row) = (|x| self.column(x), |y| self.row(y));
        Ok(Segment(match line.attribute("class")? {
            "v" if x1 == x2 && y1 < y2 => Edge {
                line: Line::Vertical(column(x1)?),
                from: row(y2 + gap)?,
                to: row(y1 - gap)?,
            },
            "h" if y1 == y2 && x1 < x2 => Edge {
                line: Line::Horizontal(row(y1)?),
                from: column(x1 - gap)?,
                to: column(x2 + gap)?,
            },
            class => return Err(format!("a line of class {class:?} leads elsewhere")),
        }))
    }

    /// The grid line that is so far from the left.
    fn column(&self, x: i32) -> Result<u16, String> {
        let columns = 0..=self.n as u16;
        let mut fitting = columns.filter(|&column| self.across(column) == x);
        fitting.next().ok_or(format!("{x} across is no grid line"))
    }

    /// The grid line that is so far from the top.
    fn row(&self, y: i32) -> Result<u16, String> {
        let rows = 0..=self.n as u16;
        let mut fitting = rows.filter(|&row| self.down(row) == y);
        fitting.next().ok_or(format!("{y} down is no grid line"))
    }
}

/// Holds what is written in a room to its label and position: the label above
/// the position, both inside of the room's rectangle and in its middle.
fn compare_names(
    text: &Element<'_>,
    area: Area,
    label: &str,
    position: &str,
) -> Result<(), String> {
    let [below] = &text.children[..] else {
        return Err("there is not one text below another".into());
    };
    ensure((text.name, below.name) == ("text", "tspan"), "no text")?;
    ensure(text.text == label, "another label")?;
    ensure(below.text == position, "another position")?;
    let [x, y, size] = text.numbers(["x", "y", "font-size"])?;
    let [x_below, y_below] = below.numbers(["x", "y"])?;
    ensure(
        x == x_below && 2 * x == area.left + area.right,
        "a text beside the middle",
    )?;
    ensure(y + size <= y_below, "a text over another")?;
    let inside = area.has_digits(label, x, y, size) && area.has_digits(position, x, y_below, size);
    ensure(inside, "a text outside")
}

#[cfg(test)]
mod tests {
    use super::{compare, worked_picture};
    use reference::{drawing, plan_of, Plan};

    fn worked_plan() -> Plan {
        plan_of(&[0x05, 0x31, 0x70]).expect("the record is accepted")
    }

    #[test]
    fn the_worked_picture_is_that_of_its_plan_alone() {
        let picture = worked_picture();
        assert_eq!(compare(&picture, &worked_plan()), Ok(()));
        // Also the other pinwheel, and the same plan with one room more.
        for labels in [&[1][..], &[2, 5, 3, 1, 4], &[4, 1, 3, 6, 5, 2]] {
            let (labels, rooms) = (labels.to_vec(), drawing(labels));
            let other = Plan { labels, rooms };
            assert!(compare(&picture, &other).is_err(), "{other:?}");
        }
    }

    #[test]
    fn an_element_left_out_or_doubled_is_found() {
        let picture = worked_picture();
        for line in picture.lines() {
            let whole = format!("{line}\n");
            for other in [String::new(), whole.repeat(2)] {
                let changed = picture.replacen(&whole, &other, 1);
                assert!(compare(&changed, &worked_plan()).is_err(), "{changed}");
            }
        }
    }

    #[test]
    fn another_digit_is_found() {
        // Where a text stands may be a little different, so of the texts only
        // what they say is changed.
        let picture = worked_picture();
        let mut changes = 0;
        for (at, digit) in picture.match_indices(|c: char| c.is_ascii_digit()) {
            let before = &picture[..at];
            let line = &picture[before.rfind('\n').map_or(0, |end| end + 1)..];
            let is_shape = ["<rect", "<line"].iter().any(|name| line.starts_with(name));
            if is_shape || before.ends_with('>') {
                let other = if digit == "7" { "8" } else { "7" };
                let changed = [before, other, &picture[at + 1..]].concat();
                assert!(compare(&changed, &worked_plan()).is_err(), "{changed}");
                changes += 1;
            }
        }
        assert!(changes > 100);
    }
}
