//! Mosaic floorplans in 3n − 3 bits: safe calls into the proved library.
//!
//! A floorplan of n rooms, 1 to 255, has a record of at most
//! [`RECORD_CAPACITY`] bytes. Each call takes any slices at all and answers
//! with its result or with one numbered [`Refusal`]; a refused call leaves
//! every output slice as it was. No call allocates or panics.
//!
//! ```
//! let mut record = [0; nenturxo::RECORD_CAPACITY];
//! let length = nenturxo::labels_in(&[4, 1, 3, 5, 2], &mut record)?;
//! assert_eq!(record[..length], [0x05, 0x31, 0x70]);
//! # Ok::<(), nenturxo::Refusal>(())
//! ```

#![deny(unsafe_code)]

mod book;
mod pattern;
mod refusal;
mod relation;
mod room;
mod slack;
#[allow(unsafe_code)]
mod sys;
mod trace;

pub use book::{BookError, Summary};
pub use pattern::{Condition, Pattern};
pub use refusal::Refusal;
pub use relation::{Relation, Side};
pub use room::Room;
pub use slack::Slack;
pub use trace::{RefusedMove, TraceError, Traced};

/// The length of the longest record, that of 255 rooms.
pub const RECORD_CAPACITY: usize = 97;

/// The greatest number of rooms: output slices of so many entries are long
/// enough for every record.
pub const ROOMS_CAPACITY: usize = 255;

/// The length of the longest tidy text, that of 255 labels.
pub const TIDY_CAPACITY: usize = 912;

/// The length of the longest text that [`tidy`] reads.
pub const TEXT_LENGTH: usize = 4096;

/// The length of the longest cutting tree, that of 255 rooms of which each is
/// cut off by a line of its own, the lines in turn vertical and horizontal.
pub const TREE_CAPACITY: usize = 763;

/// The length of the longest used part of a book.
pub const BOOK_CAPACITY: usize = 65_535;

/// The length of the longest trace that [`trace()`] reads. A slice of so many
/// entries is long enough for every trace.
pub const TRACE_LENGTH: usize = 65_535;

/// The most rooms whose plans [`plan_count`] and [`plan_total`] count.
pub const COUNTED_ROOMS: u8 = 17;

/// Labels in: writes the record of a label list to the front of `record` and
/// gives its length. The rest of `record` keeps its bytes.
///
/// `labels` has the label of the room at each position.
///
/// ```
/// use nenturxo::{labels_in, Refusal};
///
/// let mut record = [0xFF; 4];
/// assert_eq!(labels_in(&[4, 1, 3, 5, 2], &mut record)?, 3);
/// assert_eq!(record, [0x05, 0x31, 0x70, 0xFF]);
/// assert_eq!(labels_in(&[2, 4, 1, 3], &mut record), Err(Refusal::BARRED_PATTERN));
/// # Ok::<(), Refusal>(())
/// ```
///
/// # Errors
///
/// The first of these that holds, and `record` is as it was:
/// [1](Refusal::LIST_LENGTH), [6](Refusal::LABEL_OUTSIDE),
/// [7](Refusal::LABEL_TWICE), [8](Refusal::BARRED_PATTERN),
/// [15](Refusal::SLICE_SHORT).
pub fn labels_in(labels: &[u8], record: &mut [u8]) -> Result<usize, Refusal> {
    result(sys::labels_in(labels, record))
}

/// Record in: writes the label of every room, and the room itself in the grid
/// drawing, by position to the fronts of `labels` and `rooms`, and gives the
/// number of rooms. The rest of each slice keeps its entries.
///
/// The outline of the drawing is 0 to n both ways, and y grows upward. The
/// record holds no names, so all rooms have name 0.
///
/// ```
/// use nenturxo::{record_in, Room};
///
/// let mut labels = [0; 5];
/// let mut rooms = [Room::default(); 5];
/// assert_eq!(record_in(&[0x05, 0x31, 0x70], &mut labels, &mut rooms)?, 5);
/// assert_eq!(labels, [4, 1, 3, 5, 2]);
/// assert_eq!(rooms[2], Room { left: 2, bottom: 1, right: 3, top: 4, name: 0 });
/// # Ok::<(), nenturxo::Refusal>(())
/// ```
///
/// The rooms can be handed to [`rooms_in`] as they are, which gives the record
/// back:
///
/// ```
/// use nenturxo::{record_in, rooms_in, Room, RECORD_CAPACITY};
///
/// let record = [0x05, 0x31, 0x70];
/// let mut drawn = [Room::default(); 5];
/// record_in(&record, &mut [0; 5], &mut drawn)?;
///
/// let mut again = [0; RECORD_CAPACITY];
/// let [mut labels, mut positions] = [[0; 5]; 2];
/// let mut names = [0; 5];
/// let length = rooms_in(&drawn, &mut again, &mut labels, &mut positions, &mut names)?;
/// assert_eq!(again[..length], record);
/// assert_eq!(labels, [4, 1, 3, 5, 2]);
/// assert_eq!(positions, [1, 2, 3, 4, 5]);
/// assert_eq!(names, [0; 5]);
/// # Ok::<(), nenturxo::Refusal>(())
/// ```
///
/// # Errors
///
/// The first of these that holds, and both slices are as they were:
/// [9](Refusal::NO_KIND), [10](Refusal::BODY_SHORT),
/// [11](Refusal::BYTES_AFTER), [14](Refusal::SPARE_BIT),
/// [12](Refusal::RUN_MISSING), [13](Refusal::RUNS_LEFT),
/// [15](Refusal::SLICE_SHORT).
pub fn record_in(record: &[u8], labels: &mut [u8], rooms: &mut [Room]) -> Result<usize, Refusal> {
    result(sys::record_in(record, labels, rooms))
}

/// The question: how the room at position `first` of a record stands to the
/// one at position `second`, and whether the two touch.
///
/// The relation is direct if one segment holds the facing edges of the two
/// rooms: the right edge of the one on the left and the left edge of the other
/// one, or the top edge of the lower one and the bottom edge of the other one.
/// Otherwise it goes only through others, by a chain of two or more direct
/// steps.
///
/// Two rooms touch when one segment that is not an outline side supports both,
/// from the same side or from opposite sides. Two rooms in a direct relation
/// always touch.
///
/// All of the answer, the word direct too, is the same for every equivalent
/// floorplan.
///
/// ```
/// use nenturxo::{question, Refusal, Relation, Side};
///
/// let directly = |side| Relation { side, direct: true };
/// let through_others = |side| Relation { side, direct: false };
///
/// let record = [0x05, 0x31, 0x70];
/// assert_eq!(question(&record, 1, 4)?, (directly(Side::Left), true));
/// assert_eq!(question(&record, 5, 1)?, (through_others(Side::Above), false));
/// assert_eq!(question(&record, 1, 6), Err(Refusal::POSITION_OUTSIDE));
///
/// // Two rows of two rooms: the segment between the rows holds the top edges
/// // of the lower two and the bottom edges of the upper two.
/// let rows = [0x04, 0x47, 0x00];
/// assert_eq!(question(&rows, 1, 4)?, (directly(Side::Below), true));
///
/// // Three rooms under a bar: the first and the third touch, since both hang
/// // on the bar's lower edge, and yet the second one is between them.
/// let under_a_bar = [0x04, 0x4A, 0x80];
/// assert_eq!(question(&under_a_bar, 1, 3)?, (through_others(Side::Left), true));
/// # Ok::<(), nenturxo::Refusal>(())
/// ```
///
/// # Errors
///
/// The first of these that holds: [9](Refusal::NO_KIND),
/// [10](Refusal::BODY_SHORT), [11](Refusal::BYTES_AFTER),
/// [14](Refusal::SPARE_BIT), [12](Refusal::RUN_MISSING),
/// [13](Refusal::RUNS_LEFT), [16](Refusal::POSITION_OUTSIDE),
/// [17](Refusal::POSITIONS_EQUAL).
pub fn question(record: &[u8], first: u8, second: u8) -> Result<(Relation, bool), Refusal> {
    let code = sys::question(record, first, second);
    if code < 0 {
        return Err(Refusal::from_code(code));
    }
    Ok(Relation::from_code(code))
}

/// Rooms in: writes the record of a list of rooms to the front of `record`,
/// the label and the position of each room in list order to the fronts of
/// `labels` and `positions`, and the names of the rooms by position to the
/// front of `names`, and gives the record's length. The rest of each slice
/// keeps its entries.
///
/// The rooms may stand in any order, and the outline of the plan anywhere.
/// Two plans have the same record exactly when they are equivalent, which
/// their names have no part in.
///
/// ```
/// use nenturxo::{rooms_in, Refusal, Room, RECORD_CAPACITY};
///
/// let room = |left, bottom, right, top| Room { left, bottom, right, top, name: 0 };
/// let side_by_side = [room(1, 0, 2, 1), room(0, 0, 1, 1)];
/// let mut record = [0; RECORD_CAPACITY];
/// let [mut labels, mut positions] = [[0; 2]; 2];
/// let mut names = [0; 2];
/// let length = rooms_in(&side_by_side, &mut record, &mut labels, &mut positions, &mut names)?;
/// assert_eq!(record[..length], [0x02, 0x40]);
/// assert_eq!(labels, [2, 1]);
/// assert_eq!(positions, [2, 1]);
///
/// let apart = [room(0, 0, 1, 1), room(2, 0, 3, 1)];
/// let answer = rooms_in(&apart, &mut record, &mut labels, &mut positions, &mut names);
/// assert_eq!(answer, Err(Refusal::OPEN_SQUARE));
/// # Ok::<(), Refusal>(())
/// ```
///
/// Labels and positions come in list order, so that each goes with the room
/// handed in at its place; names come by position, so that each goes with the
/// room that [`record_in`] draws at its place:
///
/// ```
/// use nenturxo::{rooms_in, Refusal, Room};
///
/// let named = |left, name| Room { left, bottom: 0, right: left + 1, top: 1, name };
/// // From left to right they are named 30, 10 and 20.
/// let row = [named(1, 10), named(2, 20), named(0, 30)];
/// let (mut record, mut names) = ([0; 2], [0; 3]);
/// let [mut labels, mut positions] = [[0; 3]; 2];
/// rooms_in(&row, &mut record, &mut labels, &mut positions, &mut names)?;
/// assert_eq!(positions, [2, 3, 1]);
/// assert_eq!(names, [30, 10, 20]);
///
/// // Any number of rooms may be unnamed, but no two may have another name.
/// let row = [named(1, 0), named(2, 20), named(0, 0)];
/// rooms_in(&row, &mut record, &mut labels, &mut positions, &mut names)?;
/// assert_eq!(names, [0, 0, 20]);
/// let row = [named(1, 20), named(2, 20), named(0, 0)];
/// let answer = rooms_in(&row, &mut record, &mut labels, &mut positions, &mut names);
/// assert_eq!(answer, Err(Refusal::NAME_TWICE));
/// # Ok::<(), Refusal>(())
/// ```
///
/// # Errors
///
/// The first of these that holds, and all four slices are as they were:
/// [1](Refusal::LIST_LENGTH), [2](Refusal::EMPTY_ROOM),
/// [3](Refusal::SHARED_SQUARE), [4](Refusal::OPEN_SQUARE),
/// [5](Refusal::FOUR_ROOMS_MEET), [20](Refusal::NAME_TWICE),
/// [15](Refusal::SLICE_SHORT).
pub fn rooms_in(
    rooms: &[Room],
    record: &mut [u8],
    labels: &mut [u8],
    positions: &mut [u8],
    names: &mut [u16],
) -> Result<usize, Refusal> {
    result(sys::rooms_in(rooms, record, labels, positions, names))
}

/// Tidy: writes the tidy text of a label list, given as text, to the front of
/// `tidy` and gives its length. The rest of `tidy` keeps its bytes.
///
/// `text` has at most [`TEXT_LENGTH`] bytes: numbers of one to three decimal
/// digits, leading zeros allowed; between two numbers one or more spaces, or
/// one comma with any spaces round it. Spaces may stand before the first and
/// after the last number, and one newline may end the text. The tidy text has
/// no leading zeros, one space between two labels, and one newline at its end.
///
/// Two texts have the same tidy text exactly if they list the same labels in
/// the same order, and the tidy text of a tidy text is that text.
///
/// ```
/// use nenturxo::{tidy, Refusal, TIDY_CAPACITY};
///
/// let mut tidied = [0; TIDY_CAPACITY];
/// let length = tidy(b" 4,1 , 03  5 002 \n", &mut tidied)?;
/// assert_eq!(tidied[..length], *b"4 1 3 5 2\n");
/// assert_eq!(tidy(b"4, 1,, 3", &mut tidied), Err(Refusal::TEXT_FORM));
/// assert_eq!(tidy(b"2 4 1 3", &mut tidied), Err(Refusal::BARRED_PATTERN));
/// # Ok::<(), Refusal>(())
/// ```
///
/// # Errors
///
/// The first of these that holds, and `tidy` is as it was:
/// [18](Refusal::TEXT_FORM), [1](Refusal::LIST_LENGTH),
/// [6](Refusal::LABEL_OUTSIDE), [7](Refusal::LABEL_TWICE),
/// [8](Refusal::BARRED_PATTERN), [15](Refusal::SLICE_SHORT).
pub fn tidy(text: &[u8], tidy: &mut [u8]) -> Result<usize, Refusal> {
    result(sys::tidy(text, tidy))
}

/// Tree: writes the cutting tree of a slicing plan, given as its record, to the
/// front of `tree` and gives its length. The rest of `tree` keeps its bytes.
///
/// A plan is slicing if lines from side to side cut it into parts, and again
/// each part, down to the rooms. The tree is written from the root down:
///
/// - A room is the byte 1.
/// - A rectangle cut by vertical lines is the byte 2 and the number of its
///   parts, which follow from left to right.
/// - A rectangle cut by horizontal lines is the byte 3 and the number of its
///   parts, which follow from bottom to top.
///
/// All lines of a rectangle cut it at once, so a part is either a room or cut
/// the other way. A tree of n rooms has at most 3n − 2 bytes.
///
/// ```
/// use nenturxo::{tree, Refusal, TREE_CAPACITY};
///
/// // Two rows of two rooms.
/// let mut cut = [0; TREE_CAPACITY];
/// let length = tree(&[0x04, 0x47, 0x00], &mut cut)?;
/// assert_eq!(cut[..length], [3, 2, 2, 2, 1, 1, 2, 2, 1, 1]);
///
/// // A pinwheel: no line goes from side to side.
/// assert_eq!(tree(&[0x05, 0x31, 0x70], &mut cut), Err(Refusal::NOT_SLICING));
/// # Ok::<(), Refusal>(())
/// ```
///
/// # Errors
///
/// The first of these that holds, and `tree` is as it was:
/// [9](Refusal::NO_KIND), [10](Refusal::BODY_SHORT),
/// [11](Refusal::BYTES_AFTER), [14](Refusal::SPARE_BIT),
/// [12](Refusal::RUN_MISSING), [13](Refusal::RUNS_LEFT),
/// [19](Refusal::NOT_SLICING), [15](Refusal::SLICE_SHORT).
pub fn tree(record: &[u8], tree: &mut [u8]) -> Result<usize, Refusal> {
    result(sys::tree(record, tree))
}

/// Pattern: names the barred pattern for which [`labels_in`] refuses a label
/// list with [8](Refusal::BARRED_PATTERN), or gives `None` if the list has no
/// such pattern.
///
/// `labels` has the label of the room at each position.
///
/// The four positions are the first ones in order of `i`, then `j`, then `k`,
/// then `l`, whichever of the two conditions the labels there meet. No four
/// positions meet both.
///
/// ```
/// use nenturxo::{pattern, Condition, Pattern, Refusal};
///
/// let named = pattern(&[6, 2, 4, 1, 3, 5])?;
/// let condition = Condition::First;
/// assert_eq!(named, Some(Pattern { condition, i: 2, j: 3, k: 4, l: 5 }));
///
/// assert_eq!(pattern(&[4, 1, 3, 5, 2])?, None);
/// assert_eq!(pattern(&[2, 4, 1, 1]), Err(Refusal::LABEL_TWICE));
/// # Ok::<(), Refusal>(())
/// ```
///
/// # Errors
///
/// The first of these that holds: [1](Refusal::LIST_LENGTH),
/// [6](Refusal::LABEL_OUTSIDE), [7](Refusal::LABEL_TWICE).
pub fn pattern(labels: &[u8]) -> Result<Option<Pattern>, Refusal> {
    let code = sys::pattern(labels);
    if code < 0 {
        return Err(Refusal::from_code(code));
    }
    Ok(Pattern::from_code(code))
}

/// Book next: gives the record that begins at `place` of a book, as that part of
/// the bytes, or `None` at the used length.
///
/// A book is records one after another in the first `used` bytes of `book`, at
/// most [`BOOK_CAPACITY`]; what stands behind them does not count. Only the
/// record at the place is judged, and there is no summary to check.
///
/// ```
/// use nenturxo::{book_add, book_next, BookError, Summary};
///
/// let mut book = [0; 100];
/// let mut summary = Summary::default();
/// let used = book_add(&mut book, 0, &[0x02, 0x40], &mut summary)?;
/// let used = book_add(&mut book, used, &[0x05, 0x31, 0x70], &mut summary)?;
/// assert_eq!(used, 5);
/// assert_eq!(summary, Summary { plans: 2, rooms: 7, rises: 3, falls: 2 });
///
/// let mut place = 0;
/// let mut rooms = Vec::new();
/// while let Some(record) = book_next(&book, used, place)? {
///     rooms.push(record[0]);
///     place += record.len();
/// }
/// assert_eq!(place, used);
/// assert_eq!(rooms, [2, 5]);
/// # Ok::<(), BookError>(())
/// ```
///
/// # Errors
///
/// The first of these that holds: [22](Refusal::PLACE_OUTSIDE),
/// [21](Refusal::BOOK_LENGTH), and then, of the record at the place and with
/// ordinal 1, [9](Refusal::NO_KIND), [10](Refusal::BODY_SHORT) if the used part
/// ends before the record does, [14](Refusal::SPARE_BIT),
/// [12](Refusal::RUN_MISSING), [13](Refusal::RUNS_LEFT).
pub fn book_next(book: &[u8], used: usize, place: usize) -> Result<Option<&[u8]>, BookError> {
    match book_result(sys::book_next(book, used, place))? {
        0 => Ok(None),
        length => Ok(Some(&book[place..place + length])),
    }
}

/// Book add: puts a record behind the used part of a book, adds it to the
/// summary, and gives the new used length. All other bytes of `book` keep their
/// values.
///
/// An empty book has a used length of 0 and the default summary. Each call
/// judges the whole book, every record of it, and so takes the longer the more
/// of the book is used.
///
/// ```
/// use nenturxo::{book_add, BookError, Refusal, Summary};
///
/// let mut book = [0xFF; 4];
/// let mut summary = Summary::default();
/// let used = book_add(&mut book, 0, &[0x02, 0xA0], &mut summary)?;
/// assert_eq!((used, book), (2, [0x02, 0xA0, 0xFF, 0xFF]));
/// assert_eq!(summary, Summary { plans: 1, rooms: 2, rises: 0, falls: 1 });
///
/// // A refused call changes neither the book nor the summary.
/// let mut other = Summary { falls: 2, ..summary };
/// let refused = book_add(&mut book, used, &[0x01], &mut other).unwrap_err();
/// assert_eq!(refused.error, Refusal::SUMMARY_DIFFERS);
/// let refused = book_add(&mut book, used, &[0x05, 0x31, 0x70], &mut summary).unwrap_err();
/// assert_eq!((refused.error, refused.ordinal), (Refusal::SLICE_SHORT, None));
///
/// // With one more byte the book has a second record, of kind FF.
/// let refused = book_add(&mut book, used + 1, &[0x01], &mut summary).unwrap_err();
/// assert_eq!((refused.error, refused.ordinal), (Refusal::BODY_SHORT, Some(2)));
/// # Ok::<(), BookError>(())
/// ```
///
/// # Errors
///
/// The first of these that holds, and `book` and `summary` are as they were:
/// [22](Refusal::PLACE_OUTSIDE) if `used` is beyond the slice;
/// [21](Refusal::BOOK_LENGTH) for the book as it is; of the first bad record in
/// the book, with its ordinal, [9](Refusal::NO_KIND), [10](Refusal::BODY_SHORT)
/// if the used part ends before the record does, [14](Refusal::SPARE_BIT),
/// [12](Refusal::RUN_MISSING), [13](Refusal::RUNS_LEFT);
/// [23](Refusal::SUMMARY_DIFFERS); of the added record, without ordinal,
/// [9](Refusal::NO_KIND), [10](Refusal::BODY_SHORT),
/// [11](Refusal::BYTES_AFTER), [14](Refusal::SPARE_BIT),
/// [12](Refusal::RUN_MISSING), [13](Refusal::RUNS_LEFT);
/// [21](Refusal::BOOK_LENGTH) for the lengthened book;
/// [15](Refusal::SLICE_SHORT) if the slice cannot hold it.
pub fn book_add(
    book: &mut [u8],
    used: usize,
    record: &[u8],
    summary: &mut Summary,
) -> Result<usize, BookError> {
    book_result(sys::book_add(book, used, record, summary))
}

/// Lowest corners: writes the lower left corners of the rooms of a plan, each
/// room as low and as far to the left as it can be, by position to the fronts of
/// `x` and `y`, and gives the number of rooms. The rest of each slice keeps its
/// entries.
///
/// `widths` and `heights` have the size of the room at each position, 1 to
/// 65,535 both ways, and no other entry.
///
/// A room starts where the furthest room left of it ends, or at 0, and likewise
/// upward, where the furthest room below it ends. No placing from 0 up that
/// honours all left and below relations puts any corner lower, and this is the
/// only one of which that holds. No two rooms share a unit square in it, and
/// every room ends below 2²⁴ both ways.
///
/// ```
/// use nenturxo::{lowest_corners, placing_in, Refusal};
///
/// // The labels 4 1 3 5 2.
/// let record = [0x05, 0x31, 0x70];
/// let (widths, heights) = ([3, 1, 4, 1, 5], [9, 2, 6, 5, 3]);
/// let [mut x, mut y] = [[77; 6]; 2];
/// assert_eq!(lowest_corners(&record, &widths, &heights, &mut x, &mut y)?, 5);
/// assert_eq!(x, [0, 0, 1, 5, 1, 77]);
/// assert_eq!(y, [0, 9, 9, 0, 15, 77]);
///
/// // It is a placing, and no room can start lower.
/// placing_in(&record, &widths, &heights, &x[..5], &y[..5])?;
/// y[4] -= 1;
/// let lower = placing_in(&record, &widths, &heights, &x[..5], &y[..5]);
/// assert_eq!(lower, Err(Refusal::RELATION_BROKEN));
///
/// let answer = lowest_corners(&record, &widths, &heights[1..], &mut x, &mut y);
/// assert_eq!(answer, Err(Refusal::LENGTH_DIFFERS));
/// # Ok::<(), Refusal>(())
/// ```
///
/// # Errors
///
/// The first of these that holds, and `x` and `y` are as they were:
/// [9](Refusal::NO_KIND), [10](Refusal::BODY_SHORT),
/// [11](Refusal::BYTES_AFTER), [14](Refusal::SPARE_BIT),
/// [12](Refusal::RUN_MISSING), [13](Refusal::RUNS_LEFT),
/// [24](Refusal::LENGTH_DIFFERS), [25](Refusal::ZERO_SIZE),
/// [15](Refusal::SLICE_SHORT).
pub fn lowest_corners(
    record: &[u8],
    widths: &[u16],
    heights: &[u16],
    x: &mut [u32],
    y: &mut [u32],
) -> Result<usize, Refusal> {
    result(sys::lowest_corners(record, widths, heights, x, y))
}

/// Slack: gives how much wider and higher an outline is than a plan with rooms
/// of these sizes needs.
///
/// `widths` and `heights` have the size of the room at each position, 1 to
/// 65,535 both ways, and no other entry.
///
/// What is needed each way is the furthest end of any room at the
/// [lowest corners](lowest_corners). The slack may be below 0. It is 0 or more
/// both ways exactly if some placing that honours the relations fits the
/// outline.
///
/// ```
/// use nenturxo::{slack, Refusal, Slack};
///
/// // The labels 4 1 3 5 2.
/// let record = [0x05, 0x31, 0x70];
/// let (widths, heights) = ([3, 1, 4, 1, 5], [9, 2, 6, 5, 3]);
/// // The rooms need 6 across and 18 up.
/// let left = slack(&record, &widths, &heights, 10, 10)?;
/// assert_eq!(left, Slack { across: 4, up: -8 });
///
/// let answer = slack(&record, &[3, 1, 0, 1, 5], &heights, 10, 10);
/// assert_eq!(answer, Err(Refusal::ZERO_SIZE));
/// # Ok::<(), Refusal>(())
/// ```
///
/// # Errors
///
/// The first of these that holds: [9](Refusal::NO_KIND),
/// [10](Refusal::BODY_SHORT), [11](Refusal::BYTES_AFTER),
/// [14](Refusal::SPARE_BIT), [12](Refusal::RUN_MISSING),
/// [13](Refusal::RUNS_LEFT), [24](Refusal::LENGTH_DIFFERS),
/// [25](Refusal::ZERO_SIZE).
pub fn slack(
    record: &[u8],
    widths: &[u16],
    heights: &[u16],
    outline_width: u32,
    outline_height: u32,
) -> Result<Slack, Refusal> {
    let mut slack = Slack { across: 0, up: 0 };
    let outline = [outline_width, outline_height];
    let code = sys::slack(record, widths, heights, outline, &mut slack);
    result(code).map(|_| slack)
}

/// Placing in: accepts a placing of the rooms of a plan, or refuses it with
/// [26](Refusal::RELATION_BROKEN). Nothing is written.
///
/// `widths` and `heights` have the size of the room at each position, 1 to
/// 65,535 both ways, and `x` and `y` its lower left corner; none of the four has
/// another entry.
///
/// A placing is accepted exactly if each room ends no later than every room
/// right of it begins across, and no later than every room above it begins
/// upward. Where a room ends is a whole-number sum, which may be 2³² or more.
///
/// ```
/// use nenturxo::{placing_in, Refusal};
///
/// // Two rooms side by side, 3 and 4 wide.
/// let at = |x: [u32; 2]| placing_in(&[0x02, 0x40], &[3, 4], &[1, 1], &x, &[0, 50]);
/// assert_eq!(at([0, 3]), Ok(()));
/// assert_eq!(at([10, 90]), Ok(()));
/// assert_eq!(at([0, 2]), Err(Refusal::RELATION_BROKEN));
/// // The second one stays left of no room, and may end beyond 2³².
/// assert_eq!(at([0, u32::MAX]), Ok(()));
/// // The first one would end at 2³² + 2.
/// assert_eq!(at([u32::MAX, 2]), Err(Refusal::RELATION_BROKEN));
/// ```
///
/// # Errors
///
/// The first of these that holds: [9](Refusal::NO_KIND),
/// [10](Refusal::BODY_SHORT), [11](Refusal::BYTES_AFTER),
/// [14](Refusal::SPARE_BIT), [12](Refusal::RUN_MISSING),
/// [13](Refusal::RUNS_LEFT), [24](Refusal::LENGTH_DIFFERS),
/// [25](Refusal::ZERO_SIZE), [26](Refusal::RELATION_BROKEN).
pub fn placing_in(
    record: &[u8],
    widths: &[u16],
    heights: &[u16],
    x: &[u32],
    y: &[u32],
) -> Result<(), Refusal> {
    result(sys::placing_in(record, widths, heights, x, y)).map(|_| ())
}

/// Groups: gives how a whole group of rooms of a record stands to another group.
/// That is `Some` side if every room of `first` is on that side of every room of
/// `second`, directly or through others, and `None` if the two are mixed.
///
/// A group is 32 bytes, whatever the record: position k is bit (k − 1) mod 8,
/// counted from the low end, of byte (k − 1) / 8, rounded down.
///
/// For two groups of one room each the answer is the side that [`question`]
/// gives. With the groups exchanged it is the opposite side, or again `None`. It
/// is the same for every equivalent floorplan.
///
/// ```
/// use nenturxo::{groups, Refusal, Side};
///
/// fn group(positions: &[u8]) -> [u8; 32] {
///     let mut group = [0; 32];
///     for position in positions {
///         let bit = usize::from(position - 1);
///         group[bit / 8] |= 1 << (bit % 8);
///     }
///     group
/// }
///
/// // A pinwheel: room 3 has the others round it.
/// let record = [0x05, 0x31, 0x70];
/// let asked = |first: &[u8], second: &[u8]| groups(&record, &group(first), &group(second));
/// assert_eq!(asked(&[2, 3], &[4])?, Some(Side::Left));
/// assert_eq!(asked(&[2, 3, 5], &[1])?, Some(Side::Above));
/// // Room 5 is right of 2, but above 3.
/// assert_eq!(asked(&[2, 3], &[4, 5])?, None);
///
/// assert_eq!(asked(&[2, 6], &[4]), Err(Refusal::POSITION_OUTSIDE));
/// assert_eq!(asked(&[], &[4]), Err(Refusal::EMPTY_GROUP));
/// assert_eq!(asked(&[2, 4], &[4]), Err(Refusal::POSITIONS_EQUAL));
/// # Ok::<(), Refusal>(())
/// ```
///
/// # Errors
///
/// The first of these that holds: [9](Refusal::NO_KIND),
/// [10](Refusal::BODY_SHORT), [11](Refusal::BYTES_AFTER),
/// [14](Refusal::SPARE_BIT), [12](Refusal::RUN_MISSING),
/// [13](Refusal::RUNS_LEFT), [16](Refusal::POSITION_OUTSIDE) for a position above
/// n in either group, 256 too, [27](Refusal::EMPTY_GROUP),
/// [17](Refusal::POSITIONS_EQUAL) for a position in both.
pub fn groups(record: &[u8], first: &[u8; 32], second: &[u8; 32]) -> Result<Option<Side>, Refusal> {
    let code = sys::groups(record, first, second);
    if code < 0 {
        return Err(Refusal::from_code(code));
    }
    Ok(Side::from_code(code))
}

/// Trace: replays the moves of a trace over a plan that starts with one room, and
/// gives how many moves there are and the rooms and runs that they leave. After
/// each move these are written, as 256 × rooms + runs, to the front of `states`,
/// one entry a move. The rest of `states` keeps its entries.
///
/// A trace is moves one after another, at most [`TRACE_LENGTH`] bytes:
///
/// - The byte 1 and then a triple, as a number from 0 to 7 with the first bit
///   worth 4, adds a room.
/// - The byte 2 takes the newest room away.
/// - The byte 3 claims that one run is left, and changes nothing.
///
/// The runs are those of the labels so far: the current one, those below it and
/// those above. Rooms and runs after a move are the ones that the triples still
/// present give from the start. A trace that adds the triples of a record, in
/// order, and ends with a claim is accepted exactly if the record is.
///
/// An empty trace has 0 moves, and leaves one room and one run.
///
/// ```
/// use nenturxo::{trace, Refusal, TraceError, Traced};
///
/// // 010 and 001 are added. The second one is taken away and added again. Then
/// // comes 110, and the claim.
/// let mut states = [0; 6];
/// let answer = trace(&[1, 2, 1, 1, 2, 1, 1, 1, 6, 3], &mut states)?;
/// assert_eq!(answer, Traced { moves: 6, rooms: 4, runs: 1 });
/// assert_eq!(states, [513, 770, 513, 770, 1025, 1025]);
/// assert_eq!(states[1].to_be_bytes(), [3, 2]);
///
/// // A room is added and taken away, and then the only one that is left.
/// let refused = trace(&[1, 2, 2, 2], &mut states).unwrap_err();
/// assert_eq!(refused.error, Refusal::ONLY_ROOM);
/// assert_eq!(refused.at.map(|at| at.ordinal), Some(3));
///
/// // Two moves, and one entry.
/// let refused = trace(&[3, 3], &mut [0]).unwrap_err();
/// assert_eq!(refused, TraceError { error: Refusal::SLICE_SHORT, at: None });
/// # Ok::<(), TraceError>(())
/// ```
///
/// # Errors
///
/// The first of these that holds, and `states` is as it was:
/// [21](Refusal::BOOK_LENGTH) if the trace is too long, without a move; of the
/// first refused move, with its ordinal and the rooms and runs before it,
/// [28](Refusal::BAD_MOVE), [1](Refusal::LIST_LENGTH) for a room past 255 or
/// [29](Refusal::ONLY_ROOM), and then [12](Refusal::RUN_MISSING), or
/// [13](Refusal::RUNS_LEFT) for a claim; [15](Refusal::SLICE_SHORT) if `states`
/// has fewer entries than there are moves, without a move.
pub fn trace(trace: &[u8], states: &mut [u16]) -> Result<Traced, TraceError> {
    let code = sys::trace(trace, states);
    if code < 0 {
        return Err(TraceError::from_code(code));
    }
    Ok(Traced::from_code(code))
}

/// Plan count: gives how many plans of `n` rooms have so many rises, where `n` is
/// at most [`COUNTED_ROOMS`].
///
/// A rise is a triple whose third bit is 0: the label at a position is greater
/// than the one at the position before. Of the n − 1 triples of a record those
/// that are no rises are falls.
///
/// The plans are the records of `n` rooms that [`record_in`] accepts, given slices
/// that are long enough. So this is also how many lists of `n` labels with so many
/// rises [`labels_in`] accepts, and how many floorplans of `n` rooms have such a
/// record, if equivalent ones count as one.
///
/// As many plans have r rises as have n − 1 − r. None has n or more, which gives
/// 0. Those of 0 to n − 1 rises add up to [`plan_total`].
///
/// ```
/// use nenturxo::{plan_count, Refusal};
///
/// let of_5 = (0..5).map(|rises| plan_count(5, rises)).collect::<Result<Vec<_>, _>>()?;
/// assert_eq!(of_5, [1, 20, 50, 20, 1]);
/// assert_eq!(plan_count(5, 5)?, 0);
///
/// assert_eq!(plan_count(0, 0), Err(Refusal::NOT_COUNTED));
/// assert_eq!(plan_count(18, 3), Err(Refusal::NOT_COUNTED));
/// # Ok::<(), Refusal>(())
/// ```
///
/// # Errors
///
/// [30](Refusal::NOT_COUNTED) for `n` of 0 or above 17, whatever the rises, and no
/// other.
pub fn plan_count(n: u8, rises: u8) -> Result<u64, Refusal> {
    long_result(sys::plan_count(n, rises))
}

/// Plan total: gives how many plans of `n` rooms there are, whatever their rises,
/// where `n` is at most [`COUNTED_ROOMS`].
///
/// The plans are those that [`plan_count`] counts. Their number is the Baxter
/// number of `n`. The largest, of 17 rooms, has 37 bits.
///
/// ```
/// use nenturxo::{plan_count, plan_total, Refusal, COUNTED_ROOMS};
///
/// assert_eq!(plan_total(5)?, 1 + 20 + 50 + 20 + 1);
/// assert_eq!(plan_total(11)?, 1_882_960);
/// assert_eq!(plan_total(COUNTED_ROOMS)?, 105_791_986_682);
///
/// let mut total = 0;
/// for rises in 0..COUNTED_ROOMS {
///     total += plan_count(COUNTED_ROOMS, rises)?;
/// }
/// assert_eq!(plan_total(COUNTED_ROOMS)?, total);
///
/// assert_eq!(plan_total(0), Err(Refusal::NOT_COUNTED));
/// assert_eq!(plan_total(18), Err(Refusal::NOT_COUNTED));
/// # Ok::<(), Refusal>(())
/// ```
///
/// # Errors
///
/// [30](Refusal::NOT_COUNTED) for `n` of 0 or above 17, and no other.
pub fn plan_total(n: u8) -> Result<u64, Refusal> {
    long_result(sys::plan_total(n))
}

/// The result of a call on a book that a code stands for.
fn book_result(code: sys::Code) -> Result<usize, BookError> {
    usize::try_from(code).map_err(|_| BookError::from_code(code))
}

/// The result that a code stands for.
fn result(code: sys::Code) -> Result<usize, Refusal> {
    usize::try_from(code).map_err(|_| Refusal::from_code(code))
}

/// The result that a long code stands for.
fn long_result(code: sys::LongCode) -> Result<u64, Refusal> {
    u64::try_from(code).map_err(|_| Refusal::from_code(code))
}
