//! The sheet's table of refusals, with the numbers that M-100, M-103, M-106 to
//! M-109, M-111 and M-112 add.

use std::fmt;

/// A numbered refusal: one variant for each row of the sheet's table.
#[derive(Clone, Copy, Debug, PartialEq, Eq, Hash)]
#[repr(u8)]
pub enum Refusal {
    /// 1: room or label list of 0 or over 255 entries
    ListLength = 1,
    /// 2: room with right ≤ left or top ≤ bottom
    EmptyRoom = 2,
    /// 3: two rooms share a unit square
    SharedSquare = 3,
    /// 4: a unit square of the outline is in no room
    OpenSquare = 4,
    /// 5: four rooms meet at a point
    FourRoomsMeet = 5,
    /// 6: label outside 1 to n
    LabelOutside = 6,
    /// 7: label occurs twice
    LabelTwice = 7,
    /// 8: barred pattern
    BarredPattern = 8,
    /// 9: record empty or kind 0
    NoKind = 9,
    /// 10: body shorter than its kind fixes
    BodyShort = 10,
    /// 11: bytes after the body
    BytesAfter = 11,
    /// 12: a triple needs a run that is missing
    RunMissing = 12,
    /// 13: more than one run at the end
    RunsLeft = 13,
    /// 14: spare bit is 1
    SpareBit = 14,
    /// 15: an output slice too short
    SliceShort = 15,
    /// 16: asked position outside 1 to n
    PositionOutside = 16,
    /// 17: the two asked positions equal or a position in both groups
    PositionsEqual = 17,
    /// 18: text breaks the form or is longer than 4,096 bytes
    TextForm = 18,
    /// 19: the plan is not slicing
    NotSlicing = 19,
    /// 20: one nonzero name on two rooms
    NameTwice = 20,
    /// 21: used part of a book is or would become longer than 65,535 bytes, or a
    /// trace is
    BookLength = 21,
    /// 22: used length beyond the lent slice or a place beyond the used length
    PlaceOutside = 22,
    /// 23: summary is not the book's
    SummaryDiffers = 23,
    /// 24: a list whose length is not n
    LengthDiffers = 24,
    /// 25: a size of 0
    ZeroSize = 25,
    /// 26: a placing that breaks a relation
    RelationBroken = 26,
    /// 27: a group is empty
    EmptyGroup = 27,
    /// 28: a move of an unknown kind, without its body or with a triple above 7
    BadMove = 28,
    /// 29: the only room is taken away
    OnlyRoom = 29,
    /// 30: a number of rooms that is 0 or above 17, whose plans are not counted
    NotCounted = 30,
}

impl Refusal {
    /// Every refusal, in the order of the table.
    pub const ALL: [Self; 30] = [
        Self::ListLength,
        Self::EmptyRoom,
        Self::SharedSquare,
        Self::OpenSquare,
        Self::FourRoomsMeet,
        Self::LabelOutside,
        Self::LabelTwice,
        Self::BarredPattern,
        Self::NoKind,
        Self::BodyShort,
        Self::BytesAfter,
        Self::RunMissing,
        Self::RunsLeft,
        Self::SpareBit,
        Self::SliceShort,
        Self::PositionOutside,
        Self::PositionsEqual,
        Self::TextForm,
        Self::NotSlicing,
        Self::NameTwice,
        Self::BookLength,
        Self::PlaceOutside,
        Self::SummaryDiffers,
        Self::LengthDiffers,
        Self::ZeroSize,
        Self::RelationBroken,
        Self::EmptyGroup,
        Self::BadMove,
        Self::OnlyRoom,
        Self::NotCounted,
    ];

    /// What a room list is refused with, in the sheet's order with that of
    /// M-106, before 15.
    pub const OF_ROOMS: [Self; 6] = [
        Self::ListLength,
        Self::EmptyRoom,
        Self::SharedSquare,
        Self::OpenSquare,
        Self::FourRoomsMeet,
        Self::NameTwice,
    ];

    /// What a label list is refused with, in the sheet's order, before 15.
    pub const OF_LABELS: [Self; 4] = [
        Self::ListLength,
        Self::LabelOutside,
        Self::LabelTwice,
        Self::BarredPattern,
    ];

    /// What a label list is refused with where its pattern is asked for, in the
    /// request's order.
    pub const OF_PATTERNS: [Self; 3] = [Self::ListLength, Self::LabelOutside, Self::LabelTwice];

    /// What a record is refused with, in the sheet's order, before 15, or 16
    /// and 17.
    pub const OF_RECORDS: [Self; 6] = [
        Self::NoKind,
        Self::BodyShort,
        Self::BytesAfter,
        Self::SpareBit,
        Self::RunMissing,
        Self::RunsLeft,
    ];

    /// What a record is refused with where its tree is asked for, in the
    /// request's order, before 15.
    pub const OF_TREES: [Self; 7] = Self::of_records_and([Self::NotSlicing]);

    /// What a text is refused with, in the request's order, before 15.
    pub const OF_TEXTS: [Self; 5] = [
        Self::TextForm,
        Self::ListLength,
        Self::LabelOutside,
        Self::LabelTwice,
        Self::BarredPattern,
    ];

    /// What a book is refused with where its next record is asked for, in the
    /// request's order. The last five are those of a record in it.
    pub const OF_NEXT: [Self; 7] = [
        Self::PlaceOutside,
        Self::BookLength,
        Self::NoKind,
        Self::BodyShort,
        Self::SpareBit,
        Self::RunMissing,
        Self::RunsLeft,
    ];

    /// What a record in a book is refused with, in the sheet's order: a book has
    /// no bytes after a body, but the next record.
    pub const IN_BOOKS: [Self; 5] = [
        Self::NoKind,
        Self::BodyShort,
        Self::SpareBit,
        Self::RunMissing,
        Self::RunsLeft,
    ];

    /// What a book is refused with where a record is added, in the request's
    /// order, before the refusals of that record.
    pub const OF_BOOKS: [Self; 8] = [
        Self::PlaceOutside,
        Self::BookLength,
        Self::NoKind,
        Self::BodyShort,
        Self::SpareBit,
        Self::RunMissing,
        Self::RunsLeft,
        Self::SummaryDiffers,
    ];

    /// What a record and the sizes of its rooms are refused with, in the
    /// request's order, before 15 where corners are written.
    pub const OF_SIZES: [Self; 8] = Self::of_records_and([Self::LengthDiffers, Self::ZeroSize]);

    /// What a placing is refused with, in the request's order.
    pub const OF_PLACINGS: [Self; 9] =
        Self::of_records_and([Self::LengthDiffers, Self::ZeroSize, Self::RelationBroken]);

    /// What a record and two groups are refused with, in the request's order.
    pub const OF_GROUPS: [Self; 9] = Self::of_records_and([
        Self::PositionOutside,
        Self::EmptyGroup,
        Self::PositionsEqual,
    ]);

    /// What a trace is refused with, in the request's order, before 15: too many
    /// bytes, and then what a move is refused with.
    pub const OF_TRACES: [Self; 6] = [
        Self::BookLength,
        Self::BadMove,
        Self::ListLength,
        Self::OnlyRoom,
        Self::RunMissing,
        Self::RunsLeft,
    ];

    /// What a number of rooms is refused with where plans are counted: the only
    /// check.
    pub const OF_COUNTS: [Self; 1] = [Self::NotCounted];

    /// Those of a record, and then these.
    const fn of_records_and<const MORE: usize, const ALL: usize>(
        more: [Self; MORE],
    ) -> [Self; ALL] {
        let mut all = [Self::NoKind; ALL];
        let mut i = 0;
        while i < ALL {
            let of_records = Self::OF_RECORDS.len();
            all[i] = if i < of_records {
                Self::OF_RECORDS[i]
            } else {
                more[i - of_records]
            };
            i += 1;
        }
        all
    }

    /// The refusal's number in the table.
    #[must_use]
    pub const fn number(self) -> u8 {
        self as u8
    }

    /// The refusal's cause, in the words of the table.
    #[must_use]
    pub const fn cause(self) -> &'static str {
        match self {
            Self::ListLength => "room or label list of 0 or over 255 entries",
            Self::EmptyRoom => "room with right ≤ left or top ≤ bottom",
            Self::SharedSquare => "two rooms share a unit square",
            Self::OpenSquare => "a unit square of the outline is in no room",
            Self::FourRoomsMeet => "four rooms meet at a point",
            Self::LabelOutside => "label outside 1 to n",
            Self::LabelTwice => "label occurs twice",
            Self::BarredPattern => "barred pattern",
            Self::NoKind => "record empty or kind 0",
            Self::BodyShort => "body shorter than its kind fixes",
            Self::BytesAfter => "bytes after the body",
            Self::RunMissing => "a triple needs a run that is missing",
            Self::RunsLeft => "more than one run at the end",
            Self::SpareBit => "spare bit is 1",
            Self::SliceShort => "an output slice too short",
            Self::PositionOutside => "asked position outside 1 to n",
            Self::PositionsEqual => "the two asked positions equal or a position in both groups",
            Self::TextForm => "text breaks the form or is longer than 4,096 bytes",
            Self::NotSlicing => "the plan is not slicing",
            Self::NameTwice => "one nonzero name on two rooms",
            Self::BookLength => {
                "used part of a book is or would become longer than 65,535 bytes, or a trace is"
            }
            Self::PlaceOutside => {
                "used length beyond the lent slice or a place beyond the used length"
            }
            Self::SummaryDiffers => "summary is not the book's",
            Self::LengthDiffers => "a list whose length is not n",
            Self::ZeroSize => "a size of 0",
            Self::RelationBroken => "a placing that breaks a relation",
            Self::EmptyGroup => "a group is empty",
            Self::BadMove => "a move of an unknown kind, without its body or with a triple above 7",
            Self::OnlyRoom => "the only room is taken away",
            Self::NotCounted => {
                "a number of rooms that is 0 or above 17, whose plans are not counted"
            }
        }
    }
}

impl fmt::Display for Refusal {
    fn fmt(&self, f: &mut fmt::Formatter<'_>) -> fmt::Result {
        f.write_str(self.cause())
    }
}

impl std::error::Error for Refusal {}

#[cfg(test)]
mod tests {
    use super::Refusal;

    #[test]
    fn numbers_are_1_to_30_in_the_order_of_the_table() {
        let numbers: Vec<u8> = Refusal::ALL.iter().map(|r| r.number()).collect();
        assert_eq!(numbers, (1..=30).collect::<Vec<u8>>());
    }

    #[test]
    fn the_order_is_that_of_the_sheet() {
        let numbers = |order: &[Refusal]| order.iter().map(|r| r.number()).collect::<Vec<u8>>();
        assert_eq!(numbers(&Refusal::OF_ROOMS), [1, 2, 3, 4, 5, 20]);
        assert_eq!(numbers(&Refusal::OF_LABELS), [1, 6, 7, 8]);
        assert_eq!(numbers(&Refusal::OF_PATTERNS), [1, 6, 7]);
        assert_eq!(numbers(&Refusal::OF_RECORDS), [9, 10, 11, 14, 12, 13]);
        assert_eq!(numbers(&Refusal::OF_TREES), [9, 10, 11, 14, 12, 13, 19]);
        assert_eq!(numbers(&Refusal::OF_TEXTS), [18, 1, 6, 7, 8]);
        assert_eq!(numbers(&Refusal::OF_NEXT), [22, 21, 9, 10, 14, 12, 13]);
        assert_eq!(numbers(&Refusal::IN_BOOKS), [9, 10, 14, 12, 13]);
        let of_books = [22, 21, 9, 10, 14, 12, 13, 23];
        assert_eq!(numbers(&Refusal::OF_BOOKS), of_books);
        let of_sizes = [9, 10, 11, 14, 12, 13, 24, 25];
        assert_eq!(numbers(&Refusal::OF_SIZES), of_sizes);
        let of_placings = [9, 10, 11, 14, 12, 13, 24, 25, 26];
        assert_eq!(numbers(&Refusal::OF_PLACINGS), of_placings);
        let of_groups = [9, 10, 11, 14, 12, 13, 16, 27, 17];
        assert_eq!(numbers(&Refusal::OF_GROUPS), of_groups);
        assert_eq!(numbers(&Refusal::OF_TRACES), [21, 28, 1, 29, 12, 13]);
        assert_eq!(numbers(&Refusal::OF_COUNTS), [30]);
    }
}
