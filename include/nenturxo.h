/* Nenturxo: chip floorplans as short records, and back.
 *
 * A mosaic floorplan of n rooms, 1 to 255, has a record of 1 byte and then
 * 3n - 3 bits, at most 97 bytes. Two floorplans have the same record exactly
 * if they are equivalent.
 *
 * Link with libnenturxo.a, which `rt lib` in crates/nenturxo writes to out/
 * there. Every call takes each slice as a pointer to its first element and its
 * length in elements, and each group as a pointer to its 32 bytes. It gives one
 * number back: at least 0 the result, below 0 a refusal's number negated (enum
 * nenturxo_refusal), which the calls on books and on traces give with more to
 * it. A refused call writes nothing. A call that is not refused writes from the
 * front of its output slices, or from the place that is named at it, and leaves
 * the rest of each as it was. A call that has further numbers to give writes
 * each through a pointer of its own.
 *
 * No call allocates, keeps a pointer, or uses anything but its arguments, so
 * calls may run at the same time in any number of threads. What the caller
 * answers for: a pointer is good for as many elements as the length beside it
 * says, or, if there is no length, for the 32 bytes of a group or for one
 * number, and is not null, even where the length is 0; and no output, slice or
 * number, overlaps anything else that is handed to the same call.
 */
#ifndef NENTURXO_H
#define NENTURXO_H

#include <stddef.h>
#include <stdint.h>

#ifdef __cplusplus
extern "C" {
#endif

/* Output slices of these lengths are long enough for every floorplan. */
#define NENTURXO_RECORD_CAPACITY 97
#define NENTURXO_ROOMS_CAPACITY 255
#define NENTURXO_TIDY_CAPACITY 912
#define NENTURXO_TREE_CAPACITY 763

/* The longest text that nenturxo_tidy reads. */
#define NENTURXO_TEXT_LENGTH 4096

/* The longest used part of a book. */
#define NENTURXO_BOOK_CAPACITY 65535

/* The longest trace that nenturxo_trace reads. An output slice of so many entries
 * is long enough for every trace. */
#define NENTURXO_TRACE_LENGTH 65535

/* The most rooms whose plans nenturxo_plan_count and nenturxo_plan_total count. */
#define NENTURXO_COUNTED_ROOMS 17

/* The bytes of a group of positions: always so many, for every record. */
#define NENTURXO_GROUP_LENGTH 32

/* Why a call is refused. Where several hold, the call gives the first in the
 * order that is named at it. */
enum nenturxo_refusal {
    NENTURXO_LIST_LENGTH = 1,      /* room or label list of 0 or over 255 entries */
    NENTURXO_EMPTY_ROOM = 2,       /* room with right <= left or top <= bottom */
    NENTURXO_SHARED_SQUARE = 3,    /* two rooms share a unit square */
    NENTURXO_OPEN_SQUARE = 4,      /* a unit square of the outline is in no room */
    NENTURXO_FOUR_ROOMS_MEET = 5,  /* four rooms meet at a point */
    NENTURXO_LABEL_OUTSIDE = 6,    /* label outside 1 to n */
    NENTURXO_LABEL_TWICE = 7,      /* label occurs twice */
    NENTURXO_BARRED_PATTERN = 8,   /* barred pattern */
    NENTURXO_NO_KIND = 9,          /* record empty or kind 0 */
    NENTURXO_BODY_SHORT = 10,      /* body shorter than its kind fixes */
    NENTURXO_BYTES_AFTER = 11,     /* bytes after the body */
    NENTURXO_RUN_MISSING = 12,     /* a triple needs a run that is missing */
    NENTURXO_RUNS_LEFT = 13,       /* more than one run at the end */
    NENTURXO_SPARE_BIT = 14,       /* spare bit is 1 */
    NENTURXO_SLICE_SHORT = 15,     /* an output slice too short */
    NENTURXO_POSITION_OUTSIDE = 16,/* asked position outside 1 to n */
    NENTURXO_POSITIONS_EQUAL = 17, /* the two asked positions equal or a position in both groups */
    NENTURXO_TEXT_FORM = 18,       /* text breaks the form or is longer than 4,096 bytes */
    NENTURXO_NOT_SLICING = 19,     /* the plan is not slicing */
    NENTURXO_NAME_TWICE = 20,      /* one nonzero name on two rooms */
    NENTURXO_BOOK_LENGTH = 21,     /* used part of a book is or would become longer than 65,535 bytes, or a trace is */
    NENTURXO_PLACE_OUTSIDE = 22,   /* used length beyond the lent slice or a place beyond the used length */
    NENTURXO_SUMMARY_DIFFERS = 23, /* summary is not the book's */
    NENTURXO_LENGTH_DIFFERS = 24,  /* a list whose length is not n */
    NENTURXO_ZERO_SIZE = 25,       /* a size of 0 */
    NENTURXO_RELATION_BROKEN = 26, /* a placing that breaks a relation */
    NENTURXO_EMPTY_GROUP = 27,     /* a group is empty */
    NENTURXO_BAD_MOVE = 28,        /* a move of an unknown kind, without its body or with a triple above 7 */
    NENTURXO_ONLY_ROOM = 29,       /* the only room is taken away */
    NENTURXO_NOT_COUNTED = 30      /* a number of rooms that is 0 or above 17, whose plans are not counted */
};

/* A bad record in a book is refused by its own number together with its
 * ordinal, from 1, as -(number + 256 * ordinal). Of what nenturxo_book_next or
 * nenturxo_book_add gives below 0, call it r, these are the number, an enum
 * nenturxo_refusal, and the ordinal, 0 if no record in the book is the cause. */
#define NENTURXO_BOOK_REFUSAL(r) (-(r) % 256)
#define NENTURXO_BOOK_ORDINAL(r) (-(r) / 256)

/* A refused move of a trace is told together with its ordinal, from 1, and with
 * the rooms and runs before it, as
 *
 *     -(number + runs * 2^8 + rooms * 2^16 + ordinal * 2^24)
 *
 * Of what nenturxo_trace gives below 0, call it r, these are the number, an enum
 * nenturxo_refusal, the runs, the rooms and the ordinal. The last three are 0 if
 * no move is the cause. */
#define NENTURXO_TRACE_REFUSAL(r) (-(r) % 256)
#define NENTURXO_TRACE_RUNS(r) (-(r) / 256 % 256)
#define NENTURXO_TRACE_ROOMS(r) (-(r) / 65536 % 256)
#define NENTURXO_TRACE_ORDINAL(r) (-(r) / 16777216)

/* On which side of another room a room stands: the two low bits of what
 * nenturxo_question gives, and what nenturxo_groups gives for whole groups. */
enum nenturxo_relation {
    NENTURXO_LEFT = 0,
    NENTURXO_RIGHT = 1,
    NENTURXO_ABOVE = 2,
    NENTURXO_BELOW = 3
};

/* What nenturxo_question adds where the two rooms touch, and where their
 * relation is direct. Two rooms in a direct relation always touch, so it gives
 * 0 to 3, 4 to 7 or 12 to 15. */
#define NENTURXO_TOUCH 4
#define NENTURXO_DIRECT 8

/* What nenturxo_groups gives where none of the four relations holds between all
 * rooms of two groups. */
#define NENTURXO_MIXED 4

/* Which of the two conditions of a barred pattern four labels meet: what
 * nenturxo_pattern gives, divided by 2^32. For positions i < j < k < l with the
 * labels a, b, c, d there, the first is c < a + 1 = d < b, and the second is
 * b < d + 1 = a < c. */
enum nenturxo_condition {
    NENTURXO_NO_PATTERN = 0,
    NENTURXO_FIRST_CONDITION = 1,
    NENTURXO_SECOND_CONDITION = 2
};

/* A room: its four corners, where y grows upward, and its name, 0 if it is
 * unnamed. */
typedef struct nenturxo_room {
    uint16_t left;
    uint16_t bottom;
    uint16_t right;
    uint16_t top;
    uint16_t name;
} nenturxo_room;

/* Rooms in: a floorplan as a list of rooms becomes its record.
 *
 * rooms      the rooms, in any order; their outline may lie anywhere
 * record     gets the record: 97 bytes are always enough
 * labels     gets the label of each room, in list order
 * positions  gets the position of each room, in list order
 * names      gets the name of the room at each position, from position 1: not
 *            in list order, but as nenturxo_record_in gives labels and rooms
 *
 * Any number of rooms may be unnamed, but any other name may be on one room
 * only. The record holds no names: lists that differ in names alone get the
 * same record, labels and positions.
 *
 * Gives the record's length. Refusals, in this order: 1, 2, 3, 4, 5, 20, 15. */
int32_t nenturxo_rooms_in(const nenturxo_room *rooms, size_t n,
                          uint8_t *record, size_t record_capacity,
                          uint8_t *labels, size_t labels_capacity,
                          uint8_t *positions, size_t positions_capacity,
                          uint16_t *names, size_t names_capacity);

/* Labels in: the labels of a floorplan by position become its record.
 *
 * labels     the label of the room at each position, from position 1
 * record     gets the record: 97 bytes are always enough
 *
 * Gives the record's length. Refusals, in this order: 1, 6, 7, 8, 15. */
int32_t nenturxo_labels_in(const uint8_t *labels, size_t n,
                           uint8_t *record, size_t capacity);

/* Record in: a record becomes its labels and its grid drawing, whose outline
 * is 0 to n both ways.
 *
 * record     the record's bytes, all of them and no more
 * labels     gets the label of the room at each position, from position 1
 * rooms      gets that room, with name 0
 *
 * The rooms can be handed to nenturxo_rooms_in as they are, which gives the
 * record back.
 *
 * Gives the number of rooms, n: slices of 255 are always enough. Refusals, in
 * this order: 9, 10, 11, 14, 12, 13, 15. */
int32_t nenturxo_record_in(const uint8_t *record, size_t length,
                           uint8_t *labels, size_t labels_capacity,
                           nenturxo_room *rooms, size_t rooms_capacity);

/* The question: how the room at position `first` of a record stands to the
 * one at position `second`, and whether the two touch. The answer is the same
 * for every floorplan that has the record.
 *
 * The relation is left, right, above or below. It is direct if one segment
 * holds the edges with which the two rooms face each other; else it goes only
 * through others, by a chain of two or more direct steps. Two rooms touch if
 * one segment that is not an outline side supports both, from the same side or
 * from opposite sides.
 *
 * Gives an enum nenturxo_relation, NENTURXO_TOUCH more where they touch and
 * NENTURXO_DIRECT more where the relation is direct. With first and second
 * exchanged it gives the opposite side, and the same of these two.
 * Refusals, in this order: 9, 10, 11, 14, 12, 13, 16, 17. */
int32_t nenturxo_question(const uint8_t *record, size_t length,
                          uint8_t first, uint8_t second);

/* Tidy: a label list as text, typed by hand, becomes its tidy text.
 *
 * text       at most 4,096 bytes: numbers of one to three decimal digits,
 *            leading zeros allowed; between two numbers one or more spaces, or
 *            one comma with any spaces round it; spaces may stand before the
 *            first and after the last number, and one newline may end the text
 * tidy       gets the same labels without leading zeros, one space between,
 *            one newline at the end: 912 bytes are always enough
 *
 * Two texts have the same tidy text exactly if they list the same labels in
 * the same order, and the tidy text of a tidy text is that text.
 *
 * Gives the tidy text's length. Refusals, in this order: 18, 1, 6, 7, 8, 15. */
int32_t nenturxo_tidy(const uint8_t *text, size_t length,
                      uint8_t *tidy, size_t capacity);

/* Tree: a record becomes the cutting tree of its plan, if that is slicing: if
 * lines from side to side cut the plan into parts, and again each part, down
 * to the rooms.
 *
 * record     the record's bytes, all of them and no more
 * tree       gets the tree from the root down: at most 3n - 2 bytes for n
 *            rooms, so 763 bytes are always enough
 *
 * A room is the byte 1. A rectangle cut by vertical lines is the byte 2, the
 * number of its parts, 2 to 255, and then the parts from left to right; one cut
 * by horizontal lines is the byte 3, the number, and the parts from bottom to
 * top. All lines of a rectangle cut it at once, so a part is either a room or
 * cut the other way.
 *
 * The tree is written by recursion: a plan of 255 rooms that are cut off one by
 * one takes about 64 KB of stack.
 *
 * Gives the tree's length. Refusals, in this order: 9, 10, 11, 14, 12, 13, 19,
 * 15. */
int32_t nenturxo_tree(const uint8_t *record, size_t length,
                      uint8_t *tree, size_t capacity);

/* Pattern: names the barred pattern for which nenturxo_labels_in refuses a
 * label list with 8.
 *
 * labels     the label of the room at each position, from position 1
 *
 * Gives 0 if the list has no barred pattern. Else gives the four positions
 * i < j < k < l of one, from 1 to n, and which of the two conditions the labels
 * there meet, an enum nenturxo_condition, in one number:
 *
 *     condition * 2^32 + i * 2^24 + j * 2^16 + k * 2^8 + l
 *
 * Of this number, call it p, the condition is p >> 32, i is p >> 24 & 255, j is
 * p >> 16 & 255, k is p >> 8 & 255, and l is p & 255.
 *
 * The four are the first ones in order of i, then j, then k, then l, whichever
 * condition they meet. No four positions meet both. The labels 2 4 1 3 give
 * 4311876356: the first condition, at the positions 1, 2, 3 and 4. The labels
 * 3 1 4 2 give 8606843652: the second condition, at the same positions.
 *
 * Nothing is written. A list that nenturxo_labels_in accepts, or refuses with 15
 * only, gives 0; one that it refuses with 8 gives a pattern; and any other one
 * is refused as there. Refusals, in this order: 1, 6, 7. */
int64_t nenturxo_pattern(const uint8_t *labels, size_t n);

/* Book next: the record that begins at a place of a book.
 *
 * A book is a slice in whose first `used` bytes records stand one after
 * another, and nothing between them; at most 65,535 bytes are used. What stands
 * behind the used part does not count.
 *
 * book       the book's bytes, `lent` of them
 * used       how many of them are used
 * place      where the record begins, counted from 0
 *
 * Gives the record's length, 1 to 97: the record is that part of the book, from
 * book + place on, and can be handed to the other calls as it stands. Gives 0 at
 * the end, where the place is the used length. So a loop reads a book from place
 * 0, and goes on by what it was given until that is 0. The place may be any, but
 * what begins within a record need not be one.
 *
 * Only the record at the place is judged. It counts as ordinal 1, and a bad one
 * gives -(number + 256). Nothing is written. Refusals, in this order: 22, 21 as
 * -number; at the end none; then of the record 9, 10, 14, 12, 13, where 10 means
 * that the used part ends before the record does. */
int32_t nenturxo_book_next(const uint8_t *book, size_t lent,
                           size_t used, size_t place);

/* Book add: a record is added to a book, and to the summary beside it.
 *
 * book       the book's bytes, `lent` of them: from book + used on they get the
 *            record, and all others stay as they were
 * used       how many of them are used, 0 for a new book
 * record     the record's bytes, all of them and no more
 * plans      the number of records in the book, 0 for a new book
 * rooms      the number of their rooms, likewise
 * rises      the number of their triples whose third bit is 0, likewise
 * falls      the number of their triples whose third bit is 1, likewise
 *
 * The four totals are read first; they get those of the lengthened book. No two
 * of their pointers are the same, and none points into the book or the record.
 *
 * Gives the new used length. Refusals, in this order, after which book and
 * totals are as they were: 22 if used is beyond lent; 21 for the book as it is;
 * the first bad record in the book as -(number + 256 * ordinal), with 9, 10, 14,
 * 12, 13 in this order, where 10 means that the used part ends before the record
 * does; 23; those of the added record, without ordinal, 9, 10, 11, 14, 12, 13;
 * 21 for the lengthened book; 15 if the book's slice cannot hold it.
 *
 * Each call checks the whole book, every record of it, so its time grows with
 * the used length: about 90 microseconds for a full book of 675 records of 255
 * rooms, and 190 for 20,000 records of 1 to 5 rooms, on an AMD EPYC. */
int32_t nenturxo_book_add(uint8_t *book, size_t lent, size_t used,
                          const uint8_t *record, size_t length,
                          uint32_t *plans, uint32_t *rooms,
                          uint32_t *rises, uint32_t *falls);

/* Lowest corners: where the rooms of a plan go if each has a size of its own and
 * stands as far to the left and as low as it can.
 *
 * record     the record's bytes, all of them and no more
 * widths     the width of the room at each position, from position 1: n numbers
 *            from 1 to 65,535
 * heights    its height, likewise
 * x          gets the left edge of the room at each position
 * y          gets its bottom edge, likewise
 *
 * A room starts where the furthest room left of it ends, or at 0, and likewise
 * upward, where the furthest room below it ends. No placing from 0 up that
 * honours all left and below relations puts any corner lower, and this is the
 * only one of which that holds. Its rooms share no unit square, and all of them
 * end below 2^24 both ways.
 *
 * The record 05 31 70 with the widths 3 1 4 1 5 and the heights 9 2 6 5 3 gives
 * x 0 0 1 5 1 and y 0 9 9 0 15.
 *
 * Gives the number of rooms, n: slices of 255 are always enough. Refusals, in
 * this order: 9, 10, 11, 14, 12, 13, 24 for widths or heights, 25, 15. */
int32_t nenturxo_lowest_corners(const uint8_t *record, size_t length,
                                const uint16_t *widths, size_t widths_length,
                                const uint16_t *heights, size_t heights_length,
                                uint32_t *x, size_t x_capacity,
                                uint32_t *y, size_t y_capacity);

/* Slack: how much an outline leaves free of what such rooms need.
 *
 * record, widths, heights   as for nenturxo_lowest_corners
 * outline_width             the width of the outline, any number
 * outline_height            its height, likewise
 * across                    gets the slack from left to right
 * up                        gets the slack from bottom to top
 *
 * The slack each way is the outline less the needed length, which is the
 * furthest end of any room in that direction at the lowest corners. It may be
 * below 0. It is 0 or more both ways exactly if some placing that honours the
 * relations fits the outline.
 *
 * The rooms of the example above need 6 across and 18 up, so an outline of 10 by
 * 10 has the slack 4 across and -8 up.
 *
 * Gives 0. Refusals, in this order, after which both numbers are as they were:
 * 9, 10, 11, 14, 12, 13, 24 for widths or heights, 25. */
int32_t nenturxo_slack(const uint8_t *record, size_t length,
                       const uint16_t *widths, size_t widths_length,
                       const uint16_t *heights, size_t heights_length,
                       uint32_t outline_width, uint32_t outline_height,
                       int64_t *across, int64_t *up);

/* Placing in: whether a placing of such rooms, wherever it comes from, honours
 * the relations of the plan.
 *
 * record, widths, heights   as for nenturxo_lowest_corners
 * x                         the left edge of the room at each position, from
 *                           position 1: n numbers, any
 * y                         its bottom edge, likewise
 *
 * A placing is accepted exactly if each room ends, across, no later than every
 * room right of it begins, and upward no later than every room above it begins.
 * Where a room ends is the sum of two whole numbers, which may be 2^32 or more.
 *
 * Nothing is written. Gives 0 for a placing that is accepted. Refusals, in this
 * order: 9, 10, 11, 14, 12, 13, 24 for any of the four lists, 25, 26. */
int32_t nenturxo_placing_in(const uint8_t *record, size_t length,
                            const uint16_t *widths, size_t widths_length,
                            const uint16_t *heights, size_t heights_length,
                            const uint32_t *x, size_t x_length,
                            const uint32_t *y, size_t y_length);

/* Groups: how a whole group of rooms of a record stands to another group.
 *
 * record     the record's bytes, all of them and no more
 * first      a group of positions, as 32 bytes: position k, from 1, is in it if
 *            bit (k - 1) % 8, counted from the low end, of byte (k - 1) / 8 is 1
 * second     another one, likewise
 *
 * So a group begins as 32 bytes of 0, and this puts position k into it:
 *
 *     group[(k - 1) / 8] |= 1 << (k - 1) % 8;
 *
 * Gives an enum nenturxo_relation if every room of the first group stands so to
 * every room of the second one, directly or through others, and else
 * NENTURXO_MIXED. For two groups of one room each this is the relation that
 * nenturxo_question gives, without NENTURXO_TOUCH and NENTURXO_DIRECT. With first
 * and second exchanged it gives the opposite side, or NENTURXO_MIXED again. The
 * answer is the same for every floorplan that has the record.
 *
 * In the record 05 31 70 the rooms at positions 2 and 3 are left of the one at
 * 4: the groups 06 00 .. 00 and 08 00 .. 00 give NENTURXO_LEFT. The room at 5 is
 * right of 2 but above 3: 06 00 .. 00 and 18 00 .. 00 give NENTURXO_MIXED.
 *
 * Nothing is written. Refusals, in this order: 9, 10, 11, 14, 12, 13, 16 for a
 * position above n in either group, 256 too, 27, 17 for a position in both. */
int32_t nenturxo_groups(const uint8_t *record, size_t length,
                        const uint8_t first[NENTURXO_GROUP_LENGTH],
                        const uint8_t second[NENTURXO_GROUP_LENGTH]);

/* Trace: replays the moves by which a plan was built, room by room.
 *
 * trace      the moves one after another: at most 65,535 bytes
 * states     gets an entry for each move, 256 * rooms + runs as they are after
 *            it: as many as there are moves, so 65,535 are always enough
 *
 * The plan starts with one room. These are the moves, by their bytes:
 *
 *     01 and a triple   adds a room. The triple is a number from 0 to 7, its
 *                       first bit worth 4
 *     02                takes the newest room away
 *     03                claims that one run is left, and changes nothing
 *
 * The runs are those of consecutive labels among the rooms: the current one, and
 * those below it and above it. After each move rooms and runs are the ones that
 * the triples still present give from the start, whatever was taken away
 * meanwhile. To add the triples of a record one after another, and then to claim,
 * is accepted exactly if the record gets neither 12 nor 13.
 *
 * Gives the count of the moves and the final rooms and runs, in one number:
 *
 *     moves * 2^16 + rooms * 2^8 + runs
 *
 * Of this number, call it t, the moves are t >> 16, the rooms t >> 8 & 255, and
 * the runs t & 255. An empty trace gives 257: no move, one room, one run. Of an
 * entry e the rooms are e >> 8 and the runs e & 255.
 *
 * The trace 01 02 01 01 02 01 01 01 06 03 adds 010 and 001, takes the second one
 * away and adds it again, adds 110 and makes a claim. It gives 394241, for 6
 * moves, 4 rooms and 1 run, and states gets 513 770 513 770 1025 1025.
 *
 * The first refused move ends the replay, and is told as NENTURXO_TRACE_REFUSAL
 * and the others above read it. Refusals, in this order, after which states is as
 * it was: 21 as -number, before all moves; of a move 28, then 1 for a room past
 * 255 or 29, then 12 for its triple, or 13 for a claim; after the last move 15 as
 * -number, if states has fewer entries than there are moves. */
int64_t nenturxo_trace(const uint8_t *trace, size_t length,
                       uint16_t *states, size_t capacity);

/* Plan count: how many plans of n rooms have so many rises.
 *
 * n          the number of rooms, 1 to 17
 * rises      the number of rises, any
 *
 * A rise is a triple whose third bit is 0: the label at a position is greater
 * than the one at the position before. A record of n rooms has n - 1 triples,
 * and those that are no rises are falls. nenturxo_book_add counts both too.
 *
 * The plans are the records of n rooms that nenturxo_record_in accepts, given
 * slices that are long enough. So this is also how many label lists of n labels
 * with so many rises nenturxo_labels_in accepts, and how many floorplans of n
 * rooms have such a record, if equivalent ones count as one.
 *
 * Gives that number. Plans of 3 rooms: 1 with no rise, 4 with one and 1 with two.
 * Plans of 4 rooms: 1, 10, 10, 1, and of 5 rooms: 1, 20, 50, 20, 1, likewise. As
 * many plans have r rises as have n - 1 - r, and none has n or more, which gives
 * 0. The numbers of 0 to n - 1 rises add up to nenturxo_plan_total.
 *
 * Nothing is written. Refusal: 30 for n of 0 or above 17, whatever the rises, and
 * no other. */
int64_t nenturxo_plan_count(uint8_t n, uint8_t rises);

/* Plan total: how many plans of n rooms there are, whatever their rises.
 *
 * n          the number of rooms, 1 to 17
 *
 * The plans are those that nenturxo_plan_count counts. Their number is the Baxter
 * number of n:
 *
 *     1, 2, 6, 22, 92, 422, 2074, 10754, 58202, 326240, 1882960, 11140560,
 *     67329992, 414499438, 2593341586, 16458756586, 105791986682
 *
 * Gives that number. The last one, of 17 rooms, is the largest of all totals and
 * counts: it has 37 bits.
 *
 * Nothing is written. Refusal: 30 for n of 0 or above 17, and no other. */
int64_t nenturxo_plan_total(uint8_t n);

#ifdef __cplusplus
}
#endif

#endif
