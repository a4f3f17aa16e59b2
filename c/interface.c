/* Runs the C interface as its users do: the sheet's worked plans, every
 * refusal, and what is written when. It compiles as C and as C++. */
#include "nenturxo.h"

#include <stdio.h>
#include <string.h>

static int checks = 0;
static int failures = 0;

/* Every check is counted; one that fails says where it stands. */
#define CHECK(fact)                                                            \
    do {                                                                       \
        checks++;                                                              \
        if (!(fact)) {                                                         \
            failures++;                                                        \
            fprintf(stderr, "%s:%d: not so: %s\n", __FILE__, __LINE__, #fact); \
        }                                                                      \
    } while (0)

#define COUNT(array) (sizeof(array) / sizeof *(array))

/* What output slices hold before a call. */
enum { UNTOUCHED = 0xA5 };

/* An output slice for calls that are refused: it stays all 0. */
static uint8_t never_written[NENTURXO_RECORD_CAPACITY];

static int all_untouched(const void *first, size_t bytes) {
    const unsigned char *byte = (const unsigned char *)first;
    size_t i;
    for (i = 0; i < bytes; i++) {
        if (byte[i] != UNTOUCHED) {
            return 0;
        }
    }
    return 1;
}

static int sum(const uint8_t *bytes, size_t n) {
    int total = 0;
    while (n > 0) {
        total += bytes[--n];
    }
    return total;
}

/* ---- Labels in */

static int32_t labels_in(const uint8_t *labels, size_t n, const uint8_t *expected, size_t length) {
    uint8_t record[NENTURXO_RECORD_CAPACITY];
    int32_t code;
    memset(record, UNTOUCHED, sizeof record);
    code = nenturxo_labels_in(labels, n, record, sizeof record);
    CHECK(memcmp(record, expected, length) == 0);
    CHECK(all_untouched(record + length, sizeof record - length));
    return code;
}

/* The labels have the record that follows them, and one byte less is too short. */
#define LABELS_GIVE(labels, ...)                                                            \
    do {                                                                                    \
        const uint8_t expected[] = {__VA_ARGS__};                                           \
        CHECK(labels_in(labels, COUNT(labels), expected, COUNT(expected)) ==                \
              (int32_t)COUNT(expected));                                                    \
        CHECK(nenturxo_labels_in(labels, COUNT(labels), never_written, COUNT(expected) - 1) \
              == -NENTURXO_SLICE_SHORT);                                                    \
    } while (0)

static void test_labels_in(void) {
    const uint8_t one[] = {1}, rising[] = {1, 2}, falling[] = {2, 1}, five[] = {4, 1, 3, 5, 2};
    const uint8_t seven[] = {2, 7, 3, 1, 5, 6, 4};
    const uint8_t outside[] = {1, 3}, twice[] = {1, 1}, barred[] = {2, 4, 1, 3};
    uint8_t many[256];
    uint8_t record[NENTURXO_RECORD_CAPACITY];
    size_t i;

    LABELS_GIVE(one, 0x01);
    LABELS_GIVE(rising, 0x02, 0x40);
    LABELS_GIVE(falling, 0x02, 0xA0);
    LABELS_GIVE(five, 0x05, 0x31, 0x70);
    LABELS_GIVE(seven, 0x07, 0x0E, 0x8D, 0xC0);

    CHECK(labels_in(one, 0, never_written, 0) == -NENTURXO_LIST_LENGTH);
    CHECK(labels_in(outside, 2, never_written, 0) == -NENTURXO_LABEL_OUTSIDE);
    CHECK(labels_in(twice, 2, never_written, 0) == -NENTURXO_LABEL_TWICE);
    CHECK(labels_in(barred, 4, never_written, 0) == -NENTURXO_BARRED_PATTERN);

    for (i = 0; i < 256; i++) {
        many[i] = (uint8_t)(i + 1);
    }
    CHECK(nenturxo_labels_in(many, 255, record, sizeof record) == NENTURXO_RECORD_CAPACITY);
    CHECK(labels_in(many, 256, never_written, 0) == -NENTURXO_LIST_LENGTH);
}

/* ---- Rooms in */

typedef struct {
    uint8_t record[NENTURXO_RECORD_CAPACITY];
    uint8_t labels[NENTURXO_ROOMS_CAPACITY];
    uint8_t positions[NENTURXO_ROOMS_CAPACITY];
    uint16_t names[NENTURXO_ROOMS_CAPACITY];
} rooms_out;

/* How many places the output slices have: for the record, the labels, the
 * positions and the names. */
typedef size_t rooms_places[4];

static const rooms_places enough = {NENTURXO_RECORD_CAPACITY, NENTURXO_ROOMS_CAPACITY,
                                    NENTURXO_ROOMS_CAPACITY, NENTURXO_ROOMS_CAPACITY};
static const rooms_places none = {0, 0, 0, 0};

static int32_t rooms_in(const nenturxo_room *rooms, size_t n, const size_t *places,
                        rooms_out *out) {
    memset(out, UNTOUCHED, sizeof *out);
    return nenturxo_rooms_in(rooms, n, out->record, places[0], out->labels, places[1],
                             out->positions, places[2], out->names, places[3]);
}

/* With slices that are long enough and with none. */
static void refuses_rooms(const nenturxo_room *rooms, size_t n, int refusal) {
    rooms_out out;
    CHECK(rooms_in(rooms, n, enough, &out) == -refusal);
    CHECK(all_untouched(&out, sizeof out));
    CHECK(rooms_in(rooms, n, none, &out) == -refusal);
    CHECK(all_untouched(&out, sizeof out));
}

/* The five rooms of the sheet's pinwheel, in another order than that of their
 * positions, with these names. */
static void name_five(nenturxo_room *rooms, const uint16_t *names) {
    const nenturxo_room five[] = {
        {2, 4, 5, 5, 0}, {0, 0, 3, 1, 0}, {3, 0, 5, 4, 0}, {0, 1, 2, 5, 0}, {2, 1, 3, 4, 0}};
    int i;
    for (i = 0; i < 5; i++) {
        rooms[i] = five[i];
        rooms[i].name = names[i];
    }
}

/* Whatever their names, in slices of so many places the five have this record,
 * these labels and positions; by position they have the names that are
 * expected. */
static void five_give(const uint16_t *names, const size_t *places, const uint16_t *expected) {
    const uint8_t record[] = {0x05, 0x31, 0x70};
    const uint8_t labels[] = {2, 4, 5, 1, 3}, positions[] = {5, 1, 4, 2, 3};
    nenturxo_room five[5];
    rooms_out out;

    name_five(five, names);
    CHECK(rooms_in(five, 5, places, &out) == 3);
    CHECK(memcmp(out.record, record, sizeof record) == 0);
    CHECK(memcmp(out.labels, labels, sizeof labels) == 0);
    CHECK(memcmp(out.positions, positions, sizeof positions) == 0);
    CHECK(memcmp(out.names, expected, 5 * sizeof *expected) == 0);
    CHECK(all_untouched(out.record + 3, sizeof out.record - 3));
    CHECK(all_untouched(out.labels + 5, sizeof out.labels - 5));
    CHECK(all_untouched(out.positions + 5, sizeof out.positions - 5));
    CHECK(all_untouched(out.names + 5, sizeof out.names - 5 * sizeof *out.names));
}

/* Any number of rooms may be unnamed; no other name may occur twice. */
static void test_names(void) {
    const uint16_t unnamed[] = {0, 0, 0, 0, 0};
    const uint16_t named[] = {50, 10, 40, 20, 30}, by_position[] = {10, 20, 30, 40, 50};
    const uint16_t some[] = {0, 65535, 0, 1, 0}, some_by_position[] = {65535, 1, 0, 0, 0};
    /* each of the others differs from the first one in one bit */
    const uint16_t bits[] = {2, 258, 1026, 32770, 3}, bits_by_position[] = {258, 32770, 3, 1026, 2};
    const uint16_t ends[] = {7, 0, 0, 0, 7}, beside[] = {0, 65535, 65535, 0, 1};
    nenturxo_room five[5];

    five_give(unnamed, enough, unnamed);
    five_give(named, enough, by_position);
    five_give(some, enough, some_by_position);
    five_give(bits, enough, bits_by_position);
    name_five(five, ends);
    refuses_rooms(five, 5, NENTURXO_NAME_TWICE);
    name_five(five, beside);
    refuses_rooms(five, 5, NENTURXO_NAME_TWICE);
}

/* Each slice in turn is one too short, with names and without, or one longer
 * than it need be, while the others are just long enough; and all are just long
 * enough. One name on two rooms comes before a short slice. */
static void test_places(void) {
    const uint16_t names[] = {50, 10, 40, 20, 30}, by_position[] = {10, 20, 30, 40, 50};
    const uint16_t twice[] = {50, 10, 40, 20, 50}, no_names[] = {0, 0, 0, 0, 0};
    const rooms_places needed = {3, 5, 5, 5};
    nenturxo_room named[5], unnamed[5], named_twice[5];
    rooms_out out;
    int which;

    name_five(named, names);
    name_five(unnamed, no_names);
    name_five(named_twice, twice);
    for (which = 0; which < 4; which++) {
        rooms_places places;
        memcpy(places, needed, sizeof places);
        places[which]--;
        CHECK(rooms_in(named, 5, places, &out) == -NENTURXO_SLICE_SHORT);
        CHECK(all_untouched(&out, sizeof out));
        CHECK(rooms_in(unnamed, 5, places, &out) == -NENTURXO_SLICE_SHORT);
        CHECK(all_untouched(&out, sizeof out));
        CHECK(rooms_in(named_twice, 5, places, &out) == -NENTURXO_NAME_TWICE);
        CHECK(all_untouched(&out, sizeof out));
        places[which] += 2;
        five_give(names, places, by_position);
    }
    five_give(names, needed, by_position);
}

static void test_rooms_in(void) {
    const nenturxo_room beside[] = {{1, 0, 2, 1, 0}, {0, 0, 1, 1, 9}};
    /* one name is on two rooms in each of these, and yet it is refused first
     * for what its corners lack */
    const nenturxo_room empty[] = {{0, 0, 1, 1, 9}, {1, 0, 1, 1, 9}};
    const nenturxo_room shared[] = {{0, 0, 2, 2, 9}, {1, 1, 3, 3, 9}};
    const nenturxo_room apart[] = {{0, 0, 1, 1, 9}, {2, 0, 3, 1, 9}};
    const nenturxo_room four[] = {
        {0, 0, 1, 1, 9}, {1, 0, 2, 1, 9}, {0, 1, 1, 2, 9}, {1, 1, 2, 2, 9}};
    const uint8_t two_labels[] = {2, 1}, two_record[] = {0x02, 0x40};
    const uint16_t two_names[] = {9, 0};
    nenturxo_room many[256];
    rooms_out out;
    int i;

    CHECK(rooms_in(beside, 2, enough, &out) == 2);
    CHECK(memcmp(out.record, two_record, 2) == 0);
    CHECK(memcmp(out.labels, two_labels, 2) == 0);
    CHECK(memcmp(out.positions, two_labels, 2) == 0);
    CHECK(memcmp(out.names, two_names, sizeof two_names) == 0);

    for (i = 0; i < 256; i++) {
        many[i] = beside[1];
    }
    refuses_rooms(many, 256, NENTURXO_LIST_LENGTH);
    refuses_rooms(many, 0, NENTURXO_LIST_LENGTH);
    refuses_rooms(empty, 2, NENTURXO_EMPTY_ROOM);
    refuses_rooms(shared, 2, NENTURXO_SHARED_SQUARE);
    refuses_rooms(apart, 2, NENTURXO_OPEN_SQUARE);
    refuses_rooms(four, 4, NENTURXO_FOUR_ROOMS_MEET);
    test_names();
    test_places();
}

/* ---- Record in */

typedef struct {
    uint8_t labels[NENTURXO_ROOMS_CAPACITY];
    nenturxo_room rooms[NENTURXO_ROOMS_CAPACITY];
} record_out;

/* With so many places for labels, and for rooms. */
static int32_t record_in(const uint8_t *record, size_t length, size_t labels, size_t rooms,
                         record_out *out) {
    memset(out, UNTOUCHED, sizeof *out);
    return nenturxo_record_in(record, length, out->labels, labels, out->rooms, rooms);
}

static void refuses_record(const uint8_t *record, size_t length, int refusal) {
    record_out out;
    CHECK(record_in(record, length, COUNT(out.labels), COUNT(out.rooms), &out) == -refusal);
    CHECK(all_untouched(&out, sizeof out));
    CHECK(record_in(record, length, 0, 0, &out) == -refusal);
    CHECK(all_untouched(&out, sizeof out));
    CHECK(nenturxo_question(record, length, 1, 2) == -refusal);
}

/* A record becomes its rooms, and the rooms, as they were written, the record
 * again. */
static void comes_back(const uint8_t *record, size_t length) {
    record_out drawn;
    rooms_out out;
    int i, n = record[0];

    CHECK(record_in(record, length, COUNT(drawn.labels), COUNT(drawn.rooms), &drawn) == n);
    CHECK(rooms_in(drawn.rooms, (size_t)n, enough, &out) == (int32_t)length);
    CHECK(memcmp(out.record, record, length) == 0);
    CHECK(memcmp(out.labels, drawn.labels, (size_t)n) == 0);
    for (i = 0; i < n; i++) {
        CHECK(drawn.rooms[i].name == 0);
        CHECK(out.positions[i] == i + 1);
        CHECK(out.names[i] == 0);
    }
}

/* A drawing of 255 rooms that are then named, by position: the record is the
 * same, and the names come back, unless the first is on the last room too. */
static void test_named_drawing(const uint8_t *record) {
    record_out drawn;
    rooms_out out;
    int i;

    CHECK(record_in(record, NENTURXO_RECORD_CAPACITY, 255, 255, &drawn) == 255);
    for (i = 0; i < 255; i++) {
        drawn.rooms[i].name = (uint16_t)(65535 - 256 * i);
    }
    CHECK(rooms_in(drawn.rooms, 255, enough, &out) == NENTURXO_RECORD_CAPACITY);
    CHECK(memcmp(out.record, record, sizeof out.record) == 0);
    for (i = 0; i < 255; i++) {
        CHECK(out.names[i] == drawn.rooms[i].name);
    }
    drawn.rooms[254].name = drawn.rooms[0].name;
    refuses_rooms(drawn.rooms, 255, NENTURXO_NAME_TWICE);
}

static void test_round_trips(void) {
    const uint8_t one[] = {0x01}, five[] = {0x05, 0x31, 0x70}, seven[] = {0x07, 0x0E, 0x8D, 0xC0};
    uint8_t labels[NENTURXO_ROOMS_CAPACITY], record[NENTURXO_RECORD_CAPACITY];
    int i;

    comes_back(one, sizeof one);
    comes_back(five, sizeof five);
    comes_back(seven, sizeof seven);
    for (i = 0; i < 255; i++) {
        labels[i] = (uint8_t)(255 - i);
    }
    CHECK(nenturxo_labels_in(labels, 255, record, sizeof record) == NENTURXO_RECORD_CAPACITY);
    comes_back(record, sizeof record);
    test_named_drawing(record);
}

/* With so many places for labels, and for rooms, a record gives what the sheet
 * says. */
static void five_are_drawn(size_t label_places, size_t room_places) {
    const uint8_t record[] = {0x05, 0x31, 0x70}, labels[] = {4, 1, 3, 5, 2};
    const nenturxo_room rooms[] = {
        {0, 0, 3, 1, 0}, {0, 1, 2, 5, 0}, {2, 1, 3, 4, 0}, {3, 0, 5, 4, 0}, {2, 4, 5, 5, 0}};
    record_out out;

    CHECK(record_in(record, 3, label_places, room_places, &out) == 5);
    CHECK(memcmp(out.labels, labels, sizeof labels) == 0);
    CHECK(memcmp(out.rooms, rooms, sizeof rooms) == 0);
    CHECK(all_untouched(out.labels + 5, sizeof out.labels - sizeof labels));
    CHECK(all_untouched(out.rooms + 5, sizeof out.rooms - sizeof rooms));
}

static void test_record_in(void) {
    const uint8_t record[] = {0x05, 0x31, 0x70};
    const uint8_t no_kind[] = {0x00}, body_short[] = {0x02}, after[] = {0x01, 0x00};
    const uint8_t spare[] = {0x02, 0xC1}, missing[] = {0x02, 0x60}, left_over[] = {0x02, 0x00};
    record_out out;

    /* a room is five numbers with nothing between them */
    CHECK(sizeof(nenturxo_room) == 10);
    five_are_drawn(5, 5);
    five_are_drawn(6, 5);
    five_are_drawn(5, 6);
    five_are_drawn(COUNT(out.labels), COUNT(out.rooms));
    CHECK(record_in(record, 3, 4, 5, &out) == -NENTURXO_SLICE_SHORT);
    CHECK(all_untouched(&out, sizeof out));
    CHECK(record_in(record, 3, 5, 4, &out) == -NENTURXO_SLICE_SHORT);
    CHECK(all_untouched(&out, sizeof out));
    test_round_trips();

    refuses_record(record, 0, NENTURXO_NO_KIND);
    refuses_record(no_kind, 1, NENTURXO_NO_KIND);
    refuses_record(body_short, 1, NENTURXO_BODY_SHORT);
    refuses_record(after, 2, NENTURXO_BYTES_AFTER);
    refuses_record(spare, 2, NENTURXO_SPARE_BIT);
    refuses_record(missing, 2, NENTURXO_RUN_MISSING);
    refuses_record(left_over, 2, NENTURXO_RUNS_LEFT);
}

/* ---- the question */

static void test_question(void) {
    const uint8_t record[] = {0x05, 0x31, 0x70};
    const uint8_t two_rows[] = {0x04, 0x47, 0x00}, four_in_a_row[] = {0x04, 0x49, 0x00};
    const int touching = NENTURXO_TOUCH, direct = NENTURXO_DIRECT + NENTURXO_TOUCH;
    const uint8_t bar_over_three[] = {2, 3, 4, 1};
    uint8_t under_a_bar[3];
    CHECK(nenturxo_question(record, 3, 1, 4) == NENTURXO_LEFT + direct);
    CHECK(nenturxo_question(record, 3, 4, 1) == NENTURXO_RIGHT + direct);
    CHECK(nenturxo_question(record, 3, 5, 3) == NENTURXO_ABOVE + direct);
    CHECK(nenturxo_question(record, 3, 5, 1) == NENTURXO_ABOVE);
    CHECK(nenturxo_question(record, 3, 1, 5) == NENTURXO_BELOW);
    /* the segment between the rows supports both, from opposite sides */
    CHECK(nenturxo_question(two_rows, 3, 1, 4) == NENTURXO_BELOW + direct);
    CHECK(nenturxo_question(two_rows, 3, 4, 1) == NENTURXO_ABOVE + direct);
    /* the segment under the bar supports both, but from the same side */
    CHECK(nenturxo_labels_in(bar_over_three, 4, under_a_bar, 3) == 3);
    CHECK(nenturxo_question(under_a_bar, 3, 1, 3) == NENTURXO_LEFT + touching);
    CHECK(nenturxo_question(under_a_bar, 3, 3, 1) == NENTURXO_RIGHT + touching);
    CHECK(nenturxo_question(under_a_bar, 3, 3, 4) == NENTURXO_BELOW + direct);
    /* three steps, and only sides of the outline support both */
    CHECK(nenturxo_question(four_in_a_row, 3, 1, 4) == NENTURXO_LEFT);
    CHECK(nenturxo_question(four_in_a_row, 3, 2, 3) == NENTURXO_LEFT + direct);
    CHECK(nenturxo_question(record, 3, 0, 1) == -NENTURXO_POSITION_OUTSIDE);
    CHECK(nenturxo_question(record, 3, 1, 6) == -NENTURXO_POSITION_OUTSIDE);
    CHECK(nenturxo_question(record, 3, 2, 2) == -NENTURXO_POSITIONS_EQUAL);
}

/* ---- Tidy */

static int32_t tidy(const char *text, size_t length, const char *expected) {
    uint8_t tidied[NENTURXO_TIDY_CAPACITY];
    size_t written = strlen(expected);
    int32_t code;
    memset(tidied, UNTOUCHED, sizeof tidied);
    code = nenturxo_tidy((const uint8_t *)text, length, tidied, sizeof tidied);
    CHECK(memcmp(tidied, expected, written) == 0);
    CHECK(all_untouched(tidied + written, sizeof tidied - written));
    return code;
}

/* The text has this tidy text, which has itself. One byte less is too short. */
static void tidies(const char *text, const char *expected) {
    const uint8_t *bytes = (const uint8_t *)text;
    size_t length = strlen(text), needed = strlen(expected);
    uint8_t tidied[NENTURXO_TIDY_CAPACITY];

    CHECK(tidy(text, length, expected) == (int32_t)needed);
    CHECK(tidy(expected, needed, expected) == (int32_t)needed);

    memset(tidied, UNTOUCHED, sizeof tidied);
    CHECK(nenturxo_tidy(bytes, length, tidied, needed - 1) == -NENTURXO_SLICE_SHORT);
    CHECK(nenturxo_tidy(bytes, length, tidied, 0) == -NENTURXO_SLICE_SHORT);
    CHECK(all_untouched(tidied, sizeof tidied));
    CHECK(nenturxo_tidy(bytes, length, tidied, needed) == (int32_t)needed);
    CHECK(memcmp(tidied, expected, needed) == 0);
    CHECK(all_untouched(tidied + needed, sizeof tidied - needed));
}

static void refuses_text(const char *text, int refusal) {
    const uint8_t *bytes = (const uint8_t *)text;
    CHECK(tidy(text, strlen(text), "") == -refusal);
    CHECK(nenturxo_tidy(bytes, strlen(text), never_written, 0) == -refusal);
}

/* Lengths that only whole texts can have. */
static void test_long_texts(void) {
    char text[NENTURXO_TEXT_LENGTH + 1], rising[NENTURXO_TIDY_CAPACITY + 1];
    char *end = rising;
    int i;

    memset(text, ' ', sizeof text);
    CHECK(tidy(text, NENTURXO_TEXT_LENGTH, "") == -NENTURXO_LIST_LENGTH);
    CHECK(tidy(text, NENTURXO_TEXT_LENGTH + 1, "") == -NENTURXO_TEXT_FORM);
    text[NENTURXO_TEXT_LENGTH - 1] = '1';
    CHECK(tidy(text, NENTURXO_TEXT_LENGTH, "1\n") == 2);
    CHECK(tidy(text, NENTURXO_TEXT_LENGTH + 1, "") == -NENTURXO_TEXT_FORM);

    for (i = 1; i <= 255; i++) {
        end += sprintf(end, "%d%c", i, i < 255 ? ' ' : '\n');
    }
    CHECK(strlen(rising) == NENTURXO_TIDY_CAPACITY);
    CHECK(tidy(rising, sizeof rising - 1, rising) == NENTURXO_TIDY_CAPACITY);
    for (i = 0; i < 256; i++) {
        memcpy(text + 4 * i, "001,", 4);
    }
    CHECK(tidy(text, 4 * 255 - 1, "") == -NENTURXO_LABEL_TWICE);
    CHECK(tidy(text, 4 * 256 - 1, "") == -NENTURXO_LIST_LENGTH);
    CHECK(tidy(text, 4 * 256, "") == -NENTURXO_TEXT_FORM);
}

static void test_tidy(void) {
    tidies("1", "1\n");
    tidies(" 4,1 , 03  5 002 \n", "4 1 3 5 2\n");
    tidies("004,001,003,005,002", "4 1 3 5 2\n");
    tidies("10 9 8 7 6 5 4 3 2 1", "10 9 8 7 6 5 4 3 2 1\n");

    refuses_text("", NENTURXO_LIST_LENGTH);
    refuses_text("\n", NENTURXO_LIST_LENGTH);
    refuses_text("   \n", NENTURXO_LIST_LENGTH);
    refuses_text("1,", NENTURXO_TEXT_FORM);
    refuses_text(",1", NENTURXO_TEXT_FORM);
    refuses_text("1,,2", NENTURXO_TEXT_FORM);
    refuses_text("0001", NENTURXO_TEXT_FORM);
    refuses_text("1\t2", NENTURXO_TEXT_FORM);
    refuses_text("1 2\r\n", NENTURXO_TEXT_FORM);
    refuses_text("1\n\n", NENTURXO_TEXT_FORM);
    refuses_text("000", NENTURXO_LABEL_OUTSIDE);
    refuses_text("1 258", NENTURXO_LABEL_OUTSIDE);
    refuses_text("2, 02", NENTURXO_LABEL_TWICE);
    refuses_text("2 4 1 3", NENTURXO_BARRED_PATTERN);
    test_long_texts();
}

/* ---- Tree */

static int32_t tree(const uint8_t *record, size_t length, const uint8_t *expected, size_t bytes) {
    uint8_t cut[NENTURXO_TREE_CAPACITY];
    int32_t code;
    memset(cut, UNTOUCHED, sizeof cut);
    code = nenturxo_tree(record, length, cut, sizeof cut);
    CHECK(memcmp(cut, expected, bytes) == 0);
    CHECK(all_untouched(cut + bytes, sizeof cut - bytes));
    return code;
}

/* The record has this tree. One byte less is too short. */
static void cuts(const uint8_t *record, size_t length, const uint8_t *expected, size_t needed) {
    uint8_t cut[NENTURXO_TREE_CAPACITY];

    CHECK(tree(record, length, expected, needed) == (int32_t)needed);
    memset(cut, UNTOUCHED, sizeof cut);
    CHECK(nenturxo_tree(record, length, cut, needed - 1) == -NENTURXO_SLICE_SHORT);
    CHECK(nenturxo_tree(record, length, cut, 0) == -NENTURXO_SLICE_SHORT);
    CHECK(all_untouched(cut, sizeof cut));
    CHECK(nenturxo_tree(record, length, cut, needed) == (int32_t)needed);
    CHECK(memcmp(cut, expected, needed) == 0);
    CHECK(all_untouched(cut + needed, sizeof cut - needed));
}

/* The labels have a record, and that has the tree that follows them. */
#define LABELS_CUT(labels, ...)                                                              \
    do {                                                                                     \
        const uint8_t expected[] = {__VA_ARGS__};                                            \
        uint8_t record[NENTURXO_RECORD_CAPACITY];                                            \
        int32_t length = nenturxo_labels_in(labels, COUNT(labels), record, sizeof record);   \
        CHECK(length > 0);                                                                   \
        cuts(record, (size_t)length, expected, COUNT(expected));                             \
    } while (0)

/* Whatever the slice, with a long one, a short one and none. */
static void refuses_tree(const uint8_t *record, size_t length, int refusal) {
    CHECK(tree(record, length, never_written, 0) == -refusal);
    CHECK(nenturxo_tree(record, length, never_written, 1) == -refusal);
    CHECK(nenturxo_tree(record, length, never_written, 0) == -refusal);
}

/* A row of 255 rooms, and as many rooms each of which is cut off by a line of
 * its own: the longest tree. */
static void test_large_trees(void) {
    uint8_t labels[NENTURXO_ROOMS_CAPACITY], record[NENTURXO_RECORD_CAPACITY];
    uint8_t row[2 + NENTURXO_ROOMS_CAPACITY], comb[NENTURXO_TREE_CAPACITY];
    int i, low = 1, high = 255;

    memset(row, 1, sizeof row);
    row[0] = 2;
    row[1] = 255;
    for (i = 0; i < 255; i++) {
        labels[i] = (uint8_t)(i + 1);
    }
    CHECK(nenturxo_labels_in(labels, 255, record, sizeof record) == NENTURXO_RECORD_CAPACITY);
    cuts(record, sizeof record, row, sizeof row);

    /* in turn the leftmost room of what is left, and the lowest one */
    memset(comb, 1, sizeof comb);
    for (i = 0; i < 254; i++) {
        labels[i] = (uint8_t)(i % 2 == 0 ? low++ : high--);
        comb[3 * i] = (uint8_t)(2 + i % 2);
        comb[3 * i + 1] = 2;
    }
    labels[254] = (uint8_t)low;
    CHECK(nenturxo_labels_in(labels, 255, record, sizeof record) == NENTURXO_RECORD_CAPACITY);
    cuts(record, sizeof record, comb, sizeof comb);
}

static void test_tree(void) {
    const uint8_t rows[] = {0x04, 0x47, 0x00}, rows_cut[] = {3, 2, 2, 2, 1, 1, 2, 2, 1, 1};
    const uint8_t one[] = {1}, rising[] = {1, 2}, falling[] = {2, 1};
    const uint8_t bar_over_three[] = {2, 3, 4, 1};
    const uint8_t pinwheel[] = {0x05, 0x31, 0x70}, other_pinwheel[] = {0x05, 0x0E, 0xE0};
    const uint8_t spare[] = {0x05, 0x31, 0x71}, longer[] = {0x05, 0x31, 0x70, 0x00};
    const uint8_t no_kind[] = {0x00, 0x31, 0x70};
    const uint8_t missing[] = {0x02, 0x60}, left_over[] = {0x02, 0x00};

    cuts(rows, 3, rows_cut, sizeof rows_cut);
    LABELS_CUT(one, 1);
    LABELS_CUT(rising, 2, 2, 1, 1);
    LABELS_CUT(falling, 3, 2, 1, 1);
    LABELS_CUT(bar_over_three, 3, 2, 2, 3, 1, 1, 1, 1);
    test_large_trees();

    /* 19 comes before 15, and the refusals of a record before both */
    refuses_tree(pinwheel, 3, NENTURXO_NOT_SLICING);
    refuses_tree(other_pinwheel, 3, NENTURXO_NOT_SLICING);
    refuses_tree(no_kind, 3, NENTURXO_NO_KIND);
    refuses_tree(pinwheel, 0, NENTURXO_NO_KIND);
    refuses_tree(pinwheel, 2, NENTURXO_BODY_SHORT);
    refuses_tree(longer, 4, NENTURXO_BYTES_AFTER);
    refuses_tree(spare, 3, NENTURXO_SPARE_BIT);
    refuses_tree(missing, 2, NENTURXO_RUN_MISSING);
    refuses_tree(left_over, 2, NENTURXO_RUNS_LEFT);
}

/* ---- Pattern */

/* The number of the pattern at these positions. */
static int64_t named(int condition, int i, int j, int k, int l) {
    return condition * INT64_C(0x100000000) + i * INT64_C(0x1000000) + j * 0x10000 + k * 0x100 + l;
}

/* The labels get this number. They are the middle part of a larger buffer, and
 * that stays as it was. */
static void gives(const uint8_t *labels, size_t n, int64_t expected) {
    uint8_t around[600];
    memset(around, UNTOUCHED, sizeof around);
    memcpy(around + 100, labels, n);
    CHECK(nenturxo_pattern(around + 100, n) == expected);
    CHECK(all_untouched(around, 100));
    CHECK(memcmp(around + 100, labels, n) == 0);
    CHECK(all_untouched(around + 100 + n, sizeof around - 100 - n));
}

/* A list is refused with 8 exactly if it has a pattern. */
static void names(const uint8_t *labels, size_t n, int64_t expected) {
    CHECK(expected > 0);
    gives(labels, n, expected);
    CHECK(nenturxo_labels_in(labels, n, never_written, 0) == -NENTURXO_BARRED_PATTERN);
}

static void names_none(const uint8_t *labels, size_t n) {
    gives(labels, n, NENTURXO_NO_PATTERN);
    CHECK(nenturxo_labels_in(labels, n, never_written, 0) == -NENTURXO_SLICE_SHORT);
}

static void refuses_labels(const uint8_t *labels, size_t n, int refusal) {
    gives(labels, n, -refusal);
    CHECK(nenturxo_labels_in(labels, n, never_written, 0) == -refusal);
}

/* How a caller takes the number apart. */
static void test_parts_of_a_pattern(void) {
    const uint8_t barred[] = {2, 4, 1, 3}, other[] = {5, 3, 1, 4, 2};
    int64_t pattern = nenturxo_pattern(barred, sizeof barred);
    CHECK(pattern == INT64_C(4311876356));
    CHECK(pattern >> 32 == NENTURXO_FIRST_CONDITION);
    CHECK((pattern >> 24 & 255) == 1);
    CHECK((pattern >> 16 & 255) == 2);
    CHECK((pattern >> 8 & 255) == 3);
    CHECK((pattern & 255) == 4);

    pattern = nenturxo_pattern(other, sizeof other);
    CHECK(pattern >> 32 == NENTURXO_SECOND_CONDITION);
    CHECK((pattern >> 24 & 255) == 2);
    CHECK((pattern >> 16 & 255) == 3);
    CHECK((pattern >> 8 & 255) == 4);
    CHECK((pattern & 255) == 5);
}

/* 255 labels that rise, but for a pattern at the very end and another one in the
 * middle; and 128 that rise and 127 that come back down between them. */
static void test_long_lists(void) {
    uint8_t labels[300];
    size_t i;

    for (i = 0; i < sizeof labels; i++) {
        labels[i] = (uint8_t)(i + 1);
    }
    names_none(labels, 255);
    labels[251] = 253;
    labels[252] = 255;
    labels[253] = 252;
    labels[254] = 254;
    names(labels, 255, named(NENTURXO_FIRST_CONDITION, 252, 253, 254, 255));
    labels[100] = 103;
    labels[101] = 101;
    labels[102] = 104;
    labels[103] = 102;
    names(labels, 255, named(NENTURXO_SECOND_CONDITION, 101, 102, 103, 104));
    names(labels, 251, named(NENTURXO_SECOND_CONDITION, 101, 102, 103, 104));
    refuses_labels(labels, 256, NENTURXO_LIST_LENGTH);
    refuses_labels(labels, 300, NENTURXO_LIST_LENGTH);
    labels[254] = labels[253];
    refuses_labels(labels, 255, NENTURXO_LABEL_TWICE);
    labels[0] = 0;
    refuses_labels(labels, 255, NENTURXO_LABEL_OUTSIDE);
    refuses_labels(labels, 256, NENTURXO_LIST_LENGTH);

    for (i = 0; i < 255; i++) {
        labels[i] = (uint8_t)(i < 128 ? 2 * i + 1 : 510 - 2 * i);
    }
    names_none(labels, 255);
    /* with the last two changed about, 2 comes between 3 and 4, and after 5 */
    labels[253] = 2;
    labels[254] = 4;
    names(labels, 255, named(NENTURXO_FIRST_CONDITION, 2, 3, 254, 255));
}

static void test_pattern(void) {
    const uint8_t first[] = {2, 4, 1, 3}, second[] = {3, 1, 4, 2}, one[] = {1};
    const uint8_t rows[] = {3, 4, 1, 2}, five[] = {4, 1, 3, 5, 2}, seven[] = {2, 7, 3, 1, 5, 6, 4};
    const uint8_t two_b_and_c[] = {3, 5, 6, 2, 1, 4}, both[] = {3, 1, 5, 2, 4};
    const uint8_t later[] = {1, 8, 4, 6, 3, 5, 2, 7}, zero[] = {0}, outside[] = {1, 3};
    const uint8_t twice[] = {2, 2}, barred_and_twice[] = {2, 4, 1, 3, 3};
    const uint8_t twice_and_outside[] = {1, 1, 4}, outside_and_twice[] = {0, 2, 2};

    names(first, 4, named(NENTURXO_FIRST_CONDITION, 1, 2, 3, 4));
    names(second, 4, named(NENTURXO_SECOND_CONDITION, 1, 2, 3, 4));
    test_parts_of_a_pattern();
    /* of two places for b and two for c the first ones count */
    names(two_b_and_c, 6, named(NENTURXO_FIRST_CONDITION, 1, 2, 4, 6));
    /* at 1 3 4 5 the first condition is met too, but 1 2 3 4 come before */
    names(both, 5, named(NENTURXO_SECOND_CONDITION, 1, 2, 3, 4));
    names(later, 8, named(NENTURXO_FIRST_CONDITION, 3, 4, 5, 6));

    names_none(one, 1);
    names_none(rows, 4);
    /* 4 1 5 2 is shaped like 3 1 4 2, but 2 is not the next label below 4 */
    names_none(five, 5);
    names_none(seven, 7);

    /* 1 comes before 6, 6 before 7, and where one of them holds no pattern is
     * named */
    refuses_labels(first, 0, NENTURXO_LIST_LENGTH);
    refuses_labels(zero, 1, NENTURXO_LABEL_OUTSIDE);
    refuses_labels(outside, 2, NENTURXO_LABEL_OUTSIDE);
    refuses_labels(twice_and_outside, 3, NENTURXO_LABEL_OUTSIDE);
    refuses_labels(outside_and_twice, 3, NENTURXO_LABEL_OUTSIDE);
    refuses_labels(twice, 2, NENTURXO_LABEL_TWICE);
    refuses_labels(barred_and_twice, 5, NENTURXO_LABEL_TWICE);
    test_long_lists();
}

/* ---- Books */

/* A book with its summary, as a user has it. */
typedef struct {
    uint8_t bytes[40];
    size_t used;
    uint32_t totals[4];
} small_book;

/* One room, two rooms side by side, and the sheet's pinwheel, whose four
 * triples have the third bits 1 0 0 1. */
static const uint8_t three_records[] = {0x01, 0x02, 0x40, 0x05, 0x31, 0x70};

static void start_three(small_book *book) {
    const uint32_t totals[] = {3, 8, 3, 2};
    memset(book, UNTOUCHED, sizeof *book);
    memcpy(book->bytes, three_records, sizeof three_records);
    book->used = sizeof three_records;
    memcpy(book->totals, totals, sizeof totals);
}

/* The totals stand in four numbers of their own, each between two others that
 * stay as they were. */
static int32_t add_with(uint8_t *bytes, size_t lent, size_t used, const uint8_t *record,
                        size_t length, uint32_t *totals) {
    uint32_t apart[9];
    int32_t code;
    int i;
    memset(apart, UNTOUCHED, sizeof apart);
    for (i = 0; i < 4; i++) {
        apart[2 * i + 1] = totals[i];
    }
    code = nenturxo_book_add(bytes, lent, used, record, length, &apart[1], &apart[3], &apart[5],
                             &apart[7]);
    for (i = 0; i < 4; i++) {
        CHECK(all_untouched(&apart[2 * i], sizeof *apart));
        totals[i] = apart[2 * i + 1];
    }
    CHECK(all_untouched(&apart[8], sizeof *apart));
    return code;
}

/* The addition is refused so, and neither the bytes nor the totals change. */
static void refuses_addition(const small_book *book, size_t lent, const uint8_t *record,
                             size_t length, int refusal, int ordinal) {
    small_book after = *book;
    int32_t code = add_with(after.bytes, lent, after.used, record, length, after.totals);
    CHECK(code == -(refusal + 256 * ordinal));
    CHECK(NENTURXO_BOOK_REFUSAL(code) == refusal);
    CHECK(NENTURXO_BOOK_ORDINAL(code) == ordinal);
    CHECK(memcmp(after.bytes, book->bytes, sizeof after.bytes) == 0);
    CHECK(memcmp(after.totals, book->totals, sizeof after.totals) == 0);
}

/* From an empty book on, in a slice that is just long enough in the end. */
static void test_building(void) {
    const size_t lengths[] = {1, 2, 3};
    const uint32_t totals[][4] = {{1, 1, 0, 0}, {2, 3, 1, 0}, {3, 8, 3, 2}};
    small_book book;
    size_t i, lent = sizeof three_records;

    memset(&book, UNTOUCHED, sizeof book);
    memset(book.totals, 0, sizeof book.totals);
    book.used = 0;
    for (i = 0; i < COUNT(lengths); i++) {
        const uint8_t *record = three_records + book.used;
        int32_t code = add_with(book.bytes, lent, book.used, record, lengths[i], book.totals);
        CHECK(code == (int32_t)(book.used + lengths[i]));
        book.used += lengths[i];
        CHECK(memcmp(book.bytes, three_records, book.used) == 0);
        CHECK(all_untouched(book.bytes + book.used, sizeof book.bytes - book.used));
        CHECK(memcmp(book.totals, totals[i], sizeof totals[i]) == 0);
    }
}

/* As a user reads a book: on by what each call gives, until that is 0. */
static void test_reading(void) {
    const int32_t lengths[] = {1, 2, 3};
    small_book book;
    size_t place = 0, records = 0;
    int32_t length;

    start_three(&book);
    while ((length = nenturxo_book_next(book.bytes, sizeof book.bytes, book.used, place)) > 0) {
        CHECK(records < COUNT(lengths) && length == lengths[records]);
        CHECK(nenturxo_tree(book.bytes + place, (size_t)length, never_written, 0) ==
              (records < 2 ? -NENTURXO_SLICE_SHORT : -NENTURXO_NOT_SLICING));
        place += (size_t)length;
        records++;
    }
    CHECK(length == 0);
    CHECK(records == 3);
    CHECK(place == book.used);
    CHECK(memcmp(book.bytes, three_records, sizeof three_records) == 0);
    CHECK(all_untouched(book.bytes + book.used, sizeof book.bytes - book.used));

    /* an empty book ends where it begins, in an empty slice too */
    CHECK(nenturxo_book_next(book.bytes, sizeof book.bytes, 0, 0) == 0);
    CHECK(nenturxo_book_next(book.bytes, 0, 0, 0) == 0);
    /* the second record may be the last one, and the slice longer or not */
    CHECK(nenturxo_book_next(book.bytes, 3, 3, 1) == 2);
    CHECK(nenturxo_book_next(book.bytes, 3, 3, 3) == 0);
}

/* A bad record, and its refusal in a book. */
typedef struct {
    uint8_t bytes[2];
    size_t length;
    int refusal;
} bad_record;

static const bad_record bad_records[] = {
    {{0x00, 0x00}, 1, NENTURXO_NO_KIND},     {{0x05, 0x31}, 2, NENTURXO_BODY_SHORT},
    {{0x02, 0x00}, 1, NENTURXO_BODY_SHORT},  {{0x02, 0xC1}, 2, NENTURXO_SPARE_BIT},
    {{0x02, 0x60}, 2, NENTURXO_RUN_MISSING}, {{0x02, 0x00}, 2, NENTURXO_RUNS_LEFT},
};

/* Each bad record as the fourth of a book and as the only one: with its ordinal
 * where a record is added, before 23, the refusals of that record and 15; and
 * with ordinal 1 where it is read. */
static void test_bad_records(void) {
    const uint8_t one[] = {0x01}, no_kind[] = {0x00};
    small_book book;
    size_t i;

    for (i = 0; i < COUNT(bad_records); i++) {
        const bad_record *bad = &bad_records[i];
        const int32_t as_first = -(bad->refusal + 256);
        start_three(&book);
        memcpy(book.bytes + book.used, bad->bytes, bad->length);
        book.used += bad->length;
        refuses_addition(&book, sizeof book.bytes, one, 1, bad->refusal, 4);
        refuses_addition(&book, book.used, no_kind, 1, bad->refusal, 4);
        book.totals[0]++;
        refuses_addition(&book, sizeof book.bytes, one, 1, bad->refusal, 4);
        CHECK(nenturxo_book_next(book.bytes, sizeof book.bytes, book.used, 6) == as_first);
        CHECK(nenturxo_book_next(book.bytes, book.used, book.used, 6) == as_first);
        CHECK(nenturxo_book_next(book.bytes, book.used, book.used, 3) == 3);

        memcpy(book.bytes, bad->bytes, bad->length);
        book.used = bad->length;
        refuses_addition(&book, sizeof book.bytes, one, 1, bad->refusal, 1);
        CHECK(nenturxo_book_next(book.bytes, sizeof book.bytes, book.used, 0) == as_first);
    }
    /* the first of two counts */
    start_three(&book);
    book.bytes[2] = 0x60;
    book.bytes[3] = 0x00;
    refuses_addition(&book, sizeof book.bytes, one, 1, NENTURXO_RUN_MISSING, 2);
}

/* Each total by itself, one more or less or by a high bit, and two that make up
 * for each other; 23 comes before the refusals of the added record and 15. */
static void test_summaries(void) {
    const uint8_t one[] = {0x01}, no_kind[] = {0x00};
    const uint32_t changes[] = {1, UINT32_MAX, 0x10000, 0x80000000u};
    small_book book;
    size_t i, j;

    for (i = 0; i < 4; i++) {
        for (j = 0; j < COUNT(changes); j++) {
            start_three(&book);
            book.totals[i] += changes[j];
            refuses_addition(&book, sizeof book.bytes, one, 1, NENTURXO_SUMMARY_DIFFERS, 0);
            refuses_addition(&book, sizeof book.bytes, no_kind, 1, NENTURXO_SUMMARY_DIFFERS, 0);
            refuses_addition(&book, book.used, one, 1, NENTURXO_SUMMARY_DIFFERS, 0);
            book.totals[(i + 1) % 4] -= changes[j];
            refuses_addition(&book, sizeof book.bytes, one, 1, NENTURXO_SUMMARY_DIFFERS, 0);
        }
    }
}

/* The added record is judged whole, and has no ordinal. Its refusals come before
 * 15, and 15 is for a slice that lacks one byte or all. */
static void test_added_records(void) {
    const uint8_t no_kind[] = {0x00}, body_short[] = {0x02}, after[] = {0x01, 0x00};
    const uint8_t spare[] = {0x02, 0xC1}, missing[] = {0x02, 0x60}, left_over[] = {0x02, 0x00};
    const uint8_t falling[] = {0x02, 0xA0};
    const uint32_t totals[] = {4, 10, 3, 3};
    uint8_t longer[NENTURXO_RECORD_CAPACITY + 1] = {255};
    small_book book;
    size_t lent;

    start_three(&book);
    for (lent = book.used; lent <= sizeof book.bytes; lent += sizeof book.bytes - book.used) {
        refuses_addition(&book, lent, no_kind, 0, NENTURXO_NO_KIND, 0);
        refuses_addition(&book, lent, no_kind, 1, NENTURXO_NO_KIND, 0);
        refuses_addition(&book, lent, body_short, 1, NENTURXO_BODY_SHORT, 0);
        refuses_addition(&book, lent, after, 2, NENTURXO_BYTES_AFTER, 0);
        refuses_addition(&book, lent, longer, sizeof longer, NENTURXO_BYTES_AFTER, 0);
        refuses_addition(&book, lent, spare, 2, NENTURXO_SPARE_BIT, 0);
        refuses_addition(&book, lent, missing, 2, NENTURXO_RUN_MISSING, 0);
        refuses_addition(&book, lent, left_over, 2, NENTURXO_RUNS_LEFT, 0);
    }
    refuses_addition(&book, book.used, falling, 2, NENTURXO_SLICE_SHORT, 0);
    refuses_addition(&book, book.used + 1, falling, 2, NENTURXO_SLICE_SHORT, 0);
    CHECK(add_with(book.bytes, book.used + 2, book.used, falling, 2, book.totals) == 8);
    CHECK(memcmp(book.bytes, three_records, sizeof three_records) == 0);
    CHECK(memcmp(book.bytes + 6, falling, 2) == 0);
    CHECK(all_untouched(book.bytes + 8, sizeof book.bytes - 8));
    CHECK(memcmp(book.totals, totals, sizeof totals) == 0);
}

/* A used length beyond the slice, and a place beyond the used length, come
 * before all else, whatever the book holds. */
static void test_beyond(void) {
    const uint8_t one[] = {0x01};
    const size_t lent = sizeof three_records;
    small_book book;

    start_three(&book);
    book.bytes[0] = 0;
    book.used = lent + 1;
    refuses_addition(&book, lent, one, 1, NENTURXO_PLACE_OUTSIDE, 0);
    refuses_addition(&book, 0, one, 0, NENTURXO_PLACE_OUTSIDE, 0);
    book.used = SIZE_MAX;
    refuses_addition(&book, lent, one, 1, NENTURXO_PLACE_OUTSIDE, 0);

    CHECK(nenturxo_book_next(book.bytes, lent, lent + 1, 0) == -NENTURXO_PLACE_OUTSIDE);
    CHECK(nenturxo_book_next(book.bytes, lent, lent, lent + 1) == -NENTURXO_PLACE_OUTSIDE);
    CHECK(nenturxo_book_next(book.bytes, lent, 1, 2) == -NENTURXO_PLACE_OUTSIDE);
    CHECK(nenturxo_book_next(book.bytes, lent, SIZE_MAX, SIZE_MAX) == -NENTURXO_PLACE_OUTSIDE);
    CHECK(nenturxo_book_next(book.bytes, lent, 0, SIZE_MAX) == -NENTURXO_PLACE_OUTSIDE);
    CHECK(nenturxo_book_next(book.bytes, 0, 0, 1) == -NENTURXO_PLACE_OUTSIDE);
}

/* As many records of one room as a book can have bytes, and some more. */
static uint8_t one_rooms[NENTURXO_BOOK_CAPACITY + 3];

/* Adding to a book of so many records of one room: only an accepted record is
 * written, and nothing else changes. */
static int32_t add_to_one_rooms(size_t lent, size_t used, const uint8_t *record, size_t length) {
    uint32_t totals[4] = {0, 0, 0, 0}, before[4];
    int32_t code;
    totals[0] = totals[1] = (uint32_t)used;
    memcpy(before, totals, sizeof before);
    memset(one_rooms, 1, sizeof one_rooms);
    code = add_with(one_rooms, lent, used, record, length, totals);
    if (code < 0) {
        CHECK(memcmp(totals, before, sizeof before) == 0);
        CHECK(one_rooms[0] == 1 && memcmp(one_rooms, one_rooms + 1, sizeof one_rooms - 1) == 0);
    } else {
        CHECK(totals[0] == used + 1 && totals[1] == used + record[0]);
        CHECK(memcmp(one_rooms + used, record, length) == 0);
        CHECK(memcmp(one_rooms, one_rooms + 1, used - 1) == 0);
        CHECK(one_rooms[0] == 1 && one_rooms[used + length] == 1);
    }
    return code;
}

/* 65,535 bytes may be used and no more: 21 for the book as it is comes before
 * its records, and for the lengthened one after all but 15. */
static void test_long_books(void) {
    const size_t full = NENTURXO_BOOK_CAPACITY;
    const uint8_t one[] = {0x01}, two[] = {0x02, 0x40}, no_kind[] = {0x00};

    CHECK(add_to_one_rooms(full, full - 1, one, 1) == NENTURXO_BOOK_CAPACITY);
    CHECK(add_to_one_rooms(full + 3, full - 2, two, 2) == NENTURXO_BOOK_CAPACITY);
    CHECK(add_to_one_rooms(full + 3, full, one, 1) == -NENTURXO_BOOK_LENGTH);
    CHECK(add_to_one_rooms(full, full, one, 1) == -NENTURXO_BOOK_LENGTH);
    CHECK(add_to_one_rooms(full + 3, full - 1, two, 2) == -NENTURXO_BOOK_LENGTH);
    CHECK(add_to_one_rooms(full - 1, full - 1, one, 1) == -NENTURXO_SLICE_SHORT);
    CHECK(add_to_one_rooms(full, full, no_kind, 1) == -NENTURXO_NO_KIND);
    CHECK(add_to_one_rooms(full + 1, full + 1, no_kind, 1) == -NENTURXO_BOOK_LENGTH);
    CHECK(add_to_one_rooms(full, full + 1, one, 1) == -NENTURXO_PLACE_OUTSIDE);

    CHECK(nenturxo_book_next(one_rooms, full, full, 0) == 1);
    CHECK(nenturxo_book_next(one_rooms, full, full, full - 1) == 1);
    CHECK(nenturxo_book_next(one_rooms, full, full, full) == 0);
    CHECK(nenturxo_book_next(one_rooms, full + 1, full + 1, 0) == -NENTURXO_BOOK_LENGTH);
    CHECK(nenturxo_book_next(one_rooms, full + 1, full + 1, full + 1) == -NENTURXO_BOOK_LENGTH);
    CHECK(nenturxo_book_next(one_rooms, full, full + 1, 0) == -NENTURXO_PLACE_OUTSIDE);
    CHECK(nenturxo_book_next(one_rooms, full + 2, full + 1, full + 2) == -NENTURXO_PLACE_OUTSIDE);
}

/* The largest ordinal: the last byte of a full book is a bad record. */
static void test_last_ordinal(void) {
    const size_t full = NENTURXO_BOOK_CAPACITY;
    const uint8_t one[] = {0x01};
    uint32_t totals[4] = {0, 0, 0, 0};
    int32_t code;

    memset(one_rooms, 1, sizeof one_rooms);
    one_rooms[full - 1] = 0;
    code = add_with(one_rooms, sizeof one_rooms, full, one, 1, totals);
    CHECK(code == -(NENTURXO_NO_KIND + 256 * NENTURXO_BOOK_CAPACITY));
    CHECK(NENTURXO_BOOK_REFUSAL(code) == NENTURXO_NO_KIND);
    CHECK(NENTURXO_BOOK_ORDINAL(code) == NENTURXO_BOOK_CAPACITY);
    CHECK(nenturxo_book_next(one_rooms, full, full, full - 1) == -(NENTURXO_NO_KIND + 256));
}

static void test_books(void) {
    test_building();
    test_reading();
    test_bad_records();
    test_summaries();
    test_added_records();
    test_beyond();
    test_long_books();
    test_last_ordinal();
}

/* ---- Sizes */

/* A record with the sizes of its rooms, as a user has them. */
typedef struct {
    const uint8_t *record;
    size_t length;
    const uint16_t *widths;
    size_t widths_length;
    const uint16_t *heights;
    size_t heights_length;
} sized;

/* The sheet's pinwheel, and its lowest corners. */
static const uint8_t five_record[] = {0x05, 0x31, 0x70};
static const uint16_t five_widths[] = {3, 1, 4, 1, 5}, five_heights[] = {9, 2, 6, 5, 3};
static const sized five_sized = {five_record, 3, five_widths, 5, five_heights, 5};
static const uint32_t five_x[] = {0, 0, 1, 5, 1}, five_y[] = {0, 9, 9, 0, 15};

typedef struct {
    uint32_t x[NENTURXO_ROOMS_CAPACITY];
    uint32_t y[NENTURXO_ROOMS_CAPACITY];
} corners_out;

/* With so many places for x, and for y. */
static int32_t lowest_corners(const sized *plan, size_t x_places, size_t y_places,
                              corners_out *out) {
    memset(out, UNTOUCHED, sizeof *out);
    return nenturxo_lowest_corners(plan->record, plan->length, plan->widths, plan->widths_length,
                                   plan->heights, plan->heights_length, out->x, x_places, out->y,
                                   y_places);
}

/* The two numbers are apart[1] and apart[3], each between two others that stay
 * as they were. */
static int32_t slack(const sized *plan, uint32_t width, uint32_t height, int64_t *apart) {
    int32_t code;
    memset(apart, UNTOUCHED, 5 * sizeof *apart);
    code = nenturxo_slack(plan->record, plan->length, plan->widths, plan->widths_length,
                          plan->heights, plan->heights_length, width, height, &apart[1], &apart[3]);
    CHECK(all_untouched(&apart[0], sizeof *apart));
    CHECK(all_untouched(&apart[2], sizeof *apart));
    CHECK(all_untouched(&apart[4], sizeof *apart));
    return code;
}

/* Corners, as many x as y. */
static int32_t placing_in(const sized *plan, const uint32_t *x, const uint32_t *y, size_t n) {
    return nenturxo_placing_in(plan->record, plan->length, plan->widths, plan->widths_length,
                               plan->heights, plan->heights_length, x, n, y, n);
}

/* All three calls, with slices that are long enough and with none, and with a
 * placing that has five rooms in one place. */
static void refuses_sized(const sized *plan, int refusal) {
    const uint32_t together[] = {0, 0, 0, 0, 0};
    corners_out out;
    int64_t numbers[5];
    CHECK(lowest_corners(plan, COUNT(out.x), COUNT(out.y), &out) == -refusal);
    CHECK(all_untouched(&out, sizeof out));
    CHECK(lowest_corners(plan, 0, 0, &out) == -refusal);
    CHECK(all_untouched(&out, sizeof out));
    CHECK(slack(plan, 10, 10, numbers) == -refusal);
    CHECK(all_untouched(numbers, sizeof numbers));
    CHECK(placing_in(plan, together, together, 5) == -refusal);
}

/* With so many places the five have the corners above. */
static void five_are_placed(size_t x_places, size_t y_places) {
    corners_out out;
    CHECK(lowest_corners(&five_sized, x_places, y_places, &out) == 5);
    CHECK(memcmp(out.x, five_x, sizeof five_x) == 0);
    CHECK(memcmp(out.y, five_y, sizeof five_y) == 0);
    CHECK(all_untouched(out.x + 5, sizeof out.x - sizeof five_x));
    CHECK(all_untouched(out.y + 5, sizeof out.y - sizeof five_y));
}

static void test_lowest_corners(void) {
    const size_t most = NENTURXO_ROOMS_CAPACITY;
    const uint8_t one_record[] = {0x01};
    const uint16_t one_width[] = {65535}, one_height[] = {1};
    const sized one = {one_record, 1, one_width, 1, one_height, 1};
    corners_out out;

    five_are_placed(5, 5);
    five_are_placed(6, 5);
    five_are_placed(5, 6);
    five_are_placed(most, most);
    CHECK(lowest_corners(&five_sized, 4, 5, &out) == -NENTURXO_SLICE_SHORT);
    CHECK(all_untouched(&out, sizeof out));
    CHECK(lowest_corners(&five_sized, 5, 4, &out) == -NENTURXO_SLICE_SHORT);
    CHECK(all_untouched(&out, sizeof out));
    CHECK(lowest_corners(&five_sized, 0, most, &out) == -NENTURXO_SLICE_SHORT);
    CHECK(all_untouched(&out, sizeof out));

    CHECK(lowest_corners(&one, 1, 1, &out) == 1);
    CHECK(out.x[0] == 0 && out.y[0] == 0);
    CHECK(all_untouched(out.x + 1, sizeof out.x - sizeof *out.x));
    CHECK(all_untouched(out.y + 1, sizeof out.y - sizeof *out.y));
    CHECK(lowest_corners(&one, 1, 0, &out) == -NENTURXO_SLICE_SHORT);
    CHECK(all_untouched(&out, sizeof out));
}

/* An outline of this width and height leaves so much, across and up. */
static void leaves(const sized *plan, uint32_t width, uint32_t height, int64_t across, int64_t up) {
    int64_t numbers[5];
    CHECK(slack(plan, width, height, numbers) == 0);
    CHECK(numbers[1] == across);
    CHECK(numbers[3] == up);
}

/* The five need 6 across and 18 up. */
static void test_slack(void) {
    const int64_t most = UINT32_MAX;
    leaves(&five_sized, 10, 10, 4, -8);
    leaves(&five_sized, 6, 18, 0, 0);
    leaves(&five_sized, 5, 19, -1, 1);
    leaves(&five_sized, 0, 0, -6, -18);
    leaves(&five_sized, UINT32_MAX, 0, most - 6, -18);
    leaves(&five_sized, 0x80000000u, UINT32_MAX, INT64_C(0x80000000) - 6, most - 18);
}

/* The lowest placing is accepted, and so is one with every room further on; but
 * not with any one corner lower, unless it is at 0 already. */
static void test_five_placings(void) {
    uint32_t x[5], y[5];
    int i;

    memcpy(x, five_x, sizeof x);
    memcpy(y, five_y, sizeof y);
    CHECK(placing_in(&five_sized, x, y, 5) == 0);
    for (i = 0; i < 5; i++) {
        x[i]--;
        CHECK(x[i] == UINT32_MAX || placing_in(&five_sized, x, y, 5) == -NENTURXO_RELATION_BROKEN);
        x[i]++;
        y[i]--;
        CHECK(y[i] == UINT32_MAX || placing_in(&five_sized, x, y, 5) == -NENTURXO_RELATION_BROKEN);
        y[i]++;
    }
    for (i = 0; i < 5; i++) {
        x[i] += 4000000000u;
        y[i] = 3 * y[i] + 7;
    }
    CHECK(placing_in(&five_sized, x, y, 5) == 0);
    /* nothing is on its right or above it */
    x[3] = y[4] = UINT32_MAX;
    CHECK(placing_in(&five_sized, x, y, 5) == 0);
}

/* Where a room ends is no number of 32 bits: it does not begin again at 0. */
static void test_far_placings(void) {
    const uint8_t beside[] = {0x02, 0x40}, above[] = {0x02, 0xA0};
    const uint16_t widths[] = {3, 65535}, heights[] = {4, 65535};
    const sized row = {beside, 2, widths, 2, heights, 2};
    const sized column = {above, 2, widths, 2, heights, 2};
    const uint32_t most = UINT32_MAX, same[] = {most, most};
    const uint32_t good[] = {most - 4, most};
    const uint32_t bad[][2] = {{most - 2, most}, {most, most}, {most, 2}, {most, 4}};
    size_t i;

    CHECK(placing_in(&row, good, same, 2) == 0);
    CHECK(placing_in(&column, same, good, 2) == 0);
    for (i = 0; i < COUNT(bad); i++) {
        CHECK(placing_in(&row, bad[i], same, 2) == -NENTURXO_RELATION_BROKEN);
        CHECK(placing_in(&column, same, bad[i], 2) == -NENTURXO_RELATION_BROKEN);
    }
}

/* 255 rooms of the greatest size in a row: no end is beyond 24 bits. */
static void test_long_row(void) {
    uint8_t labels[NENTURXO_ROOMS_CAPACITY], record[NENTURXO_RECORD_CAPACITY];
    uint16_t sizes[NENTURXO_ROOMS_CAPACITY];
    sized row = {record, sizeof record, sizes, 255, sizes, 255};
    corners_out out;
    uint32_t i;

    for (i = 0; i < 255; i++) {
        labels[i] = (uint8_t)(i + 1);
        sizes[i] = 65535;
    }
    CHECK(nenturxo_labels_in(labels, 255, record, sizeof record) == NENTURXO_RECORD_CAPACITY);
    CHECK(lowest_corners(&row, 255, 255, &out) == 255);
    for (i = 0; i < 255; i++) {
        CHECK(out.x[i] == 65535 * i && out.y[i] == 0);
    }
    CHECK(placing_in(&row, out.x, out.y, 255) == 0);
    leaves(&row, 0x1000000, 65535, 0x1000000 - 255 * 65535, 0);
    /* the last room begins too early for the first one alone */
    out.x[254] = 65534;
    CHECK(placing_in(&row, out.x, out.y, 255) == -NENTURXO_RELATION_BROKEN);
    sizes[254] = 0;
    CHECK(lowest_corners(&row, 0, 0, &out) == -NENTURXO_ZERO_SIZE);
}

/* Lists of another length than n, also of n and 256 more: of each list by
 * itself, and before a size of 0, a broken relation and a short slice. */
static void test_lengths(void) {
    const size_t lengths[] = {0, 1, 4, 6, 255, 256, 261};
    static const uint16_t zeros[261] = {0};
    static const uint32_t corners[261] = {0};
    corners_out out;
    size_t i;

    for (i = 0; i < COUNT(lengths); i++) {
        sized plan = five_sized;
        plan.heights = zeros;
        plan.heights_length = lengths[i];
        refuses_sized(&plan, NENTURXO_LENGTH_DIFFERS);
        plan.heights_length = 5;
        plan.widths = zeros;
        plan.widths_length = lengths[i];
        refuses_sized(&plan, NENTURXO_LENGTH_DIFFERS);
        plan.widths_length = 5;
        refuses_sized(&plan, NENTURXO_ZERO_SIZE);
        CHECK(nenturxo_placing_in(five_record, 3, zeros, 5, zeros, 5, corners, lengths[i], corners,
                                  5) == -NENTURXO_LENGTH_DIFFERS);
        CHECK(nenturxo_placing_in(five_record, 3, zeros, 5, zeros, 5, corners, 5, corners,
                                  lengths[i]) == -NENTURXO_LENGTH_DIFFERS);
        CHECK(placing_in(&five_sized, corners, corners, lengths[i]) == -NENTURXO_LENGTH_DIFFERS);
    }
    CHECK(placing_in(&five_sized, corners, corners, 5) == -NENTURXO_RELATION_BROKEN);
    CHECK(lowest_corners(&five_sized, 0, 0, &out) == -NENTURXO_SLICE_SHORT);
}

/* A size of 0 at each place, before a broken relation and a short slice. */
static void test_zero_sizes(void) {
    int i;
    for (i = 0; i < 5; i++) {
        uint16_t sizes[] = {1, 256, 1, 256, 65535};
        sized plan = five_sized;
        sizes[i] = 0;
        plan.widths = sizes;
        refuses_sized(&plan, NENTURXO_ZERO_SIZE);
        plan.widths = five_widths;
        plan.heights = sizes;
        refuses_sized(&plan, NENTURXO_ZERO_SIZE);
    }
}

/* The refusals of a record come before those of the lists. */
static void test_records_with_sizes(void) {
    const uint8_t records[][2] = {{0x00, 0x00}, {0x02, 0x00}, {0x01, 0x00},
                                  {0x02, 0xC1}, {0x02, 0x60}, {0x02, 0x00}};
    const size_t lengths[] = {1, 1, 2, 2, 2, 2};
    const int refusals[] = {NENTURXO_NO_KIND,   NENTURXO_BODY_SHORT,  NENTURXO_BYTES_AFTER,
                            NENTURXO_SPARE_BIT, NENTURXO_RUN_MISSING, NENTURXO_RUNS_LEFT};
    const uint16_t zeros[] = {0, 0, 0};
    sized plan = five_sized;
    size_t i;

    plan.length = 0;
    refuses_sized(&plan, NENTURXO_NO_KIND);
    plan.widths = plan.heights = zeros;
    for (i = 0; i < COUNT(records); i++) {
        plan.record = records[i];
        plan.length = lengths[i];
        plan.widths_length = plan.heights_length = 2;
        refuses_sized(&plan, refusals[i]);
        plan.widths_length = 3;
        plan.heights_length = 0;
        refuses_sized(&plan, refusals[i]);
    }
}

static void test_sizes(void) {
    test_lowest_corners();
    test_slack();
    test_five_placings();
    test_far_placings();
    test_long_row();
    test_lengths();
    test_zero_sizes();
    test_records_with_sizes();
}

/* ---- Groups */

/* A group at an odd address, with something around it that counts for nothing. */
typedef struct {
    uint8_t before;
    uint8_t bytes[NENTURXO_GROUP_LENGTH];
    uint8_t after[NENTURXO_GROUP_LENGTH];
} group;

/* The group of these positions, up to the first 0. */
static group group_of(const int *positions) {
    group made;
    memset(&made, UNTOUCHED, sizeof made);
    memset(made.bytes, 0, sizeof made.bytes);
    for (; *positions != 0; positions++) {
        const int k = *positions;
        made.bytes[(k - 1) / 8] |= 1 << (k - 1) % 8;
    }
    return made;
}

/* Nothing of both groups changes. */
static int32_t groups(const uint8_t *record, size_t length, const int *first, const int *second) {
    const group one = group_of(first), other = group_of(second);
    const group one_before = one, other_before = other;
    int32_t code = nenturxo_groups(record, length, one.bytes, other.bytes);
    CHECK(memcmp(&one, &one_before, sizeof one) == 0);
    CHECK(memcmp(&other, &other_before, sizeof other) == 0);
    return code;
}

/* What two groups give, and what they give exchanged. */
static void stand(const uint8_t *record, size_t length, const int *first, const int *second,
                  int there, int back) {
    CHECK(groups(record, length, first, second) == there);
    CHECK(groups(record, length, second, first) == back);
}

/* Positions, the last of which is followed by 0. */
static const int nobody[] = {0}, just_1[] = {1, 0}, just_2[] = {2, 0}, just_4[] = {4, 0};
static const int two_and_3[] = {2, 3, 0}, three_and_4[] = {3, 4, 0}, four_and_5[] = {4, 5, 0};

/* Each answer, in the sheet's pinwheel: 4 1 3 5 2. */
static void test_group_relations(void) {
    const int upper[] = {2, 3, 5, 0}, outer[] = {1, 2, 4, 5, 0}, just_3[] = {3, 0};
    const int left = NENTURXO_LEFT, right = NENTURXO_RIGHT;
    const int above = NENTURXO_ABOVE, below = NENTURXO_BELOW, mixed = NENTURXO_MIXED;

    stand(five_record, 3, two_and_3, just_4, left, right);
    stand(five_record, 3, just_1, upper, below, above);
    stand(five_record, 3, two_and_3, four_and_5, mixed, mixed);
    stand(five_record, 3, outer, just_3, mixed, mixed);
    CHECK(left == 0 && right == 1 && above == 2 && below == 3 && mixed == 4);
}

/* Groups of one room each give what the question does, without the rest. */
static void test_groups_of_one(void) {
    uint8_t first, second;
    for (first = 1; first <= 5; first++) {
        for (second = 1; second <= 5; second++) {
            const int one[] = {first, 0}, other[] = {second, 0};
            const int32_t asked = nenturxo_question(five_record, 3, first, second);
            CHECK(groups(five_record, 3, one, other) == (asked < 0 ? asked : asked % 4));
        }
    }
}

/* A row of 255 rooms, all of them in two groups; and these mixed by an exchange of
 * two rooms, where both have more than one. */
static void test_all_rooms(void) {
    uint8_t labels[NENTURXO_ROOMS_CAPACITY], record[NENTURXO_RECORD_CAPACITY];
    int first[256] = {0}, second[256] = {0};
    int i, k;

    for (i = 0; i < 255; i++) {
        labels[i] = (uint8_t)(i + 1);
    }
    CHECK(nenturxo_labels_in(labels, 255, record, sizeof record) == NENTURXO_RECORD_CAPACITY);
    for (i = 1; i < 255; i++) {
        memset(first, 0, sizeof first);
        memset(second, 0, sizeof second);
        for (k = 1; k <= 255; k++) {
            if (k <= i) {
                first[k - 1] = k;
            } else {
                second[k - i - 1] = k;
            }
        }
        stand(record, sizeof record, first, second, NENTURXO_LEFT, NENTURXO_RIGHT);
        if (i > 1 && i < 254) {
            first[0] = i + 1;
            second[0] = 1;
            stand(record, sizeof record, first, second, NENTURXO_MIXED, NENTURXO_MIXED);
        }
    }
}

/* Each position above n, 256 too, in either group; before an empty group and
 * before a position in both. */
static void test_positions_outside(void) {
    const int outside = -NENTURXO_POSITION_OUTSIDE;
    int k;
    for (k = 6; k <= 256; k++) {
        const int beyond[] = {k, 0}, also[] = {1, k, 0};
        stand(five_record, 3, beyond, just_1, outside, outside);
        stand(five_record, 3, also, just_4, outside, outside);
        stand(five_record, 3, also, nobody, outside, outside);
        stand(five_record, 3, also, just_1, outside, outside);
        stand(five_record, 3, also, also, outside, outside);
    }
}

/* An empty group comes before a position in both, which an empty one has not. */
static void test_empty_and_shared(void) {
    const int everybody[] = {1, 2, 3, 4, 5, 0};
    const int empty = -NENTURXO_EMPTY_GROUP, shared = -NENTURXO_POSITIONS_EQUAL;

    CHECK(NENTURXO_EMPTY_GROUP == 27 && NENTURXO_POSITIONS_EQUAL == 17);
    stand(five_record, 3, nobody, nobody, empty, empty);
    stand(five_record, 3, nobody, just_1, empty, empty);
    stand(five_record, 3, nobody, everybody, empty, empty);
    stand(five_record, 3, just_1, just_1, shared, shared);
    stand(five_record, 3, two_and_3, three_and_4, shared, shared);
    stand(five_record, 3, everybody, four_and_5, shared, shared);
}

/* One array as both groups. */
static void test_one_array(void) {
    const group all = group_of(two_and_3), none_of_them = group_of(nobody);
    CHECK(nenturxo_groups(five_record, 3, all.bytes, all.bytes) == -NENTURXO_POSITIONS_EQUAL);
    CHECK(nenturxo_groups(five_record, 3, none_of_them.bytes, none_of_them.bytes) ==
          -NENTURXO_EMPTY_GROUP);
}

/* The refusals of a record come before those of the groups. */
static void test_records_with_groups(void) {
    const uint8_t records[][2] = {{0x00, 0x00}, {0x02, 0x00}, {0x01, 0x00},
                                  {0x02, 0xC1}, {0x02, 0x60}, {0x02, 0x00}};
    const size_t lengths[] = {1, 1, 2, 2, 2, 2};
    const int refusals[] = {NENTURXO_NO_KIND,   NENTURXO_BODY_SHORT,  NENTURXO_BYTES_AFTER,
                            NENTURXO_SPARE_BIT, NENTURXO_RUN_MISSING, NENTURXO_RUNS_LEFT};
    const int last[] = {256, 0};
    size_t i;

    stand(five_record, 0, just_1, just_2, -NENTURXO_NO_KIND, -NENTURXO_NO_KIND);
    for (i = 0; i < COUNT(records); i++) {
        const int refusal = -refusals[i];
        stand(records[i], lengths[i], just_1, just_2, refusal, refusal);
        stand(records[i], lengths[i], just_1, last, refusal, refusal);
        stand(records[i], lengths[i], nobody, just_1, refusal, refusal);
        stand(records[i], lengths[i], just_1, just_1, refusal, refusal);
    }
}

static void test_groups(void) {
    test_group_relations();
    test_groups_of_one();
    test_all_rooms();
    test_positions_outside();
    test_empty_and_shared();
    test_one_array();
    test_records_with_groups();
}

/* ---- Traces */

/* States, and one before them that counts for nothing. */
typedef struct {
    uint16_t before;
    uint16_t entries[12];
} few_states;

static int64_t trace(const uint8_t *moves, size_t length, size_t capacity, few_states *out) {
    memset(out, UNTOUCHED, sizeof *out);
    return nenturxo_trace(moves, length, out->entries, capacity);
}

/* The trace gives so many moves and these rooms and runs, and writes the entries
 * and no other, in a slice that is just long enough and in a longer one. One
 * entry less is too short. */
static void gives_trace(const uint8_t *moves, size_t length, const uint16_t *entries,
                        size_t count, int rooms, int runs) {
    const int64_t result = (int64_t)count * 65536 + rooms * 256 + runs;
    few_states out;
    size_t capacity;

    for (capacity = count; capacity <= COUNT(out.entries); capacity++) {
        CHECK(trace(moves, length, capacity, &out) == result);
        CHECK(all_untouched(&out.before, sizeof out.before));
        CHECK(memcmp(out.entries, entries, count * sizeof *entries) == 0);
        CHECK(all_untouched(out.entries + count, sizeof out.entries - count * sizeof *entries));
    }
    if (count > 0) {
        CHECK(trace(moves, length, count - 1, &out) == -NENTURXO_SLICE_SHORT);
        CHECK(all_untouched(&out, sizeof out));
    }
    CHECK(result >> 16 == (int64_t)count && (result >> 8 & 255) == rooms);
    CHECK((result & 255) == runs);
}

/* The trace is refused so, whatever the slice, and nothing is written. */
static void refuses_trace(const uint8_t *moves, size_t length, int refusal, int ordinal,
                          int rooms, int runs) {
    few_states out;
    size_t capacity;

    for (capacity = 0; capacity <= COUNT(out.entries); capacity++) {
        const int64_t code = trace(moves, length, capacity, &out);
        CHECK(code == -(refusal + runs * 256 + rooms * 65536 + (int64_t)ordinal * 16777216));
        CHECK(NENTURXO_TRACE_REFUSAL(code) == refusal);
        CHECK(NENTURXO_TRACE_RUNS(code) == runs);
        CHECK(NENTURXO_TRACE_ROOMS(code) == rooms);
        CHECK(NENTURXO_TRACE_ORDINAL(code) == ordinal);
        CHECK(all_untouched(&out, sizeof out));
    }
}

static void test_replay(void) {
    const uint8_t header[] = {1, 2, 1, 1, 2, 1, 1, 1, 6, 3};
    const uint16_t of_header[] = {513, 770, 513, 770, 1025, 1025};
    const uint8_t claims[] = {3, 3}, one_room[] = {1, 5, 2, 3, 1, 0};
    const uint16_t of_claims[] = {257, 257}, of_one_room[] = {513, 257, 257, 514};
    /* the sheet's pinwheel, 001 100 010 111, and a claim */
    const uint8_t five[] = {1, 1, 1, 4, 1, 2, 1, 7, 3};
    const uint16_t of_five[] = {514, 770, 1026, 1281, 1281};
    uint8_t moved[COUNT(header) + 8];
    size_t i;

    gives_trace(header, COUNT(header), of_header, COUNT(of_header), 4, 1);
    gives_trace(header, 7, of_header, 4, 3, 2);
    gives_trace(header, 0, of_header, 0, 1, 1);
    gives_trace(claims, COUNT(claims), of_claims, COUNT(of_claims), 1, 1);
    gives_trace(one_room, COUNT(one_room), of_one_room, COUNT(of_one_room), 2, 2);
    gives_trace(five, COUNT(five), of_five, COUNT(of_five), 5, 1);
    /* at every address */
    for (i = 0; i < 8; i++) {
        memcpy(moved + i, header, sizeof header);
        gives_trace(moved + i, COUNT(header), of_header, COUNT(of_header), 4, 1);
    }
}

/* Each cause of a refused move, as the first and as a later one, and what follows
 * it counts for nothing. */
static void test_refused_moves(void) {
    const uint8_t no_kind[] = {0, 3}, kind_4[] = {4}, no_body[] = {3, 1}, above_7[] = {1, 0, 1, 8};
    const uint8_t only_room[] = {2, 0}, none_left[] = {1, 2, 2, 2, 3};
    const uint8_t below[] = {1, 7}, above[] = {1, 0, 1, 4, 9};
    const uint8_t two_runs[] = {1, 0, 3}, again_two[] = {1, 0, 1, 7, 3, 2, 3, 0};
    /* a triple above 7 whose low bits need a run */
    const uint8_t above_7_needs[] = {1, 15};

    CHECK(NENTURXO_BAD_MOVE == 28 && NENTURXO_ONLY_ROOM == 29);
    refuses_trace(no_kind, 2, NENTURXO_BAD_MOVE, 1, 1, 1);
    refuses_trace(kind_4, 1, NENTURXO_BAD_MOVE, 1, 1, 1);
    refuses_trace(no_body, 2, NENTURXO_BAD_MOVE, 2, 1, 1);
    refuses_trace(above_7, 4, NENTURXO_BAD_MOVE, 2, 2, 2);
    refuses_trace(above_7_needs, 2, NENTURXO_BAD_MOVE, 1, 1, 1);
    refuses_trace(only_room, 2, NENTURXO_ONLY_ROOM, 1, 1, 1);
    refuses_trace(none_left, 5, NENTURXO_ONLY_ROOM, 3, 1, 1);
    refuses_trace(below, 2, NENTURXO_RUN_MISSING, 1, 1, 1);
    refuses_trace(above, 5, NENTURXO_RUN_MISSING, 2, 2, 2);
    refuses_trace(two_runs, 3, NENTURXO_RUNS_LEFT, 2, 2, 2);
    refuses_trace(again_two, 8, NENTURXO_RUNS_LEFT, 5, 2, 2);
}

/* As many moves as there can be, and some more. */
static uint8_t long_trace[NENTURXO_TRACE_LENGTH + 3];
static uint16_t long_states[NENTURXO_TRACE_LENGTH + 1];

/* Makes a trace: so many rooms, all added with the same triple, and then these
 * bytes. Gives its length. */
static size_t rooms_and(int rooms, int triple, const uint8_t *more, size_t length) {
    int i;
    for (i = 1; i < rooms; i++) {
        long_trace[2 * i - 2] = 1;
        long_trace[2 * i - 1] = (uint8_t)triple;
    }
    memcpy(long_trace + 2 * (rooms - 1), more, length);
    return 2 * (size_t)(rooms - 1) + length;
}

/* 255 rooms and no more: 1 comes after 28 and before 12, whatever the triple. */
static void test_256th_room(void) {
    const uint8_t bad[] = {1, 8}, claim[] = {3}, instead[] = {2, 1, 5, 3};
    const int64_t full = 254 * 65536 + 255 * 256;
    int triple;

    CHECK(nenturxo_trace(long_trace, rooms_and(255, 2, bad, 0), long_states, 254) == full + 1);
    CHECK(long_states[0] == 513 && long_states[253] == 255 * 256 + 1);
    CHECK(nenturxo_trace(long_trace, rooms_and(255, 0, bad, 0), long_states, 254) == full + 255);
    CHECK(long_states[0] == 514 && long_states[253] == 255 * 256 + 255);
    CHECK(nenturxo_trace(long_trace, rooms_and(255, 2, instead, 4), long_states, 257) ==
          257 * 65536 + 255 * 256 + 1);
    for (triple = 0; triple < 8; triple++) {
        const uint8_t one_more[] = {1, (uint8_t)triple};
        const size_t length = rooms_and(255, 2, one_more, 2);
        refuses_trace(long_trace, length, NENTURXO_LIST_LENGTH, 255, 255, 1);
    }
    refuses_trace(long_trace, rooms_and(255, 2, bad, 2), NENTURXO_BAD_MOVE, 255, 255, 1);
    refuses_trace(long_trace, rooms_and(255, 2, bad, 1), NENTURXO_BAD_MOVE, 255, 255, 1);
    refuses_trace(long_trace, rooms_and(255, 1, claim, 1), NENTURXO_RUNS_LEFT, 255, 255, 255);
}

/* 65,535 bytes and no more: 21 comes before all moves and before the slice. */
static void test_long_traces(void) {
    const size_t most = NENTURXO_TRACE_LENGTH;
    const int64_t all = (int64_t)NENTURXO_TRACE_LENGTH * 65536 + 257;
    const int64_t last = (int64_t)NENTURXO_TRACE_LENGTH * 16777216 + 65536 + 256;
    size_t i;

    memset(long_trace, 3, sizeof long_trace);
    memset(long_states, UNTOUCHED, sizeof long_states);
    CHECK(nenturxo_trace(long_trace, most, long_states, most - 1) == -NENTURXO_SLICE_SHORT);
    CHECK(nenturxo_trace(long_trace, most + 1, long_states, most + 1) == -NENTURXO_BOOK_LENGTH);
    CHECK(nenturxo_trace(long_trace, most + 3, long_states, 0) == -NENTURXO_BOOK_LENGTH);
    long_trace[0] = 0;
    CHECK(nenturxo_trace(long_trace, most + 1, long_states, most + 1) == -NENTURXO_BOOK_LENGTH);
    long_trace[0] = 3;
    /* the largest ordinal */
    long_trace[most - 1] = 2;
    CHECK(nenturxo_trace(long_trace, most, long_states, most) == -(NENTURXO_ONLY_ROOM + last));
    long_trace[most - 1] = 1;
    CHECK(nenturxo_trace(long_trace, most, long_states, most) == -(NENTURXO_BAD_MOVE + last));
    CHECK(NENTURXO_TRACE_ORDINAL(-(NENTURXO_BAD_MOVE + last)) == NENTURXO_TRACE_LENGTH);
    CHECK(all_untouched(long_states, sizeof long_states));

    long_trace[most - 1] = 3;
    CHECK(nenturxo_trace(long_trace, most, long_states, most + 1) == all);
    for (i = 0; i < most && long_states[i] == 257; i++) {
    }
    CHECK(i == most);
    CHECK(all_untouched(long_states + most, sizeof *long_states));
}

static void test_traces(void) {
    test_replay();
    test_refused_moves();
    test_256th_room();
    test_long_traces();
}

/* ---- Plan counts */

/* How many plans of 1 to 17 rooms there are, by the formula of 000. For 11 rooms
 * 003 prints 1882690, in which two digits have changed places. */
static const int64_t plan_totals[] = {
    1,      2,       6,        22,       92,        422,        2074,        10754,       58202,
    326240, 1882960, 11140560, 67329992, 414499438, 2593341586, 16458756586, 105791986682};

/* Plans of so many rooms are not counted, whatever the rises. */
static void refuses_to_count(uint8_t n) {
    int rises;
    CHECK(nenturxo_plan_total(n) == -NENTURXO_NOT_COUNTED);
    for (rises = 0; rises < 256; rises++) {
        CHECK(nenturxo_plan_count(n, (uint8_t)rises) == -NENTURXO_NOT_COUNTED);
    }
}

/* As many plans of so many rooms have r rises as have n - 1 - r, none has n or
 * more, and together they are all. */
static void counts_plans(uint8_t n) {
    int64_t together = 0;
    int rises;

    for (rises = 0; rises < n; rises++) {
        const int64_t count = nenturxo_plan_count(n, (uint8_t)rises);
        CHECK(count > 0 && count == nenturxo_plan_count(n, (uint8_t)(n - 1 - rises)));
        together += count;
    }
    for (rises = n; rises < 256; rises++) {
        CHECK(nenturxo_plan_count(n, (uint8_t)rises) == 0);
    }
    CHECK(together == plan_totals[n - 1]);
    CHECK(nenturxo_plan_total(n) == together);
}

/* The counts of so many rooms, from no rise on. */
static void have_counts(uint8_t n, const int64_t *counts) {
    uint8_t rises;
    for (rises = 0; rises < n; rises++) {
        CHECK(nenturxo_plan_count(n, rises) == counts[rises]);
    }
}

static void test_small_counts(void) {
    const int64_t of_1[] = {1}, of_2[] = {1, 1}, of_3[] = {1, 4, 1};
    const int64_t of_4[] = {1, 10, 10, 1}, of_5[] = {1, 20, 50, 20, 1};

    have_counts(1, of_1);
    have_counts(2, of_2);
    have_counts(3, of_3);
    have_counts(4, of_4);
    have_counts(5, of_5);
}

static void test_plan_counts(void) {
    int n;

    CHECK(NENTURXO_NOT_COUNTED == 30 && NENTURXO_COUNTED_ROOMS == 17);
    CHECK(COUNT(plan_totals) == NENTURXO_COUNTED_ROOMS);
    for (n = 0; n < 256; n++) {
        if (n == 0 || n > NENTURXO_COUNTED_ROOMS) {
            refuses_to_count((uint8_t)n);
        } else {
            counts_plans((uint8_t)n);
        }
    }
    test_small_counts();
    CHECK(nenturxo_plan_total(11) == 1882960);
    /* more than 36 bits */
    CHECK(nenturxo_plan_total(17) >> 36 == 1);
}

int main(void) {
    test_labels_in();
    test_rooms_in();
    test_record_in();
    test_question();
    test_tidy();
    test_tree();
    test_pattern();
    test_books();
    test_sizes();
    test_groups();
    test_traces();
    test_plan_counts();
    CHECK(sum(never_written, sizeof never_written) == 0);
    printf("%d checks of the C interface, %d failed\n", checks, failures);
    return failures == 0 ? 0 : 1;
}
