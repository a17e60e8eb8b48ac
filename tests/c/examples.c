/* Document 01's examples P1 to P9, two tables side by side and the index of a form through include/glospruma.h, refusals of every number with lent
 * memory compared, of bytes also the place, and the layout of the answers. Prints how many cases passed, `N passed, 0 failed`, or what differs, and
 * then exits with 1. To build and run it, in the folder of the repository:
 *
 *     cc -std=c99 -Wall -Wextra -Werror -pedantic -Iinclude tests/c/examples.c target/staticlib/libglospruma.a -o target/examples && target/examples
 *
 * Every list and room is an allocation of its own and of its exact length, so that a tool that watches memory sees each access beyond it.
 */
#include "glospruma.h"

#include <stdio.h>
#include <stdlib.h>
#include <string.h>

/* What lent rooms hold before a call. */
#define PAINT 0xA5

#define LENGTH(array) (sizeof(array) / sizeof((array)[0]))

/* Whether every check of the case that runs has held so far. */
static int all_hold;

static void check(int holds, const char *text, int line) {
    if (!holds) {
        all_hold = 0;
        printf("line %d: this doesn't hold: %s\n", line, text);
    }
}

#define CHECK(condition) check((condition), #condition, __LINE__)

/* An allocation that ends the program if there is no memory; never NULL, also for length 0. */
static void *allocated(size_t bytes) {
    void *memory = malloc(bytes > 0 ? bytes : 1);
    if (memory == NULL) {
        puts("no memory");
        exit(1);
    }
    return memory;
}

/* A list of points, or a room for points with paint in it. */
typedef struct {
    uint16_t *points;
    size_t length;
} points;

/* Bytes, or a room for bytes with paint in it. */
typedef struct {
    uint8_t *bytes;
    size_t length;
} bytes;

static points point_list(const uint16_t *given, size_t length) {
    points list = {allocated(length * sizeof(uint16_t)), length};
    if (length > 0) {
        memcpy(list.points, given, length * sizeof(uint16_t));
    }
    return list;
}

static points point_room(size_t length) {
    points room = {allocated(length * sizeof(uint16_t)), length};
    memset(room.points, PAINT, length * sizeof(uint16_t));
    return room;
}

static bytes byte_list(const uint8_t *given, size_t length) {
    bytes list = {allocated(length), length};
    if (length > 0) {
        memcpy(list.bytes, given, length);
    }
    return list;
}

static bytes byte_room(size_t length) {
    bytes room = {allocated(length), length};
    memset(room.bytes, PAINT, length);
    return room;
}

/* Whether the expected bytes stand at the front of a room of so many bytes, and paint after them. */
static int front_is(const void *room, size_t length, const void *expected, size_t expected_length) {
    const uint8_t *start = room;
    size_t place;
    if (expected_length > length || (expected_length > 0 && memcmp(start, expected, expected_length) != 0)) {
        return 0;
    }
    for (place = expected_length; place < length; place++) {
        if (start[place] != PAINT) {
            return 0;
        }
    }
    return 1;
}

/* Whether a room has these points at its front and is as lent after them; frees it. */
static int points_are(points room, const uint16_t *expected, size_t count) {
    int same = front_is(room.points, room.length * sizeof(uint16_t), expected, count * sizeof(uint16_t));
    free(room.points);
    return same;
}

/* Whether a room has these bytes at its front and is as lent after them; frees it. */
static int bytes_are(bytes room, const uint8_t *expected, size_t count) {
    int same = front_is(room.bytes, room.length, expected, count);
    free(room.bytes);
    return same;
}

static int points_as_lent(points room) { return points_are(room, NULL, 0); }
static int bytes_as_lent(bytes room) { return bytes_are(room, NULL, 0); }

/* Whether a short list has these numbers and 0 after them. */
static int values_are(const uint16_t *values, size_t length, const uint16_t *expected, size_t count) {
    size_t place;
    int same = length == count;
    for (place = 0; place < GLOSPRUMA_MAX_VARIABLES; place++) {
        same = same && values[place] == (place < count ? expected[place] : 0);
    }
    return same;
}

static int basis_is(const glospruma_basis *basis, const uint16_t *expected, size_t count) {
    return values_are(basis->vectors, basis->len, expected, count);
}

static int list_is(const glospruma_short_list *list, const uint16_t *expected, size_t count) {
    return values_are(list->values, list->len, expected, count);
}

/* The form written for a table of on points has these bytes; read, it has these points, and written again, these bytes. */
static void check_form(size_t n, const uint16_t *on_points, size_t on_count, const uint8_t *form, size_t form_length, size_t products) {
    points on = point_list(on_points, on_count), none = point_list(NULL, 0), room = point_room(on_count + 1);
    bytes written = byte_room(form_length), again = byte_room(form_length + 3), short_room = byte_room(form_length - 1);
    bytes source = byte_list(form, form_length);
    glospruma_form_written wrote = glospruma_write_form(n, on.points, on.length, none.points, none.length, written.bytes, written.length);
    glospruma_form_written refused =
        glospruma_write_form(n, on.points, on.length, none.points, none.length, short_room.bytes, short_room.length);
    glospruma_points_read read = glospruma_form_points(source.bytes, source.length, room.points, room.length);
    glospruma_form_rewritten rewrote = glospruma_form_rewrite(source.bytes, source.length, again.bytes, again.length);
    CHECK(wrote.refusal == GLOSPRUMA_ACCEPTED && wrote.length == form_length && wrote.products == products);
    CHECK(bytes_are(written, form, form_length));
    CHECK(refused.refusal == GLOSPRUMA_ROOM && refused.length == 0 && refused.products == 0);
    CHECK(bytes_as_lent(short_room));
    CHECK(read.refusal == GLOSPRUMA_ACCEPTED && read.place == 0 && read.variables == n && read.count == on_count);
    CHECK(points_are(room, on_points, on_count));
    CHECK(rewrote.refusal == GLOSPRUMA_ACCEPTED && rewrote.place == 0 && rewrote.length == form_length);
    CHECK(bytes_are(again, form, form_length));
    free(on.points);
    free(none.points);
    free(source.bytes);
}

/* What the analysis of a table of on points gives. */
typedef struct {
    size_t degree;
    const uint16_t *basis, *canonical, *equations, *restriction;
    size_t basis_length, canonical_length, equations_length, restriction_length;
} analysed;

static void check_analysis(size_t n, const uint16_t *on_points, size_t on_count, analysed expected) {
    points on = point_list(on_points, on_count), none = point_list(NULL, 0), room = point_room(expected.restriction_length + 1);
    glospruma_space space = glospruma_linear_space(n, on.points, on.length);
    glospruma_analysis found = glospruma_analyse(n, on.points, on.length, none.points, none.length, room.points, room.length);
    CHECK(space.refusal == GLOSPRUMA_ACCEPTED && space.degree == expected.degree);
    CHECK(basis_is(&space.basis, expected.basis, expected.basis_length));
    CHECK(found.refusal == GLOSPRUMA_ACCEPTED && found.degree == expected.degree && found.count == expected.restriction_length);
    CHECK(basis_is(&found.basis, expected.basis, expected.basis_length));
    CHECK(list_is(&found.canonical, expected.canonical, expected.canonical_length));
    CHECK(list_is(&found.equations, expected.equations, expected.equations_length));
    CHECK(points_are(room, expected.restriction, expected.restriction_length));
    free(on.points);
    free(none.points);
}

static void p1(void) {
    static const uint16_t one[] = {1};
    static const uint8_t form[] = {0x4E, 1, 0x45, 0, 0};
    analysed expected = {1, one, one, NULL, NULL, 1, 1, 0, 0};
    check_analysis(1, NULL, 0, expected);
    check_form(1, NULL, 0, form, LENGTH(form), 0);
}

static void p2(void) {
    static const uint16_t one[] = {1}, zero[] = {0};
    static const uint8_t form[] = {0x4E, 1, 0x50, 0x58, 0, 1, 0, 0x45, 1, 0};
    analysed expected = {0, NULL, NULL, one, zero, 0, 0, 1, 1};
    check_analysis(1, zero, 1, expected);
    check_form(1, zero, 1, form, LENGTH(form), 1);
}

static void p3(void) {
    static const uint16_t both[] = {0, 1}, one[] = {1}, zero[] = {0};
    static const uint8_t form[] = {0x4E, 1, 0x50, 0x45, 1, 0};
    analysed expected = {1, one, one, NULL, zero, 1, 1, 0, 1};
    check_analysis(1, both, 2, expected);
    check_form(1, both, 2, form, LENGTH(form), 1);
}

static void p4(void) {
    static const uint16_t on[] = {1, 2, 4, 7}, basis[] = {3, 5}, canonical[] = {1, 2}, equations[] = {7}, restriction[] = {1};
    static const uint8_t form[] = {0x4E, 3, 0x50, 0x58, 1, 7, 0, 0x45, 1, 0};
    analysed expected = {2, basis, canonical, equations, restriction, 2, 2, 1, 1};
    check_analysis(3, on, LENGTH(on), expected);
    check_form(3, on, LENGTH(on), form, LENGTH(form), 1);
}

static const uint16_t p5_on[] = {4, 5, 6, 7, 9, 10, 12, 13, 14, 15};

static const uint8_t p5_form[] = {0x4E, 0x04, 0x50, 0x58, 0x01, 0x04, 0x00, 0x50, 0x58, 0x01,
                                  0x0C, 0x00, 0x58, 0x00, 0x0B, 0x00, 0x45, 0x02, 0x00};

/* The report that document 01 prints whole. */
static const char p5_report[] = "variables 4\n"
                                "on 10 free 0\n"
                                "degree 1\n"
                                "canonical 3\n"
                                "y1 = x1\n"
                                "y2 = x2\n"
                                "y3 = x3 + x4\n"
                                "restriction 2 3 5 6 7\n"
                                "product x2=1\n"
                                "product x1+x2=1 x1+x3+x4=0\n";

/* The stored table of P5. */
static bytes p5_stored(void) {
    bytes stored = byte_room(2 + 3 * LENGTH(p5_on) + 3);
    size_t record;
    stored.bytes[0] = 0x4E;
    stored.bytes[1] = 4;
    for (record = 0; record < LENGTH(p5_on); record++) {
        stored.bytes[2 + 3 * record] = 0x4F;
        stored.bytes[3 + 3 * record] = (uint8_t)p5_on[record];
        stored.bytes[4 + 3 * record] = 0;
    }
    stored.bytes[2 + 3 * record] = 0x45;
    stored.bytes[3 + 3 * record] = (uint8_t)record;
    stored.bytes[4 + 3 * record] = 0;
    return stored;
}

static void p5(void) {
    static const uint16_t basis[] = {3}, canonical[] = {3}, equations[] = {8, 4, 3}, restriction[] = {2, 3, 5, 6, 7};
    analysed expected = {1, basis, canonical, equations, restriction, 1, 1, 3, 5};
    check_analysis(4, p5_on, LENGTH(p5_on), expected);
    check_form(4, p5_on, LENGTH(p5_on), p5_form, LENGTH(p5_form), 2);
}

static void p5_read_and_reported(void) {
    bytes stored = p5_stored(), text = byte_room(sizeof p5_report + 4), short_text = byte_room(sizeof p5_report - 2);
    points on = point_room(LENGTH(p5_on)), none = point_room(0);
    glospruma_table_read read = glospruma_read_table(stored.bytes, stored.length, on.points, on.length, none.points, none.length);
    glospruma_report_written report = glospruma_report(stored.bytes, stored.length, text.bytes, text.length);
    glospruma_report_written refused = glospruma_report(stored.bytes, stored.length, short_text.bytes, short_text.length);
    CHECK(read.refusal == GLOSPRUMA_ACCEPTED && read.place == 0);
    CHECK(read.variables == 4 && read.on_count == LENGTH(p5_on) && read.free_count == 0);
    CHECK(points_are(on, p5_on, LENGTH(p5_on)));
    CHECK(report.refusal == GLOSPRUMA_ACCEPTED && report.length == sizeof p5_report - 1);
    CHECK(bytes_are(text, (const uint8_t *)p5_report, sizeof p5_report - 1));
    CHECK(refused.refusal == GLOSPRUMA_ROOM && refused.length == 0);
    CHECK(bytes_as_lent(short_text));
    free(stored.bytes);
    free(none.points);
}

static void p6(void) {
    static const uint16_t on_points[] = {2, 3, 5, 6, 7};
    static const uint8_t records[] = {2, 2, 1, 4, 0, 0, 0, 0, 4, 1, 2, 7, 0, 0, 0, 0, 0, 2, 1, 3, 6, 0, 0,
                                      0, 0, 0, 2, 1, 5, 2, 0, 0, 0, 0, 0, 2, 1, 5, 3, 0, 0, 0, 0, 0, 2};
    points on = point_list(on_points, LENGTH(on_points)), none = point_list(NULL, 0);
    bytes room = byte_room(sizeof records + 7), joined = byte_room(sizeof records);
    glospruma_listed listed =
        glospruma_list_primes(3, on.points, on.length, none.points, none.length, 0, UINT64_MAX, room.bytes, room.length);
    size_t length = 0;
    uint64_t place = 0;
    CHECK(listed.refusal == GLOSPRUMA_ACCEPTED && listed.next == 51 && listed.passed == 51 && listed.records == 5);
    CHECK(bytes_are(room, records, sizeof records));
    /* The same in pieces: room for one record, and an allowance of seven candidates. */
    while (place < 51 && length < sizeof records) {
        bytes piece = byte_room(GLOSPRUMA_RECORD_LENGTH);
        listed = glospruma_list_primes(3, on.points, on.length, none.points, none.length, place, 7, piece.bytes, piece.length);
        CHECK(listed.refusal == GLOSPRUMA_ACCEPTED && listed.next - place == listed.passed && listed.passed <= 7 && listed.records <= 1);
        memcpy(joined.bytes + length, piece.bytes, listed.records * GLOSPRUMA_RECORD_LENGTH);
        length += listed.records * GLOSPRUMA_RECORD_LENGTH;
        place = listed.next;
        free(piece.bytes);
    }
    CHECK(bytes_are(joined, records, sizeof records));
    free(on.points);
    free(none.points);
}

static void p7(void) {
    static const uint16_t on_points[] = {2, 4, 6, 11, 13}, basis[] = {2, 4, 9}, projection[] = {1, 2, 3, 5, 6};
    points on = point_list(on_points, LENGTH(on_points)), room = point_room(LENGTH(projection)), short_room = point_room(4);
    glospruma_affine_space found = glospruma_affine(4, on.points, on.length, room.points, room.length);
    glospruma_affine_space refused = glospruma_affine(4, on.points, on.length, short_room.points, short_room.length);
    CHECK(found.refusal == GLOSPRUMA_ACCEPTED && found.least == 0 && found.dimension == 3 && found.count == LENGTH(projection));
    CHECK(basis_is(&found.basis, basis, LENGTH(basis)));
    CHECK(points_are(room, projection, LENGTH(projection)));
    CHECK(refused.refusal == GLOSPRUMA_ROOM && refused.dimension == 0 && refused.count == 0 && basis_is(&refused.basis, NULL, 0));
    CHECK(points_as_lent(short_room));
    free(on.points);
}

/* With the answers of document 02, No. 4. */
static void p8(void) {
    static const uint16_t on_points[] = {0}, free_points[] = {1, 2}, completed[] = {0, 1}, one[] = {1}, two[] = {2};
    static const uint8_t form[] = {0x4E, 2, 0x50, 0x58, 0, 2, 0, 0x45, 1, 0};
    points on = point_list(on_points, 1), others = point_list(free_points, 2), room = point_room(3), restriction = point_room(2);
    bytes written = byte_room(sizeof form + 1);
    glospruma_completion found = glospruma_complete(2, on.points, on.length, others.points, others.length, room.points, room.length);
    glospruma_analysis analysis =
        glospruma_analyse(2, on.points, on.length, others.points, others.length, restriction.points, restriction.length);
    glospruma_form_written wrote =
        glospruma_write_form(2, on.points, on.length, others.points, others.length, written.bytes, written.length);
    CHECK(found.refusal == GLOSPRUMA_ACCEPTED && found.count == 2 && found.degree == 1 && found.k0 == 0 && found.k1 == 0);
    CHECK(points_are(room, completed, 2));
    CHECK(analysis.refusal == GLOSPRUMA_ACCEPTED && analysis.degree == 1 && analysis.count == 1);
    CHECK(basis_is(&analysis.basis, one, 1) && list_is(&analysis.canonical, two, 1) && list_is(&analysis.equations, two, 1));
    CHECK(points_are(restriction, on_points, 1));
    CHECK(wrote.refusal == GLOSPRUMA_ACCEPTED && wrote.length == sizeof form && wrote.products == 1);
    CHECK(bytes_are(written, form, sizeof form));
    free(on.points);
    free(others.points);
}

/* The report of a table of n variables with point 0 free and all others off. */
static void check_free_report(uint8_t n, const char *expected) {
    const uint8_t table[] = {0x4E, n, 0x44, 0, 0, 0x45, 1, 0};
    bytes stored = byte_list(table, sizeof table), text = byte_room(strlen(expected));
    glospruma_report_written report = glospruma_report(stored.bytes, stored.length, text.bytes, text.length);
    CHECK(report.refusal == GLOSPRUMA_ACCEPTED && report.length == strlen(expected));
    CHECK(bytes_are(text, (const uint8_t *)expected, strlen(expected)));
    free(stored.bytes);
}

/* From nine variables free points are completed in the simple way (document 02, No. 4), and the degree says so. */
static void simple_degree(void) {
    check_free_report(8, "variables 8\non 0 free 1\ndegree 8\ncanonical 1 2 3 4 5 6 7 8\nrestriction -\n");
    check_free_report(9, "variables 9\non 0 free 1\ndegree 9 simple\ncanonical 1 2 3 4 5 6 7 8 9\nrestriction -\n");
}

static void p9(void) {
    static const uint16_t free_points[] = {0};
    points on = point_list(NULL, 0), others = point_list(free_points, 1);
    bytes room = byte_room(16);
    glospruma_listed whole = glospruma_list_primes(2, on.points, 0, others.points, 1, 0, UINT64_MAX, room.bytes, room.length);
    glospruma_listed end = glospruma_list_primes(2, on.points, 0, others.points, 1, 11, UINT64_MAX, room.bytes, room.length);
    glospruma_listed beyond = glospruma_list_primes(2, on.points, 0, others.points, 1, 12, 0, room.bytes, room.length);
    glospruma_listed nothing = glospruma_list_primes(2, on.points, 0, others.points, 1, 4, 0, room.bytes, room.length);
    CHECK(whole.refusal == GLOSPRUMA_ACCEPTED && whole.next == 11 && whole.passed == 11 && whole.records == 0);
    CHECK(end.refusal == GLOSPRUMA_ACCEPTED && end.next == 11 && end.passed == 0 && end.records == 0);
    CHECK(beyond.refusal == GLOSPRUMA_PLACE && beyond.next == 0 && beyond.passed == 0 && beyond.records == 0);
    CHECK(nothing.refusal == GLOSPRUMA_ACCEPTED && nothing.next == 4 && nothing.passed == 0 && nothing.records == 0);
    CHECK(bytes_as_lent(room));
    free(on.points);
    free(others.points);
}

/* The stored table whose marks these are, one letter for each of its 2^n points: 0 off, 1 on, - free. */
static bytes stored_marks(uint8_t n, const char *marks) {
    size_t point, records = 0;
    bytes stored;
    for (point = 0; marks[point] != 0; point++) {
        records += marks[point] != '0';
    }
    stored = byte_room(2 + 3 * records + 3);
    stored.bytes[0] = 0x4E;
    stored.bytes[1] = n;
    records = 0;
    for (point = 0; marks[point] != 0; point++) {
        if (marks[point] != '0') {
            stored.bytes[2 + 3 * records] = marks[point] == '1' ? 0x4F : 0x44;
            stored.bytes[3 + 3 * records] = (uint8_t)(point % 256);
            stored.bytes[4 + 3 * records] = (uint8_t)(point / 256);
            records++;
        }
    }
    stored.bytes[2 + 3 * records] = 0x45;
    stored.bytes[3 + 3 * records] = (uint8_t)(records % 256);
    stored.bytes[4 + 3 * records] = (uint8_t)(records / 256);
    return stored;
}

/* Bands of payload, and whether the retarder helps: one site cut them in short tons, which are lighter, the next in tonnes. */
#define SHORT_TONS "000-111-"
#define TONNES "0000-111"

/* The points at which the two sites differ, and their records. */
static const size_t sites_points[] = {3, 4, 7};
static const uint8_t sites_records[] = {
    3, 0, GLOSPRUMA_FREE, GLOSPRUMA_OFF,
    4, 0, GLOSPRUMA_ON, GLOSPRUMA_FREE,
    7, 0, GLOSPRUMA_FREE, GLOSPRUMA_ON,
};

static glospruma_comparison compare(bytes left, bytes right, size_t first, bytes room) {
    return glospruma_compare(left.bytes, left.length, right.bytes, right.length, first, room.bytes, room.length);
}

static void side_by_side(void) {
    static const uint8_t exchanged[] = {
        3, 0, GLOSPRUMA_OFF, GLOSPRUMA_FREE,
        4, 0, GLOSPRUMA_FREE, GLOSPRUMA_ON,
        7, 0, GLOSPRUMA_ON, GLOSPRUMA_FREE,
    };
    bytes left = stored_marks(3, SHORT_TONS), right = stored_marks(3, TONNES);
    bytes room = byte_room(sizeof sites_records + 5), other_room = byte_room(sizeof exchanged), untouched = byte_room(8);
    glospruma_comparison found = compare(left, right, 0, room);
    glospruma_comparison other = compare(right, left, 0, other_room);
    glospruma_comparison same = compare(left, left, 0, untouched);
    CHECK(found.refusal == GLOSPRUMA_ACCEPTED && found.place == 0 && found.records == 3 && found.next == 8 && found.total == 3);
    CHECK(bytes_are(room, sites_records, sizeof sites_records));
    CHECK(other.refusal == GLOSPRUMA_ACCEPTED && other.records == 3 && other.next == 8 && other.total == 3);
    CHECK(bytes_are(other_room, exchanged, sizeof exchanged));
    CHECK(same.refusal == GLOSPRUMA_ACCEPTED && same.records == 0 && same.next == 8 && same.total == 0);
    CHECK(bytes_as_lent(untouched));
    free(left.bytes);
    free(right.bytes);
}

/* From every first point on into rooms of every length: the listing stops before the first record that doesn't fit. */
static void side_by_side_in_pieces(void) {
    bytes left = stored_marks(3, SHORT_TONS), right = stored_marks(3, TONNES);
    size_t first, length;
    for (first = 0; first <= 8; first++) {
        size_t behind = 0;
        while (behind < LENGTH(sites_points) && sites_points[behind] < first) {
            behind++;
        }
        for (length = 0; length <= sizeof sites_records + 1; length++) {
            size_t ahead = LENGTH(sites_points) - behind, fits = length / GLOSPRUMA_DIFFERENCE_LENGTH;
            size_t records = ahead < fits ? ahead : fits;
            bytes room = byte_room(length);
            glospruma_comparison found = compare(left, right, first, room);
            CHECK(found.refusal == GLOSPRUMA_ACCEPTED && found.place == 0);
            CHECK(found.records == records && found.total == LENGTH(sites_points));
            CHECK(found.next == (records < ahead ? sites_points[behind + records] : 8));
            CHECK(bytes_are(room, sites_records + GLOSPRUMA_DIFFERENCE_LENGTH * behind, GLOSPRUMA_DIFFERENCE_LENGTH * records));
        }
    }
    free(left.bytes);
    free(right.bytes);
}

/* All points of twelve variables differ, and the room that always suffices takes their records. */
static void side_by_side_everywhere(void) {
    static char marks[GLOSPRUMA_MAX_POINTS + 1];
    bytes left, right, room = byte_room(GLOSPRUMA_COMPARISON_ROOM);
    glospruma_comparison found;
    size_t point;
    memset(marks, '1', GLOSPRUMA_MAX_POINTS);
    left = stored_marks(12, marks);
    memset(marks, '0', GLOSPRUMA_MAX_POINTS);
    right = stored_marks(12, marks);
    found = compare(left, right, 0, room);
    CHECK(left.length == GLOSPRUMA_TABLE_LENGTH);
    CHECK(found.refusal == GLOSPRUMA_ACCEPTED && found.next == GLOSPRUMA_MAX_POINTS);
    CHECK(found.records == GLOSPRUMA_MAX_POINTS && found.total == GLOSPRUMA_MAX_POINTS);
    for (point = 0; point < GLOSPRUMA_MAX_POINTS; point++) {
        const uint8_t *record = room.bytes + GLOSPRUMA_DIFFERENCE_LENGTH * point;
        CHECK(record[0] + 256u * record[1] == point && record[2] == GLOSPRUMA_ON && record[3] == GLOSPRUMA_OFF);
    }
    free(left.bytes);
    free(right.bytes);
    free(room.bytes);
}

/* A refusal number and the place that goes with it. */
typedef struct {
    uint8_t refusal;
    size_t place;
} fault;

static void check_refused_comparison(bytes left, bytes right, size_t first, fault expected) {
    bytes room = byte_room(sizeof sites_records);
    glospruma_comparison found = compare(left, right, first, room);
    CHECK(found.refusal == expected.refusal && found.place == expected.place);
    CHECK(found.records == 0 && found.next == 0 && found.total == 0);
    CHECK(bytes_as_lent(room));
}

/* The left table's refusals, with place, then the right one's, then those of both. */
static void refused_comparisons(void) {
    static const uint8_t cut[] = {0x4E, 3, 0x45, 0}, unknown[] = {0x4E, 3, 0x46, 1, 0, 0x45, 1, 0}, thirteen[] = {0x4E, 13, 0x45, 0, 0};
    static const uint8_t large[] = {0x4E, 3, 0x4F, 8, 0, 0x45, 1, 0}, twice[] = {0x4E, 3, 0x4F, 1, 0, 0x44, 1, 0, 0x45, 2, 0};
    static const fault expected[] = {
        {GLOSPRUMA_BYTES_MISSING, 4}, {GLOSPRUMA_WRONG_KIND, 2}, {GLOSPRUMA_VARIABLES, 0}, {GLOSPRUMA_POINT, 0}, {GLOSPRUMA_ORDER, 0},
    };
    static const fault counts = {GLOSPRUMA_COUNTS, 0}, first_point = {GLOSPRUMA_FIRST_POINT, 0};
    bytes faults[LENGTH(expected)], left = stored_marks(3, SHORT_TONS), right = stored_marks(3, TONNES), small = stored_marks(2, "01-1");
    size_t one, other;
    faults[0] = byte_list(cut, sizeof cut);
    faults[1] = byte_list(unknown, sizeof unknown);
    faults[2] = byte_list(thirteen, sizeof thirteen);
    faults[3] = byte_list(large, sizeof large);
    faults[4] = byte_list(twice, sizeof twice);
    for (one = 0; one < LENGTH(expected); one++) {
        check_refused_comparison(faults[one], right, 0, expected[one]);
        check_refused_comparison(left, faults[one], 0, expected[one]);
        check_refused_comparison(small, faults[one], SIZE_MAX, expected[one]);
        for (other = 0; other < LENGTH(expected); other++) {
            check_refused_comparison(faults[one], faults[other], SIZE_MAX, expected[one]);
        }
    }
    check_refused_comparison(left, small, 0, counts);
    check_refused_comparison(small, right, SIZE_MAX, counts);
    check_refused_comparison(left, right, 9, first_point);
    check_refused_comparison(left, left, SIZE_MAX, first_point);
    for (one = 0; one < LENGTH(expected); one++) {
        free(faults[one].bytes);
    }
    free(left.bytes);
    free(right.bytes);
    free(small.bytes);
}

/* A list of records, with paint in it. */
typedef struct {
    glospruma_point_record *records;
    size_t length;
} records;

static records record_room(size_t length) {
    records room = {allocated(length * sizeof(glospruma_point_record)), length};
    memset(room.records, PAINT, length * sizeof(glospruma_point_record));
    return room;
}

/* Whether a list has these records at its front and is as lent after them. */
static int records_are(records list, const glospruma_point_record *expected, size_t count) {
    return front_is(list.records, list.length * sizeof *expected, expected, count * sizeof *expected);
}

static glospruma_indexed build(bytes form, records list) {
    return glospruma_index_build(form.bytes, form.length, list.records, list.length);
}

static glospruma_indexed append(bytes form, bytes product, records list, bytes room) {
    return glospruma_index_append(form.bytes, form.length, product.bytes, product.length, list.records, list.length, room.bytes, room.length);
}

static glospruma_indexed take_away(bytes form, records list, bytes room) {
    return glospruma_index_remove(form.bytes, form.length, list.records, list.length, room.bytes, room.length);
}

/* Whether an answer has these numbers. */
static int indexed_is(glospruma_indexed found, fault expected, size_t variables, size_t length, size_t products) {
    return found.refusal == expected.refusal && found.place == expected.place && found.variables == variables && found.length == length &&
           found.products == products;
}

static const fault no_fault = {GLOSPRUMA_ACCEPTED, 0};

/* The record of a point that no product holds. */
#define NONE {0, GLOSPRUMA_NO_PRODUCT}

/* The index of P5's form: x2 holds 4 to 7 and 12 to 15, the other product 4, 7, 9 and 10. */
static const glospruma_point_record p5_index[16] = {NONE, NONE, NONE, NONE, {2, 0}, {1, 0}, {1, 0}, {2, 0},
                                                    NONE, {1, 1}, {1, 1}, NONE, {1, 0}, {1, 0}, {1, 0}, {1, 0}};

/* P5's form with x1 and x3 appended, which holds 10, 11, 14 and 15, and its index. */
static const uint8_t p5_product[] = {0x50, 0x58, 1, 8, 0, 0x58, 1, 2, 0};
static const uint8_t p5_longer[] = {0x4E, 4, 0x50, 0x58, 1, 4, 0, 0x50, 0x58, 1, 12, 0, 0x58, 0,
                                    11, 0, 0x50, 0x58, 1, 8, 0, 0x58, 1, 2, 0, 0x45, 3, 0};
static const glospruma_point_record p5_longer_index[16] = {NONE, NONE, NONE, NONE, {2, 0}, {1, 0}, {1, 0}, {2, 0},
                                                           NONE, {1, 1}, {2, 1}, {1, 2}, {1, 0}, {1, 0}, {2, 0}, {2, 0}};

/* Built, in lists that are too short, right and longer. */
static void index_built(void) {
    static const fault short_list = {GLOSPRUMA_ROOM, 0};
    bytes form = byte_list(p5_form, sizeof p5_form);
    size_t length;
    for (length = 0; length <= 18; length++) {
        records list = record_room(length);
        glospruma_indexed found = build(form, list);
        if (length < 16) {
            CHECK(indexed_is(found, short_list, 0, 0, 0));
            CHECK(records_are(list, NULL, 0));
        } else {
            CHECK(indexed_is(found, no_fault, 4, sizeof p5_form, 2));
            CHECK(records_are(list, p5_index, 16));
        }
        free(list.records);
    }
    free(form.bytes);
}

/* A product is appended and taken away again, in rooms that are too short, right and longer; the list is as before. */
static void index_changed(void) {
    static const fault short_room = {GLOSPRUMA_ROOM, 0};
    bytes form = byte_list(p5_form, sizeof p5_form), longer = byte_list(p5_longer, sizeof p5_longer);
    bytes product = byte_list(p5_product, sizeof p5_product);
    records list = record_room(17);
    size_t length;
    CHECK(indexed_is(build(form, list), no_fault, 4, sizeof p5_form, 2));
    for (length = 0; length < sizeof p5_longer; length++) {
        bytes room = byte_room(length);
        CHECK(indexed_is(append(form, product, list, room), short_room, 0, 0, 0));
        CHECK(bytes_as_lent(room));
        CHECK(records_are(list, p5_index, 16));
    }
    for (length = sizeof p5_longer; length < sizeof p5_longer + 3; length++) {
        bytes room = byte_room(length), back = byte_room(length - sizeof p5_product), short_back = byte_room(sizeof p5_form - 1);
        CHECK(indexed_is(append(form, product, list, room), no_fault, 4, sizeof p5_longer, 3));
        CHECK(bytes_are(room, p5_longer, sizeof p5_longer));
        CHECK(records_are(list, p5_longer_index, 16));
        CHECK(indexed_is(take_away(longer, list, short_back), short_room, 0, 0, 0));
        CHECK(bytes_as_lent(short_back));
        CHECK(records_are(list, p5_longer_index, 16));
        CHECK(indexed_is(take_away(longer, list, back), no_fault, 4, sizeof p5_form, 2));
        CHECK(bytes_are(back, p5_form, sizeof p5_form));
        CHECK(records_are(list, p5_index, 16));
    }
    free(form.bytes);
    free(longer.bytes);
    free(product.bytes);
    free(list.records);
}

/* From no product to 64 that hold every point, and back; a 65th can't be appended, and from none nothing be taken away. */
static void index_of_most_products(void) {
    static const fault too_many = {GLOSPRUMA_TOO_MANY_PRODUCTS, 0}, none_left = {GLOSPRUMA_EMPTY_FORM, 0};
    static const uint8_t empty[] = {0x4E, 1, 0x45, 0, 0}, everywhere[] = {0x50};
    bytes form = byte_list(empty, sizeof empty), product = byte_list(everywhere, sizeof everywhere), no_room = byte_room(0);
    records list = record_room(2);
    uint16_t count;
    CHECK(indexed_is(build(form, list), no_fault, 1, 5, 0));
    for (count = 1; count <= 64; count++) {
        bytes room = byte_room(form.length + 1);
        CHECK(indexed_is(append(form, product, list, room), no_fault, 1, room.length, count));
        CHECK(list.records[0].count == count && list.records[0].first == 0 && list.records[1].count == count && list.records[1].first == 0);
        free(form.bytes);
        form = room;
    }
    CHECK(indexed_is(append(form, product, list, no_room), too_many, 0, 0, 0));
    for (count = 64; count-- > 0;) {
        bytes room = byte_room(form.length - 1);
        CHECK(indexed_is(take_away(form, list, room), no_fault, 1, room.length, count));
        CHECK(list.records[1].count == count && list.records[1].first == (count > 0 ? 0 : GLOSPRUMA_NO_PRODUCT));
        free(form.bytes);
        form = room;
    }
    CHECK(indexed_is(take_away(form, list, no_room), none_left, 0, 0, 0));
    CHECK(form.length == sizeof empty && memcmp(form.bytes, empty, sizeof empty) == 0);
    free(no_room.bytes);
    free(form.bytes);
    free(product.bytes);
    free(list.records);
}

/* A product to be appended to P5's form, and how it is refused. */
typedef struct {
    uint8_t bytes[9];
    size_t length;
    fault expected;
} refused_product;

/* The product's refusals, with places from its 50; then a record that isn't the form's, in either number. */
static void refused_changes(void) {
    static const refused_product products[] = {
        {{0}, 0, {GLOSPRUMA_BYTES_MISSING, 0}},
        {{0x58, 1, 1, 0}, 4, {GLOSPRUMA_WRONG_KIND, 0}},
        {{0x50, 0x50}, 2, {GLOSPRUMA_WRONG_KIND, 1}},
        {{0x50, 0x58, 1, 1, 0, 0x45, 1, 0}, 8, {GLOSPRUMA_WRONG_KIND, 5}},
        {{0x50, 0x58, 2, 1}, 4, {GLOSPRUMA_BYTES_MISSING, 4}},
        {{0x50, 0x58, 2, 1, 0}, 5, {GLOSPRUMA_WRONG_FACTOR, 2}},
        {{0x50, 0x58, 1, 1, 0, 0x58, 1, 2, 0}, 9, {GLOSPRUMA_NOT_CANONICAL, 6}},
    };
    static const fault other = {GLOSPRUMA_RECORDS, 0}, cut = {GLOSPRUMA_BYTES_MISSING, 18};
    bytes form = byte_list(p5_form, sizeof p5_form), cut_form = byte_list(p5_form, 18), room = byte_room(40);
    bytes product = byte_list(p5_product, sizeof p5_product);
    records list = record_room(16);
    size_t place;
    CHECK(indexed_is(build(cut_form, list), cut, 0, 0, 0));
    CHECK(records_are(list, NULL, 0));
    CHECK(indexed_is(build(form, list), no_fault, 4, sizeof p5_form, 2));
    CHECK(indexed_is(append(cut_form, product, list, room), cut, 0, 0, 0));
    CHECK(indexed_is(take_away(cut_form, list, room), cut, 0, 0, 0));
    for (place = 0; place < LENGTH(products); place++) {
        bytes faulty = byte_list(products[place].bytes, products[place].length);
        CHECK(indexed_is(append(form, faulty, list, room), products[place].expected, 0, 0, 0));
        free(faulty.bytes);
    }
    for (place = 0; place < 32; place++) {
        uint16_t *number = place % 2 == 0 ? &list.records[place / 2].count : &list.records[place / 2].first;
        *number ^= 1;
        CHECK(indexed_is(append(form, product, list, room), other, 0, 0, 0));
        CHECK(indexed_is(take_away(form, list, room), other, 0, 0, 0));
        *number ^= 1;
    }
    CHECK(records_are(list, p5_index, 16));
    CHECK(bytes_as_lent(room));
    free(form.bytes);
    free(cut_form.bytes);
    free(product.bytes);
    free(list.records);
}

/* A table that every call which takes it refuses with one number. */
typedef struct {
    size_t n;
    const uint16_t *on, *others;
    size_t on_length, others_length;
    uint8_t refusal;
} faulty;

static void check_refused_table(faulty table) {
    points on = point_list(table.on, table.on_length), others = point_list(table.others, table.others_length);
    points room = point_room(8);
    bytes byte_rest = byte_room(40);
    glospruma_completion completion =
        glospruma_complete(table.n, on.points, on.length, others.points, others.length, room.points, room.length);
    glospruma_analysis analysis =
        glospruma_analyse(table.n, on.points, on.length, others.points, others.length, room.points, room.length);
    glospruma_listed listed =
        glospruma_list_primes(table.n, on.points, on.length, others.points, others.length, 0, 9, byte_rest.bytes, byte_rest.length);
    glospruma_form_written form =
        glospruma_write_form(table.n, on.points, on.length, others.points, others.length, byte_rest.bytes, byte_rest.length);
    CHECK(completion.refusal == table.refusal && completion.count == 0 && completion.degree == 0);
    CHECK(completion.k0 == 0 && completion.k1 == 0);
    CHECK(analysis.refusal == table.refusal && analysis.degree == 0 && analysis.count == 0);
    CHECK(basis_is(&analysis.basis, NULL, 0) && list_is(&analysis.canonical, NULL, 0) && list_is(&analysis.equations, NULL, 0));
    CHECK(listed.refusal == table.refusal && listed.next == 0 && listed.passed == 0 && listed.records == 0);
    CHECK(form.refusal == table.refusal && form.length == 0 && form.products == 0);
    CHECK(points_as_lent(room));
    CHECK(bytes_as_lent(byte_rest));
    CHECK(memcmp(on.points, table.on, on.length * sizeof(uint16_t)) == 0);
    free(on.points);
    free(others.points);
}

static void refused_tables(void) {
    static const uint16_t one[] = {1}, twice[] = {1, 1}, falling[] = {2, 1}, large[] = {4096}, two[] = {1, 2};
    static const faulty tables[] = {
        {0, one, one, 1, 1, GLOSPRUMA_VARIABLES},
        {13, twice, one, 2, 1, GLOSPRUMA_VARIABLES},
        {SIZE_MAX, one, one, 1, 1, GLOSPRUMA_VARIABLES},
        {12, large, one, 1, 1, GLOSPRUMA_POINT},
        {12, twice, large, 2, 1, GLOSPRUMA_POINT},
        {3, twice, one, 2, 1, GLOSPRUMA_ORDER},
        {3, one, falling, 1, 2, GLOSPRUMA_ORDER},
        {3, two, one, 2, 1, GLOSPRUMA_SHARED},
    };
    size_t place;
    for (place = 0; place < LENGTH(tables); place++) {
        check_refused_table(tables[place]);
    }
}

static void refused_sizes(void) {
    static const uint16_t one[] = {1};
    points on = point_list(one, 1), room = point_room(2);
    bytes bytes_lent = byte_room(40);
    glospruma_listed listed = glospruma_list_primes(7, on.points, 1, on.points, 0, 0, 1, bytes_lent.bytes, bytes_lent.length);
    glospruma_form_written form = glospruma_write_form(7, on.points, 1, on.points, 0, bytes_lent.bytes, bytes_lent.length);
    glospruma_affine_space empty = glospruma_affine(4, on.points, 0, room.points, room.length);
    glospruma_space space = glospruma_linear_space(0, on.points, 1);
    CHECK(listed.refusal == GLOSPRUMA_SIZE && listed.next == 0 && listed.passed == 0 && listed.records == 0);
    CHECK(form.refusal == GLOSPRUMA_SIZE && form.length == 0 && form.products == 0);
    CHECK(empty.refusal == GLOSPRUMA_AFFINE && empty.least == 0 && empty.dimension == 0 && empty.count == 0);
    CHECK(space.refusal == GLOSPRUMA_VARIABLES && space.degree == 0 && basis_is(&space.basis, NULL, 0));
    CHECK(points_as_lent(room));
    CHECK(bytes_as_lent(bytes_lent));
    free(on.points);
}

/* A form that both calls which read forms refuse. */
static void check_refused_form(const uint8_t *form, size_t length, fault expected) {
    bytes list = byte_list(form, length), room = byte_room(30);
    points point_rest = point_room(16);
    glospruma_points_read read = glospruma_form_points(list.bytes, list.length, point_rest.points, point_rest.length);
    glospruma_form_rewritten rewrote = glospruma_form_rewrite(list.bytes, list.length, room.bytes, room.length);
    CHECK(read.refusal == expected.refusal && read.place == expected.place && read.variables == 0 && read.count == 0);
    CHECK(rewrote.refusal == expected.refusal && rewrote.place == expected.place && rewrote.length == 0);
    CHECK(points_as_lent(point_rest));
    CHECK(bytes_as_lent(room));
    free(list.bytes);
}

/* A stored table that is refused, and the line that is its report. */
static void check_refused_stored(const uint8_t *stored, size_t length, fault expected) {
    char line[40];
    size_t line_length;
    bytes list = byte_list(stored, length), text = byte_room(sizeof line);
    points on = point_room(10), others = point_room(10);
    glospruma_table_read read = glospruma_read_table(list.bytes, list.length, on.points, on.length, others.points, others.length);
    glospruma_report_written report = glospruma_report(list.bytes, list.length, text.bytes, text.length);
    if (glospruma_refusal_has_place(expected.refusal)) {
        line_length = (size_t)sprintf(line, "refused %u at %lu\n", (unsigned)expected.refusal, (unsigned long)expected.place);
    } else {
        line_length = (size_t)sprintf(line, "refused %u\n", (unsigned)expected.refusal);
    }
    CHECK(read.refusal == expected.refusal && read.place == expected.place);
    CHECK(read.variables == 0 && read.on_count == 0 && read.free_count == 0);
    CHECK(points_as_lent(on));
    CHECK(points_as_lent(others));
    CHECK(report.refusal == GLOSPRUMA_ACCEPTED && report.length == line_length);
    CHECK(bytes_are(text, (const uint8_t *)line, line_length));
    free(list.bytes);
}

/* Every cut of P5's form and of its stored table is refused: bytes are missing where it ends. */
static void cut_bytes(void) {
    bytes stored = p5_stored();
    fault missing = {GLOSPRUMA_BYTES_MISSING, 0};
    for (missing.place = 0; missing.place < LENGTH(p5_form); missing.place++) {
        check_refused_form(p5_form, missing.place, missing);
    }
    for (missing.place = 0; missing.place < stored.length; missing.place++) {
        check_refused_stored(stored.bytes, missing.place, missing);
    }
    free(stored.bytes);
}

/* Bytes that are refused, and how. */
typedef struct {
    uint8_t bytes[20];
    size_t length;
    fault expected;
} damaged;

/* Every fault of a short form, and two at a time: the first from the left counts, and at one byte the smaller number. */
static void refused_forms(void) {
    static const damaged forms[] = {
        {{0x4F, 4}, 2, {GLOSPRUMA_WRONG_KIND, 0}},
        {{0x4E, 4, 0x58, 1, 4, 0, 0x45, 0, 0}, 9, {GLOSPRUMA_WRONG_KIND, 2}},
        {{0x4E, 4, 0x50, 0x4F, 1, 0, 0x45, 1, 0}, 9, {GLOSPRUMA_WRONG_KIND, 3}},
        {{0x4E, 0}, 2, {GLOSPRUMA_WRONG_VARIABLES, 1}},
        {{0x4E, 13, 0x46}, 3, {GLOSPRUMA_WRONG_VARIABLES, 1}},
        {{0x4E, 4, 0x50, 0x58, 2, 4, 0, 0x45, 1, 0}, 10, {GLOSPRUMA_WRONG_FACTOR, 4}},
        {{0x4E, 4, 0x50, 0x58, 1, 0, 0, 0x45, 1, 0}, 10, {GLOSPRUMA_WRONG_FACTOR, 4}},
        {{0x4E, 4, 0x50, 0x58, 1, 16, 0, 0x45, 1, 0}, 10, {GLOSPRUMA_WRONG_FACTOR, 4}},
        {{0x4E, 4, 0x50, 0x58, 2, 4}, 6, {GLOSPRUMA_BYTES_MISSING, 6}},
        {{0x4E, 4, 0x50, 0x58, 1, 4, 0, 0x58, 1, 12, 0, 0x45, 1, 0}, 14, {GLOSPRUMA_NOT_CANONICAL, 8}},
        {{0x4E, 4, 0x50, 0x58, 1, 4, 0, 0x58, 2, 4, 0, 0x45, 9, 0}, 14, {GLOSPRUMA_WRONG_FACTOR, 8}},
        {{0x4E, 4, 0x50, 0x45, 2, 0, 0}, 7, {GLOSPRUMA_WRONG_COUNT, 4}},
        {{0x4E, 4, 0x50, 0x45, 1, 1}, 6, {GLOSPRUMA_WRONG_COUNT, 4}},
        {{0x4E, 4, 0x50, 0x45, 1, 0, 0x45, 1, 0}, 9, {GLOSPRUMA_BYTES_AFTER, 6}},
    };
    size_t place;
    for (place = 0; place < LENGTH(forms); place++) {
        check_refused_form(forms[place].bytes, forms[place].length, forms[place].expected);
    }
}

/* A 65th product is one too many, whatever follows its kind. */
static void too_many_products(void) {
    static const fault expected = {GLOSPRUMA_TOO_MANY_PRODUCTS, 66};
    bytes form = byte_room(2 + 65 + 3);
    size_t length;
    memset(form.bytes, 0x50, form.length);
    form.bytes[0] = 0x4E;
    form.bytes[1] = 1;
    for (length = 2 + 65; length <= form.length; length++) {
        check_refused_form(form.bytes, length, expected);
    }
    free(form.bytes);
}

/* The refusals of stored tables: those of their bytes, and then 1, 2 and 3 without a place. */
static void refused_stored_tables(void) {
    static const damaged tables[] = {
        {{0x4F, 1, 0}, 3, {GLOSPRUMA_WRONG_KIND, 0}},
        {{0x4E, 2, 0x50, 0x45, 1, 0}, 6, {GLOSPRUMA_WRONG_KIND, 2}},
        {{0x4E, 0, 0x4F, 1, 0, 0x45, 2, 0}, 8, {GLOSPRUMA_WRONG_COUNT, 6}},
        {{0x4E, 2, 0x4F, 1, 0, 0x44, 2, 0, 0x45, 2, 1, 7}, 12, {GLOSPRUMA_WRONG_COUNT, 9}},
        {{0x4E, 13, 0x45, 0, 0, 0x46}, 6, {GLOSPRUMA_BYTES_AFTER, 5}},
        {{0x4E, 0, 0x4F, 1, 0, 0x45, 1, 0}, 8, {GLOSPRUMA_VARIABLES, 0}},
        {{0x4E, 2, 0x4F, 4, 0, 0x45, 1, 0}, 8, {GLOSPRUMA_POINT, 0}},
        {{0x4E, 2, 0x4F, 1, 0, 0x44, 1, 0, 0x45, 2, 0}, 11, {GLOSPRUMA_ORDER, 0}},
    };
    size_t place;
    for (place = 0; place < LENGTH(tables); place++) {
        check_refused_stored(tables[place].bytes, tables[place].length, tables[place].expected);
    }
}

/* 4,097 points fill the longest table, so that its end is missing; a byte more is one after the end, whatever it is, but an earlier fault counts. */
static void longest_stored_tables(void) {
    static const fault missing = {GLOSPRUMA_BYTES_MISSING, GLOSPRUMA_TABLE_LENGTH}, after = {GLOSPRUMA_BYTES_AFTER, GLOSPRUMA_TABLE_LENGTH};
    static const fault earlier = {GLOSPRUMA_WRONG_KIND, GLOSPRUMA_TABLE_LENGTH - 3};
    bytes stored = byte_room(GLOSPRUMA_TABLE_LENGTH + 1);
    size_t place;
    memset(stored.bytes, 0, stored.length);
    stored.bytes[0] = 0x4E;
    for (place = 2; place < stored.length; place += 3) {
        stored.bytes[place] = 0x4F;
    }
    check_refused_stored(stored.bytes, GLOSPRUMA_TABLE_LENGTH, missing);
    check_refused_stored(stored.bytes, stored.length, after);
    stored.bytes[GLOSPRUMA_TABLE_LENGTH] = 0x46;
    check_refused_stored(stored.bytes, stored.length, after);
    stored.bytes[GLOSPRUMA_TABLE_LENGTH - 3] = 0x46;
    check_refused_stored(stored.bytes, stored.length, earlier);
    free(stored.bytes);
}

static void short_rooms(void) {
    static const uint8_t table[] = {0x4E, 2, 0x4F, 0, 0, 0x44, 1, 0, 0x44, 2, 0, 0x45, 3, 0};
    size_t length;
    for (length = 0; length < LENGTH(p5_on); length++) {
        points room = point_room(length);
        glospruma_points_read read = glospruma_form_points(p5_form, sizeof p5_form, room.points, room.length);
        CHECK(read.refusal == GLOSPRUMA_ROOM && read.place == 0 && read.variables == 0 && read.count == 0);
        CHECK(points_as_lent(room));
    }
    for (length = 0; length < LENGTH(p5_form); length++) {
        bytes room = byte_room(length);
        glospruma_form_rewritten rewrote = glospruma_form_rewrite(p5_form, sizeof p5_form, room.bytes, room.length);
        CHECK(rewrote.refusal == GLOSPRUMA_ROOM && rewrote.place == 0 && rewrote.length == 0);
        CHECK(bytes_as_lent(room));
    }
    for (length = 0; length < 4; length++) {
        points on = point_room(length % 2), others = point_room(length / 2);
        glospruma_table_read read = glospruma_read_table(table, sizeof table, on.points, on.length, others.points, others.length);
        CHECK(read.refusal == GLOSPRUMA_ROOM && read.place == 0);
        CHECK(read.variables == 0 && read.on_count == 0 && read.free_count == 0);
        CHECK(points_as_lent(on));
        CHECK(points_as_lent(others));
    }
}

/* The sizes that the Rust package's tests ask of its structs too. */
static void layout(void) {
    CHECK(sizeof(glospruma_short_list) == 32 && sizeof(glospruma_basis) == 32);
    CHECK(sizeof(glospruma_table_read) == 40 && offsetof(glospruma_table_read, place) == 8);
    CHECK(offsetof(glospruma_table_read, variables) == 16);
    CHECK(sizeof(glospruma_comparison) == 40 && offsetof(glospruma_comparison, place) == 8 && offsetof(glospruma_comparison, total) == 32);
    CHECK(sizeof(glospruma_space) == 48 && offsetof(glospruma_space, basis) == 16);
    CHECK(sizeof(glospruma_completion) == 40);
    CHECK(sizeof(glospruma_analysis) == 120 && offsetof(glospruma_analysis, count) == 112);
    CHECK(sizeof(glospruma_affine_space) == 56 && offsetof(glospruma_affine_space, least) == 2);
    CHECK(sizeof(glospruma_listed) == 32);
    CHECK(sizeof(glospruma_form_written) == 24);
    CHECK(sizeof(glospruma_points_read) == 32 && offsetof(glospruma_points_read, place) == 8);
    CHECK(sizeof(glospruma_form_rewritten) == 24 && offsetof(glospruma_form_rewritten, place) == 8);
    CHECK(sizeof(glospruma_point_record) == 4 && offsetof(glospruma_point_record, first) == 2);
    CHECK(sizeof(glospruma_indexed) == 40 && offsetof(glospruma_indexed, place) == 8 && offsetof(glospruma_indexed, products) == 32);
    CHECK(sizeof(glospruma_report_written) == 16);
}

/* Whether some call gives a number: 8 was that of all faults of bytes up to version 0.3, and is unused. */
static int is_given(unsigned number) {
    return (number <= GLOSPRUMA_EMPTY_FORM && number != 8) || number == GLOSPRUMA_RECORDS || glospruma_refusal_has_place(number);
}

/* The words of the refusals: each number has its own, and the numbers that no call gives have those of none. What they say is compared with the
 * documents elsewhere. */
static void texts(void) {
    const char *none = glospruma_refusal_text(UINT8_MAX);
    unsigned first, second;
    for (first = GLOSPRUMA_ACCEPTED; first < UINT8_MAX; first++) {
        CHECK(strlen(glospruma_refusal_text(first)) > 0);
        CHECK((strcmp(glospruma_refusal_text(first), none) != 0) == is_given(first));
        for (second = GLOSPRUMA_ACCEPTED; second < first && is_given(first); second++) {
            CHECK(strcmp(glospruma_refusal_text(first), glospruma_refusal_text(second)) != 0);
        }
    }
    CHECK(strlen(GLOSPRUMA_VERSION) > 0);
}

/* A place goes with 20 to 27 alone. */
static void numbers_with_a_place(void) {
    unsigned number;
    for (number = 0; number <= UINT8_MAX; number++) {
        CHECK(glospruma_refusal_has_place(number) == (number >= 20 && number <= 27));
    }
}

typedef struct {
    const char *name;
    void (*run)(void);
} named_case;

static const named_case cases[] = {
    {"P1", p1},
    {"P2", p2},
    {"P3", p3},
    {"P4", p4},
    {"P5", p5},
    {"P5, read and reported", p5_read_and_reported},
    {"P6", p6},
    {"P7", p7},
    {"P8", p8},
    {"a simple degree", simple_degree},
    {"P9", p9},
    {"two tables side by side", side_by_side},
    {"two tables side by side, in pieces", side_by_side_in_pieces},
    {"two tables side by side, everywhere", side_by_side_everywhere},
    {"refused comparisons", refused_comparisons},
    {"index built", index_built},
    {"index changed", index_changed},
    {"index of most products", index_of_most_products},
    {"refused changes of an index", refused_changes},
    {"refused tables", refused_tables},
    {"refused sizes", refused_sizes},
    {"cut bytes", cut_bytes},
    {"refused forms", refused_forms},
    {"too many products", too_many_products},
    {"refused stored tables", refused_stored_tables},
    {"longest stored tables", longest_stored_tables},
    {"short rooms", short_rooms},
    {"layout", layout},
    {"texts", texts},
    {"numbers with a place", numbers_with_a_place},
};

int main(void) {
    size_t place, failed = 0;
    for (place = 0; place < LENGTH(cases); place++) {
        all_hold = 1;
        cases[place].run();
        if (!all_hold) {
            failed++;
            printf("failed: %s\n", cases[place].name);
        }
    }
    if (failed == 0) {
        printf("%lu passed, 0 failed\n", (unsigned long)LENGTH(cases));
    }
    return failed > 0;
}
