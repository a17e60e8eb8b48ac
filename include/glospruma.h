/* The public calls of Glospruma, for C (C99 or later) and C++ on x86-64 Linux. Build the library with `bash tools/build glospruma` and link
 * target/staticlib/libglospruma.a, which needs nothing but memcpy and memset of the C library:
 *
 *     cc -Iinclude program.c target/staticlib/libglospruma.a
 *
 * To start from: examples/write_form.c, a stored table to the bytes of its form, examples/form_points.c, these bytes to their points,
 * examples/compare.c, two stored tables to the points at which they differ, and examples/index.c, an input pattern to the product that fires.
 * tests/c/examples.c makes every call. For Rust, the package in the folder rust has the same calls with slices.
 *
 * Points are numbers below 2^n; x1 is the highest bit of a point, xn its lowest. A table is a rising list of on points and a rising list of
 * free points; all other points are off. A mask names variables by the same bits.
 *
 * Stored tables and forms are records: a byte of kind, here in hexadecimal, and its body, numbers of two bytes with the low byte first (docs/CALLS.md,
 * "The bytes", has every rule).
 *
 *     table   4E n, then for each point, rising: 4F point if it is on, 44 point if it is free; 45 and the number of points (2 bytes)
 *     form    4E n, then for each product: 50 and its factors, each 58 constant (1 byte) mask (2 bytes); 45 and the number of products (2 bytes)
 *
 * A factor is true where the XOR of its mask's variables is its constant, a product where all its factors are, a form where some product is.
 *
 * What the caller sees to, and all that it has to see to:
 *
 * - A list or a room passes as a pointer and its length, counted in its own elements: so many can be read there, and in a room written.
 * - A pointer is never NULL, not even where the length is 0: any address does then, such as that of another list. A pointer to 16-bit numbers
 *   or to records of points is even.
 * - A room overlaps no other room and no list of the same call. Lists may overlap. The records of an index are read and written: a room.
 * - Nothing else writes to a list or touches a room while the call runs. Calls in several threads are otherwise independent.
 * - The thread has 128 KiB of stack left. Most calls use far less.
 *
 * Numbers and bytes may be any. A call returns a struct whose first field is 0, or a refusal number of the list below. A refused call has all
 * other numbers 0, but for the place that goes with 20 to 27, and every lent room as it was. An accepted call has its answer at the front of the
 * room, and the rest of the room as it was. No call keeps a pointer, allocates, or has a state of its own. Structs have padding: compare them
 * field by field.
 */
#ifndef GLOSPRUMA_H
#define GLOSPRUMA_H

#include <stddef.h>
#include <stdint.h>

#ifdef __cplusplus
extern "C" {
#endif

/* The version of this header and of the library, as in CHANGELOG.md. */
#define GLOSPRUMA_VERSION "0.7.0"

/* The largest number of variables, of points of a table, of variables of a listing, and of variables for which free points are used by the largest
 * space; the bytes of the longest stored table. */
#define GLOSPRUMA_MAX_VARIABLES 12
#define GLOSPRUMA_MAX_POINTS 4096
#define GLOSPRUMA_MAX_LISTED 6
#define GLOSPRUMA_MAX_SEARCHED 8
#define GLOSPRUMA_TABLE_LENGTH 12293

/* Bytes of room that always suffice: for the form written for a table, for any form that can be read, and for a report. For points, and for the
 * records of an index, GLOSPRUMA_MAX_POINTS always suffice. */
#define GLOSPRUMA_WRITTEN_ROOM 1555
#define GLOSPRUMA_FORM_ROOM 3141
#define GLOSPRUMA_REPORT_ROOM 24576

/* The length of a record of the listing: degree, least point, six bytes of basis vectors rising with unused bytes 0, and the number of on points in the
 * prime, 1 to 64. And bytes of room that always suffice for all records of a table: six variables have 2,825 spaces, and a space has at most one prime. */
#define GLOSPRUMA_RECORD_LENGTH 9
#define GLOSPRUMA_LISTING_ROOM 25425

/* The length of a record of a comparison: the point, low byte first, then its mark in the left table and its mark in the right one. And bytes of
 * room that always suffice for all records of two tables: each of 4,096 points may differ. */
#define GLOSPRUMA_DIFFERENCE_LENGTH 4
#define GLOSPRUMA_COMPARISON_ROOM 16384

/* The marks of such a record. */
enum glospruma_mark {
    GLOSPRUMA_OFF = 0,
    GLOSPRUMA_ON = 1,
    GLOSPRUMA_FREE = 2
};

/* The first product of a point that no product holds. */
#define GLOSPRUMA_NO_PRODUCT 65535

/* Each call tests what concerns it in this order: bytes first, for 20 to 27, and then 1, 2, 3, 4, 6, 5, 9, 7; the first that applies is given. Of
 * two tables the left one is tested so, then the right one, and 10 and 11 come last. A change of an index tests the form's bytes, then those of the
 * product, and then 7 for the list, 17, 27 or 12, and 7 for the room. When each is given is what glospruma_refusal_text says; docs/CALLS.md has what
 * to do about it.
 *
 * With 20 to 27 goes a place, counted from 0: the first byte at fault, or the length of the input where bytes are missing. In a product that is
 * appended it counts from its 50, and it is 0 for a 65th one. With every other number, and when accepted, it is 0. Of several faults the first from
 * the left is given; docs/CALLS.md, "The place", has every rule. A table is never refused with 22, 23, 24 or 27: its n is tested for 1, after its
 * bytes. An example of each number:
 *
 * | bytes                                     | read as     | refusal | place | what to do                                                        |
 * | ---                                       | ---         | ---     | ---   | ---                                                               |
 * | 4E 02 4F 01 00 45 01 00                   | form        | 20      | 2     | give a table to a call that reads tables: 4F is no kind of a form |
 * | 4E 02 4F 01                               | table       | 21      | 4     | bring the whole table: a point has two bytes                      |
 * | 4E 0D 45 00 00                            | form        | 22      | 1     | give 1 to 12 variables                                            |
 * | 4E 02 50 58 01 04 00 45 01 00             | form        | 23      | 4     | give a mask of x1 and x2, since n is 2: 1 to 3                    |
 * | 4E 02 50 58 01 01 00 58 01 02 00 45 01 00 | form        | 24      | 8     | exchange the factors, so that the lowest bits of masks fall       |
 * | 4E 02 4F 01 00 45 00 01                   | table       | 25      | 6     | write the low byte of the count first: 45 01 00                   |
 * | 4E 02 45 00 00 0A                         | table, form | 26      | 5     | take away the line feed after the end                             |
 * | 4E 02, then 65 times 50                   | form        | 27      | 66    | leave out the products that stand twice                           |
 */
enum glospruma_refusal {
    GLOSPRUMA_ACCEPTED = 0,
    GLOSPRUMA_VARIABLES = 1,
    GLOSPRUMA_POINT = 2,
    GLOSPRUMA_ORDER = 3,
    GLOSPRUMA_SHARED = 4,
    GLOSPRUMA_SIZE = 5,
    GLOSPRUMA_AFFINE = 6,
    GLOSPRUMA_ROOM = 7,
    GLOSPRUMA_PLACE = 9,
    GLOSPRUMA_COUNTS = 10,
    GLOSPRUMA_FIRST_POINT = 11,
    GLOSPRUMA_EMPTY_FORM = 12,
    GLOSPRUMA_RECORDS = 17,
    GLOSPRUMA_WRONG_KIND = 20,
    GLOSPRUMA_BYTES_MISSING = 21,
    GLOSPRUMA_WRONG_VARIABLES = 22,
    GLOSPRUMA_WRONG_FACTOR = 23,
    GLOSPRUMA_NOT_CANONICAL = 24,
    GLOSPRUMA_WRONG_COUNT = 25,
    GLOSPRUMA_BYTES_AFTER = 26,
    GLOSPRUMA_TOO_MANY_PRODUCTS = 27
};

/* Whether a place goes with a number: 1 for 20 to 27, and else 0. */
static inline int glospruma_refusal_has_place(unsigned number) {
    return number >= GLOSPRUMA_WRONG_KIND && number <= GLOSPRUMA_TOO_MANY_PRODUCTS;
}

/* When a number is given, in words; n-k is the number of variables that the restriction has. */
static inline const char *glospruma_refusal_text(unsigned number) {
    switch (number) {
    case GLOSPRUMA_ACCEPTED: return "accepted";
    case GLOSPRUMA_VARIABLES: return "n is 0 or above 12";
    case GLOSPRUMA_POINT: return "a point of either list is 2^n or more";
    case GLOSPRUMA_ORDER: return "a point isn't greater than the one before it in its list";
    case GLOSPRUMA_SHARED: return "a point stands in both lists";
    case GLOSPRUMA_SIZE: return "listing with n above 6, or a form with n-k above 6";
    case GLOSPRUMA_AFFINE: return "smallest affine space of an empty on set";
    case GLOSPRUMA_ROOM: return "an answer is longer than its lent room";
    case GLOSPRUMA_PLACE: return "a listing place above the number of candidates";
    case GLOSPRUMA_COUNTS: return "two tables have different numbers of variables";
    case GLOSPRUMA_FIRST_POINT: return "a first point above 2^n";
    case GLOSPRUMA_EMPTY_FORM: return "a removal from a form with no product";
    case GLOSPRUMA_RECORDS: return "the first 2^n records of the list aren't those of the form";
    case GLOSPRUMA_WRONG_KIND: return "a kind byte is unknown, or stands where it can't";
    case GLOSPRUMA_BYTES_MISSING: return "bytes are missing";
    case GLOSPRUMA_WRONG_VARIABLES: return "n of a form is 0 or above 12";
    case GLOSPRUMA_WRONG_FACTOR: return "a factor's constant is above 1, or its mask is 0 or 2^n or more";
    case GLOSPRUMA_NOT_CANONICAL: return "a factor doesn't agree with those before it in its product";
    case GLOSPRUMA_WRONG_COUNT: return "the count in the end record isn't that of the points or products before it";
    case GLOSPRUMA_BYTES_AFTER: return "bytes after the end";
    case GLOSPRUMA_TOO_MANY_PRODUCTS: return "a product too many: a form has at most 64";
    default: return "no call gives this number";
    }
}

/* Up to twelve numbers; unused entries are 0. */
typedef struct {
    uint16_t values[GLOSPRUMA_MAX_VARIABLES];
    size_t len;
} glospruma_short_list;

/* A reduced basis: each vector's highest set bit is set in no other, vectors rise; unused entries are 0. */
typedef struct {
    uint16_t vectors[GLOSPRUMA_MAX_VARIABLES];
    size_t len;
} glospruma_basis;

typedef struct {
    uint8_t refusal;
    size_t place;      /* goes with 20 to 27, else 0 */
    size_t variables;  /* n */
    size_t on_count;   /* points written to the room for on points */
    size_t free_count; /* points written to the room for free points */
} glospruma_table_read;

/* Reads a stored table into two rooms. Refusals 20, 21, 25, 26; 1, 2, 3; 7 if either room is short, and then neither is written. */
glospruma_table_read glospruma_read_table(const uint8_t *bytes, size_t bytes_length, uint16_t *on, size_t on_length, uint16_t *free_points,
                                          size_t free_length);

typedef struct {
    uint8_t refusal;
    size_t place;   /* goes with 20 to 27, else 0 */
    size_t records; /* records of 4 bytes written */
    size_t next;    /* the point to go on from: the first that differs and didn't fit, or 2^n when done */
    size_t total;   /* points that differ in the whole tables, whatever the first point and the room */
} glospruma_comparison;

/* Two stored tables side by side: a record into the room for each point from `first` on that they mark differently, rising; a room that runs short
 * stops the listing. Start at 0 and go on at `next` until it is 2^n: then `total` records have come. With room for a record every call gets
 * further; with GLOSPRUMA_COMPARISON_ROOM one call does. Refusals 20, 21, 25, 26; 1, 2, 3; 20, 21, 25, 26; 1, 2, 3; 10, 11, of the left table first
 * and then of the right one. Neither number nor place tells which table it is of: where that matters, read each with glospruma_read_table first. */
glospruma_comparison glospruma_compare(const uint8_t *left, size_t left_length, const uint8_t *right, size_t right_length, size_t first,
                                       uint8_t *room, size_t room_length);

typedef struct {
    uint8_t refusal;
    size_t degree;
    glospruma_basis basis;
} glospruma_space;

/* The linear space of the function that is on at the given points and off elsewhere. Refusals 1, 2, 3. */
glospruma_space glospruma_linear_space(size_t n, const uint16_t *on, size_t on_length);

typedef struct {
    uint8_t refusal;
    size_t count;  /* points written */
    size_t degree; /* of the completed function */
    size_t k0;     /* the degree with all free points off; the degree is never below it */
    size_t k1;     /* the degree with all free points on; the degree is never below it */
} glospruma_completion;

/* The completed function's on points, rising, into the room. Up to GLOSPRUMA_MAX_SEARCHED variables they are every on point XOR every vector of the
 * largest space of vectors that take each on point to an on or free point; of several such spaces the one whose reduced basis comes first. For more
 * variables free points are all on if that has the larger degree, and otherwise all off. Refusals 1, 2, 3, 4; 7. */
glospruma_completion glospruma_complete(size_t n, const uint16_t *on, size_t on_length, const uint16_t *free_points, size_t free_length,
                                        uint16_t *room, size_t room_length);

typedef struct {
    uint8_t refusal;
    size_t degree;
    glospruma_basis basis;          /* of the completed function's linear space */
    glospruma_short_list canonical; /* indices of the canonical variables, rising */
    glospruma_short_list equations; /* the mask of the right side of y1, y2, .. */
    size_t count;                   /* points of the restriction written */
} glospruma_analysis;

/* The completed function's linear space and equations, and its restriction's points, rising, into the room. Refusals 1, 2, 3, 4; 7. */
glospruma_analysis glospruma_analyse(size_t n, const uint16_t *on, size_t on_length, const uint16_t *free_points, size_t free_length,
                                     uint16_t *room, size_t room_length);

typedef struct {
    uint8_t refusal;
    uint16_t least;        /* the least point of the space, which need not be on */
    size_t dimension;      /* below n: the on set is D-reducible */
    glospruma_basis basis; /* of the space's directions */
    size_t count;          /* projected points written */
} glospruma_affine_space;

/* The smallest affine space that holds the on points, and their projection into the room. Refusals 1, 2, 3, 6; 7. */
glospruma_affine_space glospruma_affine(size_t n, const uint16_t *on, size_t on_length, uint16_t *room, size_t room_length);

typedef struct {
    uint8_t refusal;
    uint64_t next;   /* the place to go on from */
    uint64_t passed; /* candidates passed: next less place */
    size_t records;  /* records of 9 bytes written */
} glospruma_listed;

/* The primes of a table from a place on, at most `allowance` candidates, records into the room; a room that runs short stops the listing.
 * Start at place 0 and go on at `next` until it is the number of candidates: 3, 11, 51, 307, 2451, 26387 for n = 1 to 6. With an allowance and
 * room for a record every call gets further; with UINT64_MAX and GLOSPRUMA_LISTING_ROOM one call does. Refusals 1, 2, 3, 4, 5, 9. */
glospruma_listed glospruma_list_primes(size_t n, const uint16_t *on, size_t on_length, const uint16_t *free_points, size_t free_length,
                                       uint64_t place, uint64_t allowance, uint8_t *room, size_t room_length);

typedef struct {
    uint8_t refusal;
    size_t length;   /* bytes written */
    size_t products; /* products of the form */
} glospruma_form_written;

/* The form of a table's completed function, as bytes into the room. Refusals 1, 2, 3, 4, 5, 7. */
glospruma_form_written glospruma_write_form(size_t n, const uint16_t *on, size_t on_length, const uint16_t *free_points, size_t free_length,
                                            uint8_t *room, size_t room_length);

typedef struct {
    uint8_t refusal;
    size_t place;     /* goes with 20 to 27, else 0 */
    size_t variables; /* n */
    size_t count;     /* points written */
} glospruma_points_read;

/* The points of a form, rising, into the room. Refusals 20, 21, 22, 23, 24, 25, 26, 27; 7. */
glospruma_points_read glospruma_form_points(const uint8_t *bytes, size_t bytes_length, uint16_t *room, size_t room_length);

typedef struct {
    uint8_t refusal;
    size_t place;  /* goes with 20 to 27, else 0 */
    size_t length; /* bytes written, the same as were read */
} glospruma_form_rewritten;

/* A form read and written again, into the room: the same bytes. Refusals 20, 21, 22, 23, 24, 25, 26, 27; 7. */
glospruma_form_rewritten glospruma_form_rewrite(const uint8_t *bytes, size_t bytes_length, uint8_t *room, size_t room_length);

/* The record of a point in an index: list[w] is that of the point w. */
typedef struct {
    uint16_t count; /* products that hold the point: those that are true there */
    uint16_t first; /* the first of them, counted from 0, or GLOSPRUMA_NO_PRODUCT */
} glospruma_point_record;

/* Of the form that the list belongs to when the call is done: for a change, the new one. */
typedef struct {
    uint8_t refusal;
    size_t place;     /* goes with 20 to 27, else 0 */
    size_t variables; /* n: the first 2^n records are those of the form */
    size_t length;    /* bytes of the form */
    size_t products;  /* products of the form */
} glospruma_indexed;

/* The index of a form, into the list: a record for each of its 2^n points; records past them stay as they are.
 * Refusals 20, 21, 22, 23, 24, 25, 26, 27; 7 if the list is shorter than 2^n. */
glospruma_indexed glospruma_index_build(const uint8_t *form, size_t form_length, glospruma_point_record *list, size_t list_length);

/* Appends a product to a form, and keeps its index. The product comes as bytes, 50 and its factors. The new form goes into the room; the list, which
 * holds the index of the form, then holds that of the new one. Go on with the bytes in the room and the same list.
 * Refusals 20, 21, 22, 23, 24, 25, 26, 27; 20, 21, 23, 24; 7, 17, 27, 7: the form's own, the product's own, then 7 if the list is shorter than 2^n,
 * 27 with place 0 for a 65th product, and 7 if the room is short. */
glospruma_indexed glospruma_index_append(const uint8_t *form, size_t form_length, const uint8_t *product, size_t product_length,
                                         glospruma_point_record *list, size_t list_length, uint8_t *room, size_t room_length);

/* Takes the last product away from a form, and keeps its index, in the same way.
 * Refusals 20, 21, 22, 23, 24, 25, 26, 27; 7, 17, 12, 7: the form's own, then 7 if the list is shorter than 2^n, and last 7 if the room is short. */
glospruma_indexed glospruma_index_remove(const uint8_t *form, size_t form_length, glospruma_point_record *list, size_t list_length, uint8_t *room,
                                         size_t room_length);

typedef struct {
    uint8_t refusal;
    size_t length; /* bytes of text written */
} glospruma_report_written;

/* The printed report of a stored table, as text into the room, without a 0 byte after it. The degree line ends in ` simple` where the table has more
 * than GLOSPRUMA_MAX_SEARCHED variables and free points. A table that is refused is reported by the line `refused N`, or `refused N at PLACE` where a
 * place goes with the number; the call itself is refused for its room alone. Refusal 7. */
glospruma_report_written glospruma_report(const uint8_t *bytes, size_t bytes_length, uint8_t *room, size_t room_length);

#ifdef __cplusplus
}
#endif

#endif
