/* Prints where two stored tables differ. Its two arguments name the files that hold them; standard output gets a line for each point that they mark
 * differently, rising, with the mark in the left table and the mark in the right one, and then the number of these points. If a table is refused,
 * nothing is printed there, its file, `refused N` and why go to standard error, with the place of the byte at fault where there is one, and the exit
 * status is 1. To build and run it, in the folder of the repository:
 *
 *     bash tools/build
 *     cc -Iinclude examples/compare.c target/staticlib/libglospruma.a -o target/compare
 *     target/bin/pla_to_table <examples/short_tons.pla >target/short_tons.table
 *     target/bin/pla_to_table <examples/tonnes.pla >target/tonnes.table
 *     target/compare target/short_tons.table target/tonnes.table
 */
#include "glospruma.h"

#include <stdio.h>
#include <stdlib.h>

/* A stored table, with room for one byte more than the longest has: a longer file then fills it, and is refused instead of being cut. */
typedef struct {
    uint8_t bytes[GLOSPRUMA_TABLE_LENGTH + 1];
    size_t length;
} stored;

static stored left, right;

/* Rooms that suffice for every table, so that one call lists all differences and no call is refused for want of room. */
static uint16_t on[GLOSPRUMA_MAX_POINTS], free_points[GLOSPRUMA_MAX_POINTS];
static uint8_t differences[GLOSPRUMA_COMPARISON_ROOM];

/* The marks in words, by their numbers. */
static const char *const words[] = {"off", "on", "free"};

/* Says why, as `refused 21 at 5: bytes are missing`; a number without a place is printed without one. */
static int refused(unsigned number, size_t place) {
    fprintf(stderr, "refused %u", number);
    if (glospruma_refusal_has_place(number)) {
        fprintf(stderr, " at %zu", place);
    }
    fprintf(stderr, ": %s\n", glospruma_refusal_text(number));
    return EXIT_FAILURE;
}

/* The system could not read or write; it knows why. */
static int failed(const char *where) {
    perror(where);
    return EXIT_FAILURE;
}

/* Reads a table from its file, and alone: a comparison doesn't tell which table it refuses. */
static int load(const char *path, stored *table) {
    FILE *file = fopen(path, "rb");
    if (file == NULL) {
        return failed(path);
    }
    table->length = fread(table->bytes, 1, sizeof table->bytes, file);
    if (ferror(file)) {
        fclose(file);
        return failed(path);
    }
    fclose(file);
    glospruma_table_read alone =
        glospruma_read_table(table->bytes, table->length, on, GLOSPRUMA_MAX_POINTS, free_points, GLOSPRUMA_MAX_POINTS);
    if (alone.refusal != GLOSPRUMA_ACCEPTED) {
        fprintf(stderr, "%s: ", path);
        return refused(alone.refusal, alone.place);
    }
    return EXIT_SUCCESS;
}

int main(int count, char **arguments) {
    if (count != 3) {
        fprintf(stderr, "compare LEFT RIGHT\n");
        return EXIT_FAILURE;
    }
    if (load(arguments[1], &left) != EXIT_SUCCESS || load(arguments[2], &right) != EXIT_SUCCESS) {
        return EXIT_FAILURE;
    }
    /* Still to be refused: number 10, tables with different numbers of variables. */
    glospruma_comparison found = glospruma_compare(left.bytes, left.length, right.bytes, right.length, 0, differences, sizeof differences);
    if (found.refusal != GLOSPRUMA_ACCEPTED) {
        return refused(found.refusal, found.place);
    }
    for (size_t place = 0; place < found.records; place++) {
        const uint8_t *record = differences + GLOSPRUMA_DIFFERENCE_LENGTH * place;
        printf("point %u left %s right %s\n", record[0] + 256u * record[1], words[record[2]], words[record[3]]);
    }
    printf("total %u\n", (unsigned)found.total);
    /* A full disk may show only when the last bytes leave the program. */
    if (fflush(stdout) != 0 || ferror(stdout)) {
        return failed("standard output");
    }
    return EXIT_SUCCESS;
}
