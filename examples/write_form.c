/* Writes the form of a stored table. Standard input holds the table, standard output gets the form's bytes. If the table or its form is refused,
 * nothing is written there, `refused N` and why goes to standard error, with the place of the byte at fault where there is one, and the exit status
 * is 1. To build and run it, in the folder of the repository:
 *
 *     bash tools/build glospruma
 *     cc -Iinclude examples/write_form.c target/staticlib/libglospruma.a -o target/write_form
 *     target/write_form <tests/vectors/00005-p5.table | od -An -tx1
 */
#include "glospruma.h"

#include <stdio.h>
#include <stdlib.h>

/* The input, with one byte more than the longest table has: a longer input then fills it, and is refused instead of being cut. */
static uint8_t input[GLOSPRUMA_TABLE_LENGTH + 1];

/* Rooms that suffice for every table, so that no call is refused for want of room. */
static uint16_t on[GLOSPRUMA_MAX_POINTS], free_points[GLOSPRUMA_MAX_POINTS];
static uint8_t form[GLOSPRUMA_WRITTEN_ROOM];

/* Says why, as `refused 21 at 5: bytes are missing`; a number without a place is printed without one. */
static int refused(unsigned number, size_t place) {
    fprintf(stderr, "refused %u", number);
    if (glospruma_refusal_has_place(number)) {
        fprintf(stderr, " at %zu", place);
    }
    fprintf(stderr, ": %s\n", glospruma_refusal_text(number));
    return EXIT_FAILURE;
}

/* The system could not read or write; it knows why. */
static int failed(const char *where) {
    perror(where);
    return EXIT_FAILURE;
}

int main(void) {
    size_t length = fread(input, 1, sizeof input, stdin);
    if (ferror(stdin)) {
        return failed("standard input");
    }
    glospruma_table_read table = glospruma_read_table(input, length, on, GLOSPRUMA_MAX_POINTS, free_points, GLOSPRUMA_MAX_POINTS);
    if (table.refusal != GLOSPRUMA_ACCEPTED) {
        return refused(table.refusal, table.place);
    }
    /* Still to be refused: number 5, a table that needs more than six variables after reduction. */
    glospruma_form_written written =
        glospruma_write_form(table.variables, on, table.on_count, free_points, table.free_count, form, sizeof form);
    if (written.refusal != GLOSPRUMA_ACCEPTED) {
        return refused(written.refusal, 0);
    }
    /* A full disk may show only when the last bytes leave the program. */
    if (fwrite(form, 1, written.length, stdout) != written.length || fflush(stdout) != 0) {
        return failed("standard output");
    }
    return EXIT_SUCCESS;
}
