/* Prints which product fires at an input pattern, from an index of the form. Standard input holds a stored table, whose form is written first; each
 * argument is a pattern, a digit 0 or 1 for each of x1 to xn. Standard output gets three lines for each pattern: the first product that holds it,
 * counted from 0, and how many do; the same once a product that holds this pattern alone was appended to the form; and once it was taken away again.
 * If the table or its form is refused, or an argument is no pattern, nothing is printed there, `refused N` and why goes to standard error, with the
 * place of the byte at fault where there is one, and the exit status is 1. To build and run it, in the folder of the repository:
 *
 *     bash tools/build
 *     cc -Iinclude examples/index.c target/staticlib/libglospruma.a -o target/index
 *     target/bin/pla_to_table <examples/p5.pla | target/index 0100 1001 1011
 */
#include "glospruma.h"

#include <stdio.h>
#include <stdlib.h>
#include <string.h>

/* The input, with one byte more than the longest table has: a longer input then fills it, and is refused instead of being cut. */
static uint8_t input[GLOSPRUMA_TABLE_LENGTH + 1];

/* Rooms that suffice for every table, and with a product more for every form that is written for one. */
static uint16_t on[GLOSPRUMA_MAX_POINTS], free_points[GLOSPRUMA_MAX_POINTS];
static uint8_t form[GLOSPRUMA_FORM_ROOM], longer[GLOSPRUMA_FORM_ROOM];

/* The index of the form: a record for each point. */
static glospruma_point_record list[GLOSPRUMA_MAX_POINTS];

/* Says why, as `refused 21 at 5: bytes are missing`; a number without a place is printed without one. */
static int refused(unsigned number, size_t place) {
    fprintf(stderr, "refused %u", number);
    if (glospruma_refusal_has_place(number)) {
        fprintf(stderr, " at %zu", place);
    }
    fprintf(stderr, ": %s\n", glospruma_refusal_text(number));
    return EXIT_FAILURE;
}

/* The system could not read or write; it knows why. */
static int failed(const char *where) {
    perror(where);
    return EXIT_FAILURE;
}

/* Reads the table and writes its form; hands back the form's length, or 0 after a message. */
static size_t write_form(void) {
    size_t length = fread(input, 1, sizeof input, stdin);
    if (ferror(stdin)) {
        failed("standard input");
        return 0;
    }
    glospruma_table_read table = glospruma_read_table(input, length, on, GLOSPRUMA_MAX_POINTS, free_points, GLOSPRUMA_MAX_POINTS);
    if (table.refusal != GLOSPRUMA_ACCEPTED) {
        refused(table.refusal, table.place);
        return 0;
    }
    /* Still to be refused: number 5, a table that needs more than six variables after reduction. */
    glospruma_form_written written =
        glospruma_write_form(table.variables, on, table.on_count, free_points, table.free_count, form, sizeof form);
    if (written.refusal != GLOSPRUMA_ACCEPTED) {
        refused(written.refusal, 0);
        return 0;
    }
    return written.length;
}

/* The point of a pattern, whose first digit is x1. */
static size_t point_of(const char *pattern) {
    size_t point = 0;
    for (size_t place = 0; pattern[place] != 0; place++) {
        point = 2 * point + (pattern[place] == '1');
    }
    return point;
}

/* Writes the product that holds one point alone, a factor for each variable; hands back its length. */
static size_t product_at(size_t point, size_t n, uint8_t *product) {
    size_t length = 0;
    product[length++] = 0x50;
    for (size_t place = n; place-- > 0;) {
        product[length++] = 0x58;
        product[length++] = (uint8_t)(point >> place & 1);
        product[length++] = (uint8_t)(((size_t)1 << place) % 256);
        product[length++] = (uint8_t)(((size_t)1 << place) / 256);
    }
    return length;
}

/* At the truck this is all: one record of the list. */
static void print(const char *pattern, const char *when, glospruma_point_record found) {
    if (found.first == GLOSPRUMA_NO_PRODUCT) {
        printf("%s%s: no product fires\n", pattern, when);
    } else {
        printf("%s%s: product %u fires, first of %u\n", pattern, when, (unsigned)found.first, (unsigned)found.count);
    }
}

/* The lines of one pattern. The list always belongs to the form that was written last, which is the one to go on with. */
static int show(const char *pattern, glospruma_indexed index) {
    uint8_t product[1 + 4 * GLOSPRUMA_MAX_VARIABLES];
    size_t point = point_of(pattern), length = product_at(point, index.variables, product);
    print(pattern, "", list[point]);
    index = glospruma_index_append(form, index.length, product, length, list, GLOSPRUMA_MAX_POINTS, longer, sizeof longer);
    if (index.refusal != GLOSPRUMA_ACCEPTED) {
        return refused(index.refusal, index.place);
    }
    print(pattern, ", with a product more", list[point]);
    index = glospruma_index_remove(longer, index.length, list, GLOSPRUMA_MAX_POINTS, form, sizeof form);
    if (index.refusal != GLOSPRUMA_ACCEPTED) {
        return refused(index.refusal, index.place);
    }
    print(pattern, ", without it", list[point]);
    return EXIT_SUCCESS;
}

int main(int count, char **arguments) {
    size_t length = write_form();
    if (length == 0) {
        return EXIT_FAILURE;
    }
    glospruma_indexed index = glospruma_index_build(form, length, list, GLOSPRUMA_MAX_POINTS);
    if (index.refusal != GLOSPRUMA_ACCEPTED) {
        return refused(index.refusal, index.place);
    }
    for (int place = 1; place < count; place++) {
        if (strlen(arguments[place]) != index.variables || strspn(arguments[place], "01") != index.variables) {
            fprintf(stderr, "%s: not a pattern of %zu digits 0 or 1\n", arguments[place], index.variables);
            return EXIT_FAILURE;
        }
    }
    for (int place = 1; place < count; place++) {
        if (show(arguments[place], index) != EXIT_SUCCESS) {
            return EXIT_FAILURE;
        }
    }
    /* A full disk may show only when the last bytes leave the program. */
    if (fflush(stdout) != 0 || ferror(stdout)) {
        return failed("standard output");
    }
    return EXIT_SUCCESS;
}
