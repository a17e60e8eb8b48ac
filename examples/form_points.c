/* Prints the points at which a form is true. Standard input holds the form's bytes; standard output gets the number of variables and the points,
 * rising, `-` if there are none. If the bytes aren't a form, nothing is printed there, `refused N`, the place of the byte at fault and why go to
 * standard error, and the exit status is 1. To build and run it, in the folder of the repository:
 *
 *     bash tools/build glospruma
 *     cc -Iinclude examples/form_points.c target/staticlib/libglospruma.a -o target/form_points
 *     printf 'N\003PX\001\007\000E\001\000' | target/form_points
 */
#include "glospruma.h"

#include <stdio.h>
#include <stdlib.h>

/* The input, with one byte more than the longest form has: a longer input then fills it, and is refused instead of being cut. */
static uint8_t input[GLOSPRUMA_FORM_ROOM + 1];

/* Room that suffices for the points of every form, so that the call is never refused for want of room. */
static uint16_t points[GLOSPRUMA_MAX_POINTS];

/* The system could not read or write; it knows why. */
static int failed(const char *where) {
    perror(where);
    return EXIT_FAILURE;
}

int main(void) {
    size_t length = fread(input, 1, sizeof input, stdin);
    if (ferror(stdin)) {
        return failed("standard input");
    }
    glospruma_points_read form = glospruma_form_points(input, length, points, GLOSPRUMA_MAX_POINTS);
    if (form.refusal != GLOSPRUMA_ACCEPTED) {
        /* The room suffices, so that a place goes with every number that is left. */
        fprintf(stderr, "refused %u at %zu: %s\n", (unsigned)form.refusal, form.place, glospruma_refusal_text(form.refusal));
        return EXIT_FAILURE;
    }
    printf("variables %u\npoints%s", (unsigned)form.variables, form.count == 0 ? " -" : "");
    for (size_t place = 0; place < form.count; place++) {
        printf(" %u", (unsigned)points[place]);
    }
    printf("\n");
    /* A full disk may show only when the last bytes leave the program. */
    if (fflush(stdout) != 0 || ferror(stdout)) {
        return failed("standard output");
    }
    return EXIT_SUCCESS;
}
