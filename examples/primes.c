/* Prints the prime pseudoproducts of a table and how many on points each has. Standard input holds a stored table of at most six inputs. Standard output
 * gets a line for each prime, in the listing's order: its least point; the vectors that lead from there to all its points by XOR, or `-` if there is none;
 * and how many of its points are on, the others being free. Points and vectors have a digit 0 or 1 for every input, x1 first. If the table or the listing is
 * refused, nothing is printed there, `refused N` and why goes to standard error, with the place of the byte at fault where there is one, and the exit status
 * is 1. To build and run it, in the folder of the repository:
 *
 *     bash tools/build
 *     cc -Iinclude examples/primes.c target/staticlib/libglospruma.a -o target/primes
 *     target/bin/pla_to_table <examples/p5_free.pla | target/primes
 */
#include "glospruma.h"

#include <stdio.h>
#include <stdlib.h>

/* The input, with one byte more than the longest table has: a longer input then fills it, and is refused instead of being cut. */
static uint8_t input[GLOSPRUMA_TABLE_LENGTH + 1];

/* Rooms that suffice for every table, and for all primes. */
static uint16_t on[GLOSPRUMA_MAX_POINTS], free_points[GLOSPRUMA_MAX_POINTS];
static uint8_t records[GLOSPRUMA_LISTING_ROOM];

/* Says why, as `refused 21 at 5: bytes are missing`; a number without a place is printed without one. */
static int refused(unsigned number, size_t place) {
    fprintf(stderr, "refused %u", number);
    if (glospruma_refusal_has_place(number)) {
        fprintf(stderr, " at %zu", place);
    }
    fprintf(stderr, ": %s\n", glospruma_refusal_text(number));
    return EXIT_FAILURE;
}

/* The system could not read or write; it knows why. */
static int failed(const char *where) {
    perror(where);
    return EXIT_FAILURE;
}

/* A blank and a point or vector, x1 first. */
static void print_bits(unsigned bits, size_t n) {
    putchar(' ');
    for (size_t place = n; place-- > 0;) {
        putchar(bits >> place & 1 ? '1' : '0');
    }
}

/* The line of one prime: degree, least point, as many vectors as the degree, and last the number of on points. */
static void print_prime(const uint8_t *record, size_t n) {
    unsigned degree = record[0], count = record[GLOSPRUMA_RECORD_LENGTH - 1];
    printf("prime");
    print_bits(record[1], n);
    printf(" by");
    for (unsigned place = 0; place < degree; place++) {
        print_bits(record[2 + place], n);
    }
    printf("%s: %u of %u on\n", degree == 0 ? " -" : "", count, 1u << degree);
}

int main(void) {
    size_t length = fread(input, 1, sizeof input, stdin);
    if (ferror(stdin)) {
        return failed("standard input");
    }
    glospruma_table_read table = glospruma_read_table(input, length, on, GLOSPRUMA_MAX_POINTS, free_points, GLOSPRUMA_MAX_POINTS);
    if (table.refusal != GLOSPRUMA_ACCEPTED) {
        return refused(table.refusal, table.place);
    }
    /* Still to be refused: number 5, a table of more than six inputs. */
    glospruma_listed listed = glospruma_list_primes(table.variables, on, table.on_count, free_points, table.free_count, 0, UINT64_MAX, records,
                                                    sizeof records);
    if (listed.refusal != GLOSPRUMA_ACCEPTED) {
        return refused(listed.refusal, 0);
    }
    for (size_t number = 0; number < listed.records; number++) {
        print_prime(records + number * GLOSPRUMA_RECORD_LENGTH, table.variables);
    }
    /* A full disk may show only when the last bytes leave the program. */
    if (fflush(stdout) != 0 || ferror(stdout)) {
        return failed("standard output");
    }
    return EXIT_SUCCESS;
}
