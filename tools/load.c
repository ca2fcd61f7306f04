/*
 * The clean sheet of a trial load, for those who try a panel with made-up leaf.
 *
 *   load SEED    writes it on standard output
 *
 * SEED is a whole number in decimal digits, with no sign, no space and no leading zero. The same seed always gives the same bytes. The library tells
 * which numbers are seeds, makes the load and writes its sheet; this program reads the number and prints the bytes. What a person can put right is said
 * on standard error, in one line; nothing is printed then, and the exit status is 1.
 */
#include <stdio.h>
#include <stdlib.h>

#include "busdekker.h"
#include "command.h"

/* Reads a whole number into *number. Returns 0 where the text is none, or one of more than 32 bits, which is no seed either. */
static int read_number(const char *text, uint32_t *number) {
    if (!is_number(text)) {
        return 0;
    }
    /* Where the number is too large for this too, strtoull gives the largest that it has. */
    unsigned long long wide = strtoull(text, NULL, 10);
    if (wide > UINT32_MAX) {
        return 0;
    }
    *number = (uint32_t)wide;
    return 1;
}

/* Prints the clean sheet of the load. Returns 0, and prints nothing, where the library refuses the seed. */
static int print_load(uint32_t seed) {
    uint8_t sheet[BUSDEKKER_LONGEST_CLEAN_SHEET];
    struct busdekker_answered load = busdekker_load(seed);
    if (load.report.kind == BUSDEKKER_REFUSED) {
        return 0;
    }
    /* This is never refused: a load is an accepted search, and the buffer takes the clean sheet of every search. */
    struct busdekker_written written = busdekker_write(&load.search, sheet, sizeof sheet);
    fwrite(sheet, 1, written.length, stdout);
    return 1;
}

int main(int argc, char **argv) {
    if (!check_version("load")) {
        return 1;
    }
    if (argc != 2 || has_option(argv + 1, 1)) {
        fprintf(stderr, "usage: load SEED\n");
        return 1;
    }
    uint32_t seed;
    if (!read_number(argv[1], &seed) || !print_load(seed)) {
        fprintf(stderr, "load: ");
        say_argument(argv[1]);
        fprintf(stderr, " is no seed: give a number from 1 to %d in digits alone, with no leading zero\n", BUSDEKKER_LARGEST_SEED);
        return 1;
    }
    return write_out("load") ? 0 : 1;
}
