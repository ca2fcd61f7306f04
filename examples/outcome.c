/*
 * Reads a trial sheet from the file that its argument names, and prints the outcome in words. A file that cannot be read is said on standard
 * error, and the exit status is then 1.
 */
#include <inttypes.h>
#include <stdio.h>

#include "busdekker.h"
#include "refusals.h"

/* One byte more than the longest sheet, so that a longer file is known as one. */
static uint8_t text[BUSDEKKER_LONGEST_SHEET + 1];

static void print_refusal(struct busdekker_report report) {
    if (report.place == 0) {
        printf("refused: %s\n", refusal_in_words(report.number));
    } else {
        printf("refused: record %" PRIu32 ", %s\n", report.place, refusal_in_words(report.number));
    }
}

static void print_outcome(struct busdekker_report report) {
    switch (report.kind) {
    case BUSDEKKER_NEXT:
        printf("after %" PRIu32 " trials: dry the next at %" PRIu32 ".%02" PRIu32 " degrees\n", report.taken, report.point / 100, report.point % 100);
        break;
    case BUSDEKKER_STOP:
        printf("stop after %" PRIu32 " trials: the target lies from %" PRIu32 ".%02" PRIu32 " to %" PRIu32 ".%02" PRIu32 " degrees, and the %s end is "
               "the better\n",
               report.taken, report.lower / 100, report.lower % 100, report.upper / 100, report.upper % 100,
               report.better == report.lower ? "lower" : "upper");
        break;
    default:
        print_refusal(report);
        break;
    }
}

int main(int argc, char **argv) {
    if (argc != 2) {
        fprintf(stderr, "usage: outcome SHEET\n");
        return 1;
    }
    FILE *file = fopen(argv[1], "rb");
    if (file == NULL) {
        fprintf(stderr, "outcome: cannot open %s\n", argv[1]);
        return 1;
    }
    size_t length = fread(text, 1, sizeof text, file);
    int failed = ferror(file);
    fclose(file);
    if (failed) {
        fprintf(stderr, "outcome: cannot read %s\n", argv[1]);
        return 1;
    }
    print_outcome(busdekker_sheet(text, length));
    return 0;
}
