/*
 * The season report on trial sheets, for those who compare dryers by the season.
 *
 *   season SHEET...          prints it in columns
 *   season --csv SHEET...    prints it as comma-separated values with a header (RFC 4180), for a spreadsheet
 *
 * The library tells the outcome of each sheet, and counts them; this program reads the files and prints the numbers. A refused sheet is no fault: it is
 * counted as one. What a person can put right is said on standard error, in one line; nothing is printed then, and the exit status is 1. A sheet whose
 * name begins with two hyphens is given as ./--NAME.
 */
#include <errno.h>
#include <inttypes.h>
#include <stdio.h>
#include <stdlib.h>
#include <string.h>

#include "busdekker.h"
#include "command.h"

#define IN_PARTS "give them in parts, and add the tables up; of the largest take the larger"

/* Says what is wrong with a file. */
static void say_fault(const char *fault, const char *name, int number) {
    fprintf(stderr, "season: %s ", fault);
    say_argument(name);
    fprintf(stderr, ": %s\n", strerror(number));
}

/* Reads a sheet, and puts the four numbers of its outcome at `numbers`. Returns 0 after saying why it cannot be read. */
static int take_sheet(const char *name, uint16_t *numbers) {
    /* One byte more than the longest sheet, so that a longer file is known as one. */
    static uint8_t text[BUSDEKKER_LONGEST_SHEET + 1];
    FILE *file = fopen(name, "rb");
    if (file == NULL) {
        say_fault("cannot open", name, errno);
        return 0;
    }
    size_t length = fread(text, 1, sizeof text, file);
    int number = errno;
    int failed = ferror(file);
    fclose(file);
    if (failed) {
        say_fault("cannot read", name, number);
        return 0;
    }
    struct busdekker_outcome outcome = busdekker_sheet_outcome(text, length);
    numbers[0] = outcome.kind;
    numbers[1] = outcome.method;
    numbers[2] = outcome.answers;
    numbers[3] = outcome.quoted;
    return 1;
}

/* The outcomes of the sheets one after the other, which the caller frees. Returns NULL after saying why there are none. */
static uint16_t *take_sheets(char **sheets, size_t count) {
    uint16_t *numbers = calloc(count, BUSDEKKER_OUTCOME_NUMBERS * sizeof *numbers);
    if (numbers == NULL) {
        fprintf(stderr, "season: there is no memory for %zu sheets: " IN_PARTS "\n", count);
        return NULL;
    }
    for (size_t k = 0; k < count; k++) {
        if (!take_sheet(sheets[k], numbers + k * BUSDEKKER_OUTCOME_NUMBERS)) {
            free(numbers);
            return NULL;
        }
    }
    return numbers;
}

static void print_columns(const struct busdekker_tally *tallies) {
    static const char *const methods[BUSDEKKER_TALLIES] = {"0 house", "1 M", "2 R", "other"};
    printf("%-7s%12s%12s%12s%12s%12s%12s\n", "method", "stopped", "unfinished", "refused", "answers", "quoted", "largest");
    for (int k = 0; k < BUSDEKKER_TALLIES; k++) {
        printf("%-7s%12" PRIu32 "%12" PRIu32 "%12" PRIu32 "%12" PRIu32 "%12" PRIu32 "%12" PRIu32 "\n", methods[k], tallies[k].stopped,
               tallies[k].unfinished, tallies[k].refused, tallies[k].answers, tallies[k].quoted, tallies[k].largest);
    }
}

static void print_csv(const struct busdekker_tally *tallies) {
    static const char *const methods[BUSDEKKER_TALLIES] = {"0", "1", "2", "other"};
    printf("method,stopped,unfinished,refused,answers,quoted,largest\r\n");
    for (int k = 0; k < BUSDEKKER_TALLIES; k++) {
        printf("%s,%" PRIu32 ",%" PRIu32 ",%" PRIu32 ",%" PRIu32 ",%" PRIu32 ",%" PRIu32 "\r\n", methods[k], tallies[k].stopped, tallies[k].unfinished,
               tallies[k].refused, tallies[k].answers, tallies[k].quoted, tallies[k].largest);
    }
}

/* Prints the season report on the sheets. Returns 0 after saying why there is none. */
static int report(char **sheets, size_t count, int csv) {
    uint16_t *numbers = take_sheets(sheets, count);
    if (numbers == NULL) {
        return 0;
    }
    struct busdekker_season_report season = busdekker_season(numbers, count * BUSDEKKER_OUTCOME_NUMBERS);
    free(numbers);
    if (season.kind != BUSDEKKER_SEASON) {
        fprintf(stderr, "season: these are more than 10,000 sheets: " IN_PARTS "\n");
        return 0;
    }
    if (csv) {
        print_csv(season.tallies);
    } else {
        print_columns(season.tallies);
    }
    return write_out("season");
}

int main(int argc, char **argv) {
    if (!check_version("season")) {
        return 1;
    }
    int csv = argc > 1 && strcmp(argv[1], "--csv") == 0;
    char **sheets = argv + 1 + csv;
    int count = argc - 1 - csv;
    if (count < 1 || has_option(sheets, count)) {
        fprintf(stderr, "usage: season [--csv] SHEET...\n");
        return 1;
    }
    return report(sheets, (size_t)count, csv) ? 0 : 1;
}
