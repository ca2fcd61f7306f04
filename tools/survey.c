/*
 * The survey of the range, for a crew at the dryer with leaf of which nothing is known.
 *
 *   survey LOWEST PITCH [TOLERANCE [METHOD]] < VALUES    prints the pairs of neighbours to search between, each with the first records of its sheet
 *
 * The numbers are what they are in sheets; TOLERANCE is 25 and METHOD 0 where they are not given. The first value was measured at LOWEST, and each of the
 * others PITCH above the one before; blanks, tabs or line ends stand between them. A number is decimal digits, after a minus where it is below 0, with no
 * plus, no leading zero and no -0. The library tells what is out of range, finds the pairs and writes the records; this program reads the numbers and prints
 * the bytes. What a person can put right is said on standard error, in one line; nothing is printed then, and the exit status is 1.
 */
#include <ctype.h>
#include <errno.h>
#include <inttypes.h>
#include <stdio.h>
#include <stdlib.h>
#include <string.h>

#include "busdekker.h"
#include "command.h"

/* The arguments, in their order. */
enum { LOWEST, PITCH, TOLERANCE, METHOD, ARGUMENTS };

/* One value more than the longest survey has, so that a longer one is known as such. What follows is not read. */
#define MOST_READ (BUSDEKKER_MOST_SURVEYED + 1)

/* The bytes of a word that are kept, to be read and to be shown. A number that has more is out of range, and so is the one that these make. */
#define KEPT 40

/* A word on standard input: the bytes that are kept, and whether all that follow them are digits. */
struct word {
    char text[KEPT + 1];
    int digits_follow;
};

/* Reads a whole number into *number; of one that 32 bits do not hold, the nearest that they do. Returns 0 where the text is none. */
static int read_number(const char *text, int32_t *number) {
    const char *digits = text[0] == '-' ? text + 1 : text;
    if (!is_number(digits) || strcmp(text, "-0") == 0) {
        return 0;
    }
    /* Where the number is too large for this too, strtoll gives the nearest that it has. */
    long long wide = strtoll(text, NULL, 10);
    *number = wide < INT32_MIN ? INT32_MIN : wide > INT32_MAX ? INT32_MAX : (int32_t)wide;
    return 1;
}

/* Reads the arguments that are given. Returns 0 after saying which is no number. */
static int take_arguments(char **arguments, int count, int32_t *numbers) {
    for (int k = 0; k < count; k++) {
        if (!read_number(arguments[k], &numbers[k])) {
            fprintf(stderr, "survey: ");
            say_argument(arguments[k]);
            fprintf(stderr, " is no whole number: give it in digits alone, with no leading zero, as 6000 for 60.00 degrees\n");
            return 0;
        }
    }
    return 1;
}

/* Looks whether sheets have such a method and tolerance, before any trial is read. Returns 0 after saying which of them is wrong. */
static int check_opening(int32_t method, int32_t tolerance) {
    struct busdekker_opening whole_range = {method, 0, 60000, tolerance, 0};
    struct busdekker_quotation quotation = busdekker_quote(whole_range);
    if (quotation.number == BUSDEKKER_UNKNOWN_METHOD) {
        fprintf(stderr, "survey: the method is not 0, 1 or 2\n");
        return 0;
    }
    if (quotation.number == BUSDEKKER_TOLERANCE_OUT_OF_RANGE) {
        fprintf(stderr, "survey: the tolerance is not from 1 to 5000\n");
        return 0;
    }
    return 1;
}

static int is_separator(int byte) {
    return byte == ' ' || byte == '\t' || byte == '\n' || byte == '\r';
}

/* Reads the next word on standard input. Returns 0 where there is none, or where it cannot be read. */
static int next_word(struct word *word) {
    size_t length = 0;
    int byte = getchar();
    while (is_separator(byte)) {
        byte = getchar();
    }
    word->digits_follow = 1;
    for (; byte != EOF && !is_separator(byte); byte = getchar()) {
        if (length < KEPT) {
            /* A byte 0 would end the text. It is kept as it would be shown, and no number has either. */
            word->text[length++] = byte == '\0' ? '?' : (char)byte;
        } else if (!isdigit(byte)) {
            word->digits_follow = 0;
        }
    }
    word->text[length] = '\0';
    return length > 0 && !ferror(stdin);
}

/* Reads the values, MOST_READ at most, and puts their number at *count. Returns 0 after saying which is no number, or that they cannot be read. */
static int take_values(int32_t *values, size_t *count) {
    struct word word;
    size_t taken = 0;
    while (taken < MOST_READ && next_word(&word)) {
        if (!word.digits_follow || !read_number(word.text, &values[taken])) {
            fprintf(stderr, "survey: value %zu, ", taken + 1);
            say_argument(word.text);
            fprintf(stderr, ", is no whole number: give it in digits alone, with a minus where it is below 0, and no leading zero\n");
            return 0;
        }
        taken++;
    }
    if (ferror(stdin)) {
        fprintf(stderr, "survey: standard input cannot be read: %s\n", strerror(errno));
        return 0;
    }
    *count = taken;
    return 1;
}

/* Says why the library refuses the survey. It is never 22: the list takes the pairs of every survey. */
static void say_refusal(struct busdekker_surveyed surveyed, size_t count, char **arguments) {
    fprintf(stderr, "survey: refused, %" PRIu32 ": ", surveyed.number);
    if (surveyed.number == BUSDEKKER_VALUE_OUT_OF_RANGE) {
        fprintf(stderr, "value %" PRIu32 " is not from -10000 to 10000\n", surveyed.place + 1);
        return;
    }
    fprintf(stderr, "a survey has %d to %d values, a pitch of 1 or more and points from 0 to 60000; this one has ", BUSDEKKER_FEWEST_SURVEYED,
            BUSDEKKER_MOST_SURVEYED);
    if (count > BUSDEKKER_MOST_SURVEYED) {
        fprintf(stderr, "more than %d values from ", BUSDEKKER_MOST_SURVEYED);
    } else {
        fprintf(stderr, "%zu value%s from ", count, count == 1 ? "" : "s");
    }
    say_argument(arguments[LOWEST]);
    fprintf(stderr, " by ");
    say_argument(arguments[PITCH]);
    putc('\n', stderr);
}

/* Prints a pair, with the first three records of a sheet for it: the opening, and the two values at its ends. */
static void print_pair(uint32_t number, struct busdekker_opening opening, const int32_t *ends) {
    struct busdekker_search search;
    uint8_t sheet[BUSDEKKER_LONGEST_CLEAN_SHEET];
    /* None of these is refused: a pair opens a search that accepts its two values, and the buffer takes the clean sheet of every search. */
    busdekker_open(&search, opening);
    busdekker_enter(&search, opening.first, ends[0]);
    busdekker_enter(&search, opening.second, ends[1]);
    struct busdekker_written written = busdekker_write(&search, sheet, sizeof sheet);
    printf("pair %" PRIu32 ": %" PRId32 " to %" PRId32 "\n", number, opening.first, opening.second);
    fwrite(sheet, 1, written.length, stdout);
}

/* Prints how many values there were, with the first point and the last, and the pairs of the survey. Returns 0 after saying why it is refused. */
static int print_pairs(const int32_t *numbers, const int32_t *values, size_t count, char **arguments) {
    uint32_t list[BUSDEKKER_MOST_PAIRS];
    struct busdekker_surveyed surveyed = busdekker_survey(numbers[LOWEST], numbers[PITCH], values, count, list, BUSDEKKER_MOST_PAIRS);
    if (surveyed.kind != BUSDEKKER_SURVEYED) {
        say_refusal(surveyed, count, arguments);
        return 0;
    }
    int64_t last = numbers[LOWEST] + ((int64_t)count - 1) * numbers[PITCH];
    printf("values: %zu, from %" PRId32 " to %" PRId64 "\n", count, numbers[LOWEST], last);
    printf("pairs: %" PRIu32 "\n", surveyed.pairs);
    for (uint32_t k = 0; k < surveyed.pairs; k++) {
        int32_t lower = (int32_t)list[k];
        struct busdekker_opening opening = {numbers[METHOD], lower, lower + numbers[PITCH], numbers[TOLERANCE], 0};
        print_pair(k + 1, opening, values + (lower - numbers[LOWEST]) / numbers[PITCH]);
    }
    return 1;
}

int main(int argc, char **argv) {
    int32_t numbers[ARGUMENTS] = {[TOLERANCE] = 25, [METHOD] = BUSDEKKER_HOUSE};
    int32_t values[MOST_READ];
    size_t count;
    char **arguments = argv + 1;
    int given = argc - 1;
    if (!check_version("survey")) {
        return 1;
    }
    if (given < 2 || given > ARGUMENTS || has_option(arguments, given)) {
        fprintf(stderr, "usage: survey LOWEST PITCH [TOLERANCE [METHOD]] < VALUES\n");
        return 1;
    }
    if (!take_arguments(arguments, given, numbers) || !check_opening(numbers[METHOD], numbers[TOLERANCE]) || !take_values(values, &count)) {
        return 1;
    }
    return print_pairs(numbers, values, count, arguments) && write_out("survey") ? 0 : 1;
}
