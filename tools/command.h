/*
 * What the commands here share: the version of the archive, what an option and what a number is, an argument put into words, and standard output written
 * out. A function that may find a fault takes the command's name, and says the fault on standard error, in one line.
 */
#ifndef TOOLS_COMMAND_H
#define TOOLS_COMMAND_H

#include <ctype.h>
#include <errno.h>
#include <stdio.h>
#include <string.h>

#include "busdekker.h"

/* Looks whether header and archive belong together. Returns 0 after saying that they do not. */
static int check_version(const char *command) {
    if (busdekker_version() != BUSDEKKER_VERSION) {
        fprintf(stderr, "%s: header and archive are of different versions; make builds it again with those that belong together\n", command);
        return 0;
    }
    return 1;
}

/* Whether one of the arguments is an option: it begins with two hyphens. */
static int has_option(char **arguments, int count) {
    for (int k = 0; k < count; k++) {
        if (strncmp(arguments[k], "--", 2) == 0) {
            return 1;
        }
    }
    return 0;
}

/* Whether a text is a whole number in its one spelling: decimal digits, with no leading zero. A command that takes none leaves it unused. */
static inline int is_number(const char *text) {
    size_t digits = strspn(text, "0123456789");
    int leading_zero = text[0] == '0' && digits > 1;
    return digits > 0 && text[digits] == '\0' && !leading_zero;
}

/* Says an argument, between quotes, in the middle of a line. A control character in it is shown as '?', so that the line stays one. */
static void say_argument(const char *argument) {
    putc('\'', stderr);
    for (; *argument != '\0'; argument++) {
        putc(iscntrl((unsigned char)*argument) ? '?' : *argument, stderr);
    }
    putc('\'', stderr);
}

/* Writes out what was printed. Returns 0 after saying that this failed, now or before. */
static int write_out(const char *command) {
    int failed = ferror(stdout);
    if (fclose(stdout) != 0 || failed) {
        fprintf(stderr, "%s: standard output cannot be written: %s\n", command, strerror(errno));
        return 0;
    }
    return 1;
}

#endif
