/*
 * A controller's loop. It quotes and opens a search by M from 60.00 to 120.00 degrees with a tolerance of 0.50, asks the crew for a trial at
 * each setting called for, and enters what they bring. What is refused is said in words, and the same trial is asked for again. At the stop it
 * says between which settings the target lies, and which of the two is the better end, and prints the sheet to send with the lot.
 *
 * The crew is made up here. They make three mistakes: a new opening mistyped in the middle of the search, a value without its decimal point,
 * and a slip of the run before.
 */
#include <inttypes.h>
#include <stdio.h>

#include "busdekker.h"
#include "refusals.h"

static const struct busdekker_opening range = {BUSDEKKER_M, 6000, 12000, 50, 0};

/* What the crew enters. */
struct slip {
    int32_t setting;
    int32_t value;
};

/* Moisture minus target at a setting: the hotter, the drier, and on target at 87.30 degrees. */
static int32_t moisture_at(int32_t setting) {
    int32_t below = 8730 - setting;
    return below / 3 + below / 100 * (below / 100) * (below / 100) / 40;
}

/* The crew's slip for a setting called for. The second has no decimal point, and the fourth is one of the run before. */
static struct slip ask_crew(int32_t setting) {
    static int slips = 0;
    struct slip slip = {setting, moisture_at(setting)};
    slips++;
    if (slips == 2) {
        slip.value *= 100;
    } else if (slips == 4) {
        slip.setting = 9000;
    }
    return slip;
}

static void print_degrees(const char *before, uint32_t setting, const char *after) {
    printf("%s%" PRIu32 ".%02" PRIu32 "%s", before, setting / 100, setting % 100, after);
}

/* Enters slips until the search stops, and returns its last report. */
static struct busdekker_report run(struct busdekker_search *search) {
    struct busdekker_report report = busdekker_ask(search);
    while (report.kind == BUSDEKKER_NEXT) {
        print_degrees("dry a trial at ", report.point, " degrees\n");
        struct slip slip = ask_crew((int32_t)report.point);
        report = busdekker_enter(search, slip.setting, slip.value);
        if (report.kind == BUSDEKKER_REFUSED) {
            printf("  refused: %s; once more\n", refusal_in_words(report.number));
            report = busdekker_ask(search);
        }
    }
    return report;
}

/* A new opening in the place of a search on its way. One that is refused leaves the search as it was. */
static void mistype_opening(struct busdekker_search *search) {
    struct busdekker_opening mistyped = {BUSDEKKER_M, 6000, 6000, 50, 0};
    struct busdekker_report report = busdekker_open(search, mistyped);
    if (report.kind == BUSDEKKER_REFUSED) {
        printf("new opening refused: %s\n", refusal_in_words(report.number));
    }
    printf("the search goes on; trials taken: %" PRIu32 "\n", busdekker_ask(search).taken);
}

/* Prints the clean sheet of the search. Returns 0 where that fails. */
static int print_sheet(const struct busdekker_search *search) {
    uint8_t sheet[BUSDEKKER_LONGEST_CLEAN_SHEET];
    struct busdekker_written written = busdekker_write(search, sheet, sizeof sheet);
    if (written.kind != BUSDEKKER_WRITTEN) {
        fprintf(stderr, "controller: no sheet is written: %s\n", refusal_in_words(written.number));
        return 0;
    }
    printf("the sheet to send with the lot, %" PRIu32 " bytes:\n", written.length);
    return fwrite(sheet, 1, written.length, stdout) == written.length;
}

int main(void) {
    if (busdekker_version() != BUSDEKKER_VERSION) {
        fprintf(stderr, "controller: header and archive are of different versions\n");
        return 1;
    }
    struct busdekker_quotation quotation = busdekker_quote(range);
    if (quotation.kind == BUSDEKKER_REFUSED) {
        fprintf(stderr, "controller: the opening is refused: %s\n", refusal_in_words(quotation.number));
        return 1;
    }
    printf("at most %" PRIu32 " trials will be needed\n", quotation.most);

    struct busdekker_search search;
    struct busdekker_report report = busdekker_open(&search, range);
    print_degrees("dry a trial at ", report.point, " degrees\n");
    struct slip slip = ask_crew((int32_t)report.point);
    busdekker_enter(&search, slip.setting, slip.value);
    mistype_opening(&search);

    report = run(&search);
    if (report.kind != BUSDEKKER_STOP) {
        fprintf(stderr, "controller: the search is refused: %s\n", refusal_in_words(report.number));
        return 1;
    }
    print_degrees("stop: the target lies from ", report.lower, "");
    print_degrees(" to ", report.upper, " degrees");
    print_degrees("; the better end is ", report.better, " degrees");
    printf(", after %" PRIu32 " trials\n", report.taken);

    /* The values alone get the same report, and an answer more is refused; by value the search here is not touched at all. */
    struct busdekker_report listed = busdekker_values(search.opening, search.slots, search.count);
    struct busdekker_answered more = busdekker_entered(search, (int32_t)report.better, 0);
    printf("over its values: %s\n", listed.kind == BUSDEKKER_STOP && listed.better == report.better ? "the same" : "something else");
    printf("one trial more: refused, %s\n", refusal_in_words(more.report.number));
    return print_sheet(&search) ? 0 : 1;
}
