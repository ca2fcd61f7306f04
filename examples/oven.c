/*
 * Six dryers and one oven. Each dryer's search is opened on the one dispatcher; then the oven's turn is asked for, the crew that has it brings a
 * trial, and what is refused is said in words, until all six have stopped. At the end it says each dryer's two settings, and how many runs of
 * the oven were served, for each dryer and in all.
 *
 * The crews are made up here. They make four mistakes: an opening for a dryer that is not there, one for a search that is on its way, leaf
 * brought out of turn, and a value without its decimal point.
 */
#include <inttypes.h>
#include <stdio.h>

#include "busdekker.h"
#include "refusals.h"

/* A dryer: its opening, and the setting at which its leaf comes out on target. Dryer 4 is a roaster: its opening has a share. */
struct dryer {
    struct busdekker_opening opening;
    int32_t on_target;
};

static const struct dryer dryers[BUSDEKKER_DRYERS] = {
    {{BUSDEKKER_M, 6000, 12000, 100, 0}, 8730}, {{BUSDEKKER_R, 6000, 12000, 100, 0}, 9415},  {{BUSDEKKER_HOUSE, 8000, 9500, 50, 0}, 8802},
    {{BUSDEKKER_M, 12000, 7000, 100, 0}, 7100}, {{BUSDEKKER_R, 18000, 26000, 25, 2}, 21760}, {{BUSDEKKER_M, 9000, 9150, 100, 0}, 9080},
};

/* Moisture minus target of a dryer's leaf at a setting: the hotter, the drier. */
static int32_t moisture_at(uint32_t dryer, int32_t setting) {
    int32_t below = dryers[dryer].on_target - setting;
    return below / 3 + below / 100 * (below / 100) * (below / 100) / 100;
}

static void print_degrees(const char *before, uint32_t setting, const char *after) {
    printf("%s%" PRIu32 ".%02" PRIu32 "%s", before, setting / 100, setting % 100, after);
}

/* Says a refusal in words, and nothing of what is accepted. */
static void print_refusal(const char *what, uint32_t dryer, struct busdekker_report report) {
    if (report.kind == BUSDEKKER_REFUSED) {
        printf("  %s dryer %" PRIu32 " refused: %s\n", what, dryer, refusal_in_words(report.number));
    }
}

/* Opens a search at each dryer, and by mistake at a seventh and once more at one that has begun. */
static void open_all(struct busdekker_dispatcher *dispatcher) {
    for (uint32_t dryer = 0; dryer < BUSDEKKER_DRYERS; dryer++) {
        struct busdekker_report report = busdekker_dispatch_open(dispatcher, dryer, dryers[dryer].opening);
        print_refusal("opening for", dryer, report);
    }
    printf("a search is opened at each of %d dryers\n", BUSDEKKER_DRYERS);
    print_refusal("opening for", 6, busdekker_dispatch_open(dispatcher, 6, dryers[0].opening));
    print_refusal("opening for", 2, busdekker_dispatch_open(dispatcher, 2, dryers[0].opening));
}

/* The crew's answer at the setting called for. The ninth has no decimal point. */
static struct busdekker_answer ask_crew(uint32_t dryer, int32_t setting) {
    static int slips = 0;
    struct busdekker_answer answer = {setting, moisture_at(dryer, setting)};
    slips++;
    if (slips == 9) {
        answer.value *= 100;
    }
    return answer;
}

/* The crew of a dryer that has not the turn brings its leaf. */
static void bring_out_of_turn(struct busdekker_dispatcher *dispatcher, uint32_t dryer) {
    int32_t setting = (int32_t)busdekker_dispatch_ask(dispatcher, dryer).point;
    struct busdekker_answer answer = {setting, moisture_at(dryer, setting)};
    print_refusal("leaf of", dryer, busdekker_dispatch_enter(dispatcher, dryer, answer));
}

/* One turn: a trial of this dryer is dried and entered. A refused one leaves the turn where it is. */
static void take_turn(struct busdekker_dispatcher *dispatcher, uint32_t dryer) {
    uint32_t setting = busdekker_dispatch_ask(dispatcher, dryer).point;
    printf("oven: dryer %" PRIu32, dryer);
    print_degrees(", a trial at ", setting, " degrees\n");
    struct busdekker_report report = busdekker_dispatch_enter(dispatcher, dryer, ask_crew(dryer, (int32_t)setting));
    print_refusal("value of", dryer, report);
    if (report.kind == BUSDEKKER_STOP) {
        printf("  dryer %" PRIu32 " has stopped\n", dryer);
    }
}

/* Says where a dryer's target lies. Returns 0 where its search has not stopped. */
static int print_settings(const struct busdekker_dispatcher *dispatcher, uint32_t dryer) {
    struct busdekker_report report = busdekker_dispatch_ask(dispatcher, dryer);
    if (report.kind != BUSDEKKER_STOP) {
        fprintf(stderr, "oven: the search of dryer %" PRIu32 " has not stopped\n", dryer);
        return 0;
    }
    printf("dryer %" PRIu32, dryer);
    print_degrees(": the target lies from ", report.lower, "");
    print_degrees(" to ", report.upper, " degrees");
    print_degrees("; run it at ", report.better, " degrees");
    printf(" (%" PRIu32 " trials)\n", report.taken);
    return 1;
}

/* Says how many runs of the oven were served for each dryer, whose crew pays for them, and in all. A value that is refused is not counted, only
 * the one that is then taken: dryer 2 was asked twice for one. */
static void print_oven_runs(const struct busdekker_dispatcher *dispatcher) {
    uint64_t sum = 0;
    for (uint32_t dryer = 0; dryer < BUSDEKKER_DRYERS; dryer++) {
        printf("oven runs served for dryer %" PRIu32 ": %" PRIu32 "\n", dryer, dispatcher->counts[dryer]);
        sum += dispatcher->counts[dryer];
    }
    printf("oven runs served: %" PRIu64 "\n", sum);
}

int main(void) {
    if (busdekker_version() != BUSDEKKER_VERSION) {
        fprintf(stderr, "oven: header and archive are of different versions\n");
        return 1;
    }
    struct busdekker_dispatcher dispatcher = busdekker_dispatch_fresh();
    open_all(&dispatcher);
    bring_out_of_turn(&dispatcher, 3);
    for (uint32_t dryer = busdekker_dispatch_turn(&dispatcher); dryer != BUSDEKKER_NOBODY; dryer = busdekker_dispatch_turn(&dispatcher)) {
        take_turn(&dispatcher, dryer);
    }
    for (uint32_t dryer = 0; dryer < BUSDEKKER_DRYERS; dryer++) {
        if (!print_settings(&dispatcher, dryer)) {
            return 1;
        }
    }
    print_oven_runs(&dispatcher);
    return 0;
}
