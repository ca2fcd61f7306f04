/*
 * The stack that the calls of include/busdekker.h need, measured. Each call is made by a function that does nothing else, on a stack that was
 * painted before; how far down the paint is gone, less what an empty function uses there, is what the call needs, with what its caller puts on
 * the stack to pass and return structs. Each call is tried at every answer of four long searches, by M and by R, without a share and with one,
 * and on refused openings; those on a dispatcher at every answer of a morning with six such searches; the season report on a run of 10,000
 * outcomes; those on a seed with a thousand seeds, those of the longest loads, and some that are refused; and the survey with every number of values,
 * with pairs and without, and refused. The program prints the largest figure for each call, and exits 1 if one is above its limit, BUSDEKKER_STACK
 * or BUSDEKKER_DISPATCHER_STACK.
 */
#define _XOPEN_SOURCE 700

#include <inttypes.h>
#include <stdio.h>
#include <string.h>
#include <ucontext.h>

#include "busdekker.h"

enum { STACK = 1 << 16, PAINT = 0xA5 };

/* The highest point. */
enum { HIGHEST = 60000 };

static unsigned char stack[STACK];
static ucontext_t here, there;

/* What the calls are made on, and the sum of what they answer. */
static struct busdekker_opening opening;
static struct busdekker_search search;
static struct busdekker_search old;
static int32_t point, value;
static char text[BUSDEKKER_LONGEST_SHEET];
static size_t length;
static uint8_t clean[BUSDEKKER_LONGEST_CLEAN_SHEET];
static uint16_t run[BUSDEKKER_MOST_OUTCOMES * BUSDEKKER_OUTCOME_NUMBERS];
static struct busdekker_dispatcher dispatcher, other_dispatcher;
static uint32_t dryer;
static uint32_t seed;
static int32_t surveyed[BUSDEKKER_MOST_SURVEYED + 1];
static size_t surveyed_length;
static int32_t pitch;
static uint32_t list[BUSDEKKER_MOST_PAIRS];
static uint32_t kinds;

static void nothing(void) {
    kinds += 1;
}

static void version(void) {
    kinds += busdekker_version();
}

static void quote(void) {
    kinds += busdekker_quote(opening).kind;
}

static void open_anew(void) {
    struct busdekker_search other = search;
    kinds += busdekker_open(&other, opening).kind;
}

static void enter(void) {
    kinds += busdekker_enter(&search, point, value).kind;
}

static void entered(void) {
    kinds += busdekker_entered(search, point, value).report.kind;
}

static void ask(void) {
    kinds += busdekker_ask(&search).kind;
}

static void values(void) {
    kinds += busdekker_values(opening, search.slots, search.count).kind;
}

static void sheet(void) {
    kinds += busdekker_sheet((const uint8_t *)text, length).kind;
}

/* Of the sheet, of one that lacks its last byte and is refused, and of no text. */
static void sheet_outcome(void) {
    kinds += busdekker_sheet_outcome((const uint8_t *)text, length).kind;
    kinds += busdekker_sheet_outcome((const uint8_t *)text, length - 1).kind;
    kinds += busdekker_sheet_outcome((const uint8_t *)text, 0).kind;
}

/* On the whole run, on one that is refused, and on no outcome. */
static void season(void) {
    kinds += busdekker_season(run, sizeof run / sizeof run[0]).kind;
    kinds += busdekker_season(run, sizeof run / sizeof run[0] - 1).kind;
    kinds += busdekker_season(run, 0).kind;
}

/* Into a buffer that is always enough, and into one that never is. */
static void write_clean(void) {
    kinds += busdekker_write(&search, clean, sizeof clean).kind;
    kinds += busdekker_write(&search, clean, 0).kind;
}

/* Of a copy with method 0, and of one that is refused. */
static void change_over(void) {
    old = search;
    old.opening.method = BUSDEKKER_HOUSE;
    kinds += busdekker_change_over(&old).kind;
    old.opening.method = 3;
    kinds += busdekker_change_over(&old).kind;
}

/* A read of all registers, an entry to a copy, one that is refused, an empty request, and a buffer that is too short. */
static void panel(void) {
    const uint8_t all[] = {3, 0, 0, 0, BUSDEKKER_REGISTERS};
    const uint8_t entry[] = {6, 0, 6, (uint8_t)((uint16_t)value >> 8), (uint8_t)value};
    const uint8_t refused[] = {6, 0, 6, 127, 255};
    old = search;
    kinds += busdekker_panel(&old, all, sizeof all, clean, BUSDEKKER_LONGEST_REPLY).kind;
    kinds += busdekker_panel(&old, refused, sizeof refused, clean, BUSDEKKER_LONGEST_REPLY).kind;
    kinds += busdekker_panel(&old, entry, sizeof entry, clean, BUSDEKKER_LONGEST_REPLY).kind;
    kinds += busdekker_panel(&old, all, 0, clean, BUSDEKKER_LONGEST_REPLY).kind;
    kinds += busdekker_panel(&old, all, sizeof all, clean, 0).kind;
}

static void load(void) {
    kinds += busdekker_load(seed).report.kind;
}

static void draw(void) {
    kinds += busdekker_draw(seed);
}

/* Into a list that is always enough, and into one that is only where there is no pair. */
static void survey(void) {
    kinds += busdekker_survey(0, pitch, surveyed, surveyed_length, list, BUSDEKKER_MOST_PAIRS).kind;
    kinds += busdekker_survey(0, pitch, surveyed, surveyed_length, list, 0).kind;
}

static void dispatch_fresh(void) {
    other_dispatcher = busdekker_dispatch_fresh();
}

static void dispatch_turn(void) {
    kinds += busdekker_dispatch_turn(&dispatcher);
}

/* For every dryer, whether its search has stopped or is on its way, and for one that is not there. */
static void dispatch_open(void) {
    for (uint32_t k = 0; k <= BUSDEKKER_DRYERS; k++) {
        kinds += busdekker_dispatch_open(&other_dispatcher, k, opening).kind;
    }
}

static void dispatch_ask(void) {
    for (uint32_t k = 0; k <= BUSDEKKER_DRYERS; k++) {
        kinds += busdekker_dispatch_ask(&dispatcher, k).kind;
    }
}

/* For a dryer that has not the turn, or is not there, and for the one that has it. */
static void dispatch_enter(void) {
    struct busdekker_answer answer = {point, value};
    kinds += busdekker_dispatch_enter(&dispatcher, dryer + 1, answer).kind;
    kinds += busdekker_dispatch_enter(&dispatcher, dryer, answer).kind;
}

/* The bytes of the painted stack that a function writes, or all of them where it could not be run there. */
static size_t used(void (*function)(void)) {
    size_t untouched = 0;
    memset(stack, PAINT, sizeof stack);
    if (getcontext(&there) != 0) {
        return sizeof stack;
    }
    there.uc_stack.ss_sp = stack;
    there.uc_stack.ss_size = sizeof stack;
    there.uc_link = &here;
    makecontext(&there, function, 0);
    if (swapcontext(&here, &there) != 0) {
        return sizeof stack;
    }
    while (untouched < sizeof stack && stack[untouched] == PAINT) {
        untouched++;
    }
    return sizeof stack - untouched;
}

struct call {
    const char *name;
    void (*function)(void);
    size_t most;
};

/* In each list the last is the one that changes the search or the dispatcher. */
static struct call on_searches[] = {
    {"busdekker_version", version, 0}, {"busdekker_quote", quote, 0},       {"busdekker_open", open_anew, 0},
    {"busdekker_entered", entered, 0}, {"busdekker_ask", ask, 0},           {"busdekker_values", values, 0},
    {"busdekker_sheet", sheet, 0},     {"busdekker_write", write_clean, 0}, {"busdekker_change_over", change_over, 0},
    {"busdekker_panel", panel, 0},     {"busdekker_season", season, 0},     {"busdekker_sheet_outcome", sheet_outcome, 0},
    {"busdekker_enter", enter, 0},
};
static struct call on_seeds[] = {{"busdekker_load", load, 0}, {"busdekker_draw", draw, 0}};
static struct call on_surveys[] = {{"busdekker_survey", survey, 0}};
static struct call on_dispatchers[] = {
    {"busdekker_dispatch_fresh", dispatch_fresh, 0}, {"busdekker_dispatch_turn", dispatch_turn, 0},
    {"busdekker_dispatch_open", dispatch_open, 0},   {"busdekker_dispatch_ask", dispatch_ask, 0},
    {"busdekker_dispatch_enter", dispatch_enter, 0},
};

enum { ON_SEARCHES = sizeof on_searches / sizeof on_searches[0], ON_DISPATCHERS = sizeof on_dispatchers / sizeof on_dispatchers[0] };
enum { ON_SEEDS = sizeof on_seeds / sizeof on_seeds[0], ON_SURVEYS = sizeof on_surveys / sizeof on_surveys[0] };

/* Each of the calls on what is now set. */
static void measure(struct call *calls, int count) {
    size_t empty = used(nothing);
    for (int k = 0; k < count; k++) {
        other_dispatcher = dispatcher;
        size_t bytes = used(calls[k].function) - empty;
        if (bytes > calls[k].most) {
            calls[k].most = bytes;
        }
    }
}

/* Prints the calls' figures, and tells how many are above the limit. */
static int above_limit(const struct call *calls, int count, size_t limit) {
    int above = 0;
    for (int k = 0; k < count; k++) {
        printf("%-24s %5zu bytes of stack\n", calls[k].name, calls[k].most);
        if (calls[k].most > limit) {
            fprintf(stderr, "stack: %s needs %zu bytes, and busdekker.h says %zu\n", calls[k].name, calls[k].most, limit);
            above++;
        }
    }
    return above;
}

/* A line of the sheet, or a part of one. */
static void write_line(const char *format, int32_t a, int32_t b) {
    length += (size_t)snprintf(text + length, sizeof text - length, format, a, b);
}

/* The answers of a long search: the value is small and mostly positive at every point but the first. */
static int32_t value_after(uint32_t taken) {
    return taken == 0 ? -10000 : taken % 7 == 6 ? -1 : 1 + (int32_t)(taken % 3);
}

/* Every answer of a long search from 0 to the highest point at the least tolerance. */
static void search_through(int32_t method, int32_t share) {
    opening = (struct busdekker_opening){method, 0, HIGHEST, 1, share};
    length = 0;
    write_line("%" PRId32 ",0,%" PRId32, method, HIGHEST);
    write_line(share == 0 ? ",%" PRId32 "\r\n" : ",%" PRId32 ",%" PRId32 "\r\n", opening.tolerance, share);
    struct busdekker_report report = busdekker_open(&search, opening);
    while (report.kind == BUSDEKKER_NEXT) {
        point = (int32_t)report.point;
        value = value_after(report.taken);
        measure(on_searches, ON_SEARCHES);
        write_line("%" PRId32 ",%" PRId32 "\r\n", point, value);
        report = busdekker_ask(&search);
    }
    measure(on_searches, ON_SEARCHES);
}

/* Every answer of six long searches on one dispatcher, by M and by R. */
static void morning_through(void) {
    dispatcher = busdekker_dispatch_fresh();
    measure(on_dispatchers, ON_DISPATCHERS);
    for (dryer = 0; dryer < BUSDEKKER_DRYERS; dryer++) {
        opening = (struct busdekker_opening){dryer % 2 == 0 ? BUSDEKKER_M : BUSDEKKER_R, 0, HIGHEST - (int32_t)dryer, 1, dryer < 4 ? 0 : 1};
        kinds += busdekker_dispatch_open(&dispatcher, dryer, opening).kind;
    }
    for (dryer = busdekker_dispatch_turn(&dispatcher); dryer != BUSDEKKER_NOBODY; dryer = busdekker_dispatch_turn(&dispatcher)) {
        struct busdekker_report report = busdekker_dispatch_ask(&dispatcher, dryer);
        point = (int32_t)report.point;
        value = value_after(report.taken);
        measure(on_dispatchers, ON_DISPATCHERS);
    }
    measure(on_dispatchers, ON_DISPATCHERS);
}

/* The seeds from 1 on, those with the longest loads, of 23 answers by M and by R, the largest, and some that are refused. */
static void seeds_through(void) {
    static const uint32_t others[] = {
        467267962,  632430209,  1195399133, 1869948444, 1051411030,             1098073067, 1280470691,
        1343969711, 1422603867, 1655497921, 0,          BUSDEKKER_LARGEST_SEED, 2147483647, UINT32_MAX,
    };
    for (seed = 1; seed <= 1000; seed++) {
        measure(on_seeds, ON_SEEDS);
    }
    for (size_t k = 0; k < sizeof others / sizeof others[0]; k++) {
        seed = others[k];
        measure(on_seeds, ON_SEEDS);
    }
}

/* The values of a survey: all on target, all above, by turns above and below, or all above but for the last, which is out of range. */
static void fill_survey(int leaf) {
    for (size_t k = 0; k < surveyed_length; k++) {
        surveyed[k] = leaf == 0 ? 0 : 1;
        if (leaf == 2 && k % 2 == 1) {
            surveyed[k] = -10000;
        }
    }
    if (leaf == 3 && surveyed_length > 0) {
        surveyed[surveyed_length - 1] = 10001;
    }
}

/* Surveys of every number of values, one too many included, by a pitch of 100 and by one that is refused. */
static void surveys_through(void) {
    for (surveyed_length = 0; surveyed_length <= BUSDEKKER_MOST_SURVEYED + 1; surveyed_length++) {
        for (int leaf = 0; leaf < 4; leaf++) {
            fill_survey(leaf);
            for (pitch = 0; pitch <= 100; pitch += 100) {
                measure(on_surveys, ON_SURVEYS);
            }
        }
    }
}

/* Outcomes of every kind, under every method and another, with any number of answers. */
static void fill_run(void) {
    for (size_t k = 0; k < sizeof run / sizeof run[0]; k += BUSDEKKER_OUTCOME_NUMBERS) {
        run[k] = (uint16_t)(k / 4 % 3);
        run[k + 1] = (uint16_t)(k / 12 % 4);
        run[k + 2] = (uint16_t)k;
        run[k + 3] = (uint16_t)(k + BUSDEKKER_SLOTS);
    }
}

int main(void) {
    fill_run();
    for (int32_t share = 0; share <= 1; share++) {
        search_through(BUSDEKKER_M, share);
        search_through(BUSDEKKER_R, share);
    }
    opening = (struct busdekker_opening){3, 0, HIGHEST, 1, 0};
    measure(on_searches, ON_SEARCHES);
    search.count = BUSDEKKER_SLOTS + 1;
    measure(on_searches, ON_SEARCHES);
    morning_through();
    seeds_through();
    surveys_through();
    int above = above_limit(on_searches, ON_SEARCHES, BUSDEKKER_STACK);
    above += above_limit(on_seeds, ON_SEEDS, BUSDEKKER_STACK);
    above += above_limit(on_surveys, ON_SURVEYS, BUSDEKKER_STACK);
    above += above_limit(on_dispatchers, ON_DISPATCHERS, BUSDEKKER_DISPATCHER_STACK);
    return above == 0 ? 0 : 1;
}
