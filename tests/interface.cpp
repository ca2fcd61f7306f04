// The header in C++: it is included, every function is called, and the program links. It prints nothing and exits 0, or 1 if an answer is not
// the one expected.
#include "busdekker.h"

#include <cstring>
#include <initializer_list>
#include <random>
#include <string>
#include <vector>

#include <sys/mman.h>
#include <unistd.h>

static_assert(BUSDEKKER_LONGEST_CLEAN_SHEET == 1102, "the longest clean sheet has 1,102 bytes");
static_assert(BUSDEKKER_FEWEST_SURVEYED == 2 && BUSDEKKER_MOST_SURVEYED == 600, "a survey has 2 to 600 values");
static_assert(BUSDEKKER_MOST_PAIRS == 599, "a survey has up to 599 pairs");
static_assert(BUSDEKKER_SURVEYED == 7 && BUSDEKKER_MISPLACED_SURVEY == 21 && BUSDEKKER_LIST_TOO_SHORT == 22, "what is told of a survey has these numbers");

// The highest point.
static const int32_t highest = 60000;

static busdekker_report sheet(const std::string &text) {
    return busdekker_sheet(reinterpret_cast<const uint8_t *>(text.data()), text.size());
}

// The highest point is taken as an end, and the one above it refused, by each call that takes an opening. The search stays as it was then.
static bool limits_of_ends() {
    const busdekker_opening widest = {BUSDEKKER_R, highest, 0, 1, 0};
    const busdekker_opening first_above = {BUSDEKKER_R, highest + 1, 0, 1, 0};
    const busdekker_opening second_above = {BUSDEKKER_R, 0, highest + 1, 1, 0};
    busdekker_search search;
    busdekker_dispatcher dispatcher = busdekker_dispatch_fresh();
    bool same = busdekker_quote(widest).t == 15 && busdekker_quote(widest).most == BUSDEKKER_SLOTS;
    same = same && busdekker_open(&search, widest).point == highest;
    same = same && busdekker_values(widest, search.slots, 0).point == highest;
    same = same && busdekker_dispatch_open(&dispatcher, 0, widest).point == highest;
    for (const busdekker_opening above : {first_above, second_above}) {
        same = same && busdekker_quote(above).number == BUSDEKKER_END_OUT_OF_RANGE;
        same = same && busdekker_open(&search, above).number == BUSDEKKER_END_OUT_OF_RANGE;
        same = same && busdekker_values(above, search.slots, 0).number == BUSDEKKER_END_OUT_OF_RANGE;
        same = same && busdekker_dispatch_open(&dispatcher, 1, above).number == BUSDEKKER_END_OUT_OF_RANGE;
    }
    return same && busdekker_ask(&search).point == highest;
}

// A count of all the slots is judged by its answers, of which this search takes two; a count of one more is refused 9.
static bool limits_of_counts(busdekker_opening opening) {
    uint8_t buffer[BUSDEKKER_LONGEST_CLEAN_SHEET];
    busdekker_search search;
    bool same = busdekker_open(&search, opening).kind == BUSDEKKER_NEXT;
    search.slots[0] = -1;
    search.slots[1] = 1;
    for (const uint32_t above : {0, 1}) {
        const uint32_t number = above == 0 ? BUSDEKKER_HAD_STOPPED : BUSDEKKER_COUNT_ABOVE_SLOTS;
        search.count = BUSDEKKER_SLOTS + above;
        same = same && busdekker_ask(&search).number == number && busdekker_enter(&search, 0, 0).number == number;
        same = same && busdekker_entered(search, 0, 0).report.number == number;
        same = same && busdekker_write(&search, buffer, sizeof buffer).number == number;
    }
    return same;
}

// A share of 100 is taken, and one outside 0 to 100 refused by each call that takes an opening, after a tolerance out of range. A search that
// holds such a share, and a sheet with it, are refused so too. The quotation is the same with a share of 100 and of 0.
static bool limits_of_shares() {
    const busdekker_opening roaster = {BUSDEKKER_M, 1000, 1250, 1, 100}, dryer = {BUSDEKKER_M, 1000, 1250, 1, 0};
    uint8_t buffer[BUSDEKKER_LONGEST_CLEAN_SHEET];
    busdekker_search search;
    busdekker_dispatcher dispatcher = busdekker_dispatch_fresh();
    bool same = busdekker_open(&search, roaster).kind == BUSDEKKER_NEXT && search.opening.share == 100;
    same = same && busdekker_dispatch_open(&dispatcher, 0, roaster).kind == BUSDEKKER_NEXT && busdekker_quote(roaster).most == 30;
    same = same && busdekker_quote(dryer).t == busdekker_quote(roaster).t && busdekker_quote(dryer).most == 30;
    for (const int32_t share : {-1, 101}) {
        const busdekker_opening refused = {BUSDEKKER_M, 1000, 1250, 1, share};
        const busdekker_opening twice_refused = {BUSDEKKER_M, 1000, 1250, 0, share};
        busdekker_search held = search;
        held.opening.share = share;
        same = same && busdekker_quote(refused).number == BUSDEKKER_SHARE_OUT_OF_RANGE;
        same = same && busdekker_quote(twice_refused).number == BUSDEKKER_TOLERANCE_OUT_OF_RANGE;
        same = same && busdekker_open(&search, refused).number == BUSDEKKER_SHARE_OUT_OF_RANGE;
        same = same && busdekker_values(refused, search.slots, 0).number == BUSDEKKER_SHARE_OUT_OF_RANGE;
        same = same && busdekker_dispatch_open(&dispatcher, 1, refused).number == BUSDEKKER_SHARE_OUT_OF_RANGE;
        same = same && busdekker_ask(&held).number == BUSDEKKER_SHARE_OUT_OF_RANGE;
        same = same && busdekker_enter(&held, 1000, -5).number == BUSDEKKER_SHARE_OUT_OF_RANGE;
        same = same && busdekker_write(&held, buffer, 0).number == BUSDEKKER_SHARE_OUT_OF_RANGE;
        const busdekker_report report = sheet("1,1000,1250,1," + std::to_string(share));
        same = same && report.number == BUSDEKKER_SHARE_OUT_OF_RANGE && report.place == 1;
    }
    return same && search.opening.share == 100;
}

// The tolerance at 1250 is 1 + 125, and a bracket of 250 with its better end there stops; at 1000 it is 1 + 100, and the next point is so far
// from it. The sheet has the share in a fifth field, and without it the search goes on from 1250 too.
static bool tolerance_with_a_share() {
    const busdekker_opening roaster = {BUSDEKKER_M, 1000, 1250, 1, 100};
    const int32_t upper_better[] = {-5, 1}, lower_better[] = {1, -5};
    const busdekker_report stop = busdekker_values(roaster, upper_better, 2);
    bool same = stop.kind == BUSDEKKER_STOP && stop.upper - stop.lower == 250 && stop.better == 1250;
    same = same && busdekker_values(roaster, lower_better, 2).point == 1101;
    same = same && sheet("1,1000,1250,1,100\r\n1000,-5\r\n1250,1\r\n").kind == BUSDEKKER_STOP;
    same = same && sheet("1,1000,1250,1\r\n1000,-5\r\n1250,1\r\n").kind == BUSDEKKER_NEXT;
    same = same && sheet("1,1000,1250,1,0\r\n1000,-5\r\n1250,1\r\n").kind == BUSDEKKER_NEXT;
    return same && sheet("1,1000,1250,1,100,0\r\n").number == BUSDEKKER_MALFORMED_RECORD;
}

// A sheet may have as many answers as there are slots; of the next one a byte is enough to be refused. The clean sheet of as many answers in
// the longest spelling has the length that the header says.
static bool limits_of_sheets() {
    std::string text = "9,0,0,0\r\n";
    for (int answers = 0; answers < BUSDEKKER_SLOTS; answers++) {
        text += "0,0\r\n";
    }
    const busdekker_report refused = sheet(text + "0");
    bool same = sheet(text).number == BUSDEKKER_UNKNOWN_METHOD;
    same = same && refused.number == BUSDEKKER_TOO_MANY_ANSWERS && refused.place == BUSDEKKER_SLOTS + 2;
    const busdekker_opening opening = {BUSDEKKER_HOUSE, highest, highest - 1, 5000, 100};
    const std::string point = std::to_string(highest);
    const std::string first = "0," + point + "," + std::to_string(highest - 1) + ",5000,100\r\n", answer = point + ",-10000\r\n";
    uint8_t buffer[BUSDEKKER_LONGEST_CLEAN_SHEET];
    busdekker_search search;
    same = same && busdekker_open(&search, opening).kind == BUSDEKKER_NEXT && busdekker_enter(&search, highest, -10000).kind == BUSDEKKER_NEXT;
    const busdekker_written written = busdekker_write(&search, buffer, sizeof buffer);
    same = same && std::string(buffer, buffer + written.length) == first + answer;
    return same && first.size() + BUSDEKKER_SLOTS * answer.size() == sizeof buffer;
}

// With method 0 an opening is quoted and asked by R. A search that M asked under method 0 is changed over: it has its old report, and its clean
// sheet has method 1. Changed over again it stays; one by R stays too; and a refused one keeps every byte.
static bool changes_over() {
    const busdekker_opening by_m = {BUSDEKKER_M, 0, 100, 1, 0}, by_default = {BUSDEKKER_HOUSE, 0, 100, 1, 0}, by_r = {BUSDEKKER_R, 0, 100, 1, 0};
    const int32_t values[] = {-50, 100, -10};
    bool same = busdekker_quote(by_default).most == 32 && busdekker_quote(by_r).most == 32 && busdekker_quote(by_m).most == 26;
    same = same && busdekker_values(by_default, values, 3).point == 40 && busdekker_values(by_m, values, 3).point == 41;
    busdekker_search search;
    same = same && busdekker_open(&search, by_m).point == 0 && busdekker_enter(&search, 0, -50).point == 100;
    same = same && busdekker_enter(&search, 100, 100).point == 33 && busdekker_enter(&search, 33, -10).point == 41;
    const busdekker_search begun = search;
    search.opening.method = BUSDEKKER_HOUSE;
    same = same && busdekker_ask(&search).point == 40 && busdekker_change_over(&search).point == 41;
    same = same && std::memcmp(&search, &begun, sizeof search) == 0 && busdekker_ask(&search).point == 41;
    uint8_t buffer[BUSDEKKER_LONGEST_CLEAN_SHEET];
    const busdekker_written written = busdekker_write(&search, buffer, sizeof buffer);
    same = same && std::string(buffer, buffer + written.length) == "1,0,100,1\r\n0,-50\r\n100,100\r\n33,-10\r\n";
    same = same && busdekker_change_over(&search).point == 41 && std::memcmp(&search, &begun, sizeof search) == 0;
    search.opening.method = BUSDEKKER_R;
    same = same && busdekker_change_over(&search).point == 40 && search.opening.method == BUSDEKKER_R;
    search.opening.method = BUSDEKKER_HOUSE;
    search.slots[1] = -100;
    const busdekker_search refused = search;
    const busdekker_report refusal = busdekker_change_over(&search);
    same = same && refusal.number == BUSDEKKER_SAME_SIDE && refusal.place == 1;
    return same && std::memcmp(&search, &refused, sizeof search) == 0;
}

// A text of bytes.
static std::string bytes(std::initializer_list<int> list) {
    std::string text;
    for (const int byte : list) {
        text += static_cast<char>(byte);
    }
    return text;
}

// A panel's request to a search gets this reply, the rest of the buffer stays as it was, 9 in every byte, and its length is told.
static bool replies(busdekker_search *search, const std::string &request, const std::string &reply) {
    uint8_t buffer[BUSDEKKER_LONGEST_REPLY + 1];
    std::memset(buffer, 9, sizeof buffer);
    const busdekker_written told = busdekker_panel(search, reinterpret_cast<const uint8_t *>(request.data()), request.size(), buffer, sizeof buffer);
    const bool same = told.kind == BUSDEKKER_WRITTEN && told.length == reply.size() && told.number == 0 && told.place == 0;
    return same && std::string(buffer, buffer + sizeof buffer) == reply + std::string(sizeof buffer - reply.size(), 9);
}

// Each exception, an empty request and a buffer of 15 bytes, to a search that is on its way: none of them alters it.
static bool excepts(busdekker_search *search) {
    const busdekker_search before = *search;
    bool same = replies(search, "", "") && replies(search, bytes({4}), bytes({132, 1})) && replies(search, bytes({255}), bytes({255, 1}));
    same = same && replies(search, bytes({3, 0, 9, 0, 0}), bytes({131, 3})) && replies(search, bytes({3, 0, 9, 0, 126}), bytes({131, 3}));
    same = same && replies(search, bytes({3, 0, 1, 0, 7}), bytes({131, 2})) && replies(search, bytes({6, 0, 5, 0, 1}), bytes({134, 2}));
    same = same && replies(search, bytes({6, 0, 6, 39, 17}), bytes({134, 3})) && replies(search, bytes({6, 0, 6, 0}), bytes({134, 3}));
    const uint8_t entry[] = {6, 0, 6, 0, 1};
    uint8_t buffer[BUSDEKKER_LONGEST_REPLY - 1], untouched[sizeof buffer];
    std::memset(buffer, 9, sizeof buffer);
    std::memset(untouched, 9, sizeof untouched);
    const busdekker_written refused = busdekker_panel(search, entry, sizeof entry, buffer, sizeof buffer);
    same = same && refused.kind == BUSDEKKER_REFUSED && refused.number == BUSDEKKER_REPLY_TOO_SHORT && refused.place == 0 && refused.length == 0;
    return same && std::memcmp(buffer, untouched, sizeof buffer) == 0 && std::memcmp(search, &before, sizeof before) == 0;
}

// The panel: a search from 0 to 100 is read, takes -50, 100, -10, -2 and 1, and is read at its stop. One that is itself refused gets exception 04.
// One at the highest points stops with the lower end as the better one.
static bool serves_a_panel() {
    const std::string all = bytes({3, 0, 0, 0, BUSDEKKER_REGISTERS}), last = bytes({6, 0, 6, 0, 1});
    busdekker_search search;
    bool same = busdekker_open(&search, {BUSDEKKER_M, 0, 100, 1, 0}).kind == BUSDEKKER_NEXT;
    same = same && replies(&search, all, bytes({3, 14, 0, 1, 0, 0, 0, 0, 0, 0, 0, 0, 0, 0, 0, 0}));
    for (const std::string &entry : {bytes({6, 0, 6, 255, 206}), bytes({6, 0, 6, 0, 100}), bytes({6, 0, 6, 255, 246}), bytes({6, 0, 6, 255, 254})}) {
        same = same && replies(&search, entry, entry);
    }
    same = same && search.count == 4 && search.slots[3] == -2 && replies(&search, bytes({3, 0, 1, 0, 1}), bytes({3, 2, 0, 43})) && excepts(&search);
    same = same && replies(&search, last, last) && search.count == 5 && busdekker_ask(&search).kind == BUSDEKKER_STOP;
    same = same && replies(&search, all, bytes({3, 14, 0, 2, 0, 0, 0, 41, 0, 43, 0, 43, 0, 5, 0, 0})) && replies(&search, last, bytes({134, 3}));
    search.opening.method = 3;
    same = same && replies(&search, all, bytes({131, 4})) && replies(&search, bytes({4}), bytes({132, 4})) && replies(&search, "", "");
    same = same && busdekker_open(&search, {BUSDEKKER_M, highest, highest - 2, 1, 0}).kind == BUSDEKKER_NEXT;
    same = same && replies(&search, bytes({6, 0, 6, 255, 254}), bytes({6, 0, 6, 255, 254})) && replies(&search, last, last);
    return same && replies(&search, bytes({3, 0, 2, 0, 3}), bytes({3, 6, 234, 94, 234, 96, 234, 94}));
}

// A tally has these numbers.
static bool tells(const busdekker_tally &tally, const busdekker_tally &expected) {
    bool same = tally.stopped == expected.stopped && tally.unfinished == expected.unfinished && tally.refused == expected.refused;
    return same && tally.answers == expected.answers && tally.quoted == expected.quoted && tally.largest == expected.largest;
}

// The text has this outcome.
static bool comes_out(const std::string &text, uint16_t kind, uint16_t method, uint16_t answers, uint16_t quoted) {
    const busdekker_outcome outcome = busdekker_sheet_outcome(reinterpret_cast<const uint8_t *>(text.data()), text.size());
    return outcome.kind == kind && outcome.method == method && outcome.answers == answers && outcome.quoted == quoted;
}

// The outcomes of sheets: stopped, unfinished, and refused for what stands after the first record, in it, or for their length.
static bool outcomes_of_sheets() {
    const std::string begun = "1,0,100,1\r\n0,-50\r\n100,100\r\n33,-10\r\n41,-2\r\n", highest_point = std::to_string(highest);
    bool same = comes_out(begun + "43,1\r\n", BUSDEKKER_SHEET_STOPPED, BUSDEKKER_M, 5, 26);
    same = same && comes_out(begun, BUSDEKKER_SHEET_UNFINISHED, BUSDEKKER_M, 4, 26);
    same = same && comes_out("0,0," + highest_point + ",1,100", BUSDEKKER_SHEET_UNFINISHED, BUSDEKKER_HOUSE, 0, BUSDEKKER_SLOTS);
    same = same && comes_out(begun + "42,1\r\n", BUSDEKKER_SHEET_REFUSED, BUSDEKKER_M, 0, 0);
    same = same && comes_out("0,0,100,1\r\nx", BUSDEKKER_SHEET_REFUSED, BUSDEKKER_HOUSE, 0, 0);
    same = same && comes_out("2,7,7,1\r\n", BUSDEKKER_SHEET_REFUSED, BUSDEKKER_R, 0, 0);
    for (const char *method : {"3", "7", "-1", "65536", "99999", "000001", "x", ""}) {
        same = same && comes_out(method + std::string(",0,100,1\r\n"), BUSDEKKER_SHEET_REFUSED, BUSDEKKER_OTHER, 0, 0);
    }
    std::string text = begun;
    text.resize(BUSDEKKER_LONGEST_SHEET, '0');
    same = same && comes_out("", BUSDEKKER_SHEET_REFUSED, BUSDEKKER_OTHER, 0, 0) && comes_out(text, BUSDEKKER_SHEET_REFUSED, BUSDEKKER_M, 0, 0);
    return same && comes_out(text + "0", BUSDEKKER_SHEET_REFUSED, BUSDEKKER_OTHER, 0, 0);
}

// A refused season: every number but its own is 0.
static bool misshapen(const busdekker_season_report &report) {
    busdekker_season_report refused = {};
    refused.kind = BUSDEKKER_REFUSED;
    refused.number = BUSDEKKER_MISSHAPEN_RUN;
    return std::memcmp(&report, &refused, sizeof report) == 0;
}

// A run of five outcomes, in this order and backwards: two by M, and a refused one that carries more answers than they do; one with the house
// default; one with method 7.
static bool counts_a_season() {
    const uint16_t run[] = {0, 1, 9, 58, 1, 1, 12, 30, 2, 1, 70, 72, 0, 0, 4, 6, 1, 7, 0, 2};
    const uint16_t backwards[] = {1, 7, 0, 2, 0, 0, 4, 6, 2, 1, 70, 72, 1, 1, 12, 30, 0, 1, 9, 58};
    const size_t length = sizeof run / sizeof run[0];
    bool same = true;
    for (const uint16_t *numbers : {run, backwards}) {
        const busdekker_season_report report = busdekker_season(numbers, length);
        same = same && report.kind == BUSDEKKER_SEASON && report.outcomes == 5 && report.number == 0 && report.place == 0;
        same = same && tells(report.tallies[BUSDEKKER_HOUSE], {1, 0, 0, 4, 6, 4}) && tells(report.tallies[BUSDEKKER_M], {1, 1, 1, 21, 88, 12});
        same = same && tells(report.tallies[BUSDEKKER_R], {0, 0, 0, 0, 0, 0}) && tells(report.tallies[BUSDEKKER_OTHER], {0, 1, 0, 0, 2, 0});
    }
    const busdekker_season_report none = busdekker_season(run, 0);
    same = same && none.kind == BUSDEKKER_SEASON && none.outcomes == 0 && tells(none.tallies[BUSDEKKER_M], {0, 0, 0, 0, 0, 0});
    return same && misshapen(busdekker_season(run, 3)) && misshapen(busdekker_season(run, length - 1));
}

// 10,000 outcomes with the highest numbers are counted. One number more is refused and one outcome more, and of these no number is read: they stand
// where nothing may be read.
static bool limits_of_seasons() {
    const size_t most = BUSDEKKER_MOST_OUTCOMES * BUSDEKKER_OUTCOME_NUMBERS;
    std::vector<uint16_t> run(most, 65535);
    bool same = tells(busdekker_season(run.data(), most).tallies[BUSDEKKER_OTHER], {0, 0, BUSDEKKER_MOST_OUTCOMES, 0, 0, 0});
    for (size_t k = 0; k < most; k += BUSDEKKER_OUTCOME_NUMBERS) {
        run[k] = BUSDEKKER_SHEET_STOPPED;
        run[k + 1] = BUSDEKKER_R;
    }
    const busdekker_tally highest_tally = {BUSDEKKER_MOST_OUTCOMES, 0, 0, 655350000, 655350000, 65535};
    same = same && tells(busdekker_season(run.data(), most).tallies[BUSDEKKER_R], highest_tally);
    const size_t bytes = 4 * most;
    void *unreadable = mmap(nullptr, bytes, PROT_NONE, MAP_PRIVATE | MAP_ANONYMOUS, -1, 0);
    if (unreadable == MAP_FAILED) {
        return false;
    }
    const uint16_t *numbers = static_cast<const uint16_t *>(unreadable);
    for (const size_t length : {size_t{1}, size_t{2}, size_t{3}, most - 1, most + 1, most + 4, 2 * most}) {
        same = same && misshapen(busdekker_season(numbers, length));
    }
    same = same && busdekker_season(numbers, 0).kind == BUSDEKKER_SEASON;
    return munmap(unreadable, bytes) == 0 && same;
}

// The draws are those of the C++ library's generator of Park and Miller, whose 10,000th from seed 1 is published. Every other number may be drawn after
// too; twice the modulus and 1 more is 1 by it.
static bool draws() {
    const uint32_t modulus = 2147483647;
    bool same = busdekker_draw(0) == 0 && busdekker_draw(modulus) == 0 && busdekker_draw(modulus + 1) == 16807 && busdekker_draw(2 * modulus + 1) == 16807;
    for (const uint32_t seed : {1, 2, 16807, 1407677000, BUSDEKKER_LARGEST_SEED - 1, BUSDEKKER_LARGEST_SEED}) {
        std::minstd_rand0 generator(seed);
        uint32_t draw = seed;
        for (int k = 0; k < 10000; k++) {
            draw = busdekker_draw(draw);
            same = same && draw == generator();
        }
        same = same && (seed != 1 || draw == 1043618065);
    }
    return same;
}

// The load of a seed as a host makes it by the C++ library's generator, with every value entered for the point called for.
static busdekker_answered made_by_host(uint32_t seed) {
    std::minstd_rand0 draw(seed);
    const auto modulo = [&draw](uint32_t divisor) { return static_cast<int32_t>(draw() % divisor); };
    busdekker_answered load = {};
    busdekker_opening &opening = load.search.opening;
    opening.first = modulo(60001);
    opening.second = modulo(60001);
    if (opening.second == opening.first) {
        opening.second = (opening.first + 1) % 60001;
    }
    opening.tolerance = 1 + modulo(5000);
    opening.method = 1 + modulo(2);
    load.report = busdekker_open(&load.search, opening);
    while (load.report.kind == BUSDEKKER_NEXT) {
        const int32_t first = load.search.slots[0], drawn = modulo(20001) - 10000;
        const bool negated = load.search.count == 1 && ((first > 0 && drawn > 0) || (first < 0 && drawn < 0));
        load.report = busdekker_enter(&load.search, static_cast<int32_t>(load.report.point), negated ? -drawn : drawn);
    }
    return load;
}

// The load of a seed has this clean sheet, which is read as the report says.
static bool loads(uint32_t seed, const std::string &clean) {
    const busdekker_answered load = busdekker_load(seed);
    const busdekker_report asked = busdekker_ask(&load.search), read = sheet(clean);
    uint8_t buffer[BUSDEKKER_LONGEST_CLEAN_SHEET];
    const busdekker_written written = busdekker_write(&load.search, buffer, sizeof buffer);
    bool same = std::string(buffer, buffer + written.length) == clean && load.report.kind == BUSDEKKER_STOP && load.report.taken == load.search.count;
    return same && std::memcmp(&load.report, &asked, sizeof asked) == 0 && std::memcmp(&load.report, &read, sizeof read) == 0;
}

// A refused seed: every number but the refusal's own is 0, and the search beside it is refused by itself.
static bool refuses_seed(uint32_t seed) {
    const busdekker_answered load = busdekker_load(seed);
    busdekker_answered refused = {};
    refused.report.kind = BUSDEKKER_REFUSED;
    refused.report.number = BUSDEKKER_SEED_OUT_OF_RANGE;
    return std::memcmp(&load, &refused, sizeof load) == 0 && busdekker_ask(&load.search).number == BUSDEKKER_ENDS_EQUAL;
}

// Loads: by R and by M, with a second value negated, the second end moved, and a first value of 0; then many as a host makes them, within the quotation.
static bool trial_loads() {
    bool same = loads(4, "2,7227,22165,4352\r\n7227,4354\r\n22165,-1051\r\n17813,-28\r\n13461,9401\r\n");
    same = same && loads(5, "1,24034,12706,4425\r\n24034,-3919\r\n12706,7465\r\n19609,2465\r\n");
    same = same && loads(23272, "2,45986,45987,9\r\n45986,-6581\r\n45987,4146\r\n") && loads(156205, "2,5824,7996,1203\r\n5824,0\r\n7996,2267\r\n");
    same = same && loads(BUSDEKKER_LARGEST_SEED, "2,31050,57316,3575\r\n31050,-5449\r\n57316,1484\r\n51694,3786\r\n41372,8290\r\n36211,1291\r\n");
    for (uint32_t k = 0; k < 1000; k++) {
        for (const uint32_t seed : {k + 1, BUSDEKKER_LARGEST_SEED - k}) {
            const busdekker_answered load = busdekker_load(seed), by_host = made_by_host(seed);
            same = same && std::memcmp(&load, &by_host, sizeof load) == 0 && load.report.taken <= busdekker_quote(load.search.opening).most;
        }
    }
    same = same && refuses_seed(0) && refuses_seed(BUSDEKKER_LARGEST_SEED + 1u) && refuses_seed(BUSDEKKER_LARGEST_SEED + 2u);
    return same && refuses_seed(3000000000) && refuses_seed(UINT32_MAX);
}

// What every place of a list holds before a survey.
static const uint32_t mark = 7777777;

// A survey with a list of so many places tells this and lists these points. The other places keep their marks, and one more after the list; the values
// stay, and a 0 after them, which would be one more pair.
static bool tells_of_survey(int32_t lowest, int32_t pitch, std::vector<int32_t> values, size_t size, busdekker_surveyed told, std::vector<uint32_t> points) {
    const size_t length = values.size();
    std::vector<uint32_t> list(size + 1, mark);
    values.push_back(0);
    const std::vector<int32_t> kept = values;
    points.resize(size + 1, mark);
    const busdekker_surveyed surveyed = busdekker_survey(lowest, pitch, values.data(), length, list.data(), size);
    return std::memcmp(&surveyed, &told, sizeof told) == 0 && list == points && values == kept;
}

// A survey finds these pairs, with a list that is just long enough and with longer ones; with shorter ones it is refused.
static bool finds(int32_t lowest, int32_t pitch, const std::vector<int32_t> &values, const std::vector<uint32_t> &points) {
    bool same = true;
    for (size_t size = 0; size <= points.size() + 2; size++) {
        const uint32_t pairs = static_cast<uint32_t>(points.size());
        const bool enough = size >= pairs;
        const busdekker_surveyed found = {BUSDEKKER_SURVEYED, pairs, 0, 0}, too_short = {BUSDEKKER_REFUSED, 0, BUSDEKKER_LIST_TOO_SHORT, 0};
        same = same && tells_of_survey(lowest, pitch, values, size, enough ? found : too_short, enough ? points : std::vector<uint32_t>());
    }
    return same;
}

// A survey is refused so, whether its list is long enough or not.
static bool refuses_survey(int32_t lowest, int32_t pitch, const std::vector<int32_t> &values, uint32_t number, uint32_t place) {
    const busdekker_surveyed refused = {BUSDEKKER_REFUSED, 0, number, place};
    return tells_of_survey(lowest, pitch, values, BUSDEKKER_MOST_PAIRS, refused, {}) && tells_of_survey(lowest, pitch, values, 0, refused, {});
}

// A pair opens a search that accepts its two values, by every method and with the least tolerance, the largest and one between.
static bool opens_searches(int32_t lower, int32_t upper, const int32_t *two) {
    bool same = true;
    for (const int32_t method : {BUSDEKKER_HOUSE, BUSDEKKER_M, BUSDEKKER_R}) {
        for (const int32_t tolerance : {1, 25, 5000}) {
            const busdekker_opening opening = {method, lower, upper, tolerance, 0};
            const busdekker_report report = busdekker_values(opening, two, 2);
            busdekker_search search;
            same = same && report.kind != BUSDEKKER_REFUSED && report.taken == 2 && busdekker_open(&search, opening).kind == BUSDEKKER_NEXT;
            same = same && busdekker_enter(&search, lower, two[0]).point == static_cast<uint32_t>(upper);
            const busdekker_report entered = busdekker_enter(&search, upper, two[1]);
            same = same && std::memcmp(&entered, &report, sizeof report) == 0;
        }
    }
    return same;
}

// A survey of six values falls through 0, is on target, and falls through it again. Each of its pairs opens a search; between the two neighbours that
// are no pair the second value is refused.
static bool surveys_a_range() {
    const std::vector<int32_t> values = {5, -3, 0, 4, 4, -1};
    bool same = finds(100, 50, values, {100, 150, 200, 300}) && finds(0, 12000, values, {0, 12000, 24000, 48000});
    same = same && finds(10, 20, {1, -1}, {10}) && finds(10, 20, {-7, 7}, {10}) && finds(10, 20, {1, 1}, {}) && finds(10, 20, {-1, -1}, {});
    same = same && finds(10, 20, {0, 0}, {10}) && finds(30, 10, {5, 0, 7}, {30, 40}) && finds(30, 10, {-10000, 10000}, {30});
    for (const int32_t lower : {100, 150, 200, 300}) {
        same = same && opens_searches(lower, lower + 50, &values[static_cast<size_t>((lower - 100) / 50)]);
    }
    return same && busdekker_values({BUSDEKKER_M, 250, 300, 1, 0}, &values[3], 2).number == BUSDEKKER_SAME_SIDE;
}

// The limits: 2 and 600 values are taken, a pitch of 1, the points 0 and 60,000, and the values -10,000 and 10,000. Beyond them a survey is refused, in
// the order of the refusals; so are last points that 32 bits would have in range.
static bool limits_of_surveys() {
    std::vector<int32_t> most(BUSDEKKER_MOST_SURVEYED, 0), more(BUSDEKKER_MOST_SURVEYED + 1, 0);
    std::vector<uint32_t> points;
    for (uint32_t k = 0; k < BUSDEKKER_MOST_PAIRS; k++) {
        points.push_back(100 + 100 * k);
    }
    bool same = finds(100, 100, most, points) && finds(0, highest, {1, 0}, {0}) && finds(highest - 1, 1, {1, 0}, {59999});
    same = same && refuses_survey(0, 1, {}, 21, 0) && refuses_survey(0, 1, {0}, 21, 0) && refuses_survey(0, 1, more, 21, 0);
    same = same && refuses_survey(200, 0, {1, 0}, 21, 0) && refuses_survey(200, -1, {1, 0}, 21, 0) && refuses_survey(200, INT32_MIN, {1, 0}, 21, 0);
    same = same && refuses_survey(-1, 1, {1, 0}, 21, 0) && refuses_survey(highest, 1, {1, 0}, 21, 0) && refuses_survey(0, highest + 1, {1, 0}, 21, 0);
    same = same && refuses_survey(101, 100, most, 21, 0) && refuses_survey(INT32_MIN, INT32_MAX, {1, 0}, 21, 0);
    same = same && refuses_survey(0, 1 << 30, {1, 0, 1, 0, 1}, 21, 0) && refuses_survey(2, INT32_MAX, {1, 0, 1}, 21, 0);
    for (const int32_t value : {10001, -10001, INT32_MAX, INT32_MIN}) {
        same = same && refuses_survey(0, 1, {0, 0, value, value}, BUSDEKKER_VALUE_OUT_OF_RANGE, 2) && refuses_survey(-1, 1, {value, 0}, 21, 0);
    }
    most[BUSDEKKER_MOST_PAIRS] = 10001;
    return same && refuses_survey(0, 1, most, BUSDEKKER_VALUE_OUT_OF_RANGE, BUSDEKKER_MOST_PAIRS);
}

// Surveys of 2 values and of 600, all 0, in the page that begins here, with their lists in the page after the next one. Values and list stand at the
// beginning of their pages, and then at the end.
static bool surveys_in_pages(char *start, size_t page) {
    bool same = true;
    for (const size_t length : {2, BUSDEKKER_MOST_SURVEYED}) {
        for (const bool at_end : {false, true}) {
            const int32_t *values = reinterpret_cast<int32_t *>(start + (at_end ? page - 4 * length : 0));
            uint32_t *list = reinterpret_cast<uint32_t *>(start + 2 * page + (at_end ? page - 4 * (length - 1) : 0));
            same = same && busdekker_survey(0, 100, values, length, list, length - 1).pairs == length - 1 && list[length - 2] == 100 * (length - 2);
            same = same && busdekker_survey(0, 100, values, length, list, length - 2).number == BUSDEKKER_LIST_TOO_SHORT;
        }
    }
    return same;
}

// Values that may not be read are refused for their number, for the pitch and for a point.
static bool refuses_unread(const int32_t *unreadable) {
    const size_t many = static_cast<size_t>(1) << 32;
    uint32_t list[1] = {mark};
    bool same = busdekker_survey(0, 0, unreadable, 2, list, 1).number == BUSDEKKER_MISPLACED_SURVEY;
    same = same && busdekker_survey(-1, 1, unreadable, 2, list, 1).number == BUSDEKKER_MISPLACED_SURVEY;
    same = same && busdekker_survey(highest, 1, unreadable, 2, list, 1).number == BUSDEKKER_MISPLACED_SURVEY;
    for (const size_t length : {size_t{0}, size_t{1}, size_t{601}, many, many + 2, SIZE_MAX / 4 + 3, SIZE_MAX}) {
        same = same && busdekker_survey(0, 1, unreadable, length, list, 1).number == BUSDEKKER_MISPLACED_SURVEY;
    }
    return same && list[0] == mark;
}

// A survey touches nothing but what it is lent: of five pages the second and the fourth are for its values and its list, and the others may be neither
// read nor written.
static bool surveys_within_bounds() {
    const size_t page = static_cast<size_t>(sysconf(_SC_PAGESIZE));
    void *pages = mmap(nullptr, 5 * page, PROT_NONE, MAP_PRIVATE | MAP_ANONYMOUS, -1, 0);
    if (pages == MAP_FAILED) {
        return false;
    }
    char *start = static_cast<char *>(pages);
    bool same = mprotect(start + page, page, PROT_READ | PROT_WRITE) == 0 && mprotect(start + 3 * page, page, PROT_READ | PROT_WRITE) == 0;
    same = same && surveys_in_pages(start + page, page) && refuses_unread(reinterpret_cast<const int32_t *>(start));
    return munmap(pages, 5 * page) == 0 && same;
}

// The calls on a dispatcher: dryers 4 and 1 are opened, 1 has the turn first, and then 4.
static bool dispatches(busdekker_opening opening, busdekker_opening refused) {
    const busdekker_answer answer = {0, -1};
    busdekker_dispatcher dispatcher = busdekker_dispatch_fresh();
    const uint32_t none_served[BUSDEKKER_DRYERS] = {0, 0, 0, 0, 0, 0};
    const uint32_t served[BUSDEKKER_DRYERS] = {0, 1, 0, 0, 0, 0};
    bool same = busdekker_dispatch_turn(&dispatcher) == BUSDEKKER_NOBODY && dispatcher.last == BUSDEKKER_NOBODY;
    same = same && std::memcmp(dispatcher.counts, none_served, sizeof none_served) == 0;
    same = same && busdekker_dispatch_ask(&dispatcher, 5).number == BUSDEKKER_ENDS_EQUAL;
    same = same && busdekker_dispatch_open(&dispatcher, 4, opening).kind == BUSDEKKER_NEXT;
    same = same && busdekker_dispatch_open(&dispatcher, 4, refused).number == BUSDEKKER_STILL_SEARCHING;
    same = same && busdekker_dispatch_open(&dispatcher, 1, refused).number == BUSDEKKER_ENDS_EQUAL;
    same = same && busdekker_dispatch_open(&dispatcher, 1, opening).kind == BUSDEKKER_NEXT;
    same = same && busdekker_dispatch_open(&dispatcher, BUSDEKKER_DRYERS, opening).number == BUSDEKKER_NO_SUCH_DRYER;
    same = same && busdekker_dispatch_turn(&dispatcher) == 1 && std::memcmp(dispatcher.counts, none_served, sizeof none_served) == 0;
    same = same && busdekker_dispatch_enter(&dispatcher, 4, answer).number == BUSDEKKER_NOT_ITS_TURN;
    same = same && busdekker_dispatch_enter(&dispatcher, 1, answer).point == 2;
    same = same && busdekker_dispatch_turn(&dispatcher) == 4 && dispatcher.last == 1;
    same = same && std::memcmp(dispatcher.counts, served, sizeof served) == 0;
    same = same && busdekker_dispatch_ask(&dispatcher, 1).taken == 1 && busdekker_ask(&dispatcher.searches[1]).taken == 1;
    return same;
}

int main() {
    const busdekker_opening opening = {BUSDEKKER_M, 0, 2, 1, 0};
    const busdekker_opening refused = {BUSDEKKER_R, 7, 7, 1, 0};
    const int32_t values[] = {-1, 1};
    const uint8_t text[] = {'1', ',', '0', ',', '2', ',', '1', '\r', '\n'};
    const char clean[] = "1,0,2,1\r\n0,-1\r\n";
    uint8_t buffer[BUSDEKKER_LONGEST_CLEAN_SHEET];
    busdekker_search search;
    bool same = busdekker_version() == BUSDEKKER_VERSION;
    same = same && busdekker_quote(opening).kind == BUSDEKKER_QUOTED && busdekker_quote(refused).kind == BUSDEKKER_REFUSED;
    same = same && busdekker_open(&search, opening).kind == BUSDEKKER_NEXT;
    same = same && busdekker_open(&search, refused).number == BUSDEKKER_ENDS_EQUAL;
    same = same && busdekker_enter(&search, 0, -1).point == 2;
    const busdekker_answered answered = busdekker_entered(search, 2, 1);
    same = same && answered.report.kind == BUSDEKKER_STOP && answered.search.count == 2 && search.count == 1;
    same = same && busdekker_ask(&search).taken == 1;
    same = same && busdekker_values(opening, values, 2).better == 2;
    same = same && busdekker_sheet(text, sizeof text).kind == BUSDEKKER_NEXT;
    const busdekker_written written = busdekker_write(&search, buffer, sizeof buffer);
    same = same && written.kind == BUSDEKKER_WRITTEN && written.length == sizeof clean - 1 && std::memcmp(buffer, clean, written.length) == 0;
    same = same && busdekker_write(&search, buffer, written.length - 1).number == BUSDEKKER_BUFFER_TOO_SHORT;
    same = same && changes_over() && serves_a_panel() && dispatches(opening, refused) && limits_of_ends() && limits_of_shares() && tolerance_with_a_share();
    same = same && outcomes_of_sheets() && counts_a_season() && limits_of_seasons() && draws() && trial_loads();
    same = same && surveys_a_range() && limits_of_surveys() && surveys_within_bounds();
    return same && limits_of_counts(opening) && limits_of_sheets() ? 0 : 1;
}
