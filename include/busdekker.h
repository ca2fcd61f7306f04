/*
 * The dryer setting search, for a host in C11 or C++11. It finds a setting where a measured value crosses zero, by algorithms M and R of
 * Bus and Dekker (1975). It runs no trials: it calls for a setting, and the host brings the value.
 *
 * The archive libbusdekker.a is for x86-64 Linux. It needs memcpy and memset of the C library, and nothing else.
 *
 * Numbers. A point is a setting in hundredths of a degree Celsius, 0 to 60,000. A value is moisture minus target in hundredths of a
 * percentage point, -10,000 to 10,000; 0 is on target. The tolerance is 1 to 5,000, in units of a point. The share is 0 to 100, in parts per
 * thousand: the tolerance at a point is the tolerance plus the whole part of share times point / 1,000. A search stops
 * when its two ends are no further apart than twice the tolerance at the better one. Every number may be given: what is out of range is refused.
 *
 * Promises, for every call and every input. The call ends. It keeps no pointer, allocates nothing, blocks on nothing and has no state of its
 * own, so calls on different searches or dispatchers may run at once, in threads or in interrupts. It reads and writes nothing but what it is
 * lent, whatever that holds. A refusal leaves what was lent as it was: behind a pointer that is not const numbers may be stored again, but they
 * are the same. A busdekker_dispatch_ call needs at most BUSDEKKER_DISPATCHER_STACK bytes of stack, and every other at most BUSDEKKER_STACK, with
 * what its caller puts there to pass and return structs.
 *
 * Asked of the host. Pointers are not null, point to whole objects, and are aligned as the compiler aligns them. While a call runs, nobody writes
 * what it is lent to read. While a call that takes a search or a dispatcher by a pointer that is not const runs, nobody else reads or writes it:
 * a search has one writer, and so has a dispatcher with all its searches. While busdekker_survey runs, nobody else reads or writes the list that
 * it is lent; surveys with different lists may run at once.
 *
 * What each function returns and leaves is proved of its code, for every input, in crates/busdekker.
 */
#ifndef BUSDEKKER_H
#define BUSDEKKER_H

#include <stddef.h>
#include <stdint.h>

#ifdef __cplusplus
#define BUSDEKKER_ASSERT(condition, words) static_assert(condition, words)
extern "C" {
#else
#define BUSDEKKER_ASSERT(condition, words) _Static_assert(condition, words)
#endif

/* The version of this interface. An archive of the same version answers the same number to busdekker_version(). Since version 2
 * busdekker_sheet takes fields between double quotes and a last record without CR LF. Since version 3 there is busdekker_write. Since version 4
 * there is the dispatcher. Since version 5 it has a count for each dryer, in place of one for all, and 20 bytes more: a host that kept
 * one of version 4 copies its searches and its mark into a fresh one; its count stood where counts[0] stood in version 5, and does not
 * tell whose the answers were. Since version 6 a point may be up to 60,000, where it was 20,000, and a search has 77 slots, where it had 72:
 * 20 bytes more, and 120 in a dispatcher. A host that kept a search copies its opening, its count and its 72 slots, with 0 in the other five;
 * of a dispatcher, each search so, the mark and, from version 5, the counts. What was accepted has the same report. What was refused may have
 * another: an end from 20,001 to 60,000 is no longer out of range (2), a count from 73 to 77 no longer too high (9), and a 73rd to 77th answer
 * record no longer one too many (11); search or sheet is then judged by the rest of it. Since version 7 an opening ends with a share: 4 bytes
 * more, in a search too, and 24 in a dispatcher. A host that sets the numbers of an opening one by one sets the share too; where four stand
 * between braces it is 0. A host that kept a search of version 6 copies its opening's four numbers, with 0 for the share, its count and its
 * slots; of a dispatcher, each search so, the mark and the counts. What is older is copied as said above, with 0 for the share. The reports are
 * the same: with share 0 the tolerance at every point is the tolerance. A sheet whose first record has five fields is no longer malformed (12)
 * for that; it is judged by the rest of it. Since version 8 the house default is R, where it was M, and there is busdekker_change_over. No struct
 * has changed. An opening with method 0 is quoted 2 + 5t answers, where it was 2 + 4t. A search or a sheet with method 0 that was begun before
 * version 8 was asked by M. Such a search, read as it is, may be refused, be sent to other points, or be told another stop. A host that kept one,
 * by itself or in a dispatcher, copies it, where it is of version 6 or older, as said above, and then changes it over by busdekker_change_over
 * before any other call on it or on its dispatcher. Such a sheet, read as it is, may be refused, or be sent to another point: it goes through the
 * program old_default, which reads it with 0 as M and writes its clean sheet with method 1. Since version 9 there is busdekker_panel; no struct and
 * no other call has changed. Since version 10 there are busdekker_sheet_outcome and busdekker_season, with their structs; no other struct and no
 * other call has changed. Since version 11 there are busdekker_load and busdekker_draw; no struct and no other call has changed.
 * busdekker_survey, with its struct, its kind and the refusals 21 and 22, stands here already; the version that has it is 12. */
#define BUSDEKKER_VERSION 11

/* The answers that a search keeps. */
#define BUSDEKKER_SLOTS 77

/* The bytes of the longest sheet. */
#define BUSDEKKER_LONGEST_SHEET 4096

/* 1,102 bytes, 24 for the opening and 14 for each answer: a buffer of so many takes the clean sheet of every search. */
#define BUSDEKKER_LONGEST_CLEAN_SHEET (24 + 14 * BUSDEKKER_SLOTS)

/* The registers of a panel, which are 0 to 6. */
#define BUSDEKKER_REGISTERS 7

/* The bytes of the longest reply to a panel, and the least that a buffer for its replies has. */
#define BUSDEKKER_LONGEST_REPLY 16

/* The most outcomes of a season, and the numbers of each. */
#define BUSDEKKER_MOST_OUTCOMES 10000
#define BUSDEKKER_OUTCOME_NUMBERS 4

/* The tallies of a season: one for each of the methods 0, 1 and 2, in this order, and at BUSDEKKER_OTHER one for any other method. */
#define BUSDEKKER_TALLIES 4
#define BUSDEKKER_OTHER 3

/* The largest seed of a trial load; the least is 1. */
#define BUSDEKKER_LARGEST_SEED 2147483646

/* The fewest and the most values of a survey. */
#define BUSDEKKER_FEWEST_SURVEYED 2
#define BUSDEKKER_MOST_SURVEYED 600

/* The most pairs that a survey finds: a list of so many takes those of every survey. */
#define BUSDEKKER_MOST_PAIRS (BUSDEKKER_MOST_SURVEYED - 1)

/* The dryers of a dispatcher, which are 0 to 5. */
#define BUSDEKKER_DRYERS 6

/* No dryer: what busdekker_dispatch_turn answers where none has the turn, and a dispatcher's mark where none was served. */
#define BUSDEKKER_NOBODY 6

/* From here on a dryer's count of served answers remains as it is. Each of the six has this ceiling by itself. */
#define BUSDEKKER_SERVED_CEILING 1000000000

/* The bytes of stack that a call needs: a busdekker_dispatch_ call, which copies a dispatcher, and any other. Measured by tests/stack.c, which
 * runs each call on a painted stack and looks how far it was written; the gate holds every call to its figure. Where memcpy or memset is bound at
 * its first call, by a dynamic loader, what the loader needs then comes on top. */
#define BUSDEKKER_DISPATCHER_STACK 10240
#define BUSDEKKER_STACK 2048

/* The methods. */
enum busdekker_method {
    BUSDEKKER_HOUSE = 0, /* the house default, which is R */
    BUSDEKKER_M = 1,
    BUSDEKKER_R = 2
};

/* The kinds of reports, of quotations, of what is told of a written sheet or a panel's reply, of season reports, and of what is told of surveys. */
enum busdekker_kind {
    BUSDEKKER_NEXT = 1,    /* a trial is called for */
    BUSDEKKER_STOP = 2,    /* the search has stopped */
    BUSDEKKER_REFUSED = 3, /* something is refused */
    BUSDEKKER_QUOTED = 4,  /* a quotation */
    BUSDEKKER_WRITTEN = 5, /* a sheet or a reply was written */
    BUSDEKKER_SEASON = 6,  /* a season was counted */
    BUSDEKKER_SURVEYED = 7 /* the pairs of a survey were listed */
};

/* The kinds of outcomes of sheets. A season takes any number from 2 on for refused. */
enum busdekker_outcome_kind {
    BUSDEKKER_SHEET_STOPPED = 0,    /* the sheet's search has stopped */
    BUSDEKKER_SHEET_UNFINISHED = 1, /* it calls for a trial */
    BUSDEKKER_SHEET_REFUSED = 2     /* the sheet is refused */
};

/* The numbers of refusals, in the order in which they are checked. The first that applies is told. */
enum busdekker_refusal {
    /* a survey, before any of its values is read */
    BUSDEKKER_MISPLACED_SURVEY = 21, /* fewer than 2 or more than 600 values, a pitch below 1, or a point out of range */
    /* the seed of a trial load, before anything is drawn */
    BUSDEKKER_SEED_OUT_OF_RANGE = 20, /* seed not 1 to 2,147,483,646 */
    /* the run of outcomes that a season report is made of, before any of its numbers is read */
    BUSDEKKER_MISSHAPEN_RUN = 19, /* more than 10,000 outcomes, or numbers not in whole fours */
    /* the buffer that a panel's reply is to be written into, before the request and the search */
    BUSDEKKER_REPLY_TOO_SHORT = 18, /* the buffer is shorter than 16 bytes */
    /* the dryer of a dispatcher, before its search and what is offered to it */
    BUSDEKKER_NO_SUCH_DRYER = 14,   /* dryer not 0 to 5 */
    BUSDEKKER_NOT_ITS_TURN = 15,    /* an answer for a dryer that has not the turn */
    BUSDEKKER_STILL_SEARCHING = 16, /* an opening for a dryer whose search is accepted and unfinished */
    /* the whole text */
    BUSDEKKER_TEXT_TOO_LONG = 10, /* longer than 4,096 bytes */
    /* each record in turn */
    BUSDEKKER_TOO_MANY_ANSWERS = 11, /* it is a 78th answer record */
    BUSDEKKER_MALFORMED_RECORD = 12, /* its form is wrong, or the first is absent */
    /* the held search */
    BUSDEKKER_COUNT_ABOVE_SLOTS = 9, /* count above 77 */
    /* the opening */
    BUSDEKKER_UNKNOWN_METHOD = 1,         /* method not 0, 1 or 2 */
    BUSDEKKER_END_OUT_OF_RANGE = 2,       /* an end out of range */
    BUSDEKKER_ENDS_EQUAL = 3,             /* ends equal */
    BUSDEKKER_TOLERANCE_OUT_OF_RANGE = 4, /* tolerance out of range */
    BUSDEKKER_SHARE_OUT_OF_RANGE = 17,    /* share out of range */
    /* each answer in turn: the values held, then the one offered; of the values of a survey 7 alone */
    BUSDEKKER_HAD_STOPPED = 5,        /* the search had stopped */
    BUSDEKKER_NOT_CALLED_FOR = 6,     /* its point, where one is given, is not the one called for */
    BUSDEKKER_VALUE_OUT_OF_RANGE = 7, /* value out of range */
    BUSDEKKER_SAME_SIDE = 8,          /* second answer, and the first two values are both positive or both negative */
    /* the buffer that a sheet is to be written into, after the search itself */
    BUSDEKKER_BUFFER_TOO_SHORT = 13, /* the buffer is shorter than the sheet */
    /* the list that the pairs of a survey are to be written into, after its values */
    BUSDEKKER_LIST_TOO_SHORT = 22 /* the list is shorter than the pairs found */
};

/* An opening: one of the methods, the two ends of the range, either of which may be the lower, the tolerance, and the share by which it grows
 * with the point, 0 where it does not. */
struct busdekker_opening {
    int32_t method;
    int32_t first;
    int32_t second;
    int32_t tolerance;
    int32_t share;
};

/* An answer: the point of a trial and its value. */
struct busdekker_answer {
    int32_t point;
    int32_t value;
};

/* A search that the host holds: its opening, the number of answers taken, and their values in the first slots. The others hold 0. Only
 * busdekker_open, busdekker_enter, busdekker_panel and busdekker_change_over should write it, but for a copy of a search that busdekker_entered,
 * or busdekker_load without a refusal, returned, and for the copy from an older version that stands at BUSDEKKER_VERSION. */
struct busdekker_search {
    struct busdekker_opening opening;
    uint32_t count;
    int32_t slots[BUSDEKKER_SLOTS];
};

/*
 * A dispatcher that the host holds, for six dryers with one oven: the search of each dryer, the dryer that was last served, and for each dryer
 * the number of answers served there. A dryer without a search holds the blank one, every number 0, whose report is a refusal (3). A mark
 * `last` that is not 0 to 5 reads as none served. Only busdekker_dispatch_open and busdekker_dispatch_enter should write it, its searches too,
 * but for the copy from an older version that stands at BUSDEKKER_VERSION; its searches may be lent to what reads a search, as
 * &dispatcher.searches[2] to busdekker_write, and where they were begun before version 8, each of them to busdekker_change_over.
 *
 * The oven's turn goes to the next dryer whose search is accepted and unfinished, which is to say that its report is BUSDEKKER_NEXT: counting
 * round from the one after the last served, or from dryer 0 where none was. An accepted answer serves the turn; a refused one leaves it. While
 * nothing else writes the dispatcher, such a dryer waits for at most five served answers before its own turn.
 *
 * counts[k] counts the answers served at dryer k, through all its searches: each adds 1 while it is below BUSDEKKER_SERVED_CEILING. At the
 * ceiling it remains as it is, and so does one above it, which a host may hold. No other call moves it: no opening, its own dryer's included, no
 * answer of another dryer, and nothing that is refused. The sum of the six may need 64 bits. From a fresh dispatcher, while nothing else writes
 * it, the one count of version 4 would show that sum, or the ceiling where the sum is above it.
 */
struct busdekker_dispatcher {
    struct busdekker_search searches[BUSDEKKER_DRYERS];
    uint32_t last;
    uint32_t counts[BUSDEKKER_DRYERS];
};

/*
 * A report. A number that its kind has not is 0.
 *
 *   BUSDEKKER_NEXT     point is the setting called for, and taken the number of answers taken.
 *   BUSDEKKER_STOP     lower and upper are the ends of the last bracket, better the one that M and R call b, whose value is no farther from
 *                      target than the other's, and taken the number of answers taken. The bracket is no wider than twice the tolerance at
 *                      the better end.
 *   BUSDEKKER_REFUSED  number says why, and place where:
 *                        1 to 4, 9, 14 to 17, 20, not of a sheet
 *                                     place is 0
 *                        5 to 8, not of a sheet
 *                                     place is the index of the refused value, counted from 0: in a list of values, its index there; in a held search,
 *                                     its slot; of an answer that is offered to a held search, the count
 *                        a sheet      place is a record, counted from 1: 1 for the opening, k + 2 for value k, 0 for the whole text
 */
struct busdekker_report {
    uint32_t kind;
    uint32_t point;
    uint32_t lower;
    uint32_t upper;
    uint32_t better;
    uint32_t taken;
    uint32_t number;
    uint32_t place;
};

/*
 * What is told of an opening before the first trial. A number that its kind has not is 0.
 *
 *   BUSDEKKER_QUOTED   the search takes at most `most` answers: 2 + 4t by M, 2 + 5t by R. t is the least whole number for which tolerance times
 *                      2 to the power t + 1 reaches the distance between the ends. That is the tolerance alone: the quotation is the same for
 *                      every share, and holds for every share.
 *   BUSDEKKER_REFUSED  number is 1 to 4 or 17, and place 0.
 */
struct busdekker_quotation {
    uint32_t kind;
    uint32_t t;
    uint32_t most;
    uint32_t number;
    uint32_t place;
};

/*
 * What is told of a sheet or a panel's reply that is to be written. A number that its kind has not is 0.
 *
 *   BUSDEKKER_WRITTEN  length is the number of the bytes of the sheet or the reply, which stand at the beginning of the buffer.
 *   BUSDEKKER_REFUSED  nothing was written. Of a sheet number is 1 to 5, 7 to 9, 13 or 17, and place the one that busdekker_ask tells, 0 for 13;
 *                      of a reply number is 18 and place 0.
 */
struct busdekker_written {
    uint32_t kind;
    uint32_t length;
    uint32_t number;
    uint32_t place;
};

/*
 * The outcome of a sheet in four numbers, as a season report takes them.
 *
 *   kind     one of enum busdekker_outcome_kind, and not of enum busdekker_kind. Why a sheet is refused busdekker_sheet tells
 *   method   the method of the first record, in whatever spelling: 0 is 0, though R is meant. It is told of a refused sheet too, whatever stands in
 *            its other records. BUSDEKKER_OTHER where it is not 0, 1 or 2, where the first record's form is wrong or it is absent, and where the
 *            text is longer than 4,096 bytes, of which none is read
 *   answers  the answers taken, as busdekker_sheet tells; 0 of a refused sheet
 *   quoted   the most answers that busdekker_quote tells for the opening; 0 of a refused sheet. `answers` is never more
 *
 * A sheet with method 0 from before version 8 goes through the program old_default first, as said at BUSDEKKER_VERSION, and then has method 1.
 */
struct busdekker_outcome {
    uint16_t kind;
    uint16_t method;
    uint16_t answers;
    uint16_t quoted;
};

/* What is told of the outcomes of one method: how many sheets stopped, are unfinished and were refused; and of those not refused the total
 * answers, the total quoted and the largest number of answers in one search, 0 where there is none. */
struct busdekker_tally {
    uint32_t stopped;
    uint32_t unfinished;
    uint32_t refused;
    uint32_t answers;
    uint32_t quoted;
    uint32_t largest;
};

/*
 * A season report. A number that its kind has not is 0.
 *
 *   BUSDEKKER_SEASON   outcomes is their number. tallies[0], [1] and [2] are of the outcomes that carry the method 0, 1 and 2, and
 *                      tallies[BUSDEKKER_OTHER] of those that carry any other.
 *   BUSDEKKER_REFUSED  number is 19 and place 0, and every number in the tallies is 0.
 */
struct busdekker_season_report {
    uint32_t kind;
    uint32_t outcomes;
    uint32_t number;
    uint32_t place;
    struct busdekker_tally tallies[BUSDEKKER_TALLIES];
};

/*
 * What is told of a survey. A number that its kind has not is 0.
 *
 *   BUSDEKKER_SURVEYED  pairs is the number of the pairs found, which may be 0; their lower points stand at the beginning of the list.
 *   BUSDEKKER_REFUSED   nothing was written. number is 21 or 22, and place 0; or number is 7, and place the index of the first value out of range,
 *                       counted from 0.
 */
struct busdekker_surveyed {
    uint32_t kind;
    uint32_t pairs;
    uint32_t number;
    uint32_t place;
};

/* A report, and the search as it then is; beside the refusal of a seed, one of which every number is 0. */
struct busdekker_answered {
    struct busdekker_report report;
    struct busdekker_search search;
};

/* The version of the archive's interface: BUSDEKKER_VERSION where header and archive belong together. Ask for it before any other call: the
 * structs of another version may have other sizes, and a call would then write past the host's. */
uint32_t busdekker_version(void);

/* The quotation for an opening, before the first trial. Nothing is read or written but the opening passed. */
struct busdekker_quotation busdekker_quote(struct busdekker_opening opening);

/*
 * Makes *search a fresh search of the opening: the opening, a count of 0 and 77 slots of 0. What it held before does not matter. The report
 * calls for the first end.
 * A refusal (1 to 4, 17) leaves *search as it was: a search on its way goes on as if this call had not been made, and where none was there, none
 * is.
 */
struct busdekker_report busdekker_open(struct busdekker_search *search, struct busdekker_opening opening);

/*
 * Offers an answer to *search: the point of a trial and its value. An accepted one enters the next slot and adds 1 to the count; the report is
 * that of the search after it.
 * A refusal (1 to 9, 17) leaves *search as it was. After 6, 7 or 8 at place count the same point stays called for, and the trial may be repeated
 * or its value corrected, and offered again. Place is the count where the answer itself is refused, and the slot where a value held is.
 */
struct busdekker_report busdekker_enter(struct busdekker_search *search, int32_t point, int32_t value);

/* The same by value: the report and the search after it are returned. The search that was passed stays, and after a refusal the one returned
 * is equal to it. */
struct busdekker_answered busdekker_entered(struct busdekker_search search, int32_t point, int32_t value);

/* Asks for the report of *search as it stands, which is read and not written. Slots at or past the count never alter it. A refusal (1 to 5, 7
 * to 9, 17) says that *search is neither what busdekker_open and the answers entered since made, nor the load of a seed, or that it was begun
 * before version 8 with method 0 and is not changed over. */
struct busdekker_report busdekker_ask(const struct busdekker_search *search);

/* The report on an opening and the values answered so far, in the order called for. `values` points to `length` numbers, any number of them,
 * which are read and not written; it is not null even where `length` is 0. A refusal is 1 to 5, 7, 8 or 17. */
struct busdekker_report busdekker_values(struct busdekker_opening opening, const int32_t *values, size_t length);

/* The report on a trial sheet: that of the search that it is, or a refusal (1 to 8, 10 to 12, 17), whose place is a record. `text` points
 * to `length` bytes, any number of them, which are read and not written; it is not null even where `length` is 0. A record is numbers with
 * commas between them and CR LF at its end, which the last record may lack. A number is an optional minus and one to five digits, and may stand
 * between double quotes. The first record has the opening's five numbers, or four, and the share is then 0; every other has a point and its
 * value. A single CR or LF ends nothing. A record without a number, as after one CR LF too many, is malformed (12), and of an empty text the first. */
struct busdekker_report busdekker_sheet(const uint8_t *text, size_t length);

/* The outcome of a trial sheet in four numbers, whatever the text is: there is no refusal of this call. `text` points to `length` bytes, any number
 * of them, which are read and not written; it is not null even where `length` is 0. */
struct busdekker_outcome busdekker_sheet_outcome(const uint8_t *text, size_t length);

/*
 * The season report on a run of outcomes. `numbers` points to `length` numbers, BUSDEKKER_OUTCOME_NUMBERS for each outcome in the order of struct
 * busdekker_outcome: kind, method, answers, quoted. It is the numbers that `length` counts; how many outcomes they were the report tells. Every
 * number may be given. They are read and not written, and the pointer is not null even where `length` is 0, which is a season without an outcome.
 * An outcome of kind 0 has stopped, of kind 1 is unfinished, and of any other kind was refused; a refused one adds to the count of those refused
 * and to nothing else. The order of the outcomes does not matter. No sum wraps. Of two runs one after the other, of up to 10,000 outcomes together,
 * every number in the tallies is the sum of those of each, and `largest` the larger. So a season of more is reported on in parts, and the host adds
 * those up, in 64 bits if the numbers may be of any size.
 * A refusal (19, place 0) says that `length` is above 40,000 or no multiple of 4; no number is then read.
 */
struct busdekker_season_report busdekker_season(const uint16_t *numbers, size_t length);

/*
 * Writes the clean sheet of *search at the beginning of the buffer: the opening with its method as held, in four numbers where its share is 0
 * and in five otherwise, then every answer, its point and its value. No number has quotes, leading zeros or a minus before 0, and CR LF ends
 * every record, the last included. The same search always yields the same bytes, and slots at or past the count do not matter. busdekker_sheet
 * of the text reports as busdekker_ask of the search: the text is read as this search, with 0 in those slots. Bytes of the buffer past the sheet
 * keep their contents. *search is read and not written.
 * `buffer` points to `size` bytes, any number of them, no part of *search, that nobody else reads or writes while the call runs; it is not null
 * even where `size` is 0. BUSDEKKER_LONGEST_CLEAN_SHEET bytes are always enough.
 * A refusal writes nothing. The search itself is checked first (1 to 5, 7 to 9, 17, with the place that busdekker_ask tells); then it is 13,
 * place 0, where `size` is below the sheet's length.
 */
struct busdekker_written busdekker_write(const struct busdekker_search *search, uint8_t *buffer, size_t size);

/*
 * Changes over a search that was begun before version 8, when BUSDEKKER_HOUSE was M: it is read with 0 as M, and its method 0 becomes
 * BUSDEKKER_M. Methods 1 and 2 stay, and so does every other number of *search. The report is the one that busdekker_ask of version 7 told, and
 * busdekker_ask tells it from now on: what was called for is called for still. busdekker_write now gives what the program old_default makes of
 * the clean sheet that version 7 wrote of the search; before it is changed over this version would write R's points, or refuse it.
 * A refusal (1 to 5, 7 to 9, 17, with the place that busdekker_ask of version 7 told) leaves *search as it was. 3 is also told of a dryer of a
 * dispatcher that has no search.
 * A search does not tell when it was begun. One that was opened with 0 since version 8 was asked by R and must not be changed over: its values
 * may then be taken for those of other points. A search that is changed over already stays as it is.
 */
struct busdekker_report busdekker_change_over(struct busdekker_search *search);

/*
 * Answers one Modbus request to *search, as a server's reply. Request and reply are protocol data units, without address or check bytes, laid out
 * by the Modbus Application Protocol: a word is two bytes, the high one first. A request is five bytes, the function and two words: 03, the address
 * of the first register and the quantity of registers to read, or 06, the address of a register and the value to write. The reply to 03 is the
 * function, a byte that counts those after it, and a word for each register; the reply to 06 is the request. The registers, by their addresses:
 *
 *   0  flags: bit 0 (1), a value is awaited; bit 1 (2), stopped
 *   1  the point called for, 0 after the stop
 *   2  lower, 3  upper, 4  better: 0 before the stop
 *   5  the number of answers taken
 *   6  value entry: reads as 0
 *
 * Registers 0 to 5 are unsigned: a point may be up to 60,000. The value written to register 6 is signed, a two's complement word, and is entered for
 * the point called for: *search is then what busdekker_enter leaves. Nothing else alters it, though its numbers may be stored again in every call,
 * and they are the same. The first of these that applies is told:
 *
 *   an empty request gets an empty reply, of length 0: nothing is to be sent
 *   exception 04  busdekker_ask refuses *search
 *   exception 01  the function is another than 03 and 06
 *   exception 03  the length is not 5, or for 03 the quantity is not 1 to 125
 *   exception 02  a read goes past register 6, or a write to another register than 6
 *   exception 03  busdekker_enter would refuse the value: it is out of range (7), on the side of the first (8), or the search has stopped (5)
 *
 * An exception's reply is two bytes: the function with its top bit set, and the number of the exception. It is a reply like any other
 * (BUSDEKKER_WRITTEN, length 2); that a value was not entered shows in the top bit of the reply's first byte.
 * `request` points to `length` bytes, any number of them, which are read and not written, and `reply` to `size` bytes that nobody else reads or
 * writes while the call runs: a buffer of its own, no part of *search, and no part of the request. Neither pointer is null, even where its number
 * of bytes is 0. The reply stands at the beginning of the buffer, and bytes past it keep their contents. The request is no part of *search.
 * A refusal (18, place 0) is told before all else where `size` is below BUSDEKKER_LONGEST_REPLY: nothing is written into the buffer, and *search
 * stays as it was.
 * A write enters its value for whatever point is called for when it comes. A panel that repeats one whose reply was lost would enter the value for
 * the next point too: it reads register 5 first, and writes again only where that has not grown.
 * While nothing else writes it, a search opened by busdekker_open is at every moment the one of the values that the panel's requests entered. A
 * dispatcher's search is not for a panel: what it enters there would be served to no dryer, out of turn and not counted.
 */
struct busdekker_written busdekker_panel(struct busdekker_search *search, const uint8_t *request, size_t length, uint8_t *reply, size_t size);

/*
 * The trial load of a seed, to try a panel or a host with made-up leaf: a search that has stopped, the same wherever and whenever it is made. Its
 * numbers come from the generator of Park and Miller (busdekker_draw). Each takes one draw, the next, in this order; the seed is itself no draw:
 *
 *   the first end    the draw modulo 60,001
 *   the second end   the draw modulo 60,001; where that is the first end, the first end plus 1, modulo 60,001
 *   the tolerance    the draw modulo 5,000, plus 1
 *   the method       the draw modulo 2, plus 1: BUSDEKKER_M or BUSDEKKER_R
 *   each value       the draw modulo 20,001, less 10,000. Where the first two values are both above 0 or both below 0, the sign of the second is
 *                    changed, and of no other
 *
 * The share is 0. Values are drawn until the search stops, and no more: never more than `most` of busdekker_quote for its opening. Slots at or past
 * the count hold 0. The report is the one that busdekker_ask tells of the search, BUSDEKKER_STOP; busdekker_write gives its clean sheet, on which
 * busdekker_sheet tells the same. To run it, a host opens a search with its opening and enters slots[0] to slots[count - 1] in turn, each for the
 * point called for: it then has this search, by busdekker_enter and by a panel, and the last report of busdekker_enter is this one. The points stand
 * in the clean sheet.
 * A refusal (20, place 0) says that the seed is not 1 to BUSDEKKER_LARGEST_SEED; beside it stands a search of which every number is 0, and which
 * busdekker_ask refuses (3). Of a wider number than 32 bits C passes the low 32, which may be a seed: the host looks at it first.
 */
struct busdekker_answered busdekker_load(uint32_t seed);

/* The draw after `last`, or the first one after a seed, by the generator of Park and Miller: 16,807 times `last`, modulo 2,147,483,647. Every number
 * may be given. After one from 1 to BUSDEKKER_LARGEST_SEED the draw is in that range too; after a multiple of 2,147,483,647, as 0 is, it is 0. From
 * seed 1 the 10,000th draw is 1,043,618,065. */
uint32_t busdekker_draw(uint32_t last);

/*
 * A survey of the range, for leaf of which nothing is known: trials were dried at equal distances, values[0] at the point `lowest` and each of the others
 * `pitch` above the one before, so that the last point is `lowest` plus `length` - 1 times `pitch`; no sum or product wraps. A pair is two neighbours
 * whose values have a zero or negative product: they are neither both above target nor both below. The list gets the lower point of each pair and of no
 * other, lowest first; the upper one is `pitch` higher. A 0 makes a pair with each neighbour that it has. What lies between two points is not known:
 * where they are no pair, target may still be touched between them, or crossed an even number of times, and a smaller pitch may show it.
 * The pair with the lower point p, whose values are values[i] and values[i + 1] with i = (p - lowest) / pitch, opens a search: an opening with p first,
 * p + pitch second, any of the methods, any tolerance from 1 to 5,000 and share 0 is accepted, and so are values[i] for p and then values[i + 1] for
 * p + pitch. The report then calls for a third point, or is the stop where `pitch` is no more than twice the tolerance.
 * `values` points to `length` numbers, any number of them, which are read and not written, and `list` to `size` numbers, any number of them, none of which
 * is among the values. Neither pointer is null, even where `length` or `size` is 0. Numbers of the list past the pairs keep their contents. Where
 * `length` is 2 to 600, a list of `length` - 1 numbers is always long enough, and so is one of BUSDEKKER_MOST_PAIRS.
 * A refusal leaves the list as it was. The first that applies is told: 21, place 0, where `length` is not 2 to 600, `pitch` is below 1 or a point is not 0
 * to 60,000, and no value is then read; then 7, of the first value out of range, with its index; then 22, place 0, where `size` is below the number of
 * pairs, which is not told.
 */
struct busdekker_surveyed busdekker_survey(int32_t lowest, int32_t pitch, const int32_t *values, size_t length, uint32_t *list, size_t size);

/* A fresh dispatcher: no dryer has a search, `last` is BUSDEKKER_NOBODY, and all six counts are 0. */
struct busdekker_dispatcher busdekker_dispatch_fresh(void);

/* The dryer that has the oven's turn, 0 to 5, or BUSDEKKER_NOBODY where no search is accepted and unfinished. *dispatcher is read and not
 * written. */
uint32_t busdekker_dispatch_turn(const struct busdekker_dispatcher *dispatcher);

/*
 * Makes the dryer's search a fresh search of the opening, as busdekker_open does. The other searches, the mark and all six counts stay: an
 * opening does not clear the dryer's own. The report calls for the first end.
 * A refusal (14, then 16, then 1 to 4, then 17) leaves *dispatcher as it was: a search on its way cannot be lost by an opening, and one that has
 * stopped stays until an accepted opening takes its place.
 */
struct busdekker_report busdekker_dispatch_open(struct busdekker_dispatcher *dispatcher, uint32_t dryer, struct busdekker_opening opening);

/*
 * Offers an answer to the search of the dryer that has the turn, as busdekker_enter does. An accepted one is served: it enters that search, the
 * mark becomes the dryer, and counts[dryer] grows by 1 if it is below BUSDEKKER_SERVED_CEILING. The other searches and the five other counts
 * stay. The report is that of the dryer's search after it; the turn then is another's, unless no other search is accepted and unfinished.
 * A refusal (14, then 15, then 6 to 8) leaves *dispatcher as it was, all six counts too, and the turn with it: after 6, 7 or 8 the trial may be
 * repeated or its value corrected, and offered again. For 6 to 8 place is the number of answers that the dryer's search has taken.
 */
struct busdekker_report busdekker_dispatch_enter(struct busdekker_dispatcher *dispatcher, uint32_t dryer, struct busdekker_answer answer);

/* Asks for the report of the dryer's search as it stands, as busdekker_ask does, whoever has the turn. *dispatcher is read and not written. A
 * refusal is 14, or that of the search: 3 where the dryer has none. */
struct busdekker_report busdekker_dispatch_ask(const struct busdekker_dispatcher *dispatcher, uint32_t dryer);

/* The archive lays the structs out so. */
BUSDEKKER_ASSERT(sizeof(struct busdekker_opening) == 20, "an opening has 20 bytes");
BUSDEKKER_ASSERT(offsetof(struct busdekker_opening, first) == 4, "first stands at 4");
BUSDEKKER_ASSERT(offsetof(struct busdekker_opening, second) == 8, "second stands at 8");
BUSDEKKER_ASSERT(offsetof(struct busdekker_opening, tolerance) == 12, "tolerance stands at 12");
BUSDEKKER_ASSERT(offsetof(struct busdekker_opening, share) == 16, "share stands at 16");
BUSDEKKER_ASSERT(sizeof(struct busdekker_search) == 332, "a search has 332 bytes");
BUSDEKKER_ASSERT(offsetof(struct busdekker_search, count) == 20, "count stands at 20");
BUSDEKKER_ASSERT(offsetof(struct busdekker_search, slots) == 24, "slots stand at 24");
BUSDEKKER_ASSERT(sizeof(struct busdekker_answer) == 8, "an answer has 8 bytes");
BUSDEKKER_ASSERT(offsetof(struct busdekker_answer, value) == 4, "value stands at 4");
BUSDEKKER_ASSERT(sizeof(struct busdekker_dispatcher) == 2020, "a dispatcher has 2,020 bytes");
BUSDEKKER_ASSERT(offsetof(struct busdekker_dispatcher, last) == 1992, "last stands at 1,992");
BUSDEKKER_ASSERT(offsetof(struct busdekker_dispatcher, counts) == 1996, "counts stand at 1,996");
BUSDEKKER_ASSERT(sizeof(struct busdekker_report) == 32, "a report has 32 bytes");
BUSDEKKER_ASSERT(offsetof(struct busdekker_report, point) == 4, "point stands at 4");
BUSDEKKER_ASSERT(offsetof(struct busdekker_report, lower) == 8, "lower stands at 8");
BUSDEKKER_ASSERT(offsetof(struct busdekker_report, upper) == 12, "upper stands at 12");
BUSDEKKER_ASSERT(offsetof(struct busdekker_report, better) == 16, "better stands at 16");
BUSDEKKER_ASSERT(offsetof(struct busdekker_report, taken) == 20, "taken stands at 20");
BUSDEKKER_ASSERT(offsetof(struct busdekker_report, number) == 24, "number stands at 24");
BUSDEKKER_ASSERT(offsetof(struct busdekker_report, place) == 28, "place stands at 28");
BUSDEKKER_ASSERT(sizeof(struct busdekker_quotation) == 20, "a quotation has 20 bytes");
BUSDEKKER_ASSERT(offsetof(struct busdekker_quotation, t) == 4, "t stands at 4");
BUSDEKKER_ASSERT(offsetof(struct busdekker_quotation, most) == 8, "most stands at 8");
BUSDEKKER_ASSERT(offsetof(struct busdekker_quotation, number) == 12, "number stands at 12");
BUSDEKKER_ASSERT(offsetof(struct busdekker_quotation, place) == 16, "place stands at 16");
BUSDEKKER_ASSERT(sizeof(struct busdekker_written) == 16, "what is told of a sheet or a reply has 16 bytes");
BUSDEKKER_ASSERT(offsetof(struct busdekker_written, length) == 4, "length stands at 4");
BUSDEKKER_ASSERT(offsetof(struct busdekker_written, number) == 8, "number stands at 8");
BUSDEKKER_ASSERT(offsetof(struct busdekker_written, place) == 12, "place stands at 12");
BUSDEKKER_ASSERT(sizeof(struct busdekker_outcome) == 8, "an outcome has 8 bytes");
BUSDEKKER_ASSERT(offsetof(struct busdekker_outcome, method) == 2, "method stands at 2");
BUSDEKKER_ASSERT(offsetof(struct busdekker_outcome, answers) == 4, "answers stand at 4");
BUSDEKKER_ASSERT(offsetof(struct busdekker_outcome, quoted) == 6, "quoted stands at 6");
BUSDEKKER_ASSERT(sizeof(struct busdekker_tally) == 24, "a tally has 24 bytes");
BUSDEKKER_ASSERT(offsetof(struct busdekker_tally, unfinished) == 4, "unfinished stands at 4");
BUSDEKKER_ASSERT(offsetof(struct busdekker_tally, refused) == 8, "refused stands at 8");
BUSDEKKER_ASSERT(offsetof(struct busdekker_tally, answers) == 12, "answers stand at 12");
BUSDEKKER_ASSERT(offsetof(struct busdekker_tally, quoted) == 16, "quoted stands at 16");
BUSDEKKER_ASSERT(offsetof(struct busdekker_tally, largest) == 20, "largest stands at 20");
BUSDEKKER_ASSERT(sizeof(struct busdekker_season_report) == 112, "a season report has 112 bytes");
BUSDEKKER_ASSERT(offsetof(struct busdekker_season_report, outcomes) == 4, "outcomes stand at 4");
BUSDEKKER_ASSERT(offsetof(struct busdekker_season_report, number) == 8, "number stands at 8");
BUSDEKKER_ASSERT(offsetof(struct busdekker_season_report, place) == 12, "place stands at 12");
BUSDEKKER_ASSERT(offsetof(struct busdekker_season_report, tallies) == 16, "tallies stand at 16");
BUSDEKKER_ASSERT(sizeof(struct busdekker_surveyed) == 16, "what is told of a survey has 16 bytes");
BUSDEKKER_ASSERT(offsetof(struct busdekker_surveyed, pairs) == 4, "pairs stand at 4");
BUSDEKKER_ASSERT(offsetof(struct busdekker_surveyed, number) == 8, "number stands at 8");
BUSDEKKER_ASSERT(offsetof(struct busdekker_surveyed, place) == 12, "place stands at 12");
BUSDEKKER_ASSERT(sizeof(struct busdekker_answered) == 364, "a report and a search have 364 bytes");
BUSDEKKER_ASSERT(offsetof(struct busdekker_answered, search) == 32, "the search stands at 32");

#ifdef __cplusplus
}
#endif

#endif
