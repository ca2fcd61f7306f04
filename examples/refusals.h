/* The refusals in words, for the examples. */
#ifndef EXAMPLES_REFUSALS_H
#define EXAMPLES_REFUSALS_H

#include "busdekker.h"

static const char *refusal_in_words(uint32_t number) {
    switch (number) {
    case BUSDEKKER_MISPLACED_SURVEY:
        return "the survey has fewer than 2 or more than 600 values, a pitch below 0.01 degrees, or a point that is not from 0.00 to 600.00 degrees";
    case BUSDEKKER_SEED_OUT_OF_RANGE:
        return "the seed is not from 1 to 2,147,483,646";
    case BUSDEKKER_MISSHAPEN_RUN:
        return "the run has more than 10,000 outcomes, or its numbers are not in whole fours";
    case BUSDEKKER_REPLY_TOO_SHORT:
        return "the buffer for the reply is shorter than 16 bytes";
    case BUSDEKKER_NO_SUCH_DRYER:
        return "there is no such dryer; they are 0 to 5";
    case BUSDEKKER_NOT_ITS_TURN:
        return "it is not this dryer's turn; keep the leaf until the oven calls for it";
    case BUSDEKKER_STILL_SEARCHING:
        return "its search is on its way; bring its trials until it stops, and open then";
    case BUSDEKKER_TEXT_TOO_LONG:
        return "the text is longer than 4,096 bytes";
    case BUSDEKKER_TOO_MANY_ANSWERS:
        return "it is a 78th answer";
    case BUSDEKKER_MALFORMED_RECORD:
        return "the form of the record is wrong";
    case BUSDEKKER_COUNT_ABOVE_SLOTS:
        return "the search says that it holds more than 77 answers";
    case BUSDEKKER_UNKNOWN_METHOD:
        return "the method is not 0, 1 or 2";
    case BUSDEKKER_END_OUT_OF_RANGE:
        return "an end is not from 0.00 to 600.00 degrees";
    case BUSDEKKER_ENDS_EQUAL:
        return "the two ends are equal";
    case BUSDEKKER_TOLERANCE_OUT_OF_RANGE:
        return "the tolerance is not from 0.01 to 50.00 degrees";
    case BUSDEKKER_SHARE_OUT_OF_RANGE:
        return "the share is not from 0 to 100 parts per thousand";
    case BUSDEKKER_HAD_STOPPED:
        return "the search had stopped";
    case BUSDEKKER_NOT_CALLED_FOR:
        return "the setting is not the one called for";
    case BUSDEKKER_VALUE_OUT_OF_RANGE:
        return "the value is not from -100.00 to 100.00";
    case BUSDEKKER_SAME_SIDE:
        return "the first two values are on the same side of target";
    case BUSDEKKER_BUFFER_TOO_SHORT:
        return "the buffer is shorter than the sheet";
    case BUSDEKKER_LIST_TOO_SHORT:
        return "the list is shorter than the pairs found";
    default:
        return "no refusal of this interface";
    }
}

#endif
