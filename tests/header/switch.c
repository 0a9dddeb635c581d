/*
 * A switch over all numbers, as a caller writes one. With LEFT_OUT one case is
 * missing, which a compiler that warns must refuse.
 */
#include "changeover.h"

int whose_fault(uint64_t answer)
{
    switch (changeover_number(answer)) {
    case CHANGEOVER_SUCCESS:
        return 0;
    case CHANGEOVER_BOOK_LENGTH:
    case CHANGEOVER_HEADER_COUNT:
    case CHANGEOVER_HEADER_OFFSET:
    case CHANGEOVER_PARENT:
    case CHANGEOVER_RELATION:
    case CHANGEOVER_MOVE:
    case CHANGEOVER_RECORD:
    case CHANGEOVER_NO_STEPS:
    case CHANGEOVER_OBJECT:
    case CHANGEOVER_STATE:
    case CHANGEOVER_STEP:
    case CHANGEOVER_OBJECT_TWICE:
    case CHANGEOVER_STATES_DIFFER:
    case CHANGEOVER_UNBOUND_CHANGE:
    case CHANGEOVER_CONFLICT:
    case CHANGEOVER_ALL_NEEDS_MET:
    case CHANGEOVER_CONVERTED_LENGTH:
        return 1;
    case CHANGEOVER_OUTPUT_LENGTH:
        return 2;
    case CHANGEOVER_ORDER_HEADER:
    case CHANGEOVER_START_COUNT:
    case CHANGEOVER_ORDER_OBJECT:
    case CHANGEOVER_START:
    case CHANGEOVER_GOAL_ENTRY:
    case CHANGEOVER_PLAN_STEP:
        return 3;
    case CHANGEOVER_NEED_UNMET:
#ifndef LEFT_OUT
    case CHANGEOVER_GOAL_MISSED:
#endif
        return 4;
    }
    return -1;
}
