/* What the kinds of faults say. tools/make_messages.py makes this file; no proof speaks of it. */

#include "memplan.h"

const char *memplan_message(uint32_t kind)
{
    switch (kind) {
    case MEMPLAN_KIND_NO_MEMORY:
        return "memory ran out";
    case MEMPLAN_KIND_ROOM:
        return "an array has another length than is needed";
    case MEMPLAN_KIND_CLAIM_ROOM:
        return "there is room for fewer claims than are needed";
    case MEMPLAN_KIND_WORKERS:
        return "the workers are not from 1 to 4,096";
    case MEMPLAN_KIND_NO_NODE:
        return "there is no node";
    case MEMPLAN_KIND_MANY_TASKS:
        return "there are more than 1,000,000 tasks";
    case MEMPLAN_KIND_PARENT:
        return "a parent is no node";
    case MEMPLAN_KIND_TIME:
        return "a time is 0";
    case MEMPLAN_KIND_SIZE:
        return "a size is greater than 2^40";
    case MEMPLAN_KIND_LONG_TIME:
        return "a time is greater than 2^40";
    case MEMPLAN_KIND_TOTAL:
        return "all sizes together are greater than 2^60";
    case MEMPLAN_KIND_CYCLE:
        return "the parents lead to no root, or the tasks wait for each other";
    case MEMPLAN_KIND_SHARE:
        return "a share does not fit";
    case MEMPLAN_KIND_UNKNOWN:
        return "no task has this number";
    case MEMPLAN_KIND_REPEATED:
        return "a task stands twice";
    case MEMPLAN_KIND_TOO_EARLY:
        return "a task stands before one that produces what it consumes";
    case MEMPLAN_KIND_MISSING:
        return "the order ends before every task has run";
    case MEMPLAN_KIND_BOUND_BELOW:
        return "the bound is below the peak of the order";
    case MEMPLAN_KIND_WORKING_SET:
        return "a step needs more for itself than the bound";
    case MEMPLAN_KIND_LONG_ORDER:
        return "the order has more than 1,000,000 places";
    case MEMPLAN_KIND_GREAT_PEAK:
        return "the peak is greater than 2^60";
    case MEMPLAN_KIND_MANY_CLAIMS:
        return "there are more than 4,000,001 claims";
    case MEMPLAN_KIND_CLAIM:
        return "a claim is out of place or past a limit";
    case MEMPLAN_KIND_OTHER_PEAK:
        return "the order has another peak";
    case MEMPLAN_KIND_NO_ROOT_CLAIM:
        return "no claim on the whole is strong enough";
    case MEMPLAN_KIND_WRONG_CLAIM:
        return "a claim does not meet its rule";
    case MEMPLAN_KIND_MANY_ITEMS:
        return "there are more than 4,000,001 items";
    case MEMPLAN_KIND_ENDS:
        return "an item is produced or consumed by no task";
    case MEMPLAN_KIND_ITEM_SIZE:
        return "the size of an item is greater than 2^40";
    case MEMPLAN_KIND_MANY_USES:
        return "there are more than 10,000,000 readers";
    case MEMPLAN_KIND_COUNTS:
        return "there are not as many readers as the items say";
    case MEMPLAN_KIND_READERS:
        return "a reader of an item is no task";
    case MEMPLAN_KIND_APART:
        return "an item is read by the task that produces it";
    case MEMPLAN_KIND_RISING:
        return "the readers of an item do not rise";
    case MEMPLAN_KIND_BASE:
        return "the base is neither 0 nor 1";
    case MEMPLAN_KIND_NO_COLUMN:
        return "there is no column";
    case MEMPLAN_KIND_MANY_COLUMNS:
        return "there are more than 1,000,000 columns";
    case MEMPLAN_KIND_MANY_ENTRIES:
        return "there are more than 10,000,000 entries";
    case MEMPLAN_KIND_START:
        return "a column starts before the one before it, or the first one not at the base";
    case MEMPLAN_KIND_ENTRIES:
        return "the starts tell another number of entries than there are rows";
    case MEMPLAN_KIND_ROW:
        return "the row of an entry is none";
    case MEMPLAN_KIND_PLACES:
        return "the order has not as many places as there are columns";
    case MEMPLAN_KIND_NO_SUCH_COLUMN:
        return "the order names a column that is none";
    case MEMPLAN_KIND_COLUMN_REPEATED:
        return "the order names a column twice";
    case MEMPLAN_KIND_DEGREE:
        return "more than 50,000 columns are not ordered by minimum degree";
    case MEMPLAN_KIND_SHAPE:
        return "no shape has this number";
    case MEMPLAN_KIND_NODE_ROOM:
        return "there is room for fewer nodes than there are fronts";
    case MEMPLAN_KIND_COLUMN_FRONTS:
        return "there are not as many fronts of columns as columns";
    case MEMPLAN_KIND_NO_SUCH_FRONT:
        return "the front of a column is none of those in the order";
    default:
        return "refused";
    }
}
