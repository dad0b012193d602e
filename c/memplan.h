/* memplan for C: orders of least memory for the fronts of a sparse factorization, or for any tree of tasks, with proof.
 *
 * What each status says here, and what is written then, is in the contract of the function (crates/memplan_c), which is proved for all
 * arrays; what is said of time, and what is marked as tested alone, is in none. The contracts rest on duties of the caller, which no call
 * can check:
 *
 *   - each pointer points to as many elements as the length beside it says, and none is null, also where the length is 0;
 *   - what a call writes overlaps nothing else that it is given;
 *   - malloc, realloc and free are those of one C library; no call is made from a signal handler, nor in a forked child of a process
 *     with threads.
 *
 * All else is judged by the library: it refuses what is no tree, no order, or past a limit, and says why. A refused call answers a status
 * that is not 0 and writes *fault, and nothing else. A call that is not refused answers MEMPLAN_DONE and leaves *fault as it was.
 *
 * Nothing is kept between calls, so calls on several threads are independent. A core is kept in memory that the caller gives; calls on one
 * core are made one at a time (under one lock, where there are several threads).
 *
 * Sizes are in a unit of the caller's choice, at most 2^40 each and 2^60 together; there are at most 1,000,000 tasks. Tasks are numbered
 * from 1, as they stand in their array.
 */
#ifndef MEMPLAN_H
#define MEMPLAN_H

#include <stddef.h>
#include <stdint.h>

#ifdef __cplusplus
extern "C" {
#endif

/* The version of this header; memplan_version() is that of the library. */
#define MEMPLAN_VERSION "1.1.0"
const char *memplan_version(void);

/* ---- data ---- */

/* A node of a tree: a task, as a front, that leaves one block to its parent. */
typedef struct memplan_node {
    uint32_t parent; /* the number of the parent, from 1; 0 at a root */
    uint64_t out;    /* the size of the block that it leaves to its parent */
    uint64_t extra;  /* what it needs while it runs, beside the blocks of its children and its own */
    uint64_t share;  /* how much of its need it takes over from the blocks of its children; else 0 */
    uint64_t time;   /* how long it runs, 1 to 2^40; no call here uses it */
} memplan_node;

/* A task of a system, and a data item, which is in memory from the end of the task that produces it to the end of the one that consumes
 * it. */
typedef struct memplan_task {
    uint64_t extra; /* what it needs while it runs, beside what it consumes and produces */
    uint64_t share; /* how much of its need it takes over from what it consumes; else 0 */
    uint64_t time;  /* how long it runs, 1 to 2^40; no call here uses it */
} memplan_task;

typedef struct memplan_item {
    uint64_t size; /* 0 is a mere dependence */
    uint32_t from; /* the task that produces it, from 1; 0 where it is there from the start */
    uint32_t to;   /* the task that consumes it, from 1; 0 where it stays to the end */
} memplan_item;

/* A data item that any number of tasks read: it is in memory once, from the end of the task that produces it to the end of the last of
 * its readers. The readers of all items stand in one array, item by item. */
typedef struct memplan_shared_item {
    uint64_t size;    /* 0 is a mere dependence */
    uint32_t from;    /* the task that produces it, from 1; 0 where it is there from the start */
    uint32_t readers; /* how many of the numbers in the array of readers are this item's, after those of the items before it; they rise,
                       * and the producer is none of them. Where it has none it stays to the end. */
} memplan_shared_item;

/* A claim that certifies a plan: on the part of the tree's term that ends at a position. memplan_certify_tree writes claims, and
 * memplan_check_tree judges them; between the two they may be kept or sent, as they are. */
typedef struct memplan_claim {
    uint32_t position; /* from 1, each greater than that of the claim before */
    uint32_t backward; /* 0 forwards, else backwards */
    int64_t bound;     /* from -2^60 to 2^60 */
    uint64_t rest;     /* at most 2^60 */
} memplan_claim;

/* How the fronts of a matrix are made. */
typedef struct memplan_front_options {
    uint32_t shape;    /* a memplan_shape: which entries of a front and of a block are kept */
    uint32_t in_place; /* any number but 0: a front is built over the greatest block of its children, which is its share */
    uint32_t merge;    /* any number but 0: fronts are merged into their parents where that adds at most so many zeros */
    uint64_t zeros;    /* how many explicit zeros a merge may add; not read where merge is 0 */
} memplan_front_options;

/* What is wrong. */
typedef struct memplan_fault {
    uint32_t kind;  /* a memplan_kind */
    uint64_t at;    /* which node, place, step, position or claim, from 1; 0 where the kind has no place */
    uint64_t value; /* what the kind tells beside that; else 0 */
} memplan_fault;

/* Room for an activation core, of memplan_core_size() bytes, aligned as a uint64_t is. */
typedef struct memplan_core memplan_core;

/* ---- statuses: those of the program, as its exit codes ---- */

enum memplan_status {
    MEMPLAN_DONE = 0,        /* the call did what it is for */
    MEMPLAN_NO = 1,          /* the order is no traversal, or none of the fronts, or the plan is not accepted */
    MEMPLAN_USAGE = 2,       /* a length, an option, or the number of workers, does not fit */
    MEMPLAN_FORMAT = 3,      /* the nodes are no tree, the columns no matrix, or a claim is out of place */
    MEMPLAN_LIMIT = 4,       /* a limit is passed */
    MEMPLAN_BOUND = 5,       /* the bound on memory is below the peak of the order */
    MEMPLAN_NO_MEMORY = 8,   /* memory ran out, which says nothing of what was given */
    MEMPLAN_WORKING_SET = 10 /* a step needs more for itself than the bound */
};

enum memplan_shape {
    MEMPLAN_TRIANGLE = 0, /* the lower triangle: r (r + 1) / 2 entries of order r */
    MEMPLAN_SQUARE = 1    /* all: r r entries */
};

/* ---- kinds of faults ---- */

enum memplan_kind {
    MEMPLAN_KIND_NO_MEMORY = 1,
    MEMPLAN_KIND_ROOM = 2,       /* value: the length that is needed */
    MEMPLAN_KIND_CLAIM_ROOM = 3, /* value: room for how many claims is always enough */
    MEMPLAN_KIND_WORKERS = 4,    /* not from 1 to 4,096 */

    /* nodes, or tasks of a system: the first of these tests that fails, with the lowest node that fails it (at) */
    MEMPLAN_KIND_NO_NODE = 10,    /* there is none */
    MEMPLAN_KIND_MANY_TASKS = 11, /* more than 1,000,000 */
    MEMPLAN_KIND_PARENT = 12,     /* the parent is greater than the number of nodes */
    MEMPLAN_KIND_TIME = 13,       /* the time is 0 */
    MEMPLAN_KIND_SIZE = 14,       /* the out or the extra is greater than 2^40 */
    MEMPLAN_KIND_LONG_TIME = 15,  /* the time is greater than 2^40 */
    MEMPLAN_KIND_TOTAL = 16,      /* all outs and extras together are greater than 2^60 */
    MEMPLAN_KIND_CYCLE = 17,      /* the parents lead to no root; or no order of the tasks has this one after what it reads is made */
    MEMPLAN_KIND_SHARE = 18,      /* the share is greater than what the task alone consumes, or than its extra and what it produces */

    /* orders: the first place that fails (at) */
    MEMPLAN_KIND_UNKNOWN = 20,   /* no task has this number */
    MEMPLAN_KIND_REPEATED = 21,  /* the task stood before */
    MEMPLAN_KIND_TOO_EARLY = 22, /* a task that produces what it consumes has not run */
    MEMPLAN_KIND_MISSING = 23,   /* the order ends here, and not every task has run */

    MEMPLAN_KIND_BOUND_BELOW = 30, /* value: the peak of the order */
    MEMPLAN_KIND_WORKING_SET = 31, /* at: the first such step; value: what it needs */

    /* plans with claims */
    MEMPLAN_KIND_LONG_ORDER = 40,    /* the order has more than 1,000,000 places */
    MEMPLAN_KIND_GREAT_PEAK = 41,    /* the peak is greater than 2^60 */
    MEMPLAN_KIND_MANY_CLAIMS = 42,   /* more than 4,000,001 */
    MEMPLAN_KIND_CLAIM = 43,         /* at: the first claim that is not past the one before, or not within its limits */
    MEMPLAN_KIND_OTHER_PEAK = 44,    /* value: the peak that the order has */
    MEMPLAN_KIND_NO_ROOT_CLAIM = 45, /* at: the last position, which has no claim with a bound of at least the peak less 1 */
    MEMPLAN_KIND_WRONG_CLAIM = 46,   /* at: the position of the lowest claim that does not meet its rule */

    /* items of a system: the first that fails (at) */
    MEMPLAN_KIND_MANY_ITEMS = 50, /* more than 4,000,001 */
    MEMPLAN_KIND_ENDS = 51,       /* from or to is greater than the number of tasks */
    MEMPLAN_KIND_ITEM_SIZE = 52,  /* the size is greater than 2^40 */
    MEMPLAN_KIND_MANY_USES = 53,  /* more than 10,000,000 readers of all items together */
    MEMPLAN_KIND_COUNTS = 54,     /* there are not as many readers as the items say */
    MEMPLAN_KIND_READERS = 55,    /* a reader is 0, or greater than the number of tasks */
    MEMPLAN_KIND_APART = 56,      /* its producer reads it */
    MEMPLAN_KIND_RISING = 57,     /* its readers do not rise: one stands twice, or after a greater one */

    /* compressed columns: the first of these tests that fails, with the first place that fails it (at) */
    MEMPLAN_KIND_BASE = 60,         /* the base is neither 0 nor 1 */
    MEMPLAN_KIND_NO_COLUMN = 61,    /* there is none: fewer than two starts */
    MEMPLAN_KIND_MANY_COLUMNS = 62, /* more than 1,000,000 */
    MEMPLAN_KIND_MANY_ENTRIES = 63, /* more than 10,000,000 */
    MEMPLAN_KIND_START = 64,        /* a start is below the one before, or the first is not the base */
    MEMPLAN_KIND_ENTRIES = 65,      /* value: how many entries the starts tell; there are not as many rows */
    MEMPLAN_KIND_ROW = 66,          /* the row of an entry is none */

    /* orders of elimination: the first place that fails (at) */
    MEMPLAN_KIND_PLACES = 67,          /* there are not as many places as columns */
    MEMPLAN_KIND_NO_SUCH_COLUMN = 68,  /* no column has this number */
    MEMPLAN_KIND_COLUMN_REPEATED = 69, /* the column stood before */
    MEMPLAN_KIND_DEGREE = 70,          /* more than 50,000 columns are not ordered by minimum degree */

    MEMPLAN_KIND_SHAPE = 71,     /* no shape has this number */
    MEMPLAN_KIND_NODE_ROOM = 72, /* value: how many nodes there must be room for */

    /* columns of fronts */
    MEMPLAN_KIND_COLUMN_FRONTS = 73, /* there are not as many fronts of columns as columns */
    MEMPLAN_KIND_NO_SUCH_FRONT = 74  /* at: the first column whose front is none of those in the order */
};

/* What a kind says, in a few words: "a parent is no node". Never null: "refused" where no kind has this number. The text is the library's.
 * Tested alone. */
const char *memplan_message(uint32_t kind);

/* ---- trees ---- */

/* A traversal of least peak of a tree.
 *
 * nodes, count   the nodes
 * order, places  where the order goes; places must be count
 * peak           where its peak goes
 *
 * MEMPLAN_DONE   order has the number of each node once, each after its children; *peak is the most memory that is needed at any moment
 *                of this order; no such order has a lower peak.
 * else           MEMPLAN_USAGE (room), MEMPLAN_FORMAT or MEMPLAN_LIMIT (nodes), MEMPLAN_NO_MEMORY.
 *
 * Near linear in the nodes. */
uint32_t memplan_plan_tree(const memplan_node *nodes, size_t count, uint32_t *order, size_t places, uint64_t *peak,
                           memplan_fault *fault);

/* The same, with claims that certify it, which memplan_check_tree accepts. *claim_count says how many were written at the front of claims;
 * what lies past them is left as it was. Room for 3 count + 1 claims is always enough. Where there is room for fewer than there are, the
 * answer is MEMPLAN_USAGE, and the fault's value is 3 count + 1: with room for so many, the call is not refused for want of it. */
uint32_t memplan_certify_tree(const memplan_node *nodes, size_t count, uint32_t *order, size_t places, uint64_t *peak,
                              memplan_claim *claims, size_t claim_room, uint64_t *claim_count, memplan_fault *fault);

/* Judges a plan by its claims, whoever made it, without planning.
 *
 * MEMPLAN_DONE   the order is a traversal of the tree, peak is its peak, and no traversal has a lower one.
 * MEMPLAN_NO     the first objection: the order, the peak, the claim on the whole, or the lowest claim that fails.
 * else           MEMPLAN_FORMAT or MEMPLAN_LIMIT (nodes; then order, peak and claims), MEMPLAN_NO_MEMORY.
 *
 * Linear in the nodes and claims. */
uint32_t memplan_check_tree(const memplan_node *nodes, size_t count, const uint32_t *order, size_t places, uint64_t peak,
                            const memplan_claim *claims, size_t claim_count, memplan_fault *fault);

/* The best postorder of a tree: as memplan_plan_tree, among the orders in which the nodes of every subtree stand together. */
uint32_t memplan_best_postorder(const memplan_node *nodes, size_t count, uint32_t *order, size_t places, uint64_t *peak,
                                memplan_fault *fault);

/* The peak of an order of a tree.
 *
 * MEMPLAN_DONE   the order is a traversal, and *peak is its peak.
 * MEMPLAN_NO     the first place at which it is none.
 * else           MEMPLAN_FORMAT or MEMPLAN_LIMIT (nodes), MEMPLAN_NO_MEMORY. */
uint32_t memplan_replay_tree(const memplan_node *nodes, size_t count, const uint32_t *order, size_t places, uint64_t *peak,
                             memplan_fault *fault);

/* What has to go to disk where an order of a tree runs within a bound below its peak.
 *
 * amounts, room  where the amount of each node's block goes; room must be count
 * volume         where all amounts together go
 *
 * MEMPLAN_DONE         with these amounts on disk, from the end of a node to the start of its parent, the order runs within the bound; no
 *                      such amounts, constant or changing from step to step, have a lower volume.
 * MEMPLAN_NO           the first place at which the order is no traversal.
 * MEMPLAN_WORKING_SET  the first step that needs more for itself than the bound: nothing makes room for it.
 * else                 MEMPLAN_USAGE (room), MEMPLAN_FORMAT or MEMPLAN_LIMIT (nodes), MEMPLAN_NO_MEMORY. */
uint32_t memplan_spill_tree(const memplan_node *nodes, size_t count, const uint32_t *order, size_t places, uint64_t bound,
                            uint64_t *amounts, size_t room, uint64_t *volume, memplan_fault *fault);

/* ---- matrices ---- */

/* The fronts of a sparse symmetric matrix, as a multifrontal solver makes them, as a tree of nodes: its columns are eliminated in an
 * order, along a postorder of their elimination tree, and cut into fundamental supernodes; each is a front, whose block is its
 * contribution block.
 *
 * base            0 or 1: what starts, rows and order count from
 * starts          for each column where its entries start, and at the end where those of the last one end; so start_count is one more
 *                 than the number of columns
 * rows            the row of each entry, column by column; the lower triangle, the upper one, or both; the diagonal and what is given
 *                 again change nothing
 * order, places   the columns in the order in which they are eliminated; where places is 0, that of minimum degree, which takes no more
 *                 than 50,000 columns
 * options         how the fronts are made
 * nodes, room     where the fronts go; there are at most as many as columns
 * count           where their number goes
 * front_of        where the front of each column goes, which counts from 1 as all numbers of nodes do; columns must be the number of
 *                 columns
 *
 * MEMPLAN_DONE    the first *count nodes are the tree of the fronts, what lies past them is left as it was, and front_of has the front of
 *                 each column. (Tested alone: the columns sorted by their fronts are an order of elimination with these fronts.)
 * MEMPLAN_USAGE   a length, the base or the shape does not fit; or there is room for fewer nodes than there are fronts.
 * MEMPLAN_FORMAT  the first place at which the columns are none of a matrix, or the order is none of its columns.
 * else            MEMPLAN_LIMIT, MEMPLAN_NO_MEMORY.
 *
 * A node's time is the number of columns of its front. Near linear in the entries, but for an order of minimum degree. */
uint32_t memplan_fronts(uint32_t base, const uint32_t *starts, size_t start_count, const uint32_t *rows, size_t entries,
                        const uint32_t *order, size_t places, const memplan_front_options *options, memplan_node *nodes, size_t room,
                        uint64_t *count, uint32_t *front_of, size_t columns, memplan_fault *fault);

/* The same, and the columns in the order in which the analysis numbers them: along the postorder of the elimination tree. It has the same
 * fill as the order that is given, and the columns of each front come after those of its children.
 *
 * columns, places_of_columns   where this order goes, counted from base; places_of_columns must be the number of columns
 *
 * MEMPLAN_DONE    as above, and columns has each column once. */
uint32_t memplan_analyse(uint32_t base, const uint32_t *starts, size_t start_count, const uint32_t *rows, size_t entries,
                         const uint32_t *order, size_t places, const memplan_front_options *options, memplan_node *nodes, size_t room,
                         uint64_t *count, uint32_t *front_of, size_t front_of_columns, uint32_t *columns, size_t places_of_columns,
                         memplan_fault *fault);

/* An order of the fronts as an order of elimination, for a solver: the columns of each front, in the order in which they stand in columns,
 * one front after another. Where columns and front_of come from memplan_analyse, and fronts from memplan_plan_tree or
 * memplan_best_postorder, each column comes before its parent in the elimination tree of the order that was analysed. So the factor has as
 * many entries, in the same rows of each column; and where no fronts were merged, those of the new order have the same columns. Fronts in a
 * postorder that were not merged are made in just this order by a solver that postorders the elimination tree with children by rising number.
 *
 * base                 what columns and new_columns count from
 * columns, count       each column once, in the order in which they are eliminated
 * front_of, of_columns the front of each column, from 1, at the place that its number tells; of_columns must be count
 * fronts, front_count  each front once, from 1 on
 * new_columns, places  where the new order goes; places must be count
 *
 * MEMPLAN_DONE    new_columns has each column once, front by front.
 * MEMPLAN_USAGE   a length does not fit.
 * MEMPLAN_FORMAT  the first place at which the columns are not each of them once, or the first column whose front is none of the order.
 * MEMPLAN_NO      the first place at which the fronts are not each of them once.
 * else            MEMPLAN_LIMIT, MEMPLAN_NO_MEMORY.
 *
 * Linear in the columns. */
uint32_t memplan_columns(uint32_t base, const uint32_t *columns, size_t count, const uint32_t *front_of, size_t of_columns,
                         const uint32_t *fronts, size_t front_count, uint32_t *new_columns, size_t places, memplan_fault *fault);

/* The columns of a matrix in the order of minimum degree, which memplan_fronts takes where places is 0.
 *
 * base, starts, rows   as for memplan_fronts
 * columns, places      where the order goes, counted from base; places must be the number of columns
 *
 * MEMPLAN_DONE    columns has each column once: at each turn one of least degree, and of several the one of least number.
 * MEMPLAN_USAGE   a length or the base does not fit.
 * MEMPLAN_FORMAT  the first place at which the columns are none of a matrix.
 * else            MEMPLAN_LIMIT, also where there are more columns than it takes, MEMPLAN_NO_MEMORY. */
uint32_t memplan_minimum_degree(uint32_t base, const uint32_t *starts, size_t start_count, const uint32_t *rows, size_t entries,
                                uint32_t *columns, size_t places, memplan_fault *fault);

/* ---- systems ---- */

/* The peak of an order of tasks that hand items to each other: as memplan_replay_tree. Whether the tasks can be ordered at all is no
 * matter of the system; an order is judged by its replay. MEMPLAN_FORMAT or MEMPLAN_LIMIT speak of the tasks and items. */
uint32_t memplan_replay_system(const memplan_task *tasks, size_t count, const memplan_item *items, size_t item_count,
                               const uint32_t *order, size_t places, uint64_t *peak, memplan_fault *fault);

/* The same where an item may have any number of readers, and counts once. That the tasks can be ordered is part of the system here.
 *
 * tasks, count           the tasks
 * items, item_count      the items
 * readers, reader_count  the readers of all items, item by item
 * order, places          the order
 * peak                   where its peak goes
 *
 * MEMPLAN_DONE    the order is a traversal: it has each task once, after those that produce what it reads; *peak is its peak.
 * MEMPLAN_NO      the first place at which it is none.
 * MEMPLAN_USAGE   there are not as many readers as the items say.
 * MEMPLAN_FORMAT  the first of the tests that fails, with the lowest task or the first item that fails it.
 * else            MEMPLAN_LIMIT, MEMPLAN_NO_MEMORY.
 *
 * Linear in the tasks, the items and the readers. */
uint32_t memplan_replay_shared(const memplan_task *tasks, size_t count, const memplan_shared_item *items, size_t item_count,
                               const uint32_t *readers, size_t reader_count, const uint32_t *order, size_t places, uint64_t *peak,
                               memplan_fault *fault);

/* The effort of memplan_plan_shared where nothing else is known: that of the program's command plan for a task graph. */
#define MEMPLAN_EFFORT 1000000000

/* A plan where an item may have any number of readers: an order, its peak, and a bound that no order has a peak below.
 *
 * tasks, items, readers, and their numbers, as for memplan_replay_shared
 * start, start_count      an order of the caller's to begin with; where start_count is 0, the plan begins with the order breadth first, and
 *                         start is any pointer that is not null
 * effort                  how much is searched for a better order and a better bound, where there is no term: MEMPLAN_EFFORT, or any other
 *                         number; with 0 hardly anything. It is counted in steps, about so many for a thousand tasks and more for more,
 *                         up to some 20 times as many: the same call gives the same plan on any machine (tested alone)
 * order, places           where the order goes; places must be count
 * peak, bound             where its peak and the bound go
 *
 * MEMPLAN_DONE    order is a traversal: it has each task once, after those that produce what it reads; *peak is its peak, and is not above
 *                 that of start, where there is one; no traversal has a peak below *bound. So where *bound is *peak no order has a lower
 *                 peak. They are the same, whatever the effort, but where the command reduce makes no series-parallel term of the tasks, since
 *                 there is none or it would have too many arcs.
 * MEMPLAN_NO      the first place at which start is no traversal.
 * MEMPLAN_USAGE   room, or there are not as many readers as the items say.
 * MEMPLAN_FORMAT  the first of the tests that fails, with the lowest task or the first item that fails it.
 * else            MEMPLAN_LIMIT, MEMPLAN_NO_MEMORY.
 *
 * Near linear in the tasks, the items and the readers where there is a term; elsewhere by the effort, some 100 million steps a second, and
 * no less than linear. */
uint32_t memplan_plan_shared(const memplan_task *tasks, size_t count, const memplan_shared_item *items, size_t item_count,
                             const uint32_t *readers, size_t reader_count, const uint32_t *start, size_t start_count, uint64_t effort,
                             uint32_t *order, size_t places, uint64_t *peak, uint64_t *bound, memplan_fault *fault);

/* ---- the activation core: tasks on several workers within a bound on memory ----
 *
 * Whoever runs the tasks embeds it. Tasks are activated along an order, which books their memory; an activated task whose suppliers are
 * done is started by a free worker. Memory that is used stays within what is booked, and that within the bound; a core never gets stuck:
 * while not every task is done, one may be activated, started or finished.
 *
 *     memplan_core *core = malloc(memplan_core_size());
 *     memplan_core_new(core);
 *     if (memplan_core_begin(core, nodes, n, order, n, bound, workers, &fault) == MEMPLAN_DONE)
 *         for (size_t left = n; left; left--) {
 *             uint32_t task;
 *             while (memplan_core_activate(core))
 *                 ;
 *             while ((task = memplan_core_next(core)) && memplan_core_start(core, task))
 *                 give(task);                            a worker runs it
 *             memplan_core_finish(core, wait_for_one()); a task that a worker has run
 *         }
 *     memplan_core_end(core);
 *     free(core);
 *
 * All calls but the three that begin take no memory, and none of them is refused: a call that may not be is answered 0 and does nothing. */

/* How many bytes a core takes. */
size_t memplan_core_size(void);

/* Makes memory of that size ready; it holds no core yet. Each such memory is given to memplan_core_end once. */
void memplan_core_new(memplan_core *core);

/* Puts a core for a tree at its start into the memory, in the place of any that was there.
 *
 * MEMPLAN_DONE   nothing is activated; the order is a traversal of the tree, and the bound is at least its peak.
 * MEMPLAN_NO     the first place at which the order is no traversal.
 * MEMPLAN_BOUND  the bound is below the peak of the order.
 * else           MEMPLAN_USAGE (workers), MEMPLAN_FORMAT or MEMPLAN_LIMIT (nodes), MEMPLAN_NO_MEMORY; what was there stays. */
uint32_t memplan_core_begin(memplan_core *core, const memplan_node *nodes, size_t count, const uint32_t *order, size_t places,
                            uint64_t bound, uint32_t workers, memplan_fault *fault);

/* The same for a system of tasks and items, which need be neither a tree nor series-parallel. */
uint32_t memplan_core_begin_system(memplan_core *core, const memplan_task *tasks, size_t count, const memplan_item *items,
                                   size_t item_count, const uint32_t *order, size_t places, uint64_t bound, uint32_t workers,
                                   memplan_fault *fault);

/* The same where an item may have any number of readers, as in memplan_replay_shared: it is freed when the last of them ends. */
uint32_t memplan_core_begin_shared(memplan_core *core, const memplan_task *tasks, size_t count, const memplan_shared_item *items,
                                   size_t item_count, const uint32_t *readers, size_t reader_count, const uint32_t *order,
                                   size_t places, uint64_t bound, uint32_t workers, memplan_fault *fault);

/* Activates the next task of the order where its need fits under the bound: its number, or 0. */
uint32_t memplan_core_activate(memplan_core *core);

/* Of the tasks that may start now the one that stands first in the order; 0 just where none may. It changes nothing, so it answers the same
 * until a task is activated, started or finished. Whoever asks it needs no list of tasks that wait: it takes constant time. */
uint32_t memplan_core_next(memplan_core *core);

/* Starts a task: 1 just where it is activated and has not started, what it consumes has been produced, and a worker is free; else 0. */
uint32_t memplan_core_start(memplan_core *core, uint32_t task);

/* Ends a task: 1 just where it runs; else 0. */
uint32_t memplan_core_finish(memplan_core *core, uint32_t task);

/* Whether memplan_core_start would answer 1; whether a task is done. */
uint32_t memplan_core_is_startable(memplan_core *core, uint32_t task);
uint32_t memplan_core_is_done(memplan_core *core, uint32_t task);

/* Used memory: the items that are present, and the needs of the running tasks. Booked memory: the items that are present, and the needs
 * of the activated tasks that are not done. Both are 0 where there is no core. */
uint64_t memplan_core_used(memplan_core *core);
uint64_t memplan_core_booked(memplan_core *core);

/* Frees what a core holds; its memory is the caller's again. */
void memplan_core_end(memplan_core *core);

#ifdef __cplusplus
}
#endif
#endif
