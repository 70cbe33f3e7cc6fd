/* Mooringakee for C11 and C++17: a queue and sets without locks, which reclaim their nodes by themselves.
 *
 * A container has a fixed number of rows. A row is one node at a time, and is given again once nothing links that node
 * and nobody holds it. Who calls at the same time are agents, 1 to 16 of them, each with a pass of its own: a thread
 * calls with its pass, and with no other. A make fills one pass for each agent and takes the memory of the container.
 * Every call returns, after a bounded number of tries; none waits or starts a thread. None but make, drop and close calls
 * malloc or free, which may lock; the last close takes a list of the passes.
 *
 *     struct mooringakee_pass passes[2] = {{0}};
 *     if (mooringakee_queue_make(1024, 64, passes, 2) == MOORINGAKEE_OK)
 *         ... one thread calls with &passes[0], another with &passes[1] ...
 *
 * A null pointer, an empty pass, a pass of a container of another kind, and a number out of range are answered with a
 * code. What the caller owes, and nothing checks:
 *
 *  1. A pass begins as all zero bytes. By its bytes alone an empty pass is told from a live one.
 *  2. Only the functions below write to a pass, and it is not copied while it is live: it owns its agent's place, which a
 *     copy would use and give up a second time. It may be moved, if the old bytes are zeroed or never used again.
 *  3. With one pass one call is made at a time: what its agent has under way stands in plain memory.
 *  4. A pass goes to another thread by the start or the join of a thread, a lock, or a sequentially consistent atomic,
 *     for the same reason.
 *  5. At each pointer is the memory that the call is told of, and no other argument has any of it: a call reads and
 *     writes it in any order.
 *  6. malloc, realloc and free are those of one allocator, and align to 16 as the C standard's do on this machine:
 *     what make has from malloc, the last drop or close gives to free.
 *  7. No call is made from a signal handler, which may have stopped another call with the same pass, or malloc; nor in
 *     the child of a fork of a process with threads, where the calls of the others have stopped half way for ever.
 *  8. No call is left by longjmp, pthread_cancel or an exception from a handler: until it returns, the pass is empty,
 *     and what it owned would be lost.
 *
 * Values and keys are numbers of 64 bits without a limit. Where a value is a pointer, what it points to stays the
 * caller's: no container reads or frees it. What a thread wrote before it put a value is seen by who takes that value.
 *
 * What is proved of these functions, and what is not, stands in docs/C.md. */
#ifndef MOORINGAKEE_H
#define MOORINGAKEE_H

#include <stdbool.h>
#include <stddef.h>
#include <stdint.h>

#ifdef __cplusplus
extern "C" {
#endif

/* An agent's pass: 16 bytes, all zero where it is empty. */
struct mooringakee_pass {
    void *at;
    bool live;
};

/* What the functions answer. */
enum mooringakee_code {
    MOORINGAKEE_OK = 0,        /* done */
    MOORINGAKEE_AGAIN = 1,     /* a link moved in each turn: call again; with 2 turns or more never where nobody disturbs */
    MOORINGAKEE_FULL = 2,      /* no row was free */
    MOORINGAKEE_POSITIONS = 3, /* 2^62 values were put, so no more can be */
    MOORINGAKEE_EMPTY = 4,     /* the queue was empty */
    MOORINGAKEE_SHAPE = 5,     /* a number is out of range */
    MOORINGAKEE_NO_MEMORY = 6, /* malloc gave none */
    MOORINGAKEE_NO_PASS = 7,   /* the pass is empty: zeroed or dropped */
    MOORINGAKEE_LIVE = 8,      /* a pass for a make is live */
    MOORINGAKEE_NULL = 9,      /* a null pointer */
    MOORINGAKEE_KIND = 10,     /* a queue's call with a pass of a set, or the other way round; or mooringakee_buckets with a pass of another kind */
    MOORINGAKEE_SPENT = 11,    /* a row has been linked as often as can be */
    MOORINGAKEE_OTHERS = 12,   /* other passes of the container are live */
    MOORINGAKEE_KEPT = 13      /* rows are left that this pass had to work through; of a close, a pass was missing */
};

enum {
    MOORINGAKEE_LEAST_ROWS = 2,
    MOORINGAKEE_MOST_ROWS = 65535,
    MOORINGAKEE_MOST_BUCKETS = 257,
    MOORINGAKEE_MOST_SPLIT_BUCKETS = 256,
    MOORINGAKEE_MOST_AGENTS = 16,
    MOORINGAKEE_TURNS = 64 /* a good number of turns */
};

/* The code's name without its prefix, as "AGAIN", or "UNKNOWN": a string that lives as long as the program. */
const char *mooringakee_code_name(int32_t code);

/* Below, what is written through a pointer is written where the answer is OK, and is left alone otherwise. */

/* Makes an empty queue over 2 to 65,535 rows, and fills these 1 to 16 empty passes, agent by agent. A value takes a row
 * while it waits, and the queue itself always one. A call tries at most as often as `turns`, 1 or more, says.
 * OK; SHAPE, NO_MEMORY, LIVE, NULL, where nothing was made. */
int32_t mooringakee_queue_make(uint32_t rows, uint64_t turns, struct mooringakee_pass *passes, size_t agents);

/* Puts a value at the back.
 * OK; AGAIN, FULL, POSITIONS, NO_PASS, KIND, NULL, where it was not put. */
int32_t mooringakee_enqueue(struct mooringakee_pass *pass, uint64_t value);

/* Takes the value at the front.
 * OK; EMPTY; AGAIN, NO_PASS, KIND, NULL, where none was taken. */
int32_t mooringakee_dequeue(struct mooringakee_pass *pass, uint64_t *value);

/* Makes an empty set over 2 to 65,535 rows with 1 to 257 buckets, and fills the passes as mooringakee_queue_make does. A
 * key takes a row while it is in the set. A call walks over one bucket, which has the keys of one remainder by the number
 * of buckets.
 * OK; SHAPE, NO_MEMORY, LIVE, NULL, where nothing was made. */
int32_t mooringakee_set_make(uint32_t rows, uint32_t buckets, uint64_t turns, struct mooringakee_pass *passes,
                             size_t agents);

/* Makes an empty split-ordered set over 2 to 65,535 rows, which begins with one bucket and doubles them as keys come, up to
 * `buckets`, a power of two up to 256. Fills the passes as mooringakee_queue_make does. Besides the keys, a row is taken
 * by each bucket but the first once it is used, and by the number of buckets once they were doubled; they stay so to the end.
 * OK; SHAPE, NO_MEMORY, LIVE, NULL, where nothing was made. */
int32_t mooringakee_split_set_make(uint32_t rows, uint32_t buckets, uint64_t turns, struct mooringakee_pass *passes,
                                   size_t agents);

/* The next three are calls of a set of either kind. Adds a key, and tells whether it was absent.
 * OK; AGAIN, FULL, SPENT, NO_PASS, KIND, NULL, where it was not added. */
int32_t mooringakee_insert(struct mooringakee_pass *pass, uint64_t key, bool *absent);

/* Takes a key out, and tells whether it was present.
 * OK; AGAIN, NO_PASS, KIND, NULL, where it was not taken out. */
int32_t mooringakee_remove(struct mooringakee_pass *pass, uint64_t key, bool *present);

/* Tells whether a key is present.
 * OK; AGAIN, NO_PASS, KIND, NULL. */
int32_t mooringakee_contains(struct mooringakee_pass *pass, uint64_t key, bool *present);

/* Tells how many buckets a split-ordered set has.
 * OK; AGAIN, NO_PASS, KIND, NULL. */
int32_t mooringakee_buckets(struct mooringakee_pass *pass, uint32_t *buckets);

/* Works through the rows that wait for this pass, so that they may be given again. Each call on the container does so at
 * its end.
 * OK; KEPT, where rows may be left since others called meanwhile; NO_PASS, NULL. */
int32_t mooringakee_settle(struct mooringakee_pass *pass);

/* Tells how many rows the pass has still to work through.
 * OK; NO_PASS, NULL. */
int32_t mooringakee_backlog(struct mooringakee_pass *pass, uint32_t *rows);

/* Settles, and empties the pass. The container stays, with what is in it, as long as it has passes: the last one that is
 * dropped or closed frees it.
 * OK; KEPT, where the pass was dropped all the same, and its rows are lost to the other passes; NO_PASS, NULL. After OK,
 * too, another agent in the middle of a call may hand up to eight rows to the dropped one; they are lost until the end. */
int32_t mooringakee_drop(struct mooringakee_pass *pass);

/* What a container tells of its rows at its end. As many rows were given as were freed and are linked. */
struct mooringakee_counts {
    uint64_t given;  /* rows given, each as often as it was */
    uint64_t reused; /* rows freed, to be given again, each as often as it was */
    uint32_t linked; /* rows still linked: one for each value or key that was left, and one of a queue's own; in a set one
                        more for a key that was removed where its unlinking met other calls; in a split-ordered set those
                        of its buckets and of their number */
};

/* Empties the pass. Where it is the last live one of its container, works through all that any pass had left, tells how
 * many rows were given, freed and are still linked, and frees the container. All passes may be closed, by several threads at
 * once: the last one, and that one alone, is told.
 * OK, where it was the last one. OTHERS, where other passes were live. NO_MEMORY, where it was the last one, but malloc gave
 * none; KEPT, where a pass was missing, which isn't known to come: nothing is told, and the container is freed all the same.
 * In each of these cases the pass is empty. NO_PASS, NULL. */
int32_t mooringakee_close(struct mooringakee_pass *pass, struct mooringakee_counts *counts);

/* The same as mooringakee_drop. */
int32_t mooringakee_queue_drop(struct mooringakee_pass *pass);

#ifdef __cplusplus
}
#endif
#endif
