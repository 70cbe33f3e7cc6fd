/* Half of the passes of a queue are dropped in the middle of a run: drops_test [PUTS]. The others go on, and in the end they
 * can use each row, but for those that were kept, or handed to an agent after its drop, one a slot at most. When the last
 * pass is closed these are freed too: no row is linked but the queue's own and those of the values that are left. */
#include "check.h"
#include <pthread.h>
#include <sched.h>
#include <stdatomic.h>

enum { THREADS = 4, ROWS = 64, SLOTS = 8 };

static uint64_t each = 5000;
static struct mooringakee_pass passes[THREADS];
static atomic_size_t ready;
static int32_t dropped[THREADS];

static void *work(void *of) {
    size_t number = (size_t)(uintptr_t)of;
    struct mooringakee_pass *pass = &passes[number];
    /* odd threads stop after half of the run */
    uint64_t puts = number % 2 == 1 ? each / 2 : each, value;
    for (ready++; ready < THREADS;) sched_yield();
    while (puts > 0) {
        int32_t code = mooringakee_enqueue(pass, puts);
        if (code == MOORINGAKEE_OK) puts--;
        else CHECK(code == MOORINGAKEE_FULL || code == MOORINGAKEE_AGAIN);
        code = mooringakee_dequeue(pass, &value);
        CHECK(code == MOORINGAKEE_OK || code == MOORINGAKEE_EMPTY || code == MOORINGAKEE_AGAIN);
        if (code != MOORINGAKEE_OK) sched_yield();
    }
    if (number % 2 == 1) dropped[number] = mooringakee_drop(pass);
    return NULL;
}

/* A call is made again where others came in between. */
static int32_t put(struct mooringakee_pass *pass, uint64_t value) {
    int32_t code;
    do code = mooringakee_enqueue(pass, value);
    while (code == MOORINGAKEE_AGAIN);
    return code;
}

static int32_t take(struct mooringakee_pass *pass, uint64_t *value) {
    int32_t code;
    do code = mooringakee_dequeue(pass, value);
    while (code == MOORINGAKEE_AGAIN);
    return code;
}

int main(int count, char **words) {
    if (count > 1) each = strtoull(words[1], NULL, 10);
    pthread_t ids[THREADS];
    size_t kept = 0;
    uint64_t value;
    ANSWERS(OK, mooringakee_queue_make(ROWS, MOORINGAKEE_TURNS, passes, THREADS));
    for (size_t i = 0; i < THREADS; i++) CHECK(pthread_create(&ids[i], NULL, work, (void *)(uintptr_t)i) == 0);
    for (size_t i = 0; i < THREADS; i++) CHECK(pthread_join(ids[i], NULL) == 0);
    for (size_t i = 1; i < THREADS; i += 2) {
        CHECK(dropped[i] == MOORINGAKEE_OK || dropped[i] == MOORINGAKEE_KEPT);
        CHECK(!passes[i].live);
        kept += dropped[i] == MOORINGAKEE_KEPT;
    }
    while (take(&passes[0], &value) == MOORINGAKEE_OK) {}
    for (size_t i = 0; i < THREADS; i += 2) {
        int32_t code = mooringakee_settle(&passes[i]);
        CHECK(code == MOORINGAKEE_OK || code == MOORINGAKEE_KEPT);
    }
    size_t room = 0;
    while (put(&passes[2], room) == MOORINGAKEE_OK) room++;
    CHECK(room <= ROWS - 1);
    CHECK(kept > 0 || room + SLOTS * THREADS / 2 >= ROWS - 1);
    CHECK(mooringakee_drop(&passes[0]) != MOORINGAKEE_NO_PASS);
    struct mooringakee_counts counts;
    ANSWERS(OK, mooringakee_close(&passes[2], &counts));
    CHECK(counts.linked == room + 1 && counts.given == counts.reused + counts.linked);
    printf("drops_test: %zu of %d rows can be used after two drops of four, of which %zu kept rows\n", room, ROWS - 1, kept);
}
