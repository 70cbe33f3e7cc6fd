/* What a container tells of its rows when its last pass is closed: close_test [CALLS]. */
#include "check.h"
#include <pthread.h>
#include <sched.h>
#include <stdatomic.h>

enum { THREADS = 4, ROWS = 256 };

static uint64_t each = 5000;
static struct mooringakee_pass passes[THREADS];
static atomic_size_t ready, told;
static atomic_ullong left;
static struct mooringakee_counts counts;

static void check_balance(const struct mooringakee_counts *of, uint64_t linked) {
    CHECK(of->given == of->reused + of->linked);
    CHECK(of->linked == linked);
}

/* Three values are put and one is taken, so four rows were given, with the queue's own, and one was freed. */
static void small_queue(void) {
    struct mooringakee_pass two[2] = {{0}};
    struct mooringakee_counts few = {7, 7, 7};
    uint64_t value;
    ANSWERS(OK, mooringakee_queue_make(8, MOORINGAKEE_TURNS, two, 2));
    for (uint64_t i = 0; i < 3; i++) ANSWERS(OK, mooringakee_enqueue(&two[i % 2], i));
    ANSWERS(OK, mooringakee_dequeue(&two[0], &value));
    ANSWERS(OTHERS, mooringakee_close(&two[1], &few));
    CHECK(few.given == 7 && few.reused == 7 && few.linked == 7 && !two[1].live && two[0].live);
    ANSWERS(NO_PASS, mooringakee_close(&two[1], &few));
    ANSWERS(OK, mooringakee_close(&two[0], &few));
    CHECK(few.given == 4 && few.reused == 1 && few.linked == 3 && !two[0].live);
    ANSWERS(NO_PASS, mooringakee_close(&two[0], &few));
}

/* Three keys are inserted and one is removed; the other pass was dropped. */
static void small_set(void) {
    struct mooringakee_pass two[2] = {{0}};
    struct mooringakee_counts few = {7, 7, 7};
    bool is_so;
    ANSWERS(OK, mooringakee_set_make(8, 2, MOORINGAKEE_TURNS, two, 2));
    for (uint64_t i = 0; i < 3; i++) ANSWERS(OK, mooringakee_insert(&two[i % 2], i, &is_so));
    ANSWERS(OK, mooringakee_remove(&two[0], 1, &is_so));
    ANSWERS(OK, mooringakee_drop(&two[0]));
    ANSWERS(OK, mooringakee_close(&two[1], &few));
    CHECK(few.given == 3 && few.reused == 1 && few.linked == 2);
}

static void close_own(struct mooringakee_pass *pass) {
    struct mooringakee_counts mine;
    int32_t code = mooringakee_close(pass, &mine);
    if (code == MOORINGAKEE_OK) {
        counts = mine;
        told++;
    } else {
        CHECK(code == MOORINGAKEE_OTHERS);
    }
    CHECK(!pass->live);
}

static void *use_queue(void *of) {
    struct mooringakee_pass *pass = of;
    uint64_t value;
    for (ready++; ready < THREADS;) sched_yield();
    for (uint64_t i = 0; i < each; i++) {
        if (mooringakee_enqueue(pass, i) == MOORINGAKEE_OK) left++;
        if (i % 64 != 0 && mooringakee_dequeue(pass, &value) == MOORINGAKEE_OK) left--;
        if (i % 16 == 0) sched_yield();
    }
    close_own(pass);
    return NULL;
}

static void *use_set(void *of) {
    struct mooringakee_pass *pass = of;
    bool is_so;
    for (ready++; ready < THREADS;) sched_yield();
    for (uint64_t i = 0; i < each; i++) {
        if (mooringakee_insert(pass, i % 64, &is_so) == MOORINGAKEE_OK && is_so) left++;
        if (mooringakee_remove(pass, i % 60, &is_so) == MOORINGAKEE_OK && is_so) left--;
        if (i % 16 == 0) sched_yield();
    }
    close_own(pass);
    return NULL;
}

/* All threads close their passes, and one of them is told of what all did. */
static void run(void *(*work)(void *)) {
    pthread_t ids[THREADS];
    ready = told = 0;
    left = 0;
    for (size_t i = 0; i < THREADS; i++) CHECK(pthread_create(&ids[i], NULL, work, &passes[i]) == 0);
    for (size_t i = 0; i < THREADS; i++) CHECK(pthread_join(ids[i], NULL) == 0);
    CHECK(told == 1);
}

int main(int count, char **words) {
    if (count > 1) each = strtoull(words[1], NULL, 10);
    small_queue();
    small_set();
    ANSWERS(OK, mooringakee_queue_make(ROWS, MOORINGAKEE_TURNS, passes, THREADS));
    run(use_queue);
    check_balance(&counts, left + 1);
    printf("close_test: a queue gave %llu rows, freed %llu, and %u are linked;", (unsigned long long)counts.given,
           (unsigned long long)counts.reused, counts.linked);
    ANSWERS(OK, mooringakee_set_make(ROWS, 4, MOORINGAKEE_TURNS, passes, THREADS));
    run(use_set);
    CHECK(counts.given == counts.reused + counts.linked && counts.linked >= left);
    printf(" a set gave %llu, freed %llu, and %u are\n", (unsigned long long)counts.given, (unsigned long long)counts.reused,
           counts.linked);
}
