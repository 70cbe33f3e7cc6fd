/* Threads put and take at once: queue_test [THREADS [PUTS]]. Each taker sees the values of each putter in order, and in
 * the end each value was taken once, and each row but the queue's own can be used again. */
#include "check.h"
#include <pthread.h>
#include <sched.h>
#include <stdatomic.h>

enum { ROWS = 256 };

static uint64_t each = 20000;

struct agent {
    struct mooringakee_pass *pass;
    uint64_t number, taken, put_sum, taken_sum, refused;
    uint64_t last[MOORINGAKEE_MOST_AGENTS]; /* what was taken last of each putter */
};

static atomic_size_t ready, threads = 4;

static bool take(struct agent *agent) {
    uint64_t value = 0;
    int32_t code = mooringakee_dequeue(agent->pass, &value);
    if (code == MOORINGAKEE_OK) {
        uint64_t putter = value >> 48, at = value & 0xffffffffffff;
        CHECK(putter < threads && agent->last[putter] < at && at <= each);
        agent->last[putter] = at;
        agent->taken++;
        agent->taken_sum += value;
    } else {
        CHECK(code == MOORINGAKEE_EMPTY || code == MOORINGAKEE_AGAIN);
    }
    return code != MOORINGAKEE_EMPTY;
}

static void *work(void *of) {
    struct agent *agent = of;
    for (ready++; ready < threads;) sched_yield();
    for (uint64_t at = 1; at <= each;) {
        uint64_t value = agent->number << 48 | at;
        int32_t code = mooringakee_enqueue(agent->pass, value);
        if (code == MOORINGAKEE_OK) {
            at++;
            agent->put_sum += value;
        } else {
            CHECK(code == MOORINGAKEE_FULL || code == MOORINGAKEE_AGAIN);
            agent->refused++;
            sched_yield();
        }
        take(agent);
    }
    return NULL;
}

int main(int count, char **words) {
    if (count > 1) threads = strtoull(words[1], NULL, 10);
    if (count > 2) each = strtoull(words[2], NULL, 10);
    CHECK(1 <= threads && threads <= MOORINGAKEE_MOST_AGENTS);
    static struct mooringakee_pass passes[MOORINGAKEE_MOST_AGENTS];
    static struct agent agents[MOORINGAKEE_MOST_AGENTS];
    pthread_t ids[MOORINGAKEE_MOST_AGENTS];
    ANSWERS(OK, mooringakee_queue_make(ROWS, MOORINGAKEE_TURNS, passes, threads));
    for (size_t i = 0; i < threads; i++) {
        agents[i].pass = &passes[i];
        agents[i].number = i;
        CHECK(pthread_create(&ids[i], NULL, work, &agents[i]) == 0);
    }
    for (size_t i = 0; i < threads; i++) CHECK(pthread_join(ids[i], NULL) == 0);
    /* what is left may be older than what this agent took last */
    for (size_t i = 0; i < threads; i++) agents[0].last[i] = 0;
    while (take(&agents[0])) {}
    uint64_t taken = 0, sum = 0, refused = 0;
    for (size_t i = 0; i < threads; i++) {
        taken += agents[i].taken;
        sum += agents[i].put_sum - agents[i].taken_sum;
        refused += agents[i].refused;
    }
    CHECK(taken == threads * each && sum == 0);
    for (size_t i = 0; i < threads; i++) ANSWERS(OK, mooringakee_settle(&passes[i]));
    size_t room = 0;
    int32_t code;
    while ((code = mooringakee_enqueue(&passes[0], room)) != MOORINGAKEE_FULL) room += code == MOORINGAKEE_OK;
    CHECK(room == ROWS - 1);
    for (size_t i = 0; i < threads; i++) ANSWERS(OK, mooringakee_drop(&passes[i]));
    printf("queue_test: %zu threads put and took %llu values, %llu refusals\n", (size_t)threads, (unsigned long long)taken,
           (unsigned long long)refused);
}
