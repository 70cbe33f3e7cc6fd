/* Threads insert and remove the same keys of a set of either kind at once: set_test [THREADS [CALLS]]. In the end a key is in the set if it was
 * inserted once more than removed, and not if as often, whoever did it. */
#include "check.h"
#include <pthread.h>
#include <sched.h>
#include <stdatomic.h>

enum { KEYS = 64 };

static uint64_t calls = 20000;

struct agent {
    struct mooringakee_pass *pass;
    uint64_t random;
    int64_t more[KEYS]; /* how much oftener this agent inserted than removed the key */
    uint64_t done;
};

static atomic_size_t ready, threads = 4;

static uint64_t next(struct agent *agent) {
    agent->random ^= agent->random << 13;
    agent->random ^= agent->random >> 7;
    agent->random ^= agent->random << 17;
    return agent->random;
}

/* keys with high bits, and several in one bucket */
static uint64_t key_of(size_t number) {
    return (uint64_t)number * 0x0400000000000007;
}

static void *work(void *of) {
    struct agent *agent = of;
    for (ready++; ready < threads;) sched_yield();
    for (uint64_t i = 0; i < calls; i++) {
        uint64_t word = next(agent);
        size_t number = (word >> 8) % KEYS;
        bool is_so = false;
        int32_t code;
        switch (word % 4) {
        case 0:
            code = mooringakee_insert(agent->pass, key_of(number), &is_so);
            CHECK(code == MOORINGAKEE_OK || code == MOORINGAKEE_AGAIN || code == MOORINGAKEE_FULL);
            agent->more[number] += is_so;
            break;
        case 1:
            code = mooringakee_remove(agent->pass, key_of(number), &is_so);
            CHECK(code == MOORINGAKEE_OK || code == MOORINGAKEE_AGAIN);
            agent->more[number] -= is_so;
            break;
        default:
            code = mooringakee_contains(agent->pass, key_of(number), &is_so);
            CHECK(code == MOORINGAKEE_OK || code == MOORINGAKEE_AGAIN);
        }
        agent->done += code == MOORINGAKEE_OK;
    }
    return NULL;
}

typedef int32_t make_set(uint32_t rows, uint32_t buckets, uint64_t turns, struct mooringakee_pass *passes, size_t agents);

static void run(const char *kind, make_set *make) {
    static struct mooringakee_pass passes[MOORINGAKEE_MOST_AGENTS];
    static struct agent agents[MOORINGAKEE_MOST_AGENTS];
    pthread_t ids[MOORINGAKEE_MOST_AGENTS];
    ready = 0;
    ANSWERS(OK, make(4 * KEYS, 8, MOORINGAKEE_TURNS, passes, threads));
    for (size_t i = 0; i < threads; i++) {
        agents[i] = (struct agent){.pass = &passes[i], .random = 88172645463325252 + i * 0x9e3779b97f4a7c15};
        CHECK(pthread_create(&ids[i], NULL, work, &agents[i]) == 0);
    }
    for (size_t i = 0; i < threads; i++) CHECK(pthread_join(ids[i], NULL) == 0);
    uint64_t done = 0;
    size_t present = 0;
    for (size_t number = 0; number < KEYS; number++) {
        int64_t more = 0;
        for (size_t i = 0; i < threads; i++) more += agents[i].more[number];
        CHECK(more == 0 || more == 1);
        bool is_there;
        int32_t code;
        do code = mooringakee_contains(&passes[0], key_of(number), &is_there);
        while (code == MOORINGAKEE_AGAIN);
        CHECK(code == MOORINGAKEE_OK && is_there == (more == 1));
        present += more;
    }
    for (size_t i = 0; i < threads; i++) done += agents[i].done;
    for (size_t i = 0; i < threads; i++) ANSWERS(OK, mooringakee_drop(&passes[i]));
    printf("set_test: %s, %zu threads, %llu calls answered OK, %zu keys at the end\n", kind, (size_t)threads,
           (unsigned long long)done, present);
}

int main(int count, char **words) {
    if (count > 1) threads = strtoull(words[1], NULL, 10);
    if (count > 2) calls = strtoull(words[2], NULL, 10);
    CHECK(1 <= threads && threads <= MOORINGAKEE_MOST_AGENTS);
    run("bucketed", mooringakee_set_make);
    run("split-ordered", mooringakee_split_set_make);
}
