/* Pairs of calls a second: each thread puts one value and takes one, in turn, on the queue of capi/mooringakee.h and on a
 * ring under a mutex, which take turns. Arguments: how many pairs in all, and how many rounds. Prints medians. */
#include <mooringakee.h>
#include <pthread.h>
#include <sched.h>
#include <stdatomic.h>
#include <stdio.h>
#include <stdlib.h>
#include <time.h>

enum { ROWS = 1024, MOST = 4, MOST_ROUNDS = 1000 };

static struct mooringakee_pass passes[MOST];
static struct {
    pthread_mutex_t lock;
    uint64_t at[ROWS], head, count;
} ring = {.lock = PTHREAD_MUTEX_INITIALIZER};

static uint64_t each;
static size_t threads;
static atomic_size_t ready;

static bool ring_put(uint64_t value) {
    pthread_mutex_lock(&ring.lock);
    bool is_put = ring.count < ROWS;
    if (is_put) ring.at[(ring.head + ring.count++) % ROWS] = value;
    pthread_mutex_unlock(&ring.lock);
    return is_put;
}

static bool ring_take(uint64_t *value) {
    pthread_mutex_lock(&ring.lock);
    bool is_taken = ring.count > 0;
    if (is_taken) {
        *value = ring.at[ring.head];
        ring.head = (ring.head + 1) % ROWS;
        ring.count--;
    }
    pthread_mutex_unlock(&ring.lock);
    return is_taken;
}

static void wait_for_all(void) {
    for (ready++; ready < threads;) sched_yield();
}

static void *over_ring(void *none) {
    uint64_t value;
    wait_for_all();
    for (uint64_t i = 0; i < each; i++) {
        while (!ring_put(i)) {}
        while (!ring_take(&value)) {}
    }
    return none;
}

static void *over_queue(void *pass) {
    uint64_t value;
    wait_for_all();
    for (uint64_t i = 0; i < each; i++) {
        while (mooringakee_enqueue(pass, i) != MOORINGAKEE_OK) {}
        while (mooringakee_dequeue(pass, &value) != MOORINGAKEE_OK) {}
    }
    return NULL;
}

static double now(void) {
    struct timespec time;
    timespec_get(&time, TIME_UTC);
    return time.tv_sec + time.tv_nsec / 1e9;
}

/* Millions of pairs a second. */
static double speed(void *(*work)(void *)) {
    pthread_t ids[MOST];
    ready = 0;
    double start = now();
    for (size_t i = 0; i < threads; i++)
        if (pthread_create(&ids[i], NULL, work, &passes[i]) != 0) exit(1);
    for (size_t i = 0; i < threads; i++) pthread_join(ids[i], NULL);
    return each * threads / (now() - start) / 1e6;
}

static int by_size(const void *one, const void *other) {
    double a = *(const double *)one, b = *(const double *)other;
    return (a > b) - (a < b);
}

static double median(double *speeds, size_t count) {
    qsort(speeds, count, sizeof *speeds, by_size);
    return (speeds[(count - 1) / 2] + speeds[count / 2]) / 2;
}

int main(int count, char **words) {
    uint64_t pairs = count > 1 ? strtoull(words[1], NULL, 10) : 400000;
    size_t rounds = count > 2 ? strtoull(words[2], NULL, 10) : 11;
    static double queue[MOST_ROUNDS], mutex[MOST_ROUNDS];
    if (rounds < 1 || rounds > MOST_ROUNDS) return 2;
    puts("| Threads | Queue | Ring under a mutex | Queue to ring |\n|---|---|---|---|");
    for (threads = 1; threads <= MOST; threads *= 2) {
        each = pairs / threads;
        if (mooringakee_queue_make(ROWS, MOORINGAKEE_TURNS, passes, threads) != MOORINGAKEE_OK) return 1;
        for (size_t i = 0; i < rounds; i++) {
            queue[i] = speed(over_queue);
            mutex[i] = speed(over_ring);
        }
        for (size_t i = 0; i < threads; i++) mooringakee_drop(&passes[i]);
        double one = median(queue, rounds), other = median(mutex, rounds);
        printf("| %zu | %.2f | %.2f | %.2f |\n", threads, one, other, one / other);
        fflush(stdout);
    }
}
