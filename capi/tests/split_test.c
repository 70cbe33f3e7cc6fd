/* A split-ordered set doubles its buckets as keys come, and finds each: split_test [KEYS]. */
#include "check.h"
#include <pthread.h>
#include <sched.h>
#include <stdatomic.h>

enum { THREADS = 4, ROWS = 16384 };

static uint64_t each = 2500;
static struct mooringakee_pass passes[THREADS];
static atomic_size_t ready;

/* A call is made again where others came in between. */
static bool insert(struct mooringakee_pass *pass, uint64_t key) {
    bool absent;
    int32_t code;
    do code = mooringakee_insert(pass, key, &absent);
    while (code == MOORINGAKEE_AGAIN);
    CHECK(code == MOORINGAKEE_OK);
    return absent;
}

static bool contains(struct mooringakee_pass *pass, uint64_t key) {
    bool present;
    int32_t code;
    do code = mooringakee_contains(pass, key, &present);
    while (code == MOORINGAKEE_AGAIN);
    CHECK(code == MOORINGAKEE_OK);
    return present;
}

static uint32_t buckets(struct mooringakee_pass *pass) {
    uint32_t count;
    int32_t code;
    do code = mooringakee_buckets(pass, &count);
    while (code == MOORINGAKEE_AGAIN);
    CHECK(code == MOORINGAKEE_OK);
    return count;
}

/* In split order even keys come before odd ones. So with one bucket nine even keys have at most eight before them, and 1 has
 * nine: it doubles the buckets. It then has a dummy of its own, and the number of buckets a node. */
static void ten_keys(void) {
    struct mooringakee_pass one = {0};
    struct mooringakee_counts counts;
    ANSWERS(OK, mooringakee_split_set_make(64, 4, MOORINGAKEE_TURNS, &one, 1));
    for (uint64_t i = 0; i < 9; i++) CHECK(insert(&one, 2 * i));
    CHECK(buckets(&one) == 1);
    CHECK(insert(&one, 1));
    CHECK(buckets(&one) == 2);
    CHECK(!insert(&one, 1) && contains(&one, 16) && !contains(&one, 3));
    ANSWERS(OK, mooringakee_close(&one, &counts));
    CHECK(counts.linked == 12 && counts.given == counts.reused + counts.linked);
}

static uint64_t key_of(size_t number, uint64_t i) {
    return (number * each + i) * UINT64_C(0x9e3779b97f4a7c15);
}

static void *work(void *of) {
    size_t number = (size_t)(uintptr_t)of;
    for (ready++; ready < THREADS;) sched_yield();
    for (uint64_t i = 0; i < each; i++) CHECK(insert(&passes[number], key_of(number, i)));
    return NULL;
}

/* All threads insert keys of their own, so the buckets become as many as may be; each key is found by each pass. */
static void many_keys(void) {
    pthread_t ids[THREADS];
    struct mooringakee_counts counts;
    ANSWERS(OK, mooringakee_split_set_make(ROWS, 256, MOORINGAKEE_TURNS, passes, THREADS));
    for (size_t i = 0; i < THREADS; i++) CHECK(pthread_create(&ids[i], NULL, work, (void *)(uintptr_t)i) == 0);
    for (size_t i = 0; i < THREADS; i++) CHECK(pthread_join(ids[i], NULL) == 0);
    uint32_t most = buckets(&passes[0]);
    CHECK(most == 256);
    for (size_t i = 0; i < THREADS; i++)
        for (uint64_t k = 0; k < each; k++) CHECK(contains(&passes[(i + 1) % THREADS], key_of(i, k)));
    CHECK(!contains(&passes[0], key_of(THREADS, 0)));
    for (size_t i = 1; i < THREADS; i++) ANSWERS(OTHERS, mooringakee_close(&passes[i], &counts));
    ANSWERS(OK, mooringakee_close(&passes[0], &counts));
    CHECK(counts.given == counts.reused + counts.linked);
    /* besides the keys, a dummy for each bucket but the first, at most, and the number of buckets */
    CHECK(THREADS * each < counts.linked && counts.linked <= THREADS * each + 256);
    printf("split_test: %llu keys in %u buckets\n", (unsigned long long)(THREADS * each), most);
}

int main(int count, char **words) {
    if (count > 1) each = strtoull(words[1], NULL, 10);
    CHECK(1000 <= each && each <= 3500);
    ten_keys();
    many_keys();
}
